// The layout of a study's words (RULES 6) and of a row (RULES 2), and the rule (RULES 5.1).
#pragma once
#include "libc.h"
enum { SAMPLES = 512, RUNS = 1024, NODES = 2 * SAMPLES, HEADER = 8, SAMPLES_AT = 4, IN_FORCE_AT = 5, NO_PARENT = 65535 };

static inline size_t slot_words(int n) { return 2 * n + 1; }
static inline u16 *slot(const u16 *words, int n, int j) { return (u16 *)words + HEADER + j * slot_words(n); }
static inline const u16 *run(const u16 *words, int n, int j) { return slot(words, n, j) + 1; }
static inline u16 parent(const u16 *row, int v) { return row[1 + v]; }
static inline int is_shown(int held, int k, int p) { return 100 * held > p * k || held == k; }

// The row with new numbers for its nodes.
static inline void rename_nodes(const u16 *row, int n, const u16 *number, u16 *out) {
    int m = row[0];
    out[0] = m;
    for (int v = 0; v < m; v++) out[1 + number[v]] = parent(row, v) == NO_PARENT ? NO_PARENT : number[parent(row, v)];
    memset(out + 1 + m, 0, (2 * n - 1 - m) * sizeof *out);
}
