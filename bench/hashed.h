// The report by a table of groups: found by hash, and taken as equal only when all their samples are.
#pragma once
#include "words.h"
enum { CELLS = SAMPLES / 64, TABLE = 1 << 21 };

struct group { u64 cells[CELLS]; u32 count; u16 size, least; };

static struct group groups[RUNS * SAMPLES];
static u32 table[TABLE], group_count, table_mask;
static u64 sample_hash[SAMPLES];

static u64 mixed(u64 x) {
    x = (x ^ (x >> 30)) * 0xbf58476d1ce4e5b9ul;
    x = (x ^ (x >> 27)) * 0x94d049bb133111ebul;
    return x ^ (x >> 31);
}

// Counts one group: group 0 stands for an empty place of the table.
static void count_group(u64 hash, const u64 *cells, int size, int least) {
    u32 at = hash & table_mask;
    while (table[at] && memcmp(groups[table[at]].cells, cells, sizeof groups->cells)) at = (at + 1) & table_mask;
    if (!table[at]) {
        struct group *g = &groups[table[at] = ++group_count];
        memcpy(g->cells, cells, sizeof g->cells);
        g->count = 0;
        g->size = size;
        g->least = least;
    }
    groups[table[at]].count++;
}

static void count_groups(const u16 *row, int n) {
    static u64 hash[NODES], cells[NODES][CELLS];
    u16 size[NODES], least[NODES];
    int m = row[0];
    memset(cells, 0, sizeof cells);
    for (int v = n; v < m; v++) hash[v] = size[v] = 0, least[v] = 65535;
    for (int s = 0; s < n; s++) {
        int p = parent(row, s);
        hash[p] ^= sample_hash[s];
        cells[p][s / 64] |= 1ul << s % 64;
        size[p]++;
        if (s < least[p]) least[p] = s;
    }
    for (int v = m - 1; v >= n; v--) {
        count_group(hash[v], cells[v], size[v], least[v]);
        if (v == n) break;
        int p = parent(row, v);
        hash[p] ^= hash[v];
        for (int c = 0; c < CELLS; c++) cells[p][c] |= cells[v][c];
        size[p] += size[v];
        if (least[v] < least[p]) least[p] = least[v];
    }
}

static int by_order(const void *a, const void *b) {
    const struct group *x = *(const struct group **)a, *y = *(const struct group **)b;
    return x->size != y->size ? y->size - x->size : x->least - y->least;
}

// The row of groups that agree, in order: each stands under the last group before it that has its smallest sample.
static void plant(struct group **shown, int count, int n, int k, u16 *agreed, u16 *support) {
    memset(agreed, 0, 2 * n * sizeof *agreed);
    memset(support, 0, 2 * n * sizeof *support);
    agreed[0] = n + count;
    support[0] = k;
    for (int s = 0; s < n; s++) agreed[1 + s] = NO_PARENT, support[1 + s] = k;
    for (int i = 0; i < count; i++) {
        agreed[1 + n + i] = agreed[1 + shown[i]->least];
        support[1 + n + i] = shown[i]->count;
        for (int s = 0; s < n; s++) if (shown[i]->cells[s / 64] >> s % 64 & 1) agreed[1 + s] = n + i;
    }
}

static void hashed_report(const u16 *words, int n, int k, int p, u16 *agreed, u16 *support) {
    static struct group *shown[NODES];
    int count = 0;
    for (table_mask = 1; table_mask < 2 * n * k; table_mask *= 2);
    memset(table, 0, table_mask * sizeof *table);
    table_mask--;
    group_count = 0;
    for (int s = 0; s < n; s++) sample_hash[s] = mixed(s + 0x9e3779b97f4a7c15ul);
    for (int j = 0; j < k; j++) count_groups(run(words, n, j), n);
    for (u32 g = 1; g <= group_count; g++) if (is_shown(groups[g].count, k, p)) shown[count++] = &groups[g];
    qsort(shown, count, sizeof *shown, by_order);
    plant(shown, count, n, k, agreed, support);
}
