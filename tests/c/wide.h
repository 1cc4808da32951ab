// Trees of 512 samples.
#pragma once
#include "trials.h"

enum { WIDE = ARB_MOST_SAMPLES, WIDE_ROW = ARB_ROW_WORDS(WIDE), WIDE_SLOT = ARB_SLOT_WORDS(WIDE) };

// In standard numbering: the root over all samples, and {0,1} below the root.
static uint16_t wide_rows[2][WIDE_ROW];

static void write_wide_rows(void) {
    for (int i = 0; i < 2; i++) {
        wide_rows[i][0] = WIDE + 1 + i;
        for (int v = 0; v < WIDE; v++) wide_rows[i][1 + v] = WIDE;
        wide_rows[i][1 + WIDE] = ROOT;
    }
    wide_rows[1][1 + 0] = wide_rows[1][1 + 1] = WIDE + 1;
    wide_rows[1][1 + WIDE + 1] = WIDE;
}

// The deepest tree, a chain of all inner nodes with sample 0 at its end: in standard numbering, which is from the root down (RULES 4.1), and
// numbered from the end up.
enum { END = WIDE - 2, LAST = WIDE + END };
static uint16_t chain_down[WIDE_ROW], chain_up[WIDE_ROW];

static void write_chains(void) {
    chain_down[0] = chain_up[0] = LAST + 1;
    for (int sample = 0; sample < WIDE; sample++) {
        int depth = sample == 0 ? END : WIDE - 1 - sample;
        chain_down[1 + sample] = WIDE + depth;
        chain_up[1 + sample] = LAST - depth;
    }
    for (int depth = 0; depth <= END; depth++) {
        chain_down[1 + WIDE + depth] = depth == 0 ? ROOT : WIDE + depth - 1;
        chain_up[1 + LAST - depth] = depth == 0 ? ROOT : LAST - depth + 1;
    }
}
