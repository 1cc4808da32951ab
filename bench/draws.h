// Trees drawn at random, with the same draws each time: first what runs have in common, then what is a run's own.
#pragma once
#include "words.h"
enum shape { RANDOM, CATERPILLAR, BRANCHED, CHAIN, SHUFFLED };

// What runs have in common comes in parts, one upon the other: what all runs hold, what four in five hold, what three in five hold.
enum { PARTS = 3, TURNS = 5 };

// In eighths of a run's groups: half are common to all runs and half its own; they are common to all, to most, to many
// runs, or its own; or all are its own.
static const int alike[PARTS] = {4, 4, 4}, graded[PARTS] = {2, 3, 4}, apart[PARTS] = {0, 0, 0};

struct draw { int nodes, open; u16 parent[NODES], tops[SAMPLES]; };

static u64 dice = 88172645463325252ul;
static int below(int bound) {
    dice ^= dice << 13;
    dice ^= dice >> 7;
    dice ^= dice << 17;
    return dice % bound;
}

static void swap(u16 *a, u16 *b) {
    u16 old = *a;
    *a = *b;
    *b = old;
}

// Joins two of the subtrees that have no parent yet under a new node.
static void join(struct draw *d, int a, int b) {
    int v = d->nodes++;
    d->parent[d->tops[a]] = d->parent[d->tops[b]] = v;
    d->tops[a] = v;
    d->tops[b] = d->tops[--d->open];
}

// Caterpillars grow from one subtree.
static int grows_on(enum shape shape) { return shape == CATERPILLAR || shape == SHUFFLED; }

static void join_until(struct draw *d, enum shape shape, int open) {
    while (d->open > open) {
        int a = grows_on(shape) ? 0 : below(d->open), b = below(d->open - 1);
        join(d, a, b < a ? b : b + 1);
    }
}

static void draw_samples(struct draw *d, int n) {
    d->nodes = d->open = n;
    for (int s = 0; s < n; s++) d->tops[s] = s;
}

// Draws the parts, each up to so many eighths of a tree's groups.
static void draw_parts(struct draw *parts, enum shape shape, int n, const int *eighths) {
    struct draw d;
    draw_samples(&d, n);
    for (int i = 0; i < PARTS; i++) {
        join_until(&d, shape, n - n * eighths[i] / 8);
        parts[i] = d;
    }
}

// The part from which run j goes on by itself.
static const struct draw *part_of(const struct draw *parts, int j) {
    int turn = j % TURNS;
    return &parts[turn < PARTS ? turn : PARTS - 1];
}

static void draw_row(struct draw d, enum shape shape, int n, u16 *row) {
    if (shape == SHUFFLED) swap(&d.tops[0], &d.tops[below(d.open)]);
    join_until(&d, shape, 1);
    d.parent[d.tops[0]] = NO_PARENT;
    memset(row, 0, 2 * n * sizeof *row);
    row[0] = d.nodes;
    memcpy(row + 1, d.parent, d.nodes * sizeof *row);
}

// Numbers the inner nodes anew, every order as likely as another.
static void shuffle_inner(u16 *row, int n) {
    u16 old[NODES], number[NODES];
    memcpy(old, row, 2 * n * sizeof *row);
    for (int v = 0; v < old[0]; v++) number[v] = v;
    for (int v = old[0] - 1; v > n; v--) swap(&number[v], &number[n + below(v - n + 1)]);
    rename_nodes(old, n, number, row);
}
