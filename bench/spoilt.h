// Rows that one of the checks 5 to 10 refuses, each made of a drawn row; rows in which nodes have more than two children; and rows with single
// branches.
#pragma once
#include "arb.h"
#include "draws.h"
enum { SPOILS = ARB_REFUSAL_CHILDREN - ARB_REFUSAL_NODES + 1, CONTRACTED = 3 };

static int inner_node(const u16 *row, int n) { return n + below(row[0] - n); }

static int inner_below_root(const u16 *row, int n) {
    int v = inner_node(row, n);
    while (parent(row, v) == NO_PARENT) v = inner_node(row, n);
    return v;
}

static void give_children(u16 *row, int from, int to) {
    for (int v = 0; v < row[0]; v++) if (parent(row, v) == from) row[1 + v] = to;
}

// Takes out so many inner nodes: the children of each go to its parent, its number to the last node, and there is a word more of filler.
static void contract(u16 *row, int n, int count) {
    for (int i = 0; i < count; i++) {
        int v = inner_below_root(row, n), last = row[0] - 1;
        give_children(row, v, parent(row, v));
        give_children(row, last, v);
        row[1 + v] = parent(row, last);
        row[1 + last] = 0;
        row[0]--;
    }
}

// Puts a single branch above a node.
static void branch(u16 *row, int v) {
    int above = row[0]++;
    row[1 + above] = parent(row, v);
    row[1 + v] = above;
}

// A third of the inner nodes become single branches, in any places.
static void branch_third(u16 *row, int n) {
    int third = (row[0] - n) / 3;
    contract(row, n, third);
    for (int i = 0; i < third; i++) branch(row, below(row[0]));
}

// All inner nodes but the root become one chain above a sample.
static void branch_chain(u16 *row, int n) {
    int s = below(n), inner = row[0] - n;
    contract(row, n, inner - 1);
    while (row[0] < n + inner) branch(row, s);
}

static void spoil_nodes(u16 *row, int n) { row[0] = below(2) ? n : 2 * n; }
static void spoil_parent(u16 *row, int n) { row[1 + below(row[0])] = below(n); }
static void spoil_root(u16 *row, int n) { row[1 + inner_below_root(row, n)] = NO_PARENT; }

static void spoil_filler(u16 *row, int n) {
    contract(row, n, CONTRACTED);
    row[2 * n - 1 - below(CONTRACTED)] = 1;
}

// The last node below the root on the way up from a node is put under that node.
static void spoil_way(u16 *row, int n) {
    int v = inner_below_root(row, n), top = v;
    while (parent(row, parent(row, top)) != NO_PARENT) top = parent(row, top);
    row[1 + top] = v;
}

// The children of a node go to its parent.
static void spoil_children(u16 *row, int n) {
    int v = inner_below_root(row, n);
    give_children(row, v, parent(row, v));
}

// Makes a valid row that has no filler one that is refused with `number`.
static void spoil(u16 *row, int n, int number) {
    static void (*const spoils[SPOILS])(u16 *, int) = {spoil_nodes, spoil_parent, spoil_root, spoil_filler, spoil_way, spoil_children};
    spoils[number - ARB_REFUSAL_NODES](row, n);
}
