// The library's report in plain C, in two passes over the runs. The first takes in run after run and keeps candidates:
// a row with a counter for each group, which rises with a run that holds the group and falls with one that conflicts
// with it. A group that more than half of the runs hold is among them at the end. The second counts their holders.
#pragma once
#include "plain.h"
enum { NOWHERE = NO_PARENT };

// A row as another one looks at it. Its inner nodes lie on long paths: a path goes on from a node to its inner child of
// the least number, which has the most samples, and `head` is the top of a node's path. `first` and `last` are the
// outermost samples of each node by the other's places, the last counted from the end.
struct view { const u16 *row; u16 next[NODES], head[NODES], first[NODES], last[NODES]; };

static void lay_paths(const u16 *row, int n, u16 *next, u16 *head) {
    memset(next + n, 0, (row[0] - n) * sizeof *next);
    head[n] = n;
    for (int v = n + 1; v < row[0]; v++) {
        int p = parent(row, v);
        head[v] = next[p] ? v : head[p];
        if (!next[p]) next[p] = v;
    }
}

// The least key of each node, the samples among them.
static void least_of_all(const u16 *row, int n, const u16 *key, u16 *least) {
    memcpy(least, key, n * sizeof *key);
    least_of(row, n, key, least);
}

static void look_at(const u16 *row, int n, const struct reference *other, struct view *t) {
    t->row = row;
    lay_paths(row, n, t->next, t->head);
    least_of_all(row, n, other->place, t->first);
    least_of_all(row, n, other->turned, t->last);
}

// Where a group stands in a row: the least node there that contains it, and the outermost samples of those children of
// that node which it touches.
struct spot { u16 at, first, last; };

// The spot at the parent of node v that touches v alone of its children.
static struct spot above(const struct view *t, int v) {
    return (struct spot){parent(t->row, v), t->first[v], t->last[v]};
}

static int lesser(int a, int b) { return a < b ? a : b; }

// The spot of two groups together: up to a path that both are on, and on it up to the one that is higher.
static struct spot both_spots(const struct view *t, struct spot x, struct spot y) {
    while (t->head[x.at] != t->head[y.at]) {
        if (t->head[x.at] > t->head[y.at]) x = above(t, t->head[x.at]);
        else y = above(t, t->head[y.at]);
    }
    if (x.at < y.at) y = above(t, t->next[x.at]);
    else if (y.at < x.at) x = above(t, t->next[y.at]);
    return (struct spot){x.at, lesser(x.first, y.first), lesser(x.last, y.last)};
}

static void hand_up(const struct view *t, struct spot *to, struct spot x) {
    *to = to->at == NOWHERE ? x : both_spots(t, *to, x);
}

// The spots of a row's groups in another row: each node hands its own up to its parent.
static void find_spots(const u16 *row, int n, const struct view *t, struct spot *spots) {
    for (int v = n; v < row[0]; v++) spots[v].at = NOWHERE;
    for (int s = 0; s < n; s++) hand_up(t, &spots[parent(row, s)], above(t, s));
    for (int v = row[0] - 1; v > n; v--) hand_up(t, &spots[parent(row, v)], spots[v]);
}

// Whether a group agrees with the row in which it has that spot: it contains all that it touches there.
static int agrees(const struct reference *r, int v, struct spot x, int n) {
    return r->start[v] <= x.first && n <= r->start[v] + r->size[v] + x.last;
}

// The candidates, their counters, and the row read.
struct candidates { u16 row[NODES], counter[NODES]; struct reference read; };

static void start_candidates(struct candidates *c, int n) {
    memset(c->row, 0, 2 * n * sizeof *c->row);
    c->row[0] = n + 1;
    for (int s = 0; s < n; s++) c->row[1 + s] = n;
    c->row[1 + n] = NO_PARENT;
    c->counter[n] = 0;
    read_reference(c->row, n, &c->read);
}

// The counter of candidate v, which has that spot in the run, after this run.
static int counted_on(const struct candidates *c, int v, const struct reference *given, struct spot x, int n) {
    int counter = c->counter[v];
    if (given->size[x.at] == c->read.size[v]) return counter + 1;
    return counter && !agrees(&c->read, v, x, n) ? counter - 1 : counter;
}

static void count_on(struct candidates *c, const struct reference *given, int n) {
    struct view t;
    struct spot spots[NODES];
    look_at(given->row, n, &c->read, &t);
    find_spots(c->row, n, &t, spots);
    for (int v = n; v < c->row[0]; v++) c->counter[v] = counted_on(c, v, given, spots[v], n);
}

// Marks the groups of a run that agree with all candidates.
static void mark_entering(const struct candidates *c, const struct reference *given, int n, u16 *entering) {
    struct view t;
    struct spot spots[NODES];
    look_at(c->row, n, given, &t);
    find_spots(given->row, n, &t, spots);
    for (int v = n; v < given->row[0]; v++) entering[v] = agrees(given, v, spots[v], n);
}

// The counters of the candidates that are kept, by their numbers among m nodes; a group that is new has 1.
static void carry_counters(struct candidates *c, const struct side *kept, int n, int m) {
    u16 counter[NODES];
    for (int v = n; v < m; v++) counter[v] = 1;
    for (int v = n; v < c->row[0]; v++) if (c->counter[v]) counter[kept->number[v]] = c->counter[v];
    memcpy(c->counter + n, counter + n, (m - n) * sizeof *counter);
}

// The candidates whose counter is not 0, and the entering groups of a run, become the candidates.
static void renew(struct candidates *c, const struct reference *given, const u16 *entering, int n) {
    struct side old, new;
    u16 row[NODES];
    set_side(&old, &c->read, c->counter, n);
    set_side(&new, given, entering, n);
    merge(&old, &new, n, row);
    carry_counters(c, &old, n, row[0]);
    memcpy(c->row, row, 2 * n * sizeof *row);
    read_reference(c->row, n, &c->read);
}

static void take_in(struct candidates *c, const u16 *row, int n) {
    struct reference given;
    u16 entering[NODES];
    read_reference(row, n, &given);
    mark_entering(c, &given, n, entering);
    count_on(c, &given, n);
    renew(c, &given, entering, n);
}

// The supports of the samples, which each run holds, and of the groups that are shown, by their new numbers.
static void write_supports(const struct side *shown, int n, int k, const u16 *count, u16 *support) {
    memset(support, 0, 2 * n * sizeof *support);
    for (int w = 0; w <= n; w++) support[w] = k;
    for (int v = n; v < shown->read->row[0]; v++) if (shown->keep[v]) support[1 + shown->number[v]] = count[v];
}

// The agreed row, which has the groups that are shown of the row, merged with themselves; and the support row.
static void write_shown(const struct reference *r, int n, int k, const u16 *shown, const u16 *count, u16 *agreed,
    u16 *support) {
    struct side a, b;
    set_side(&a, r, shown, n);
    set_side(&b, r, shown, n);
    merge(&a, &b, n, agreed);
    write_supports(&a, n, k, count, support);
}

// A row that has every group which can be shown at p: the first run, where none can be that it misses; else the candidates.
static void find_enough(struct candidates *c, const u16 *words, int n, int k, int p) {
    start_candidates(c, n);
    if (k - p * k / 100 > 1) {
        for (int j = 0; j < k; j++) take_in(c, run(words, n, j), n);
        return;
    }
    memcpy(c->row, run(words, n, 0), 2 * n * sizeof *c->row);
    read_reference(c->row, n, &c->read);
}

static void plain_report(const u16 *words, int n, int k, int p, u16 *agreed, u16 *support) {
    struct candidates c;
    u16 count[NODES], shown[NODES];
    find_enough(&c, words, n, k, p);
    holders(words, n, k, &c.read, count);
    for (int v = n; v < c.row[0]; v++) shown[v] = is_shown(count[v], k, p);
    write_shown(&c.read, n, k, shown, count, agreed, support);
}
