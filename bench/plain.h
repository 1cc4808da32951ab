// What the library's report is made of, in plain C: the well-formedness check, the tables of a row, how many runs hold
// each group, and the merge of two rows.
#pragma once
#include "words.h"

static void sizes_of(const u16 *row, int n, u16 *size, u16 *offset) {
    for (int v = n; v < row[0]; v++) size[v] = 0;
    for (int s = 0; s < n; s++) offset[s] = size[parent(row, s)]++;
    for (int v = row[0] - 1; v > n; v--) {
        offset[v] = size[parent(row, v)];
        size[parent(row, v)] += size[v];
    }
}

static void least_of(const u16 *row, int n, const u16 *key, u16 *least) {
    for (int v = n; v < row[0]; v++) least[v] = 65535;
    for (int s = 0; s < n; s++) if (key[s] < least[parent(row, s)]) least[parent(row, s)] = key[s];
    for (int v = row[0] - 1; v > n; v--) if (least[v] < least[parent(row, v)]) least[parent(row, v)] = least[v];
}

static void samples(int n, u16 *key) {
    for (int s = 0; s < n; s++) key[s] = s;
}

static int standard(const u16 *row, int n) {
    u16 size[NODES], offset[NODES], least[NODES], key[SAMPLES];
    int m = row[0];
    if (m <= n || m >= 2 * n || parent(row, n) != NO_PARENT) return 0;
    for (int w = m + 1; w < 2 * n; w++) if (row[w]) return 0;
    for (int s = 0; s < n; s++) if (parent(row, s) < n || parent(row, s) >= m) return 0;
    for (int v = n + 1; v < m; v++) if (parent(row, v) < n || parent(row, v) >= v) return 0;
    samples(n, key);
    sizes_of(row, n, size, offset);
    least_of(row, n, key, least);
    for (int v = n + 1; v < m; v++)
        if (size[v] > size[v - 1] || (size[v] == size[v - 1] && least[v] <= least[v - 1])) return 0;
    return size[m - 1] >= 2;
}

static int plain_formed(const u16 *words, size_t length) {
    static const u16 mark[4] = {65, 82, 66, 1};
    if (length < HEADER || memcmp(words, mark, sizeof mark) || words[6] || words[7]) return 0;
    int n = words[SAMPLES_AT], k = words[IN_FORCE_AT], last = 0;
    if (n < 2 || n > SAMPLES || k > RUNS || (length - HEADER) / slot_words(n) < k) return 0;
    for (int j = 0; j < k; j++) {
        if (*slot(words, n, j) <= last || !standard(run(words, n, j), n)) return 0;
        last = *slot(words, n, j);
    }
    for (size_t w = HEADER + k * slot_words(n); w < length; w++) if (words[w]) return 0;
    return 1;
}

// A row read for many comparisons: each group is an interval of places.
struct reference {
    const u16 *row;
    u16 size[NODES], least[NODES], start[NODES], place[SAMPLES], turned[SAMPLES], key[SAMPLES];
};

static void read_reference(const u16 *row, int n, struct reference *r) {
    u16 offset[NODES];
    r->row = row;
    samples(n, r->key);
    sizes_of(row, n, r->size, offset);
    least_of(row, n, r->key, r->least);
    r->start[n] = 0;
    for (int v = n + 1; v < row[0]; v++) r->start[v] = r->start[parent(row, v)] + offset[v];
    for (int s = 0; s < n; s++) {
        r->place[s] = r->start[parent(row, s)] + offset[s];
        r->turned[s] = n - 1 - r->place[s];
    }
}

// Counts, for each group of the reference, whether this row holds it.
static void count_row(const struct reference *r, const u16 *row, int n, u16 *count) {
    u16 size[NODES], least[NODES], first[NODES], turned[NODES];
    int m = r->row[0];
    sizes_of(row, n, size, least);
    least_of(row, n, r->key, least);
    least_of(row, n, r->place, first);
    least_of(row, n, r->turned, turned);
    for (int a = n, b = n; a < m && b < row[0];) {
        if (r->size[a] > size[b] || (r->size[a] == size[b] && r->least[a] < least[b])) {
            a++;
            continue;
        }
        count[a] += r->size[a] == size[b] && r->least[a] == least[b] && first[b] >= r->start[a]
            && n - 1 - turned[b] < r->start[a] + r->size[a];
        b++;
    }
}

// How many runs hold each group of the reference.
static void holders(const u16 *words, int n, int k, const struct reference *r, u16 *count) {
    for (int v = n; v < r->row[0]; v++) count[v] = 0;
    for (int j = 0; j < k; j++) count_row(r, run(words, n, j), n, count);
}

// One side of a merge: a row that is read, and which of its groups are kept. The merge gives each group a number, and
// moves a place up from each sample's parent.
struct side { const struct reference *read; const u16 *keep; u16 number[NODES], at[SAMPLES]; };

static void set_side(struct side *x, const struct reference *read, const u16 *keep, int n) {
    x->read = read;
    x->keep = keep;
    for (int s = 0; s < n; s++) x->at[s] = parent(read->row, s);
}

// Whether group i of one side comes before group j of the other (below 0), after it (above 0), or is the same (0).
static int order_of(const struct reference *a, int i, const struct reference *b, int j) {
    if (i == a->row[0]) return 1;
    if (j == b->row[0]) return -1;
    return a->size[i] != b->size[j] ? b->size[j] - a->size[i] : a->least[i] - b->least[j];
}

// The numbers of the kept groups of both sides, in order; 0 where a group is not kept. Answers the next free number.
static int number_both(struct side *a, struct side *b, int n, u16 *least) {
    int i = n, j = n, next = n, a_nodes = a->read->row[0], b_nodes = b->read->row[0];
    while (i < a_nodes || j < b_nodes) {
        if (i < a_nodes && !a->keep[i]) a->number[i++] = 0;
        else if (j < b_nodes && !b->keep[j]) b->number[j++] = 0;
        else {
            int order = order_of(a->read, i, b->read, j);
            least[next] = order <= 0 ? a->read->least[i] : b->read->least[j];
            if (order <= 0) a->number[i++] = next;
            if (order >= 0) b->number[j++] = next;
            next++;
        }
    }
    return next;
}

// A group that is not kept gets the number of the nearest one above it that is.
static void number_dropped(struct side *x, int n) {
    const u16 *row = x->read->row;
    for (int v = n + 1; v < row[0]; v++) if (!x->number[v]) x->number[v] = x->number[parent(row, v)];
}

// The nearest kept group above group `i`, which has the sample: the sample's place only moves up.
static int climb(struct side *x, int sample, int i) {
    while (x->number[x->at[sample]] >= i) x->at[sample] = parent(x->read->row, x->at[sample]);
    return x->number[x->at[sample]];
}

static int later(int a, int b) { return a > b ? a : b; }

// The row of the kept groups of both sides, which agree with one another; both keep the root.
static void merge(struct side *a, struct side *b, int n, u16 *out) {
    u16 least[NODES];
    int m = number_both(a, b, n, least);
    number_dropped(a, n);
    number_dropped(b, n);
    memset(out, 0, 2 * n * sizeof *out);
    out[0] = m;
    out[1 + n] = NO_PARENT;
    for (int s = 0; s < n; s++) out[1 + s] = later(a->number[a->at[s]], b->number[b->at[s]]);
    for (int i = m - 1; i > n; i--) out[1 + i] = later(climb(a, least[i], i), climb(b, least[i], i));
}
