// The tables of the calls on single rows and on texts. A call can be too short for the clock, so batches of calls are timed. The versions of a call
// take turns, so that a slow minute of the machine falls on all of them.
#pragma once
#include "row_calls.h"
#include "text_calls.h"
enum { LIBRARY_TIME, PLAIN_TIME, OTHER_TIME, TAKEN_OFF, TIMES, CALL_SIZES = 2 };

static const int call_sizes[CALL_SIZES] = {50, 512};

// Seconds: the shortest batch, the time that a line is given, and longer than any batch.
static const double shortest = 100e-6, given = 2, endless = 1e9;

// A version, the calls in its batch, and the least time of one call; without a version the time is 0.
struct timed { version *call; int calls; double least; };

static struct timed start_timing(version *call) { return (struct timed){call, 1, call ? endless : 0}; }

// The compiler must not see which version is called: it would leave out calls whose answer nobody uses.
static double batch_seconds(const struct timed *t, int fills) {
    version *volatile call = t->call;
    if (fills) empty_studies(t->calls);
    double begun = now();
    for (int i = 0; i < t->calls; i++) call(i);
    return now() - begun;
}

// Times a batch. One that is too short does not count, and the next has twice the calls.
static void time_batch(struct timed *t, int fills) {
    double taken = batch_seconds(t, fills);
    if (taken < shortest && t->calls < CALLS) *t = (struct timed){t->call, 2 * t->calls, endless};
    else if (taken / t->calls < t->least) t->least = taken / t->calls;
}

static void time_in_turn(struct timed *times, int fills) {
    double start = now();
    while (now() - start < given)
        for (int i = 0; i < TIMES; i++) if (times[i].call) time_batch(&times[i], fills);
}

// How much the stated cost grows from the smaller size to n.
static double stated_growth(int power) {
    double growth = 1, size = n / (double)call_sizes[0];
    for (int i = 0; i < power; i++) growth *= size;
    return growth;
}

// Prints the line at n; `last` is the time of the line before, 0 if there is none. Answers its time.
static double measure_line(const struct line *l, double last) {
    struct timed times[TIMES] = {start_timing(l->library), start_timing(l->plain), start_timing(l->other), start_timing(l->taken_off)};
    time_in_turn(times, l->fills);
    double library = times[LIBRARY_TIME].least - times[TAKEN_OFF].least, plain = times[PLAIN_TIME].least;
    printf("| %s | %d | %.2f µs | %.2f µs | %.2f |", l->name, n, library * 1e6, plain * 1e6, library / plain);
    if (l->other) printf(" %.1f |", library / times[OTHER_TIME].least);
    else printf(" |");
    if (last) printf(" %.2f | n%s: %.2f |\n", library / last, l->power == LINEAR ? "" : "²", stated_growth(l->power));
    else printf(" | |\n");
    return library;
}

// A table: what it is of, the other version in plain C, its lines, and what compares the versions of a line and leaves what is to be timed.
struct table { const char *name, *other; const struct line *lines; int count; void (*try)(const struct line *, enum shape); };

#define LINES(lines) (lines), sizeof(lines) / sizeof *(lines)
static const struct table row_table = {"single rows", "linear C", LINES(row_lines), try_row_line};
static const struct table text_table = {"texts", "C climbing alike", LINES(text_lines), try_text_line};

static void measure_table(const struct table *t, enum shape shape) {
    printf("\n%s, %s\n\n| call | n | library | plain C | to plain C | to %s | grows | as n or n² |\n"
        "|---|---|---|---|---|---|---|---|\n", name_of(shape), t->name, t->other);
    for (int i = 0; i < t->count; i++) {
        double last = 0;
        for (int j = 0; j < CALL_SIZES; j++) {
            n = call_sizes[j];
            t->try(&t->lines[i], shape);
            last = measure_line(&t->lines[i], last);
        }
    }
}
