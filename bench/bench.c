// Times the library's report, at several sizes and thresholds, against plain C, a hash table and the library's own
// plain count; its well-formedness check against plain C; and the calls on single rows and on Newick texts against
// plain C; in one process, as ratios. With the argument `reports`, `rows` or `newick` those tables alone. Ends with 1
// if an answer differs.
#include "arb.h"
#include "call_tables.h"
#include "candidates.h"
#include "draws.h"
#include "hashed.h"
#include "measure.h"

// The report by the library's plain count, which answers and writes what arb_report does. It is no public call: the
// crate `plain_report` has it for this bench.
uint64_t arb_report_plain(const uint16_t *study, size_t study_length, size_t p, uint16_t *agreed, size_t agreed_length,
    uint16_t *support, size_t support_length);

enum { ABSENT = 65535, ENGINES = 4, KINDS = 3, SIZES = 4, THRESHOLDS = 3, HALF = 50 };
enum engine { LIBRARY, PLAIN, HASHED, COUNT };

// The studies that are drawn: their shape, and what their runs have in common.
struct kind { enum shape shape; const int *eighths; };
static const struct kind kinds[KINDS] = {{RANDOM, alike}, {CATERPILLAR, alike}, {SHUFFLED, apart}};

struct size { int n, k; };
static const struct size sizes[SIZES] = {{50, 324}, {512, 31}, {200, 500}, {512, 1024}};
static const struct size by_samples[SIZES] = {{64, 256}, {128, 256}, {256, 256}, {512, 256}};
static const struct size by_runs[SIZES] = {{200, 125}, {200, 250}, {200, 500}, {200, 1000}};
static const int thresholds[THRESHOLDS] = {HALF, 75, 100};

static u16 words[HEADER + RUNS * (2 * SAMPLES + 1)];
static size_t length;
static int k, p = HALF;
static u16 agreed[ENGINES][NODES], support[ENGINES][NODES];

static void fail(const char *what) {
    printf("%s differs at n = %d, k = %d, p = %d\n", what, n, k, p);
    failures++;
}

static void draw_study(struct size size, enum shape shape, const int *eighths) {
    struct draw parts[PARTS];
    u16 row[NODES];
    n = size.n, k = size.k;
    length = HEADER + k * slot_words(n);
    if (arb_open(n, words, length)) fail("opening");
    draw_parts(parts, shape, n, eighths);
    for (int j = 0; j < k; j++) {
        draw_row(*part_of(parts, j), shape, n, row);
        *slot(words, n, j) = j + 1;
        if (arb_renumber(n, row, 2 * n, slot(words, n, j) + 1, 2 * n)) fail("renumbering");
    }
    words[IN_FORCE_AT] = k;
}

// The library's check alone: a withdrawal that is refused for its identifier has checked the whole study.
static void check(enum engine e) {
    int formed = e == PLAIN ? plain_formed(words, length) : arb_withdraw(words, length, ABSENT) == ARB_REFUSAL_ABSENT;
    if (!formed) fail("the check");
}

// By either engine of the library.
static void report_by_library(enum engine e) {
    u64 answer = e == LIBRARY ? arb_report(words, length, p, agreed[e], 2 * n, support[e], 2 * n)
        : arb_report_plain(words, length, p, agreed[e], 2 * n, support[e], 2 * n);
    if (answer) fail("the library's answer");
}

// The report, in all but the hash table's version with the check of the study before it.
static void report(enum engine e) {
    if (e == PLAIN) check(e);
    if (e == PLAIN) plain_report(words, n, k, p, agreed[e], support[e]);
    else if (e == HASHED) hashed_report(words, n, k, p, agreed[e], support[e]);
    else report_by_library(e);
}

// Seconds that one call takes: the least of the calls that fill a second.
static double seconds(void (*call)(enum engine), enum engine e) {
    double start = now(), least = 1e9;
    while (now() - start < 1) {
        double begun = now();
        call(e);
        double taken = now() - begun;
        if (taken < least) least = taken;
    }
    return least;
}

static void compare_answers(void) {
    static const char *const names[ENGINES] = {"the library", "plain C", "the hash table", "the plain count"};
    for (int e = PLAIN; e < ENGINES; e++)
        if (memcmp(agreed[e], agreed[LIBRARY], 4 * n) || memcmp(support[e], support[LIBRARY], 4 * n)) fail(names[e]);
}

// Prints how many groups are shown, the report's time and its ratio to plain C.
static void print_report(double library, double plain) {
    printf(" %d of %d | %.2f ms | %.2f |", agreed[LIBRARY][0] - n, n - 1, library * 1e3, library / plain);
}

// Prints what follows n × k in a line of a kind's table.
static void measure_study(void) {
    double library = seconds(report, LIBRARY), plain = seconds(report, PLAIN);
    double hashed = seconds(report, HASHED), count = seconds(report, COUNT);
    double check_time = seconds(check, LIBRARY), plain_check = seconds(check, PLAIN);
    compare_answers();
    print_report(library, plain);
    printf(" %.1f | %.2f ms | %.1f |", library / hashed, count * 1e3, count / library);
    printf(" %.3f ms | %.2f |\n", check_time * 1e3, check_time / plain_check);
}

static void measure_kind(const struct kind *kind) {
    printf("\n%s\n\n| n × k | groups shown | report | to plain C | to hash | plain count | times faster | check |"
        " to plain C |\n|---|---|---|---|---|---|---|---|---|\n", name_of(kind->shape));
    for (int i = 0; i < SIZES; i++) {
        draw_study(sizes[i], kind->shape, kind->eighths);
        printf("| %d × %d |", n, k);
        measure_study();
    }
}

// Prints the time of a report and how it grew from that of the line before, 0 if there is none. Answers the time.
static double measure_growing(double last) {
    double library = seconds(report, LIBRARY);
    for (enum engine e = PLAIN; e < ENGINES; e++) report(e);
    compare_answers();
    printf(" %.2f ms |", library * 1e3);
    if (last) printf(" %.2f |", library / last);
    else printf(" |");
    return library;
}

static void print_growth_heads(const char *name) {
    printf("\n%s\n\n| n × k |", name);
    for (int j = 0; j < KINDS; j++) printf(" %s | grows |", name_of(kinds[j].shape));
    printf(" as k·n |\n|---|---|---|---|---|---|---|---|\n");
}

static void measure_growth(const char *name, const struct size *growing) {
    double last[KINDS] = {0};
    print_growth_heads(name);
    for (int i = 0; i < SIZES; i++) {
        printf("| %d × %d |", growing[i].n, growing[i].k);
        for (int j = 0; j < KINDS; j++) {
            draw_study(growing[i], kinds[j].shape, kinds[j].eighths);
            last[j] = measure_growing(last[j]);
        }
        if (i) printf(" %.2f |\n", n * (double)k / (growing[i - 1].n * growing[i - 1].k));
        else printf(" |\n");
    }
}

// Prints the report at p. Answers its time.
static double measure_threshold(void) {
    double library = seconds(report, LIBRARY), plain = seconds(report, PLAIN);
    report(HASHED);
    report(COUNT);
    compare_answers();
    print_report(library, plain);
    return library;
}

static void print_threshold_heads(enum shape shape) {
    printf("\n%s at thresholds\n\n| n × k |", name_of(shape));
    for (int j = 0; j < THRESHOLDS; j++) {
        printf(" shown at %d | report | to plain C |", thresholds[j]);
        if (thresholds[j] != HALF) printf(" to %d |", HALF);
    }
    printf("\n|---|---|---|---|---|---|---|---|---|---|---|---|\n");
}

static void measure_thresholds(enum shape shape) {
    print_threshold_heads(shape);
    for (int i = 0; i < SIZES; i++) {
        double at_half = 0;
        draw_study(sizes[i], shape, graded);
        printf("| %d × %d |", n, k);
        for (int j = 0; j < THRESHOLDS; j++) {
            p = thresholds[j];
            double library = measure_threshold();
            if (p == HALF) at_half = library;
            else printf(" %.2f |", library / at_half);
        }
        printf("\n");
    }
    p = HALF;
}

static void measure_reports(void) {
    for (int j = 0; j < KINDS; j++) measure_kind(&kinds[j]);
    measure_growth("More samples", by_samples);
    measure_growth("More runs", by_runs);
    measure_thresholds(RANDOM);
    measure_thresholds(CATERPILLAR);
}

static void measure_calls(const struct table *t) {
    for (enum shape shape = RANDOM; shape <= CHAIN; shape++) measure_table(t, shape);
}

int main(int argc, char **argv) {
    const char *part = argc > 1 ? argv[1] : "";
    if (!*part || !strcmp(part, "reports")) measure_reports();
    if (!*part || !strcmp(part, "rows")) measure_calls(&row_table);
    if (!*part || !strcmp(part, "newick")) measure_calls(&text_table);
    return failures != 0;
}
