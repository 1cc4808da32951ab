// The calls on single rows, each by the library and in plain C, and whether the versions agree: on drawn rows, on rows in which nodes have more
// than two children, and on invalid ones.
#pragma once
#include "measure.h"
#include "rows.h"
#include "spoilt.h"
enum { ROWS = 16, CALLS = 1024, STUDY = HEADER + 2 * SAMPLES + 1, IDENTIFIER = 7, LINEAR = 1, SQUARE = 2 };

// The rows that the calls go through, a study with one run in force, and for each call of a batch a study with room for one.
static u16 rows[ROWS][NODES], held[STUDY], studies[CALLS * STUDY];

static const u16 *row_of(int i) { return rows[i % ROWS]; }
static size_t study_length(void) { return HEADER + slot_words(n); }
static u16 *study_of(int i) { return studies + i * study_length(); }
static u16 *out_of(int i) { return slot(study_of(i), n, 0) + 1; }

// A version of a call answers call i of a batch.
typedef u64 version(int i);

static u64 judge_by_library(int i) { return arb_judge(n, row_of(i), 2 * n); }
static u64 judge_by_scans(int i) { return plain_judge(row_of(i), n); }
static u64 judge_by_tables(int i) { return linear_check(row_of(i), n); }
static u64 renumber_by_library(int i) { return arb_renumber(n, row_of(i), 2 * n, out_of(i), 2 * n); }
static u64 renumber_by_plain(int i) { return plain_renumber(row_of(i), n, out_of(i)); }
static u64 compare_by_library(int i) { return arb_compare(n, row_of(i), 2 * n, row_of(i + 1), 2 * n); }
static u64 compare_by_plain(int i) { return plain_compare(row_of(i), row_of(i + 1), n); }
static u64 add_by_library(int i) { return arb_add(study_of(i), study_length(), IDENTIFIER, row_of(i), 2 * n); }
static u64 add_by_plain(int i) { return plain_first_add(study_of(i), study_length(), IDENTIFIER, row_of(i)); }

// An add that comes to 11 with a valid row: it has checked the study and the row.
static u64 check_by_library(int i) {
    u64 answer = arb_add(held, study_length(), IDENTIFIER, row_of(i), 2 * n);
    return answer == ARB_REFUSAL_TAKEN ? 0 : answer;
}

// A withdrawal that comes to 13: it has checked the study alone.
static u64 study_check(int i) { return arb_withdraw(held, study_length(), IDENTIFIER + 1 + i) == ARB_REFUSAL_ABSENT; }

// A line of the tables: the library's version and plain C's; another in plain C; a call whose time is taken off the library's; the power of n in the
// stated cost; whether the calls fill studies, which are then emptied before each batch; and the numbers that have to come, a bit each.
struct line { const char *name; version *library, *plain, *other, *taken_off; int power, fills; unsigned numbers; };

// The other version of judging is linear.
static const struct line row_lines[] = {
    {.name = "judge", .library = judge_by_library, .plain = judge_by_scans, .other = judge_by_tables, .power = SQUARE},
    {.name = "renumber", .library = renumber_by_library, .plain = renumber_by_plain, .power = SQUARE},
    {.name = "compare", .library = compare_by_library, .plain = compare_by_plain, .power = SQUARE},
    {.name = "check in an add", .library = check_by_library, .plain = judge_by_tables, .taken_off = study_check, .power = LINEAR},
    {.name = "first add", .library = add_by_library, .plain = add_by_plain, .power = SQUARE, .fills = 1},
};

static void row_fails(const char *what, const char *name, int i) {
    printf("%s: %s at n = %d, row %d\n", name, what, n, i);
    failures++;
}

static void empty_studies(int count) {
    for (int i = 0; i < count; i++) if (arb_open(n, study_of(i), study_length())) row_fails("refused", "open", i);
}

// Row i has to be one that is refused with that number, 0 for none.
static void expect(int i, int number) {
    if (ARB_NUMBER(linear_check(rows[i], n)) != number) row_fails("not refused as it should be", "a drawn row", i);
}

static void draw_rows(enum shape shape) {
    struct draw parts[PARTS];
    draw_parts(parts, shape, n, alike);
    for (int i = 0; i < ROWS; i++) {
        draw_row(*part_of(parts, i), shape, n, rows[i]);
        if (shape == BRANCHED) branch_third(rows[i], n);
        if (shape == CHAIN) branch_chain(rows[i], n);
        shuffle_inner(rows[i], n);
        expect(i, 0);
    }
}

static void hold_first_row(void) {
    if (arb_open(n, held, study_length()) || arb_add(held, study_length(), IDENTIFIER, rows[0], 2 * n)) row_fails("refused", "add", 0);
    if (!study_check(0)) row_fails("not refused with 13", "withdraw", 0);
}

// Contracts every second row, so that the two rows of a comparison differ in their nodes.
static void contract_rows(void) {
    for (int i = 0; i < ROWS; i += 2) {
        contract(rows[i], n, CONTRACTED);
        expect(i, 0);
    }
}

// Spoils every second row, so that comparisons meet an invalid row as their first and as their second.
static void spoil_rows(void) {
    for (int i = 0; i < ROWS; i += 2) {
        int number = ARB_REFUSAL_NODES + i / 2 % SPOILS;
        spoil(rows[i], n, number);
        expect(i, number);
    }
}

// The answers and the written words of two versions, for each row.
static void compare_versions(const char *name, version *library, version *other) {
    static u16 written[ROWS * STUDY];
    u64 answers[ROWS];
    size_t bytes = study_length() * sizeof *written;
    empty_studies(ROWS);
    for (int i = 0; i < ROWS; i++) answers[i] = library(i);
    memcpy(written, studies, ROWS * bytes);
    empty_studies(ROWS);
    for (int i = 0; i < ROWS; i++) {
        if (other(i) != answers[i]) row_fails("the answers differ", name, i);
        if (memcmp(written + i * study_length(), study_of(i), bytes)) row_fails("the words differ", name, i);
    }
}

static void compare_row_line(const struct line *l) {
    compare_versions(l->name, l->library, l->plain);
    if (l->other) compare_versions(l->name, l->library, l->other);
}

// Compares the versions on each kind of rows; the drawn ones are left to be timed.
static void try_row_line(const struct line *l, enum shape shape) {
    draw_rows(shape);
    hold_first_row();
    spoil_rows();
    compare_row_line(l);
    draw_rows(shape);
    contract_rows();
    compare_row_line(l);
    draw_rows(shape);
    compare_row_line(l);
}
