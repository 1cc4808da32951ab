// The calls on Newick texts, each by the library and in plain C, and whether the versions agree: on drawn texts and rows, on texts that were cut or
// spoilt, on invalid rows, and where there is too little room.
#pragma once
#include "row_calls.h"
#include "texts.h"
enum { TEXT_BYTES = ARB_TEXT_BYTES(SAMPLES), ROUNDS = 8, OLD = 0xA5 };

// The texts that are read, bare, dressed and with a sample twice, and what is read; the supports that are written beside the rows, what is written,
// and the bytes that there is room for.
static struct text bare[ROWS], dressed[ROWS], doubled[ROWS];
static u16 read_rows[ROWS][NODES], supports[ROWS][NODES];
static u8 written[ROWS][TEXT_BYTES];
static size_t room = TEXT_BYTES;

static u64 library_reads(const struct text *t, int i) { return arb_read_newick(n, t->bytes, t->length, read_rows[i], 2 * n); }
static u64 plain_reads(const struct text *t, int i) { return plain_read(t->bytes, t->length, n, read_rows[i]); }
static u64 alike_reads(const struct text *t, int i) { return alike_read(t->bytes, t->length, n, read_rows[i]); }

static u64 bare_by_library(int i) { return library_reads(&bare[i % ROWS], i % ROWS); }
static u64 bare_by_plain(int i) { return plain_reads(&bare[i % ROWS], i % ROWS); }
static u64 bare_by_alike(int i) { return alike_reads(&bare[i % ROWS], i % ROWS); }
static u64 dressed_by_library(int i) { return library_reads(&dressed[i % ROWS], i % ROWS); }
static u64 dressed_by_plain(int i) { return plain_reads(&dressed[i % ROWS], i % ROWS); }
static u64 dressed_by_alike(int i) { return alike_reads(&dressed[i % ROWS], i % ROWS); }
static u64 doubled_by_library(int i) { return library_reads(&doubled[i % ROWS], i % ROWS); }
static u64 doubled_by_plain(int i) { return plain_reads(&doubled[i % ROWS], i % ROWS); }
static u64 write_by_library(int i) { return arb_write_newick(n, row_of(i), 2 * n, written[i % ROWS], room); }
static u64 write_by_plain(int i) { return plain_write(row_of(i), NULL, n, written[i % ROWS], room); }
static u64 supports_by_library(int i) { return arb_write_newick_supports(n, row_of(i), 2 * n, supports[i % ROWS], 2 * n, written[i % ROWS], room); }
static u64 supports_by_plain(int i) { return plain_write(row_of(i), supports[i % ROWS], n, written[i % ROWS], room); }

// The numbers that the answers of a line have to come to, and those that came.
#define NUMBER(x) (1u << (x))
enum {
    READING = NUMBER(0) | NUMBER(ARB_REFUSAL_FORM) | NUMBER(ARB_REFUSAL_LEAVES),
    REFUSING = NUMBER(ARB_REFUSAL_LEAVES),
    OF_ROWS = NUMBER(ARB_REFUSAL_CHILDREN + 1) - NUMBER(ARB_REFUSAL_NODES),
    WRITING = NUMBER(0) | NUMBER(ARB_REFUSAL_WORDS) | OF_ROWS
};
static unsigned came;

// The other version of reading climbs from each sample, as the library does. A text with a sample twice is read to its end, and not renumbered.
static const struct line text_lines[] = {
    {.name = "read", .library = bare_by_library, .plain = bare_by_plain, .other = bare_by_alike, .power = SQUARE, .numbers = READING},
    {.name = "read, dressed", .library = dressed_by_library, .plain = dressed_by_plain, .other = dressed_by_alike, .power = SQUARE,
        .numbers = READING},
    {.name = "read, refused", .library = doubled_by_library, .plain = doubled_by_plain, .power = LINEAR, .numbers = REFUSING},
    {.name = "write", .library = write_by_library, .plain = write_by_plain, .power = SQUARE, .numbers = WRITING},
    {.name = "write, supports", .library = supports_by_library, .plain = supports_by_plain, .power = SQUARE, .numbers = WRITING},
};

static void draw_texts(enum shape shape) {
    draw_rows(shape);
    for (int i = 0; i < ROWS; i++) {
        draw_text(rows[i], n, &bare[i]);
        dress(&bare[i], &dressed[i]);
        double_sample(&bare[i], &doubled[i]);
        for (int w = 0; w < 2 * n; w++) supports[i][w] = below(RUNS + 1);
    }
}

// What a version answers to every text or row, and what it leaves in the buffers.
struct left { u64 answers[ROWS]; u16 rows[ROWS][NODES]; u8 texts[ROWS][TEXT_BYTES]; };

static void answer_all(version *call, struct left *left) {
    memset(read_rows, OLD, sizeof read_rows);
    memset(written, OLD, sizeof written);
    for (int i = 0; i < ROWS; i++) left->answers[i] = call(i);
    memcpy(left->rows, read_rows, sizeof read_rows);
    memcpy(left->texts, written, sizeof written);
}

static void compare_left(const char *name, version *library, version *other) {
    static struct left a, b;
    answer_all(library, &a);
    answer_all(other, &b);
    for (int i = 0; i < ROWS; i++) {
        came |= NUMBER(ARB_NUMBER(b.answers[i]));
        if (a.answers[i] != b.answers[i]) row_fails("the answers differ", name, i);
        if (memcmp(a.rows[i], b.rows[i], sizeof *a.rows)) row_fails("the words differ", name, i);
        if (memcmp(a.texts[i], b.texts[i], sizeof *a.texts)) row_fails("the bytes differ", name, i);
    }
}

static void compare_text_line(const struct line *l) {
    compare_left(l->name, l->library, l->plain);
    if (l->other) compare_left(l->name, l->library, l->other);
}

// Room for the first text that the line writes and no more, for a byte less than that, and for none.
static void compare_short(const struct line *l) {
    size_t bytes = ARB_LENGTH(l->plain(0)), rooms[] = {bytes, bytes - 1, 0};
    for (size_t i = 0; i < sizeof rooms / sizeof *rooms; i++) {
        room = rooms[i];
        compare_text_line(l);
    }
    room = TEXT_BYTES;
}

static void spoil_texts(void (*spoil)(struct text *)) {
    for (int i = 0; i < ROWS; i++) spoil(&bare[i]), spoil(&dressed[i]);
}

static void compare_spoilt(const struct line *l, enum shape shape) {
    for (size_t i = 0; i < sizeof text_spoils / sizeof *text_spoils; i++)
        for (int round = 0; round < ROUNDS; round++) {
            draw_texts(shape);
            spoil_texts(text_spoils[i]);
            compare_text_line(l);
        }
}

// Compares the versions on each kind of texts and rows; the drawn ones are left to be timed.
static void try_text_line(const struct line *l, enum shape shape) {
    came = 0;
    compare_spoilt(l, shape);
    draw_texts(shape);
    spoil_rows();
    compare_text_line(l);
    draw_rows(shape);
    contract_rows();
    compare_text_line(l);
    draw_texts(shape);
    compare_text_line(l);
    if (l->numbers == WRITING) compare_short(l);
    if (came != l->numbers) row_fails("other numbers came than should", l->name, 0);
}
