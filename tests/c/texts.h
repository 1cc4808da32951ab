// Trials of reading Newick text, and of writing it with supports and without (RULES 14).
#pragma once
#include "rows.h"
#include "trials.h"
#include "wide.h"

enum { MILLION = 1048576, TEXT_ROOM = 6 * MILLION, GUARD_BYTE = '7', OLD_BYTE = 'x', OLD_WORD = 9, WIDE_TEXT = ARB_TEXT_BYTES(WIDE) };

// A text, or the beginning of one. It has no end mark.
struct text {
    size_t length;
    const char *bytes;
};

#define TEXT(bytes) {sizeof(bytes) - 1, bytes}

// The buffers that are lent, each among guards: a text, two rows that are read, and one that is written.
static uint8_t lent_text[GUARD + TEXT_ROOM + GUARD];
static uint16_t lent_row[GUARD + WIDE_ROW + GUARD], lent_support[GUARD + WIDE_ROW + GUARD], lent_out[GUARD + WIDE_ROW + GUARD];

// Lends a text, or where there is none a buffer with old bytes.
static uint8_t *lend_text(const char *bytes, size_t length) {
    memset(lent_text, GUARD_BYTE, GUARD);
    memset(lent_text + GUARD, OLD_BYTE, length);
    memset(lent_text + GUARD + length, GUARD_BYTE, GUARD);
    if (bytes) memcpy(lent_text + GUARD, bytes, length);
    return lent_text + GUARD;
}

static uint16_t *lend_row(uint16_t *lent, const uint16_t *row, size_t length) {
    for (size_t i = 0; i < GUARD + length + GUARD; i++) lent[i] = i < GUARD || i >= GUARD + length ? GUARD_WORD : row ? row[i - GUARD] : OLD_WORD;
    return lent + GUARD;
}

// Whether the lent text begins with these bytes, has old ones behind them, and its guards.
static int left_text(const struct text *text, size_t length) {
    for (size_t i = 0; i < GUARD + length + GUARD; i++) {
        size_t at = i - GUARD;
        uint8_t expected = i < GUARD || at >= length ? GUARD_BYTE : at < text->length ? (uint8_t)text->bytes[at] : OLD_BYTE;
        if (lent_text[i] == expected) continue;
        printf("byte %d of the text: expected %u, came %u\n", (int)i - GUARD, expected, lent_text[i]);
        return 0;
    }
    return 1;
}

// Whether the lent row has these words, or old ones where none are given, and its guards.
static int left_row(const uint16_t *lent, const uint16_t *row, size_t length) {
    for (size_t i = 0; i < GUARD + length + GUARD; i++) {
        uint16_t expected = i < GUARD || i >= GUARD + length ? GUARD_WORD : row ? row[i - GUARD] : OLD_WORD;
        if (lent[i] == expected) continue;
        printf("word %d of a row: expected %u, came %u\n", (int)i - GUARD, expected, lent[i]);
        return 0;
    }
    return 1;
}

// Whether reading answers so, and writes this row if it accepts; nothing else changes.
static int reads(size_t n, const struct text *text, size_t out_length, uint64_t answer, const uint16_t *row) {
    uint8_t *bytes = lend_text(text->bytes, text->length);
    uint16_t *out = lend_row(lent_out, NULL, out_length);
    int is_right = same_answer(answer, arb_read_newick(n, bytes, text->length, out, out_length));
    return is_right & left_text(text, text->length) & left_row(lent_out, ARB_ACCEPTED(answer) ? row : NULL, out_length);
}

// A row to be written, with a support row if one is wanted, into a buffer of so many bytes.
struct writing {
    size_t n, row_length, support_length, room;
    const uint16_t *row, *support;
};

static uint64_t written(const struct writing *w, const uint16_t *row, const uint16_t *support, uint8_t *text) {
    if (!w->support) return arb_write_newick(w->n, row, w->row_length, text, w->room);
    return arb_write_newick_supports(w->n, row, w->row_length, support, w->support_length, text, w->room);
}

// Whether writing answers so, and puts this text to the front of the buffer, or nothing if it refuses; nothing else changes.
static int writes(const struct writing *w, uint64_t answer, const struct text *text) {
    static const struct text nothing = TEXT("");
    uint8_t *bytes = lend_text(NULL, w->room);
    uint16_t *row = lend_row(lent_row, w->row, w->row_length), *support = lend_row(lent_support, w->support, w->support_length);
    int is_right = same_answer(answer, written(w, row, support, bytes));
    return is_right & left_text(ARB_ACCEPTED(answer) ? text : &nothing, w->room) & left_row(lent_row, w->row, w->row_length)
        & left_row(lent_support, w->support, w->support_length);
}

// Texts that are read, with their rows.
static const struct read_text {
    const char *name;
    size_t n;
    struct text text;
    uint16_t row[10];
} read_texts[] = {
    {"the case is read", 5, TEXT("(((0,1)2,2)2,(3,4)2);"), {AGREED}},
    {"it is read without supports", 5, TEXT("(((0,1),2),(3,4));"), {AGREED}},
    {"run 1 is read", 5, TEXT("(((0,1),2),3,4);"), {RUN_1}},
    {"run 2 is read", 5, TEXT("((0,1,2),(3,4));"), {RUN_2}},
    {"run 3 is read", 5, TEXT("(((0,1),(3,4)),2);"), {RUN_3}},
    {"subtrees in another order", 5, TEXT("((4,3),(2,(1,0)));"), {AGREED}},
    {"the only tree of 2 is read", 2, TEXT("(1,0);"), {ONLY_OF_2}},
    {"the bare tree of 3 is read", 3, TEXT("(2,0,1);"), {BARE_3}},
    {"blanks", 5, TEXT(" \t\r\n( ((0 ,\t1)2\n,2 ) 2\r\n, (3,4 )2) ; \r\n"), {AGREED}},
    {"lengths", 5, TEXT("(((0:1,1:0.5)2:12.25,2:3.0)2:00.10,(3:0,4:1):7);"), {AGREED}},
    {"blanks around lengths", 5, TEXT("(((0 :1 ,1: 0.5\t) 2\r:\n12.25 ,2),(3,4)) : 1 ;"), {AGREED}},
    {"digits and a length behind the last bracket", 3, TEXT("((0,1)100,2)0042:007.5;"), {WITH_01}},
    {"a pair around a sample", 2, TEXT("(0,(1));"), {ONLY_OF_2}},
    {"a pair around all", 2, TEXT("((0,1));"), {ONLY_OF_2}},
    {"two pairs around a sample", 2, TEXT("(((0)),1);"), {ONLY_OF_2}},
    {"single pairs around all, a pair and a sample", 3, TEXT("( (((0,(1))),2));"), {WITH_01}},
    {"digits and lengths behind single pairs", 2, TEXT(" ( ( 0 ) 5:1 ,((1)07:2.5):0 );"), {ONLY_OF_2}},
    {"what is written of a node above one sample", 3, TEXT("((0),1,2);"), {BARE_3}},
    {"what is written of a chain at the root", 3, TEXT("((0,1,2));"), {BARE_3}},
    {"what is written of a chain in the middle", 4, TEXT("(((0,1)),2,3);"), {WITH_01_OF_4}},
    {"many digits", 2, TEXT("(0,1)000000000000000000000099999999999999999999:123456789012345678901.00000000000000000001;"), {ONLY_OF_2}},
};

// Texts that are refused.
static const struct bad_text {
    const char *name;
    size_t n;
    struct text text;
    uint64_t number, place;
} bad_texts[] = {
    {"17: no byte", 2, TEXT(""), 17, 0},
    {"17: blanks alone", 2, TEXT(" \n"), 17, 2},
    {"17: a semicolon alone", 2, TEXT(";"), 17, 0},
    {"17: nothing in a pair", 2, TEXT("();"), 17, 1},
    {"17: nothing before a comma", 2, TEXT("(,1);"), 17, 1},
    {"17: nothing behind a comma", 2, TEXT("(0,);"), 17, 3},
    {"17: a pair that is not closed", 2, TEXT("(0,1;"), 17, 4},
    {"17: a bracket too many", 2, TEXT("(0,1));"), 17, 5},
    {"17: no semicolon", 2, TEXT("(0,1)"), 17, 5},
    {"17: no semicolon, and a line feed", 2, TEXT("(0,1)\n"), 17, 6},
    {"17: two semicolons", 2, TEXT("(0,1);;"), 17, 6},
    {"17: two trees", 2, TEXT("(0,1);\n(0,1);"), 17, 7},
    {"17: two subtrees without a pair", 2, TEXT("0,1;"), 17, 1},
    {"17: a pair behind a sample", 2, TEXT("(0(1));"), 17, 2},
    {"17: a 0 byte at the end", 2, TEXT("(0,1);\0"), 17, 6},
    {"17: a 0 byte in front", 2, TEXT("\0(0,1);"), 17, 0},
    {"17: the byte 255", 2, TEXT("(0,\3771);"), 17, 3},
    {"17: a vertical tab", 2, TEXT("(0,\v1);"), 17, 3},
    {"17: a sixth digit", 2, TEXT("(0,123456);"), 17, 8},
    {"17: a second 0", 2, TEXT("(00,1);"), 17, 2},
    {"17: a digit behind a 0", 2, TEXT("(0,01);"), 17, 4},
    {"17: a blank in a sample", 2, TEXT("(0,1 2);"), 17, 5},
    {"17: a sign", 2, TEXT("(-0,1);"), 17, 1},
    {"17: a name", 2, TEXT("(A,1);"), 17, 1},
    {"17: a name behind a bracket", 2, TEXT("(0,1)root;"), 17, 5},
    {"17: quotes", 2, TEXT("('0',1);"), 17, 1},
    {"17: a comment", 2, TEXT("[&R](0,1);"), 17, 0},
    {"17: digits behind a sample", 2, TEXT("(0 5,1);"), 17, 3},
    {"17: digits twice behind a bracket", 2, TEXT("(0,1)5 5;"), 17, 7},
    {"17: digits behind a length", 2, TEXT("(0,1):5 5;"), 17, 8},
    {"17: a point in a support", 2, TEXT("(0,1)0.95;"), 17, 6},
    {"17: a length without digits", 2, TEXT("(0:,1);"), 17, 3},
    {"17: no digit before the point", 2, TEXT("(0,1):.5;"), 17, 6},
    {"17: no digit behind the point", 2, TEXT("(0,1):1.;"), 17, 8},
    {"17: a blank before the point", 2, TEXT("(0,1):1 .5;"), 17, 8},
    {"17: a blank behind the point", 2, TEXT("(0,1):1. 5;"), 17, 8},
    {"17: two points", 2, TEXT("(0,1):1.5.5;"), 17, 9},
    {"17: two colons", 2, TEXT("(0,1)::1;"), 17, 6},
    {"17: two lengths", 2, TEXT("(0:1:1,1);"), 17, 4},
    {"17: a negative length", 2, TEXT("(0,1):-1;"), 17, 6},
    {"17: an exponent", 2, TEXT("(0,1):1e-05;"), 17, 7},
    {"17: also where 18 applies", 2, TEXT("((0),9))"), 17, 7},

    {"18: one is missing", 3, TEXT("(0,1);"), 18, 2},
    {"18: 0 is missing", 3, TEXT("(1,2);"), 18, 0},
    {"18: a sample alone", 2, TEXT("0;"), 18, 1},
    {"18: one twice", 3, TEXT("(2,(1,0),1);"), 18, 1},
    {"18: n itself", 3, TEXT("(3,0,1,2);"), 18, 3},
    {"18: the lowest of several, the last", 3, TEXT("(99999,0,8,1,2,7);"), 18, 7},
    {"18: the lowest of several, the first", 3, TEXT("(7,0,99999,1,2,8);"), 18, 7},
    {"18: missing below twice and too large", 4, TEXT("(9,3,3,0,1);"), 18, 2},
    {"18: twice below missing and too large", 4, TEXT("(9,1,1,0,3);"), 18, 1},
    {"18: the largest of the form", 2, TEXT("(0,1,99999);"), 18, 99999},
    {"18: a number whose low 16 bits are a sample", 2, TEXT("(0,65537);"), 18, 1},
    {"18: one is missing beside a single pair", 3, TEXT("((0),1);"), 18, 2},
    {"18: one twice, in single pairs", 2, TEXT("(((0)),(0),1);"), 18, 0},
};

// Rows that are written, with the text that has the supports and the one that does not. The words that no bracket has are not looked at.
static const struct written_row {
    const char *name;
    size_t n;
    uint16_t row[10], support[10];
    struct text with, without;
} written_rows[] = {
    {"the case is written", 5, {AGREED}, {SUPPORT}, TEXT("(((0,1)2,2)2,(3,4)2);"), TEXT("(((0,1),2),(3,4));")},
    {"another numbering is written", 5, {RUN_2_OTHERWISE}, {1, 2, 3, 4, 5, 6, 7, 66, 77, 8}, TEXT("((0,1,2)77,(3,4)66);"), TEXT("((0,1,2),(3,4));")},
    {"the least and the greatest support", 5, {RUN_3}, {0, 0, 0, 0, 0, 0, 0, 0, 65535, 10}, TEXT("(((0,1)65535,(3,4)10)0,2);"),
        TEXT("(((0,1),(3,4)),2);")},
    {"the only tree of 2 is written", 2, {ONLY_OF_2}, {9, 9, 9, 9}, TEXT("(0,1);"), TEXT("(0,1);")},
    {"the bare tree of 3 is written", 3, {BARE_3}, {9, 9, 9, 9, 9, 9}, TEXT("(0,1,2);"), TEXT("(0,1,2);")},
    {"the root has the highest number", 3, {WITH_01_OTHERWISE}, {9, 9, 9, 9, 1234, 9}, TEXT("((0,1)1234,2);"), TEXT("((0,1),2);")},
    {"children by their smallest samples", 5, {8, 7, 6, 6, 5, 7, ROOT, 5, 5, 0}, {9, 9, 9, 9, 9, 9, 9, 6, 7, 9}, TEXT("((0,4)7,(1,2)6,3);"),
        TEXT("((0,4),(1,2),3);")},
    {"a node above one sample is written", 3, {BRANCH_0}, {9, 9, 9, 9, 9, 44}, TEXT("((0)44,1,2);"), TEXT("((0),1,2);")},
    {"a chain at the root is written", 3, {CHAIN_ROOT}, {9, 9, 9, 9, 9, 44}, TEXT("((0,1,2)44);"), TEXT("((0,1,2));")},
    {"a chain is written, each node with its own support", 4, {CHAIN_01}, {9, 9, 9, 9, 9, 9, 55, 66}, TEXT("(((0,1)66)55,2,3);"),
        TEXT("(((0,1)),2,3);")},
    {"a sample between two pairs", 5, {8, 6, 5, 6, 7, 7, ROOT, 5, 5, 0}, {9, 9, 9, 9, 9, 9, 9, 99, 100, 9}, TEXT("((0,2)99,1,(3,4)100);"),
        TEXT("((0,2),1,(3,4));")},
};

static void test_read(const struct read_text *r) {
    check(r->name, reads(r->n, &r->text, ARB_ROW_WORDS(r->n), ACCEPTED, r->row));
}

static void test_bad_text(const struct bad_text *bad) {
    check(bad->name, reads(bad->n, &bad->text, ARB_ROW_WORDS(bad->n), REFUSED(bad->number, bad->place), NULL));
}

// Room for the text exactly, for one byte less, for none, for some more, and for any text.
static int writes_in_any_room(struct writing w, const struct text *text) {
    const size_t enough[] = {text->length, text->length + 1, text->length + 9, ARB_TEXT_BYTES(w.n), 70000}, too_few[] = {text->length - 1, 1, 0};
    int is_right = 1;
    for (size_t i = 0; i < COUNT(enough); i++) {
        w.room = enough[i];
        is_right &= writes(&w, WROTE(text->length), text);
    }
    for (size_t i = 0; i < COUNT(too_few); i++) {
        w.room = too_few[i];
        is_right &= writes(&w, REFUSED(3, 0), text);
    }
    return is_right;
}

static void test_written(const struct written_row *r) {
    size_t words = ARB_ROW_WORDS(r->n);
    check(r->name, writes_in_any_room((struct writing){r->n, words, words, 0, r->row, r->support}, &r->with));
    check(r->name, writes_in_any_room((struct writing){r->n, words, 0, 0, r->row, NULL}, &r->without));
}

// Bad rows of 3 samples: with room for any text, and with none.
static int refuses_written(const uint16_t *row, uint64_t answer) {
    static const uint16_t support[] = {WITH_01};
    const struct writing with = {3, 6, 6, ARB_TEXT_BYTES(3), row, support}, without = {3, 6, 0, ARB_TEXT_BYTES(3), row, NULL};
    const struct writing with_none = {3, 6, 6, 0, row, support}, without_none = {3, 6, 0, 0, row, NULL};
    return writes(&with, answer, NULL) & writes(&without, answer, NULL) & writes(&with_none, answer, NULL) & writes(&without_none, answer, NULL);
}

// What is wrong with n and with lengths comes before what is wrong with words and bytes.
static void test_sizes(void) {
    static const uint16_t bad[] = {NO_CHILD, 0}, good[] = {WITH_01, 0};
    static const struct text text = TEXT("((0,1),2)"), right = TEXT("((0,1),2);");
    check("read: n is 1", reads(1, &text, 5, REFUSED(1, 0), NULL));
    check("read: n is 513", reads(513, &right, 6, REFUSED(1, 0), NULL));
    check("read: an output of 2n - 1 words, and a bad text", reads(3, &text, 5, REFUSED(3, 0), NULL));
    check("read: an output of 2n + 1 words", reads(3, &right, 7, REFUSED(3, 0), NULL));
    check("write: n is 1", writes(&(struct writing){1, 5, 0, 0, bad, NULL}, REFUSED(1, 0), NULL));
    check("write: n is 513", writes(&(struct writing){513, 6, 0, 99, good, NULL}, REFUSED(1, 0), NULL));
    check("write: a row of 2n - 1 words", writes(&(struct writing){3, 5, 0, 99, good, NULL}, REFUSED(3, 0), NULL));
    check("write: a row of 2n + 1 words, and a bad row", writes(&(struct writing){3, 7, 0, 99, bad, NULL}, REFUSED(3, 0), NULL));
    check("write with supports: n is 0", writes(&(struct writing){0, 5, 7, 0, bad, bad}, REFUSED(1, 0), NULL));
    check("write with supports: a row of 2n + 1 words", writes(&(struct writing){3, 7, 6, 99, good, good}, REFUSED(3, 0), NULL));
    check("write with supports: no support row, and a bad row", writes(&(struct writing){3, 6, 0, 99, bad, bad}, REFUSED(3, 0), NULL));
    check("write with supports: 2n + 1 supports, and a bad row", writes(&(struct writing){3, 6, 7, 0, bad, bad}, REFUSED(3, 0), NULL));
}

// A text that goes on behind its length ends early there, wherever that is; behind the semicolon it is whole.
static void test_cut(void) {
    static const char bytes[] = " (( 0:1.5 ,1 ) 23 : 45.67,2 )8:9 ; \n";
    static const uint16_t row[] = {WITH_01};
    size_t whole = sizeof bytes - 3;
    int is_right = 1;
    for (size_t length = 0; length < sizeof bytes; length++) {
        uint16_t out[6] = {OLD_WORD};
        uint64_t answer = arb_read_newick(3, (const uint8_t *)bytes, length, out, 6);
        if (length < whole) is_right &= same_answer(REFUSED(17, length), answer) && out[0] == OLD_WORD;
        else is_right &= same_answer(ACCEPTED, answer) && memcmp(out, row, sizeof out) == 0;
    }
    check("a text that is cut at any byte", is_right);
}

static int is_one_of(const char *some, int byte) {
    for (; *some; some++) if (*some == byte) return 1;
    return 0;
}

// Every byte, in front of a text and behind its last bracket.
static void test_bytes(void) {
    static const uint16_t row[] = {ONLY_OF_2};
    int is_right = 1;
    for (int byte = 0; byte < 256; byte++) {
        char in_front[] = "?(0,1);", behind[] = "(0,1)?;";
        int is_blank = is_one_of(" \t\r\n", byte), is_digit = is_one_of("0123456789", byte);
        in_front[0] = behind[5] = byte;
        is_right &= reads(2, &(struct text){7, in_front}, 4, is_blank ? ACCEPTED : REFUSED(17, byte == '(' ? 6 : is_digit ? 1 : 0), row);
        is_right &= reads(2, &(struct text){7, behind}, 4, is_blank || is_digit ? ACCEPTED : REFUSED(17, byte == ':' || byte == ';' ? 6 : 5), row);
    }
    check("every byte in front of a text and behind it", is_right);
}

// A text that is made piece by piece.
static char made_bytes[TEXT_ROOM];
static struct text made = {0, made_bytes};

static void put(const char *bytes) {
    while (*bytes) made_bytes[made.length++] = *bytes++;
}

static void put_times(size_t times, char byte) {
    memset(made_bytes + made.length, byte, times);
    made.length += times;
}

static void put_number(size_t x) {
    if (x > 9) put_number(x / 10);
    put_times(1, '0' + x % 10);
}

static int made_reads(size_t n, uint64_t answer, const uint16_t *row) {
    int is_right = reads(n, &made, ARB_ROW_WORDS(n), answer, row);
    made.length = 0;
    return is_right;
}

// Places that 16 bits do not hold, and texts of millions of bytes.
static void test_long_texts(void) {
    static const uint16_t row[] = {ONLY_OF_2};
    enum { FAR = 70000 };
    put_times(FAR, ' '), put("(0,,1);");
    check("17 behind 70,000 blanks", made_reads(2, REFUSED(17, FAR + 3), NULL));
    put("(0,1"), put_times(FAR, '\n');
    check("17 at the end of 70,000 blanks", made_reads(2, REFUSED(17, FAR + 4), NULL));
    put("(0,"), put_times(FAR, '\t'), put("(1));");
    check("a single pair behind 70,000 blanks", made_reads(2, ACCEPTED, row));
    put_times(4 * MILLION, ' '), put("(0,1)"), put_times(MILLION, '\r'), put(";"), put_times(MILLION / 2, '\n');
    check("millions of blanks", made_reads(2, ACCEPTED, row));
    put_times(4 * MILLION, ' '), put("(0,1)"), put_times(MILLION, '\r'), put(";"), put_times(MILLION / 2, '\n'), put("x");
    check("17 behind millions of blanks", made_reads(2, REFUSED(17, 5 * MILLION + MILLION / 2 + 6), NULL));
    put("(0,1)"), put_times(MILLION, '9'), put(":"), put_times(MILLION, '0'), put("."), put_times(MILLION, '1'), put(";");
    check("millions of digits", made_reads(2, ACCEPTED, row));
    put("("), put_times(MILLION, '9'), put(",1);");
    check("17 at the sixth of a million digits", made_reads(2, REFUSED(17, 6), NULL));
    put("(0,1"), put_times(2 * MILLION, ',');
    check("17 at the second of two million commas", made_reads(2, REFUSED(17, 5), NULL));
    put("(0,1");
    for (int i = 0; i < MILLION / 2; i++) put(",(0,1)");
    put(");");
    check("18 of half a million pairs", made_reads(2, REFUSED(18, 0), NULL));
}

// 511 brackets may be open at once, and not one more, whatever n is (RULES 14.6).
static void test_nesting(void) {
    static const uint16_t row[] = {ONLY_OF_2};
    enum { MOST_OPEN = 511 };
    put_times(MOST_OPEN, '('), put("0,1"), put_times(MOST_OPEN, ')'), put(";");
    check("511 open brackets", made_reads(2, ACCEPTED, row));
    put("("), put_times(MOST_OPEN - 1, '('), put("0"), put_times(MOST_OPEN - 1, ')'), put(",");
    put_times(MOST_OPEN - 1, '('), put("1"), put_times(MOST_OPEN - 1, ')'), put(");");
    check("511 open brackets around each sample", made_reads(2, ACCEPTED, row));
    put_times(MOST_OPEN + 1, '('), put("0,1"), put_times(MOST_OPEN + 1, ')'), put(";");
    check("17 of 512 open brackets", made_reads(2, REFUSED(17, MOST_OPEN), NULL));
    put("(0 , "), put_times(MOST_OPEN, '('), put("1"), put_times(MOST_OPEN, ')'), put(");");
    check("17 of 512 open brackets, of 512 samples", made_reads(WIDE, REFUSED(17, MOST_OPEN + 4), NULL));
    put_times(MOST_OPEN, '(');
    check("17 of 511 brackets alone", made_reads(2, REFUSED(17, MOST_OPEN), NULL));
    put("(");
    for (int i = 0; i < 3; i++) put_times(MOST_OPEN - 1, '('), put("0"), put_times(MOST_OPEN - 1, ')'), put(",");
    put("1);");
    check("18 of brackets that were closed before others were opened", made_reads(2, REFUSED(18, 0), NULL));
}

// The caterpillar of n samples with sample 0 at its end, and that with the last sample there: its row in standard numbering, which is from the root
// down, and its text, with supports of 65535 or none.
enum end { FIRST_SAMPLE, LAST_SAMPLE };

static void write_caterpillar(enum end end, size_t n, uint16_t *row) {
    memset(row, 0, ARB_ROW_WORDS(n) * sizeof *row);
    row[0] = 2 * n - 1;
    for (size_t s = 0; s < n; s++) {
        size_t depth = end == FIRST_SAMPLE ? n - 1 - s : s;
        row[1 + s] = n + (depth < n - 2 ? depth : n - 2);
    }
    for (size_t v = n; v < 2 * n - 1; v++) row[1 + v] = v == n ? ROOT : v - 1;
}

static void put_caterpillar(enum end end, size_t n, const char *support) {
    if (end == FIRST_SAMPLE) {
        put_times(n - 1, '('), put("0");
        for (size_t s = 1; s < n; s++) put(","), put_number(s), put(")"), put(s < n - 1 ? support : ";");
        return;
    }
    for (size_t s = 0; s < n - 1; s++) put("("), put_number(s), put(",");
    put_number(n - 1);
    for (size_t s = 1; s < n; s++) put(")"), put(s < n - 1 ? support : ";");
}

// The bytes of the text of a tree of n samples in which every inner node has two children: brackets, commas, samples, supports, and the semicolon.
static size_t longest(size_t n, size_t support_digits) {
    size_t digits = 0;
    for (size_t s = 0; s < n; s++) digits += s < 10 ? 1 : s < 100 ? 2 : 3;
    return 2 * (n - 1) + (n - 1) + digits + (n - 2) * support_digits + 1;
}

// Writes a caterpillar with supports and without, where there is room for any text, and reads it again.
static int goes_round(enum end end, size_t n, const uint16_t *support) {
    static uint16_t row[WIDE_ROW];
    size_t words = ARB_ROW_WORDS(n), room = ARB_TEXT_BYTES(n);
    write_caterpillar(end, n, row);
    put_caterpillar(end, n, support ? "65535" : "");
    int is_right = made.length == longest(n, support ? 5 : 0) && made.length <= room;
    is_right &= writes(&(struct writing){n, words, support ? words : 0, room, row, support}, WROTE(made.length), &made);
    return is_right & made_reads(n, ACCEPTED, row);
}

static void test_longest_texts(void) {
    static uint16_t largest[WIDE_ROW];
    int is_right = 1;
    memset(largest, 255, sizeof largest);
    for (size_t n = 2; n <= WIDE; n++)
        for (int end = FIRST_SAMPLE; end <= LAST_SAMPLE; end++) is_right &= goes_round(end, n, largest) & goes_round(end, n, NULL);
    check("the caterpillars of every n are written and read", is_right);
    check("the longest texts", longest(WIDE, 5) == 5510 && longest(WIDE, 0) == 2960 && WIDE_TEXT == 5632);
    put_caterpillar(FIRST_SAMPLE, WIDE, "");
    check("the deepest tree is written in another numbering",
        writes(&(struct writing){WIDE, WIDE_ROW, 0, 2960, chain_up, NULL}, WROTE(2960), &made));
    check("the deepest tree is read", made_reads(WIDE, ACCEPTED, chain_down));
    put_caterpillar(FIRST_SAMPLE, WIDE, "65535");
    check("the deepest tree is written with supports",
        writes(&(struct writing){WIDE, WIDE_ROW, WIDE_ROW, 5510, chain_up, largest}, WROTE(5510), &made));
    check("it has no room in a byte less", writes(&(struct writing){WIDE, WIDE_ROW, WIDE_ROW, 5509, chain_up, largest}, REFUSED(3, 0), NULL));
    check("the deepest tree is read with supports", made_reads(WIDE, ACCEPTED, chain_down));
}

// The tree of 512 samples in which each inner node has the halves of its samples below it.
static void put_halves(size_t low, size_t count, const char *support) {
    size_t half = count / 2;
    if (count == 1) put_number(low);
    else put("("), put_halves(low, half, support), put(","), put_halves(low + half, half, support), put(")"), put(count < WIDE ? support : ";");
}

static void test_halves(void) {
    static uint16_t row[WIDE_ROW], largest[WIDE_ROW];
    memset(largest, 255, sizeof largest);
    row[0] = 2 * WIDE - 1;
    for (int v = WIDE; v <= LAST; v++) row[1 + v] = v == WIDE ? ROOT : WIDE + (v - WIDE - 1) / 2;
    for (int s = 0; s < WIDE; s++) row[1 + s] = WIDE + WIDE / 2 - 1 + s / 2;
    put_halves(0, WIDE, "65535");
    check("halves of halves are written", writes(&(struct writing){WIDE, WIDE_ROW, WIDE_ROW, WIDE_TEXT, row, largest}, WROTE(5510), &made));
    check("halves of halves are read", made_reads(WIDE, ACCEPTED, row));
    put_halves(0, WIDE, "");
    check("halves of halves are written without supports", writes(&(struct writing){WIDE, WIDE_ROW, 0, WIDE_TEXT, row, NULL}, WROTE(2960), &made));
    check("halves of halves are read without supports", made_reads(WIDE, ACCEPTED, row));
}

static void test_no_text(void) {
    static const uint16_t row[] = {RUN_1};
    uint16_t out[10] = {OLD_WORD};
    check("read: NULL and no words", same_answer(REFUSED(3, 0), arb_read_newick(5, NULL, 0, NULL, 0)));
    check("read: NULL and no bytes", same_answer(REFUSED(17, 0), arb_read_newick(5, NULL, 0, out, COUNT(out))) && out[0] == OLD_WORD);
    check("write: NULL and no words", same_answer(REFUSED(3, 0), arb_write_newick(5, NULL, 0, NULL, 0)));
    check("write: NULL and no bytes", same_answer(REFUSED(3, 0), arb_write_newick(5, row, COUNT(row), NULL, 0)));
    check("write with supports: NULL and no words", same_answer(REFUSED(3, 0), arb_write_newick_supports(5, NULL, 0, NULL, 0, NULL, 0)));
    check("write with supports: NULL and no bytes",
        same_answer(REFUSED(3, 0), arb_write_newick_supports(5, row, COUNT(row), row, COUNT(row), NULL, 0)));
}

// The macros, on numbers packed by hand: a length of 21, and a place that 32 bits do not hold.
static void test_text_macros(void) {
    uint64_t wrote = 0x1500, far = 0x12A05F20011;
    check("a text's length", ARB_ACCEPTED(wrote) && ARB_LENGTH(wrote) == 21);
    check("a far place", ARB_NUMBER(far) == ARB_REFUSAL_FORM && ARB_PLACE(far) == 5000000000);
    check("places and lengths are of type size_t", sizeof ARB_PLACE(far) == sizeof(size_t) && sizeof ARB_LENGTH(far) == sizeof(size_t));
    check("the numbers of texts", ARB_REFUSAL_FORM == 17 && ARB_REFUSAL_LEAVES == 18);
    check("bytes of texts", ARB_TEXT_BYTES(2) == 22 && ARB_TEXT_BYTES(512) == 5632 && sizeof ARB_TEXT_BYTES(2) == sizeof(size_t));
}

// Rows of 512 samples are written before.
static void test_texts(void) {
    for (size_t i = 0; i < COUNT(read_texts); i++) test_read(&read_texts[i]);
    for (size_t i = 0; i < COUNT(bad_texts); i++) test_bad_text(&bad_texts[i]);
    for (size_t i = 0; i < COUNT(written_rows); i++) test_written(&written_rows[i]);
    test_sizes();
    test_cut();
    test_bytes();
    test_long_texts();
    test_nesting();
    test_longest_texts();
    test_halves();
    test_no_text();
    test_text_macros();
}
