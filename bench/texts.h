// Newick texts of drawn rows: bare, or dressed as other packages write them; and texts that were cut or spoilt.
#pragma once
#include "draws.h"
#include "newick.h"
enum { TEXT_ROOM = 32 * SAMPLES, LENGTH_DIGITS = 6, PERCENT = 100, BYTES = 256 };

struct text { size_t length; u8 bytes[TEXT_ROOM]; };

// Brackets, samples and commas alone, with the children of each node in any order.
static void draw_text(const u16 *row, int n, struct text *t) {
    u16 order[NODES];
    struct chains c;
    for (int v = 0; v < row[0]; v++) order[v] = v;
    for (int v = row[0] - 1; v > 0; v--) swap(&order[v], &order[below(v + 1)]);
    chain(row, order, &c);
    t->length = put_text(row, NULL, n, &c, t->bytes) - t->bytes;
}

static u8 *put_length(u8 *to) {
    *to++ = ':';
    *to++ = '0';
    *to++ = '.';
    for (int i = 0; i < LENGTH_DIGITS; i++) *to++ = '0' + below(10);
    return to;
}

// The same with a support behind each closing bracket, a length behind each subtree, a blank behind each comma, and a line feed at the end.
static void dress(const struct text *t, struct text *dressed) {
    u8 *to = dressed->bytes;
    for (size_t i = 0; i < t->length; i++) {
        u8 c = *to++ = t->bytes[i];
        if (c == ')') to = put_number(to, below(PERCENT + 1));
        if (c == ')' || (is_digit(c) && !is_digit(t->bytes[i + 1]))) to = put_length(to);
        if (c == ',') *to++ = ' ';
    }
    *to++ = '\n';
    dressed->length = to - dressed->bytes;
}

// The same with sample 1 in the place of sample 0: no other sample begins with that digit.
static void double_sample(const struct text *t, struct text *doubled) {
    size_t at = 1;
    while (t->bytes[at] != '0' || is_digit(t->bytes[at - 1])) at++;
    *doubled = *t;
    doubled->bytes[at] = '1';
}

// Puts `count` bytes in the place of `gone` others.
static void replace(struct text *t, size_t at, size_t gone, const u8 *bytes, size_t count) {
    static struct text old;
    old = *t;
    memcpy(t->bytes + at, bytes, count);
    memcpy(t->bytes + at + count, old.bytes + at + gone, old.length - at - gone);
    t->length = old.length - gone + count;
}

// Mostly a byte that texts have.
static u8 draw_byte(void) {
    static const u8 usual[] = "(),;:.0123456789 \t\r\n";
    int i = below(sizeof usual);
    return usual[i] ? usual[i] : below(BYTES);
}

static size_t draw_digit(const struct text *t) {
    size_t at = below(t->length);
    while (!is_digit(t->bytes[at])) at = below(t->length);
    return at;
}

static void cut(struct text *t) { t->length = below(t->length); }
static void change_byte(struct text *t) { t->bytes[below(t->length)] = draw_byte(); }
static void change_digit(struct text *t) { t->bytes[draw_digit(t)] = '0' + below(10); }
static void leave_byte_out(struct text *t) { replace(t, below(t->length), 1, (const u8 *)"", 0); }
static void put_byte_in(struct text *t) { replace(t, below(t->length + 1), 0, &(u8){draw_byte()}, 1); }

// A pair of brackets around a number.
static void wrap_number(struct text *t) {
    size_t start = draw_digit(t), end = start;
    while (start && is_digit(t->bytes[start - 1])) start--;
    while (is_digit(t->bytes[end])) end++;
    replace(t, end, 0, (const u8 *)")", 1);
    replace(t, start, 0, (const u8 *)"(", 1);
}

static void (*const text_spoils[])(struct text *) = {cut, change_byte, change_digit, leave_byte_out, put_byte_in, wrap_number};
