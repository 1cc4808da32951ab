// Measures the stack that each call of include/arb.h takes, callees included. A call is made on a stack of its own that was painted first,
// and the lowest byte that is no longer paint says how deep it went. It is made on trees of several shapes, beside studies of several sizes,
// with each change of one table that applies to it, so that every refusal comes too; the table has the number that the rules expect. Reading
// is also made on the deepest texts. Prints a line for each call, 'judge 152', the most bytes over all its inputs. The status is 0 only if
// each answer had the number expected and each change was tried.
#include "arb.h"
#include <stdio.h>
#include <string.h>

// Numbers of runs. Of each five runs of a study three have one tree in common.
enum { ONE = 1, SEVERAL = 5, MANY = 200, TURNS = 5, COMMON_TURNS = 3 };
enum { RUNS_AT = 5, ROW_ROOM = ARB_ROW_WORDS(ARB_MOST_SAMPLES), STUDY_ROOM = ARB_STUDY_WORDS(ARB_MOST_SAMPLES, SEVERAL + 1) };

// Brackets that may be open at once; bytes of the longest text that is read, and fewer than any text has.
enum { MOST_OPEN = 511, TEXT_ROOM = 32 * ARB_MOST_SAMPLES, TOO_SHORT = 5 };

#define COUNT(table) (sizeof(table) / sizeof *(table))

// The calls, and sets of them.
enum call { OPEN, ADD, WITHDRAW, REPORT, JUDGE, RENUMBER, COMPARE, READ, WRITE, WRITE_SUPPORTS, CALLS };
#define IN(call) (1u << (call))
#define WRITES_TEXT (IN(WRITE) | IN(WRITE_SUPPORTS))
#define TAKES_N (IN(OPEN) | IN(JUDGE) | IN(RENUMBER) | IN(COMPARE) | IN(READ) | WRITES_TEXT)
#define TAKES_STUDY (IN(ADD) | IN(WITHDRAW) | IN(REPORT))
#define TAKES_ROW (IN(ADD) | IN(JUDGE) | IN(RENUMBER) | IN(COMPARE) | WRITES_TEXT)

typedef void (*function)(void);

static const struct {
    const char *name;
    function made;
} calls[CALLS] = {
    [OPEN] = {"open", (function)arb_open},
    [ADD] = {"add", (function)arb_add},
    [WITHDRAW] = {"withdraw", (function)arb_withdraw},
    [REPORT] = {"report", (function)arb_report},
    [JUDGE] = {"judge", (function)arb_judge},
    [RENUMBER] = {"renumber", (function)arb_renumber},
    [COMPARE] = {"compare", (function)arb_compare},
    [READ] = {"read_newick", (function)arb_read_newick},
    [WRITE] = {"write_newick", (function)arb_write_newick},
    [WRITE_SUPPORTS] = {"write_newick_supports", (function)arb_write_newick_supports},
};

struct row {
    size_t length;
    uint16_t at[ROW_ROOM];
};

struct text {
    size_t length;
    uint8_t at[TEXT_ROOM];
};

// What any of the calls can be made with. `fresh` is the identifier for adding, `taken` the one for withdrawing; comparing takes `row` and
// `other`, in this order unless `row_is_second`; `out` is what renumbering and reading write, and the agreed row of a report; `support` is
// what a report writes, and what is written behind brackets; `text` is read, and `written` is written.
struct input {
    size_t n, p;
    uint16_t fresh, taken;
    int row_is_second;
    struct row row, other, out, support;
    struct text text, written;
    size_t study_length;
    uint16_t study[STUDY_ROOM];
};

// How many samples, and how many runs in force.
static const struct size {
    size_t n, k;
} sizes[] = {
    {ARB_FEWEST_SAMPLES, 0}, {ARB_FEWEST_SAMPLES, ONE}, {ARB_FEWEST_SAMPLES, SEVERAL}, {ARB_FEWEST_SAMPLES, MANY},
    {3, 0}, {3, ONE}, {3, SEVERAL}, {3, MANY},
    {ARB_MOST_SAMPLES, 0}, {ARB_MOST_SAMPLES, ONE}, {ARB_MOST_SAMPLES, SEVERAL},
};

// Trees: their shape, and whether the numbers of inner nodes rise on the way up or are shuffled. A chain is a bush with as many single branches above
// sample 0 as there may be.
enum shape { BUSH, CATERPILLAR, RANDOM, CHAIN };
enum numbers { RISING, SHUFFLED };
static const struct tree {
    enum shape shape;
    enum numbers numbers;
} trees[] = {{BUSH, RISING}, {CATERPILLAR, RISING}, {CATERPILLAR, SHUFFLED}, {RANDOM, SHUFFLED}, {CHAIN, RISING}, {CHAIN, SHUFFLED}};

// What is changed in an input that is in order.
enum part { NOTHING, N, P, STUDY_MARK, STUDY_ROW, STUDY_END, STUDY_SHORT, STUDY_FULL, ROW_LENGTH, OUT_LENGTH, SUPPORT_LENGTH, NO_IDENTIFIER,
    IDENTIFIER_TAKEN, IDENTIFIER_ABSENT, NODES, PARENT, ROOT, FILLER, LOST, CHILDREN, ROOM, TEXT_BYTE, TEXT_END, TEXT_SAMPLE, TEXT_PAIR };

// What the input must have for that: runs in force, none, words of filler, an inner node besides the root, a text to which a bracket can be added.
enum need { ANY, RUNS, NO_RUNS, FILLING, INNER, SHALLOW };

// `to` is the new n or p, `number` the refusal that follows, or 0.
static const struct change {
    enum part part;
    size_t to;
    unsigned number;
    enum need need;
    unsigned calls;
} changes[] = {
    {NOTHING, 0, 0, ANY, TAKES_N | IN(ADD)},
    {NOTHING, 0, 0, RUNS, IN(WITHDRAW)},
    {P, ARB_NO_THRESHOLD, 0, RUNS, IN(REPORT)},
    {P, ARB_LEAST_THRESHOLD, 0, RUNS, IN(REPORT)},
    {P, 75, 0, RUNS, IN(REPORT)},
    {P, ARB_MOST_THRESHOLD, 0, RUNS, IN(REPORT)},
    {N, ARB_FEWEST_SAMPLES - 1, ARB_REFUSAL_SAMPLES, ANY, TAKES_N},
    {N, ARB_MOST_SAMPLES + 1, ARB_REFUSAL_SAMPLES, ANY, TAKES_N},
    {STUDY_MARK, 0, ARB_REFUSAL_STUDY, ANY, TAKES_STUDY},
    {STUDY_ROW, 0, ARB_REFUSAL_STUDY, RUNS, TAKES_STUDY},
    {STUDY_END, 0, ARB_REFUSAL_STUDY, ANY, TAKES_STUDY},
    {STUDY_SHORT, 0, ARB_REFUSAL_STUDY, ANY, TAKES_STUDY},
    {STUDY_SHORT, 0, ARB_REFUSAL_WORDS, ANY, IN(OPEN)},
    {ROW_LENGTH, 0, ARB_REFUSAL_WORDS, ANY, TAKES_ROW},
    {OUT_LENGTH, 0, ARB_REFUSAL_WORDS, ANY, IN(RENUMBER) | IN(REPORT) | IN(READ)},
    {SUPPORT_LENGTH, 0, ARB_REFUSAL_WORDS, ANY, IN(REPORT) | IN(WRITE_SUPPORTS)},
    {ROOM, 0, ARB_REFUSAL_WORDS, ANY, WRITES_TEXT},
    {NO_IDENTIFIER, 0, ARB_REFUSAL_IDENTIFIER, ANY, IN(ADD) | IN(WITHDRAW)},
    {NODES, 0, ARB_REFUSAL_NODES, ANY, TAKES_ROW},
    {PARENT, 0, ARB_REFUSAL_PARENT, ANY, TAKES_ROW},
    {ROOT, 0, ARB_REFUSAL_ROOT, ANY, TAKES_ROW},
    {FILLER, 0, ARB_REFUSAL_FILLER, FILLING, TAKES_ROW},
    {LOST, 0, ARB_REFUSAL_LOST, INNER, TAKES_ROW},
    {CHILDREN, 0, ARB_REFUSAL_CHILDREN, INNER, TAKES_ROW},
    {IDENTIFIER_TAKEN, 0, ARB_REFUSAL_TAKEN, RUNS, IN(ADD)},
    {STUDY_FULL, 0, ARB_REFUSAL_FULL, RUNS, IN(ADD)},
    {IDENTIFIER_ABSENT, 0, ARB_REFUSAL_ABSENT, ANY, IN(WITHDRAW)},
    {NOTHING, 0, ARB_REFUSAL_EMPTY, NO_RUNS, IN(REPORT)},
    {P, ARB_LEAST_THRESHOLD - 1, ARB_REFUSAL_THRESHOLD, ANY, IN(REPORT)},
    {P, ARB_MOST_THRESHOLD + 1, ARB_REFUSAL_THRESHOLD, ANY, IN(REPORT)},
    {TEXT_BYTE, 0, ARB_REFUSAL_FORM, ANY, IN(READ)},
    {TEXT_END, 0, ARB_REFUSAL_FORM, ANY, IN(READ)},
    {TEXT_SAMPLE, 0, ARB_REFUSAL_LEAVES, ANY, IN(READ)},
    {TEXT_PAIR, 0, 0, SHALLOW, IN(READ)},
};

static int was_tried[COUNT(changes)], failures;
static size_t deepest[CALLS];

static void fail(enum call call, const struct input *in, unsigned number, uint64_t answer) {
    printf("failed: %s, n = %zu, k = %u: expected %u, came %u at %zu\n", calls[call].name, in->n, in->study[RUNS_AT], number, ARB_NUMBER(answer),
        ARB_PLACE(answer));
    failures++;
}

// The painted stack, larger than any bound. Its top is aligned as a call needs it; above it is what a caller puts there, the seventh argument.
enum { STACK_BYTES = 256 * 1024, ARGUMENTS = 7 };
static struct {
    unsigned char bytes[STACK_BYTES];
    uint64_t seventh;
} painted __attribute__((aligned(16)));

// Whatever byte a call writes, it differs from one of the two.
static const unsigned char paints[] = {0xA5, 0x5A};

// Makes a call on the painted stack. Arguments that it does not have are not looked at.
static uint64_t call_there(function made, const uint64_t *argument) {
    register uint64_t fifth __asm__("r8") = argument[4], sixth __asm__("r9") = argument[5];
    uint64_t answer, first = argument[0], second = argument[1], third = argument[2], fourth = argument[3];
    painted.seventh = argument[6];
    __asm__ volatile("movq %%rsp, %%rbx\n\t"
                     "movq %[top], %%rsp\n\t"
                     "callq *%[made]\n\t"
                     "movq %%rbx, %%rsp"
                     : "=a"(answer), "+D"(first), "+S"(second), "+d"(third), "+c"(fourth), "+r"(fifth), "+r"(sixth)
                     : [made] "r"(made), [top] "r"(&painted.seventh)
                     : "rbx", "r10", "r11", "xmm0", "xmm1", "xmm2", "xmm3", "xmm4", "xmm5", "xmm6", "xmm7", "xmm8", "xmm9", "xmm10", "xmm11",
                     "xmm12", "xmm13", "xmm14", "xmm15", "cc", "memory");
    return answer;
}

// The bytes from the top down to the lowest that is no longer paint: the return address is the first 8 of them.
static size_t depth(unsigned char paint) {
    size_t lowest = 0;
    while (lowest < STACK_BYTES && painted.bytes[lowest] == paint) lowest++;
    return STACK_BYTES - lowest;
}

#define AT(words) ((uint64_t)(words))

static uint64_t answer_of(enum call call, const struct input *in) {
    const struct row *first = in->row_is_second ? &in->other : &in->row, *second = in->row_is_second ? &in->row : &in->other;
    const uint64_t arguments[CALLS][ARGUMENTS] = {
        [OPEN] = {in->n, AT(in->study), in->study_length},
        [ADD] = {AT(in->study), in->study_length, in->fresh, AT(in->row.at), in->row.length},
        [WITHDRAW] = {AT(in->study), in->study_length, in->taken},
        [REPORT] = {AT(in->study), in->study_length, in->p, AT(in->out.at), in->out.length, AT(in->support.at), in->support.length},
        [JUDGE] = {in->n, AT(in->row.at), in->row.length},
        [RENUMBER] = {in->n, AT(in->row.at), in->row.length, AT(in->out.at), in->out.length},
        [COMPARE] = {in->n, AT(first->at), first->length, AT(second->at), second->length},
        [READ] = {in->n, AT(in->text.at), in->text.length, AT(in->out.at), in->out.length},
        [WRITE] = {in->n, AT(in->row.at), in->row.length, AT(in->written.at), in->written.length},
        [WRITE_SUPPORTS] = {in->n, AT(in->row.at), in->row.length, AT(in->support.at), in->support.length, AT(in->written.at), in->written.length},
    };
    return call_there(calls[call].made, arguments[call]);
}

// How deep a call goes on a copy of this input.
static size_t depth_of(enum call call, const struct input *given, unsigned number, unsigned char paint) {
    static struct input in;
    in = *given;
    memset(painted.bytes, paint, STACK_BYTES);
    uint64_t answer = answer_of(call, &in);
    if (ARB_NUMBER(answer) != number) fail(call, given, number, answer);
    size_t bytes = depth(paint);
    if (bytes < STACK_BYTES) return bytes;
    printf("failed: %s took the whole painted stack\n", calls[call].name);
    failures++;
    return bytes;
}

// The first call does not count: it may be the one in which the dynamic linker looks for memcpy or memset, on the same stack.
static void measure(enum call call, const struct input *in, unsigned number) {
    depth_of(call, in, number, paints[0]);
    for (size_t i = 0; i < COUNT(paints); i++) {
        size_t bytes = depth_of(call, in, number, paints[i]);
        if (bytes > deepest[call]) deepest[call] = bytes;
    }
}

static uint16_t root_of(size_t n, const uint16_t *row) {
    uint16_t v = n;
    while (row[1 + v] != ARB_ROOT_MARK) v++;
    return v;
}

// All children of v go to the root.
static void leave_no_child(uint16_t v, uint16_t root, uint16_t *row) {
    for (uint16_t u = 0; u < row[0]; u++)
        if (row[1 + u] == v) row[1 + u] = root;
}

static void change_row(enum part part, size_t n, uint16_t *row) {
    uint16_t root = root_of(n, row), inner = root == n ? n + 1 : n, last = row[0] - 1;
    if (part == NODES) row[0] = 2 * n;
    if (part == PARENT) row[1 + last] = 0;
    if (part == ROOT) row[1 + root] = root;
    if (part == FILLER) row[2 * n - 1] = 1;
    if (part == LOST) row[1 + inner] = inner;
    if (part == CHILDREN) leave_no_child(inner, root, row);
}

static void put(const char *bytes, struct text *t) {
    while (*bytes) t->at[t->length++] = *bytes++;
}

static size_t brackets(const struct text *t) {
    size_t found = 0;
    for (size_t i = 0; i < t->length; i++) found += t->at[i] == '(';
    return found;
}

// Puts a pair around the tree of a text.
static void put_around(struct text *t) {
    for (size_t i = t->length; i > 0; i--) t->at[i] = t->at[i - 1];
    t->at[0] = '(';
    t->at[t->length] = ')';
    t->length++;
    put(";", t);
}

// Sample 0 stands behind the first brackets. It gives way to a 0 byte, or to another 1.
static void change_text(enum part part, struct text *t) {
    size_t first = 0;
    while (t->at[first] == '(') first++;
    if (part == TEXT_BYTE) t->at[first] = 0;
    if (part == TEXT_END) t->length--;
    if (part == TEXT_SAMPLE) t->at[first] = '1';
    if (part == TEXT_PAIR) put_around(t);
}

static void make_change(const struct change *c, struct input *in) {
    size_t n = in->n, k = in->study[RUNS_AT];
    switch (c->part) {
    case NOTHING: break;
    case N: in->n = c->to; break;
    case P: in->p = c->to; break;
    case STUDY_MARK: in->study[0]++; break;
    case STUDY_ROW: in->study[ARB_STUDY_WORDS(n, k - 1) + 1] = 0; break;
    case STUDY_END: in->study[in->study_length - 1] = 1; break;
    case STUDY_SHORT: in->study_length = ARB_STUDY_WORDS(n, 1) - 1; break;
    case STUDY_FULL: in->study_length = ARB_STUDY_WORDS(n, k); break;
    case ROW_LENGTH: in->row.length--; break;
    case OUT_LENGTH: in->out.length--; break;
    case SUPPORT_LENGTH: in->support.length--; break;
    case NO_IDENTIFIER: in->fresh = in->taken = 0; break;
    case IDENTIFIER_TAKEN: in->fresh = in->taken; break;
    case IDENTIFIER_ABSENT: in->taken = in->fresh; break;
    case ROOM: in->written.length = TOO_SHORT; break;
    case TEXT_BYTE: case TEXT_END: case TEXT_SAMPLE: case TEXT_PAIR: change_text(c->part, &in->text); break;
    default: change_row(c->part, n, in->row.at);
    }
}

static int has(const struct input *in, enum need need) {
    size_t m = in->row.at[0], k = in->study[RUNS_AT];
    switch (need) {
    case ANY: return 1;
    case RUNS: return k > 0;
    case NO_RUNS: return k == 0;
    case FILLING: return m < 2 * in->n - 1;
    case INNER: return m > in->n + 1;
    case SHALLOW: return brackets(&in->text) < MOST_OPEN;
    }
    return 0;
}

static void try_change(size_t i, const struct input *in_order) {
    static struct input in;
    const struct change *c = &changes[i];
    if (!has(in_order, c->need)) return;
    in = *in_order;
    make_change(c, &in);
    for (int call = 0; call < CALLS; call++)
        if (c->calls & IN(call)) measure(call, &in, c->number);
    in.row_is_second = 1;
    if (c->calls & IN(COMPARE)) measure(COMPARE, &in, c->number);
    was_tried[i] = 1;
}

static uint64_t dice = 88172645463325252;
static size_t below(size_t bound) {
    dice ^= dice << 13;
    dice ^= dice >> 7;
    dice ^= dice << 17;
    return dice % bound;
}

// Two subtrees at a time are joined under a new node, until one is left; a caterpillar's first is what was joined last.
static uint16_t join_all(enum shape shape, size_t n, uint16_t *parents) {
    uint16_t tops[ARB_MOST_SAMPLES], m = n;
    for (size_t s = 0; s < n; s++) tops[s] = s;
    for (size_t open = n; open > 1;) {
        size_t a = shape == CATERPILLAR ? 0 : below(open), b = below(open - 1);
        if (b >= a) b++;
        parents[tops[a]] = parents[tops[b]] = m;
        tops[a] = m++;
        tops[b] = tops[--open];
    }
    return m;
}

static uint16_t put_under_root(size_t n, uint16_t *parents) {
    for (size_t s = 0; s < n; s++) parents[s] = n;
    return n + 1;
}

static uint16_t put_chain(size_t n, uint16_t *parents) {
    uint16_t root = 2 * n - 2;
    parents[0] = n;
    for (size_t s = 1; s < n; s++) parents[s] = root;
    for (size_t v = n; v < root; v++) parents[v] = v + 1;
    return root + 1;
}

static uint16_t draw_parents(enum shape shape, size_t n, uint16_t *parents) {
    switch (shape) {
    case BUSH: return put_under_root(n, parents);
    case CHAIN: return put_chain(n, parents);
    default: return join_all(shape, n, parents);
    }
}

// Inner nodes change their numbers with one another.
static void shuffle(size_t n, uint16_t *row) {
    uint16_t number[ROW_ROOM], old[ROW_ROOM];
    for (size_t v = 0; v < row[0]; v++) number[v] = v;
    for (size_t v = n; v < row[0]; v++) {
        size_t u = n + below(v - n + 1);
        number[v] = number[u];
        number[u] = v;
    }
    memcpy(old, row, sizeof old);
    for (size_t v = 0; v < row[0]; v++) row[1 + number[v]] = old[1 + v] == ARB_ROOT_MARK ? ARB_ROOT_MARK : number[old[1 + v]];
}

static void draw(const struct tree *tree, size_t n, struct row *row) {
    memset(row, 0, sizeof *row);
    row->length = ARB_ROW_WORDS(n);
    row->at[0] = draw_parents(tree->shape, n, row->at + 1);
    row->at[row->at[0]] = ARB_ROOT_MARK;
    if (tree->numbers == SHUFFLED) shuffle(n, row->at);
}

// Room for one run more than there are. Runs have the input's row, or in the other turns a tree of their own, and every other identifier.
static void fill_study(const struct tree *tree, size_t k, struct input *in) {
    struct row own;
    in->study_length = ARB_STUDY_WORDS(in->n, k + 1);
    uint64_t answers = arb_open(in->n, in->study, in->study_length);
    for (size_t j = 0; j < k; j++) {
        draw(tree, in->n, &own);
        const struct row *row = j % TURNS < COMMON_TURNS ? &in->row : &own;
        answers |= arb_add(in->study, in->study_length, in->taken + 2 * j, row->at, row->length);
    }
    if (!ARB_ACCEPTED(answers)) fail(ADD, in, 0, answers);
}

// The text of the input's row, with the largest supports.
static void write_text(struct input *in) {
    memset(in->support.at, 255, sizeof in->support.at);
    uint64_t answer = arb_write_newick_supports(in->n, in->row.at, in->row.length, in->support.at, in->support.length, in->text.at, TEXT_ROOM);
    if (!ARB_ACCEPTED(answer)) fail(WRITE_SUPPORTS, in, 0, answer);
    in->text.length = ARB_LENGTH(answer);
}

static void try_input(const struct size *size, const struct tree *tree) {
    static struct input in;
    memset(&in, 0, sizeof in);
    in.n = size->n;
    in.taken = 2;
    in.fresh = in.taken + 1;
    in.out.length = in.support.length = ARB_ROW_WORDS(in.n);
    in.written.length = ARB_TEXT_BYTES(in.n);
    draw(tree, in.n, &in.row);
    draw(tree, in.n, &in.other);
    fill_study(tree, size->k, &in);
    write_text(&in);
    for (size_t i = 0; i < COUNT(changes); i++) try_change(i, &in);
}

// The deepest texts: pairs that hold one subtree each, around two samples; and caterpillars that go deeper at the first subtree of each pair, or at
// the last. They are bare, or have blanks, supports and lengths wherever these may stand; and they are whole, end early behind the deepest sample, or
// have a 0 byte there.
enum deep { SINGLES, AT_FIRST, AT_LAST, DEEPS };
enum end { WHOLE, EARLY, SPOILT, ENDS };
static const struct dress {
    const char *blank, *support, *length;
} dresses[] = {{"", "", ""}, {" ", "65535", " : 1.25 "}};

static void put_sample(size_t s, const struct dress *dress, struct text *t) {
    char digits[] = {s / 100 + '0', s / 10 % 10 + '0', s % 10 + '0', 0};
    put(dress->blank, t);
    put(digits + (s < 10 ? 2 : s < 100 ? 1 : 0), t);
    put(dress->length, t);
}

// The innermost pair has samples 0 and 1, but the last two of a caterpillar that goes deeper at the last subtree. Answers where its first sample ends.
static size_t put_deep(enum deep deep, size_t pairs, const struct dress *dress, struct text *t) {
    size_t deepest;
    for (size_t i = 0; i < pairs; i++) {
        put(dress->blank, t);
        put("(", t);
        if (deep == AT_LAST && i < pairs - 1) put_sample(i, dress, t), put(",", t);
    }
    size_t sample = deep == AT_LAST ? pairs - 1 : 0;
    put_sample(sample, dress, t);
    deepest = t->length;
    for (size_t i = 0; i < pairs; i++) {
        if (i == 0 || deep == AT_FIRST) put(",", t), put_sample(++sample, dress, t);
        put(")", t);
        put(dress->support, t);
        put(dress->length, t);
    }
    put(";", t);
    put(dress->blank, t);
    return deepest;
}

static void try_deep(enum deep deep, size_t pairs, const struct dress *dress, enum end end) {
    static struct input in;
    unsigned number = pairs > MOST_OPEN || end != WHOLE ? ARB_REFUSAL_FORM : 0;
    memset(&in, 0, sizeof in);
    in.n = deep == SINGLES ? ARB_FEWEST_SAMPLES : pairs + 1;
    in.out.length = ARB_ROW_WORDS(in.n);
    size_t deepest = put_deep(deep, pairs, dress, &in.text);
    if (end == EARLY) in.text.length = deepest;
    if (end == SPOILT) in.text.at[deepest] = 0;
    measure(READ, &in, number);
}

static void try_deep_texts(void) {
    for (size_t i = 0; i < COUNT(dresses); i++) {
        for (int deep = 0; deep < DEEPS; deep++)
            for (int end = 0; end < ENDS; end++) try_deep(deep, MOST_OPEN, &dresses[i], end);
        try_deep(SINGLES, MOST_OPEN + 1, &dresses[i], WHOLE);
    }
}

int main(void) {
    for (size_t i = 0; i < COUNT(sizes); i++)
        for (size_t j = 0; j < COUNT(trees); j++) try_input(&sizes[i], &trees[j]);
    try_deep_texts();
    for (size_t i = 0; i < COUNT(changes); i++) {
        if (was_tried[i]) continue;
        printf("failed: no input was right for change %u\n", (unsigned)i);
        failures++;
    }
    for (int call = 0; call < CALLS; call++) printf("%s %u\n", calls[call].name, (unsigned)deepest[call]);
    return failures != 0;
}
