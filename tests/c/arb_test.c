// Makes every call of include/arb.h on the specimens of docs/RULES.md (section 10), on each refusal that the call can give, and at the
// bounds of n, of runs and of lengths. Expected words and bytes follow the rules alone, by hand. The last line is 'N passed, M failed'; the
// status is 0 only if M is 0 and N is not.
#include "rows.h"
#include "texts.h"
#include "trials.h"
#include "wide.h"

enum { ROOM = 48, LENT_WORDS = GUARD + ROOM + GUARD, BUFFERS = 3 };

// The words of a buffer; those that are not given are 0.
struct words {
    size_t length;
    uint16_t at[ROOM];
};

enum call { OPEN, ADD, WITHDRAW, REPORT, JUDGE, RENUMBER, COMPARE };

// A call: x is n, the identifier or p; `lent` has its buffers in the order in which it takes them, `left` what they hold afterwards. A buffer
// that `left` does not give has to stay as it was.
struct example {
    const char *name;
    enum call call;
    size_t x;
    uint64_t answer;
    struct words lent[BUFFERS], left[BUFFERS];
};

#define OLD_6 9, 9, 9, 9, 9, 9
#define OLD_8 OLD_6, 9, 9
#define OLD_10 OLD_6, 9, 9, 9, 9
#define HEADER(n, k) 65, 82, 66, 1, n, k, 0, 0

// A study of 5 samples with room for three runs, and one of 3 samples with room for two.
#define STUDY_5(...) {ARB_STUDY_WORDS(5, 3), {__VA_ARGS__}}
#define STUDY_3(...) {ARB_STUDY_WORDS(3, 2), {__VA_ARGS__}}
#define ROW_5(...) {ARB_ROW_WORDS(5), {__VA_ARGS__}}
#define ROW_3(...) {ARB_ROW_WORDS(3), {__VA_ARGS__}}
#define ROW_4(...) {ARB_ROW_WORDS(4), {__VA_ARGS__}}
#define STUDY_4(...) {ARB_STUDY_WORDS(4, 2), {__VA_ARGS__}}
#define NONE {0, {0}}

#define CASE_0 STUDY_5(HEADER(5, 0))
#define CASE_1 STUDY_5(HEADER(5, 1), 1, RUN_1)
#define CASE_2 STUDY_5(HEADER(5, 2), 1, RUN_1, 2, RUN_2)
#define CASE_3 STUDY_5(HEADER(5, 3), 1, RUN_1, 2, RUN_2, 3, RUN_3)
#define CASE_WITHOUT_2 STUDY_5(HEADER(5, 2), 1, RUN_1, 3, RUN_3)

// Four runs of 3 samples, of which the last three hold {0,1}.
#define THREE_OF_FOUR {ARB_STUDY_WORDS(3, 4), {HEADER(3, 4), 1, WITH_02, 2, WITH_01, 3, WITH_01, 4, WITH_01}}

static const struct example accepted[] = {
    {"the case is opened over old words", OPEN, 5, ACCEPTED, {STUDY_5(OLD_10, OLD_10, OLD_10, OLD_10, 9)}, {CASE_0}},
    {"room for one run is enough", OPEN, 2, ACCEPTED, {{13, {OLD_10, 9, 9, 9}}}, {{13, {HEADER(2, 0)}}}},
    {"run 1 is added", ADD, 1, ACCEPTED, {CASE_0, ROW_5(RUN_1)}, {CASE_1}},
    {"run 2 is added, in another numbering", ADD, 2, ACCEPTED, {CASE_1, ROW_5(RUN_2_OTHERWISE)}, {CASE_2}},
    {"run 3 is added", ADD, 3, ACCEPTED, {CASE_2, ROW_5(RUN_3)}, {CASE_3}},
    {"the case is reported", REPORT, 0, ACCEPTED, {CASE_3, ROW_5(OLD_10), ROW_5(OLD_10)}, {NONE, ROW_5(AGREED), ROW_5(SUPPORT)}},
    {"the case is reported at 50", REPORT, 50, ACCEPTED, {CASE_3, ROW_5(OLD_10), ROW_5(OLD_10)}, {NONE, ROW_5(AGREED), ROW_5(SUPPORT)}},
    {"the case is reported at 66", REPORT, 66, ACCEPTED, {CASE_3, ROW_5(OLD_10), ROW_5(OLD_10)}, {NONE, ROW_5(AGREED), ROW_5(SUPPORT)}},
    {"the case is reported at 67", REPORT, 67, ACCEPTED, {CASE_3, ROW_5(OLD_10), ROW_5(OLD_10)},
        {NONE, ROW_5(AGREED_BY_ALL), ROW_5(SUPPORT_BY_ALL)}},
    {"the case is reported at 100", REPORT, 100, ACCEPTED, {CASE_3, ROW_5(OLD_10), ROW_5(OLD_10)},
        {NONE, ROW_5(AGREED_BY_ALL), ROW_5(SUPPORT_BY_ALL)}},
    {"run 2 is withdrawn", WITHDRAW, 2, ACCEPTED, {CASE_3}, {CASE_WITHOUT_2}},
    {"run 2 is added in its old room", ADD, 2, ACCEPTED, {CASE_WITHOUT_2, ROW_5(RUN_2)}, {CASE_3}},
    {"the last run is withdrawn", WITHDRAW, 1, ACCEPTED, {CASE_1}, {CASE_0}},
    {"an identifier is added again with another tree", ADD, 1, ACCEPTED, {CASE_0, ROW_5(RUN_3)}, {STUDY_5(HEADER(5, 1), 1, RUN_3)}},
    {"identifier 65535 is added", ADD, 65535, ACCEPTED, {{13, {HEADER(2, 0)}}, {4, {ONLY_OF_2}}}, {{13, {HEADER(2, 1), 65535, ONLY_OF_2}}}},
    {"identifier 65535 is withdrawn", WITHDRAW, 65535, ACCEPTED, {{13, {HEADER(2, 1), 65535, ONLY_OF_2}}}, {{13, {HEADER(2, 0)}}}},
    {"the last room is taken", ADD, 7, ACCEPTED, {STUDY_3(HEADER(3, 1), 6, WITH_01), ROW_3(WITH_02)}, {STUDY_3(HEADER(3, 2), 6, WITH_01, 7, WITH_02)}},
    {"a longer buffer has more room", ADD, 7, ACCEPTED, {{29, {HEADER(3, 2), 5, WITH_02, 6, WITH_01}}, ROW_3(WITH_01)},
        {{29, {HEADER(3, 3), 5, WITH_02, 6, WITH_01, 7, WITH_01}}}},
    {"one run is reported itself", REPORT, 0, ACCEPTED, {CASE_1, ROW_5(OLD_10), ROW_5(OLD_10)}, {NONE, ROW_5(RUN_1), ROW_5(1, 1, 1, 1, 1, 1, 1, 1, 1, 0)}},
    {"two halves are reported as neither", REPORT, 0, ACCEPTED, {STUDY_3(HEADER(3, 2), 1, WITH_01, 2, WITH_02), ROW_3(OLD_6), ROW_3(OLD_6)},
        {NONE, ROW_3(BARE_3), ROW_3(2, 2, 2, 2, 2, 0)}},
    {"one run is reported itself at 100", REPORT, 100, ACCEPTED, {CASE_1, ROW_5(OLD_10), ROW_5(OLD_10)},
        {NONE, ROW_5(RUN_1), ROW_5(1, 1, 1, 1, 1, 1, 1, 1, 1, 0)}},
    {"three of four are more than 74", REPORT, 74, ACCEPTED, {THREE_OF_FOUR, ROW_3(OLD_6), ROW_3(OLD_6)},
        {NONE, ROW_3(WITH_01), ROW_3(4, 4, 4, 4, 4, 3)}},
    {"three of four are no more than 75", REPORT, 75, ACCEPTED, {THREE_OF_FOUR, ROW_3(OLD_6), ROW_3(OLD_6)},
        {NONE, ROW_3(BARE_3), ROW_3(4, 4, 4, 4, 4, 0)}},
    {"the only tree of 2 is valid", JUDGE, 2, ACCEPTED, {{4, {ONLY_OF_2}}}},
    {"a tree of 3 is valid", JUDGE, 3, ACCEPTED, {ROW_3(WITH_01)}},
    {"it is valid in another numbering", JUDGE, 3, ACCEPTED, {ROW_3(WITH_01_OTHERWISE)}},
    {"filler 0 is valid", JUDGE, 3, ACCEPTED, {ROW_3(BARE_3)}},
    {"another numbering is renumbered", RENUMBER, 3, ACCEPTED, {ROW_3(WITH_01_OTHERWISE), ROW_3(OLD_6)}, {NONE, ROW_3(WITH_01)}},
    {"run 2 is renumbered", RENUMBER, 5, ACCEPTED, {ROW_5(RUN_2_OTHERWISE), ROW_5(OLD_10)}, {NONE, ROW_5(RUN_2)}},
    {"a standard row is renumbered to itself", RENUMBER, 5, ACCEPTED, {ROW_5(RUN_3), ROW_5(OLD_10)}, {NONE, ROW_5(RUN_3)}},
    {"runs 1 and 2 are compared", COMPARE, 5, COUNTED(1, 1, 1), {ROW_5(RUN_1), ROW_5(RUN_2)}},
    {"runs 2 and 1 are compared, in another numbering", COMPARE, 5, COUNTED(1, 1, 1), {ROW_5(RUN_2_OTHERWISE), ROW_5(RUN_1)}},
    {"runs 1 and 3 are compared", COMPARE, 5, COUNTED(1, 1, 2), {ROW_5(RUN_1), ROW_5(RUN_3)}},
    {"runs 3 and 1 are compared", COMPARE, 5, COUNTED(1, 2, 1), {ROW_5(RUN_3), ROW_5(RUN_1)}},
    {"run 3, with a group of four of five samples, is compared with itself", COMPARE, 5, COUNTED(3, 0, 0), {ROW_5(RUN_3), ROW_5(RUN_3)}},
    {"run 3 is compared with the bare tree", COMPARE, 5, COUNTED(0, 3, 0), {ROW_5(RUN_3), ROW_5(AGREED_BY_ALL)}},
    {"a tree is compared with itself", COMPARE, 3, COUNTED(1, 0, 0), {ROW_3(WITH_01), ROW_3(WITH_01_OTHERWISE)}},
    {"trees that agree on nothing are compared", COMPARE, 3, COUNTED(0, 1, 1), {ROW_3(WITH_01), ROW_3(WITH_02)}},
    {"the bare tree is compared with another", COMPARE, 3, COUNTED(0, 0, 1), {ROW_3(BARE_3), ROW_3(WITH_01)}},
    {"the bare tree is compared with itself", COMPARE, 3, COUNTED(0, 0, 0), {ROW_3(BARE_3), ROW_3(BARE_3)}},
    {"the only tree of 2 is compared with itself", COMPARE, 2, COUNTED(0, 0, 0), {{4, {ONLY_OF_2}}, {4, {ONLY_OF_2}}}},

    {"a node above one sample is valid", JUDGE, 3, ACCEPTED, {ROW_3(BRANCH_0)}},
    {"a chain at the root is valid", JUDGE, 3, ACCEPTED, {ROW_3(CHAIN_ROOT)}},
    {"a chain in the middle is valid", JUDGE, 4, ACCEPTED, {ROW_4(CHAIN_01)}},
    {"two nodes above one sample are valid", JUDGE, 4, ACCEPTED, {ROW_4(7, 6, 4, 4, 4, ROOT, 4, 5)}},
    {"a node above one sample is taken out", RENUMBER, 3, ACCEPTED, {ROW_3(BRANCH_0), ROW_3(OLD_6)}, {NONE, ROW_3(BARE_3)}},
    {"a chain at the root is taken out", RENUMBER, 3, ACCEPTED, {ROW_3(CHAIN_ROOT), ROW_3(OLD_6)}, {NONE, ROW_3(BARE_3)}},
    {"a chain in the middle is taken out", RENUMBER, 4, ACCEPTED, {ROW_4(CHAIN_01), ROW_4(OLD_8)}, {NONE, ROW_4(WITH_01_OF_4)}},
    {"two nodes above one sample are taken out", RENUMBER, 4, ACCEPTED, {ROW_4(7, 6, 4, 4, 4, ROOT, 4, 5), ROW_4(OLD_8)},
        {NONE, ROW_4(5, 4, 4, 4, 4, ROOT, 0, 0)}},
    {"a chain is compared with what it becomes", COMPARE, 4, COUNTED(1, 0, 0), {ROW_4(CHAIN_01), ROW_4(WITH_01_OF_4)}},
    {"it is compared with a chain", COMPARE, 4, COUNTED(1, 0, 0), {ROW_4(WITH_01_OF_4), ROW_4(CHAIN_01)}},
    {"a chain is compared with the bare tree", COMPARE, 4, COUNTED(0, 1, 0), {ROW_4(CHAIN_01), ROW_4(5, 4, 4, 4, 4, ROOT, 0, 0)}},
    {"single branches add no group", COMPARE, 3, COUNTED(0, 0, 0), {ROW_3(BRANCH_0), ROW_3(CHAIN_ROOT)}},
    {"a chain is added without its second node", ADD, 2, ACCEPTED, {STUDY_4(HEADER(4, 0)), ROW_4(CHAIN_01)}, {STUDY_4(HEADER(4, 1), 2, WITH_01_OF_4)}},
    {"the same tree without the chain is added as the same words", ADD, 1, ACCEPTED, {STUDY_4(HEADER(4, 1), 2, WITH_01_OF_4), ROW_4(WITH_01_OF_4)},
        {STUDY_4(HEADER(4, 2), 1, WITH_01_OF_4, 2, WITH_01_OF_4)}},
    {"a node above one sample is added without it", ADD, 7, ACCEPTED, {STUDY_3(HEADER(3, 1), 6, WITH_01), ROW_3(BRANCH_0)},
        {STUDY_3(HEADER(3, 2), 6, WITH_01, 7, BARE_3)}},
};

static const struct example refused[] = {
    {"open: n is 0", OPEN, 0, REFUSED(1, 0), {STUDY_3(OLD_10)}},
    {"open: n is 1, and no room", OPEN, 1, REFUSED(1, 0), {NONE}},
    {"open: n is 513", OPEN, 513, REFUSED(1, 0), {STUDY_3(OLD_10)}},
    {"open: n is the largest size_t", OPEN, (size_t)-1, REFUSED(1, 0), {STUDY_3(OLD_10)}},
    {"open: a word too few for one run", OPEN, 3, REFUSED(3, 0), {{14, {OLD_10, 9, 9, 9, 9}}}},
    {"open: no words", OPEN, 512, REFUSED(3, 0), {NONE}},

    {"add: another mark, and all else wrong", ADD, 0, REFUSED(2, 0), {STUDY_3(66, 82, 66, 1, 3), {5, {OLD_6}}}},
    {"add: no study", ADD, 1, REFUSED(2, 0), {NONE, ROW_3(WITH_01)}},
    {"add: a row of 2n - 1 words, and identifier 0", ADD, 0, REFUSED(3, 0), {STUDY_3(HEADER(3, 0)), {5, {WITH_01}}}},
    {"add: a row of 2n + 1 words", ADD, 1, REFUSED(3, 0), {STUDY_3(HEADER(3, 0)), {7, {WITH_01}}}},
    {"add: identifier 0, and a bad row", ADD, 0, REFUSED(4, 0), {STUDY_3(HEADER(3, 0)), ROW_3(NO_CHILD)}},
    {"add: a bad row, and an identifier in force", ADD, 6, REFUSED(10, 4), {STUDY_3(HEADER(3, 1), 6, WITH_01), ROW_3(NO_CHILD)}},
    {"add: an identifier in force", ADD, 6, REFUSED(11, 0), {STUDY_3(HEADER(3, 1), 6, WITH_01), ROW_3(WITH_02)}},
    {"add: an identifier in force, and no room", ADD, 6, REFUSED(11, 0), {STUDY_3(HEADER(3, 2), 5, WITH_02, 6, WITH_01), ROW_3(WITH_02)}},
    {"add: a stored node above one sample", ADD, 7, REFUSED(2, 0), {STUDY_3(HEADER(3, 1), 6, BRANCH_0), ROW_3(WITH_02)}},
    {"add: a single branch, and an identifier in force", ADD, 6, REFUSED(11, 0), {STUDY_3(HEADER(3, 1), 6, WITH_01), ROW_3(BRANCH_0)}},
    {"add: no room", ADD, 7, REFUSED(12, 0), {STUDY_3(HEADER(3, 2), 5, WITH_02, 6, WITH_01), ROW_3(WITH_02)}},
    {"add: a word too few for a second run", ADD, 7, REFUSED(12, 0), {{21, {HEADER(3, 1), 6, WITH_01}}, ROW_3(WITH_02)}},

    {"withdraw: a word after the last slot, and identifier 0", WITHDRAW, 0, REFUSED(2, 0), {STUDY_3(HEADER(3, 1), 6, WITH_01, 1)}},
    {"withdraw: a row in another numbering", WITHDRAW, 6, REFUSED(2, 0), {STUDY_3(HEADER(3, 1), 6, WITH_01_OTHERWISE)}},
    {"withdraw: a stored node above one sample", WITHDRAW, 6, REFUSED(2, 0), {STUDY_3(HEADER(3, 1), 6, BRANCH_0)}},
    {"withdraw: a stored chain", WITHDRAW, 6, REFUSED(2, 0), {STUDY_3(HEADER(3, 1), 6, CHAIN_ROOT)}},
    {"withdraw: identifier 0", WITHDRAW, 0, REFUSED(4, 0), {STUDY_3(HEADER(3, 1), 6, WITH_01)}},
    {"withdraw: an identifier not in force", WITHDRAW, 7, REFUSED(13, 0), {STUDY_3(HEADER(3, 1), 6, WITH_01)}},
    {"withdraw: no run in force", WITHDRAW, 6, REFUSED(13, 0), {STUDY_3(HEADER(3, 0))}},

    {"report: another version, and short outputs", REPORT, 0, REFUSED(2, 0), {STUDY_3(65, 82, 66, 2, 3), NONE, NONE}},
    {"report: a short agreed row, and k is 0", REPORT, 0, REFUSED(3, 0), {STUDY_3(HEADER(3, 0)), {5, {OLD_6}}, ROW_3(OLD_6)}},
    {"report: a long support row", REPORT, 0, REFUSED(3, 0), {STUDY_3(HEADER(3, 1), 6, WITH_01), ROW_3(OLD_6), {7, {OLD_6, 9}}}},
    {"report: a stored node above one sample", REPORT, 0, REFUSED(2, 0), {STUDY_3(HEADER(3, 1), 6, BRANCH_0), ROW_3(OLD_6), ROW_3(OLD_6)}},
    {"report: k is 0", REPORT, 0, REFUSED(14, 0), {STUDY_3(HEADER(3, 0)), ROW_3(OLD_6), ROW_3(OLD_6)}},
    {"report: another version, and p is 49", REPORT, 49, REFUSED(2, 0), {STUDY_3(65, 82, 66, 2, 3), ROW_3(OLD_6), ROW_3(OLD_6)}},
    {"report: a short support row, and p is 49", REPORT, 49, REFUSED(3, 0), {STUDY_3(HEADER(3, 0)), ROW_3(OLD_6), {5, {OLD_6}}}},
    {"report: p is 49, and k is 0", REPORT, 49, REFUSED(16, 0), {STUDY_3(HEADER(3, 0)), ROW_3(OLD_6), ROW_3(OLD_6)}},
    {"report: k is 0, at 100", REPORT, 100, REFUSED(14, 0), {STUDY_3(HEADER(3, 0)), ROW_3(OLD_6), ROW_3(OLD_6)}},

    {"judge: n is 1, and no row", JUDGE, 1, REFUSED(1, 0), {NONE}},
    {"judge: n is 513", JUDGE, 513, REFUSED(1, 0), {ROW_3(WITH_01)}},
    {"judge: a single branch too many, 2n nodes", JUDGE, 4, REFUSED(5, 0), {ROW_4(8, 6, 6, 4, 4, 7, 4, 5)}},
    {"judge: a chain, and a node without a child", JUDGE, 4, REFUSED(10, 6), {ROW_4(7, 5, 5, 5, 5, ROOT, 4, 5)}},
    {"judge: a row of 2n - 1 words", JUDGE, 3, REFUSED(3, 0), {{5, {NO_CHILD}}}},
    {"judge: a row of 2n + 1 words", JUDGE, 3, REFUSED(3, 0), {{7, {WITH_01}}}},

    {"renumber: n is 1", RENUMBER, 1, REFUSED(1, 0), {ROW_3(WITH_01), NONE}},
    {"renumber: n is 513", RENUMBER, 513, REFUSED(1, 0), {ROW_3(WITH_01), ROW_3(OLD_6)}},
    {"renumber: a short row", RENUMBER, 3, REFUSED(3, 0), {{5, {NO_CHILD}}, ROW_3(OLD_6)}},
    {"renumber: a long output, and a bad row", RENUMBER, 3, REFUSED(3, 0), {ROW_3(NO_CHILD), {7, {OLD_6, 9}}}},

    {"compare: n is 1", COMPARE, 1, REFUSED(1, 0), {ROW_3(WITH_01), NONE}},
    {"compare: n is 513", COMPARE, 513, REFUSED(1, 0), {ROW_3(WITH_01), ROW_3(WITH_02)}},
    {"compare: a short first row", COMPARE, 3, REFUSED(3, 0), {{5, {WITH_01}}, ROW_3(WITH_02)}},
    {"compare: a long second row, and a bad first", COMPARE, 3, REFUSED(3, 0), {ROW_3(NO_CHILD), {7, {WITH_02}}}},
    {"compare: two bad rows", COMPARE, 3, REFUSED(10, 4), {ROW_3(NO_CHILD), ROW_3(5, 2, 3, 3, ROOT, 3)}},
};

// Rows of 3 samples that are refused, with number and place.
static const struct bad_row {
    uint64_t number, place;
    struct words row;
} bad_rows[] = {
    {5, 0, ROW_3(3, 4, 4, 3, ROOT, 3)},
    {5, 0, ROW_3(6, 4, 4, 3, ROOT, 3)},
    {6, 0, ROW_3(5, 2, 3, 3, ROOT, 3)},
    {7, 0, ROW_3(5, 4, 4, 3, ROOT, ROOT)},
    {8, 5, ROW_3(4, 3, 3, 3, ROOT, 7)},
    {9, 0, ROW_3(5, 4, 3, 3, ROOT, 4)},
    {9, 2, ROW_3(5, 3, 3, 4, ROOT, 4)},
    {9, 3, ROW_3(5, 4, 4, 4, 3, ROOT)},
    {9, 4, ROW_3(5, 3, 3, 3, ROOT, 4)},
    {10, 3, ROW_3(5, 4, 4, 4, 4, ROOT)},
    {10, 4, ROW_3(NO_CHILD)},
};

// Thresholds that are refused (RULES 5.7); of some the low 8, 16 or 32 bits would be accepted.
static const struct bad_threshold {
    const char *name;
    size_t p;
} bad_thresholds[] = {
    {"report: p is 1", 1},
    {"report: p is 49", 49},
    {"report: p is 101", 101},
    {"report: p is 256 + 50", 256 + 50},
    {"report: p is 2^16 - 1", 65535},
    {"report: p is 2^16", 65536},
    {"report: p is 2^16 + 50", 65536 + 50},
    {"report: p is 2^32 + 50", 4294967296 + 50},
    {"report: p is the largest size_t", (size_t)-1},
};

// A buffer among guard words.
struct lent {
    uint16_t words[LENT_WORDS];
};

static void lend(struct lent *to, const struct words *from) {
    for (size_t i = 0; i < LENT_WORDS; i++) to->words[i] = GUARD_WORD;
    memcpy(to->words + GUARD, from->at, from->length * sizeof *from->at);
}

// Whether a buffer and its guards are as expected. A word before the buffer or after it is a guard.
static int same_words(int buffer, const struct lent *expected, const struct lent *came) {
    for (int i = 0; i < LENT_WORDS; i++) {
        if (came->words[i] == expected->words[i]) continue;
        printf("buffer %d, word %d: expected %u, came %u\n", buffer, i - GUARD, expected->words[i], came->words[i]);
        return 0;
    }
    return 1;
}

static uint64_t answer_of(const struct example *e, struct lent *lent) {
    uint16_t *a = lent[0].words + GUARD, *b = lent[1].words + GUARD, *c = lent[2].words + GUARD;
    size_t la = e->lent[0].length, lb = e->lent[1].length, lc = e->lent[2].length;
    switch (e->call) {
    case OPEN: return arb_open(e->x, a, la);
    case ADD: return arb_add(a, la, (uint16_t)e->x, b, lb);
    case WITHDRAW: return arb_withdraw(a, la, (uint16_t)e->x);
    case REPORT: return arb_report(a, la, e->x, b, lb, c, lc);
    case JUDGE: return arb_judge(e->x, a, la);
    case RENUMBER: return arb_renumber(e->x, a, la, b, lb);
    case COMPARE: return arb_compare(e->x, a, la, b, lb);
    }
    return ~(uint64_t)0;
}

static void test_example(const struct example *e) {
    struct lent lent[BUFFERS], expected[BUFFERS];
    for (int i = 0; i < BUFFERS; i++) {
        lend(&lent[i], &e->lent[i]);
        lend(&expected[i], e->left[i].length ? &e->left[i] : &e->lent[i]);
    }
    int is_right = same_answer(e->answer, answer_of(e, lent));
    for (int i = 0; i < BUFFERS; i++) is_right &= same_words(i, &expected[i], &lent[i]);
    check(e->name, is_right);
}

static void test_bad_row(const struct bad_row *bad) {
    static const struct words study = STUDY_3(HEADER(3, 1), 6, WITH_01), good = ROW_3(BARE_3), old = ROW_3(OLD_6);
    uint64_t answer = REFUSED(bad->number, bad->place), moved = REFUSED(bad->number, bad->place + 6);
    const struct example examples[] = {
        {"add: a bad row", ADD, 7, answer, {study, bad->row}},
        {"judge: a bad row", JUDGE, 3, answer, {bad->row}},
        {"renumber: a bad row", RENUMBER, 3, answer, {bad->row, old}},
        {"compare: a bad first row", COMPARE, 3, answer, {bad->row, good}},
        {"compare: a bad second row", COMPARE, 3, moved, {good, bad->row}},
    };
    for (size_t i = 0; i < COUNT(examples); i++) test_example(&examples[i]);
    check("write: a bad row", refuses_written(bad->row.at, answer));
}

static void test_bad_threshold(const struct bad_threshold *bad) {
    const struct example example = {bad->name, REPORT, bad->p, REFUSED(16, 0), {CASE_3, ROW_5(OLD_10), ROW_5(OLD_10)}};
    test_example(&example);
}

static void test_without_buffers(void) {
    check("open: NULL and no words", same_answer(3, arb_open(5, NULL, 0)));
    check("add: NULL and no words", same_answer(2, arb_add(NULL, 0, 1, NULL, 0)));
    check("withdraw: NULL and no words", same_answer(2, arb_withdraw(NULL, 0, 1)));
    check("report: NULL and no words", same_answer(2, arb_report(NULL, 0, 0, NULL, 0, NULL, 0)));
    check("judge: NULL and no words", same_answer(3, arb_judge(5, NULL, 0)));
    check("renumber: NULL and no words", same_answer(3, arb_renumber(5, NULL, 0, NULL, 0)));
    check("compare: NULL and no words", same_answer(3, arb_compare(5, NULL, 0, NULL, 0)));
}

// Whether the report at p of a study of 512 samples has this agreed row and supports of k, where `pair` runs hold {0,1}.
static int same_report(const uint16_t *study, size_t length, size_t p, const uint16_t *row, uint16_t k, uint16_t pair) {
    static uint16_t agreed[WIDE_ROW], support[WIDE_ROW], expected[WIDE_ROW];
    for (int i = 0; i < WIDE_ROW; i++) expected[i] = i <= 1 + WIDE ? k : 0;
    if (row[0] > WIDE + 1) expected[1 + WIDE + 1] = pair;
    return same_answer(ACCEPTED, arb_report(study, length, p, agreed, WIDE_ROW, support, WIDE_ROW)) && memcmp(agreed, row, sizeof agreed) == 0
        && memcmp(support, expected, sizeof support) == 0;
}

// 512 samples are taken (RULES 10.8).
static void test_most_samples(void) {
    static uint16_t study[ARB_STUDY_WORDS(WIDE, 1)];
    check("512 samples are taken", same_answer(ACCEPTED, arb_open(WIDE, study, COUNT(study))));
    check("their run is added", same_answer(ACCEPTED, arb_add(study, COUNT(study), ARB_MOST_IDENTIFIER, wide_rows[0], WIDE_ROW)));
    check("their run is reported itself, with support 1", same_report(study, COUNT(study), 0, wide_rows[0], 1, 0));
}

static void test_deepest(void) {
    static uint16_t out[WIDE_ROW];
    uint64_t answer = arb_renumber(WIDE, chain_up, WIDE_ROW, out, WIDE_ROW);
    check("the deepest tree is renumbered", same_answer(ACCEPTED, answer) && memcmp(out, chain_down, sizeof out) == 0);
    check("it is compared with itself", same_answer(COUNTED(END, 0, 0), arb_compare(WIDE, chain_down, WIDE_ROW, chain_up, WIDE_ROW)));
    check("it is compared with the bare tree", same_answer(COUNTED(0, END, 0), arb_compare(WIDE, chain_up, WIDE_ROW, wide_rows[0], WIDE_ROW)));
    check("{0,1} is compared with it", same_answer(COUNTED(1, 0, END - 1), arb_compare(WIDE, wide_rows[1], WIDE_ROW, chain_up, WIDE_ROW)));
}

// The longest chain above one sample, and the longest at the root: only the bare tree is left of them.
static void test_longest_chains(void) {
    static uint16_t chain[WIDE_ROW], out[WIDE_ROW];
    for (int below = 0; below <= 1; below++) {
        chain[0] = LAST + 1;
        for (int v = 0; v < WIDE; v++) chain[1 + v] = below ? LAST : WIDE;
        chain[1 + WIDE - 1] = LAST;
        for (int v = WIDE; v <= LAST; v++) chain[1 + v] = v == WIDE ? ROOT : v - 1;
        uint64_t answer = arb_renumber(WIDE, chain, WIDE_ROW, out, WIDE_ROW);
        check("the longest chain is valid", same_answer(ACCEPTED, arb_judge(WIDE, chain, WIDE_ROW)));
        check("the longest chain is taken out", same_answer(ACCEPTED, answer) && memcmp(out, wide_rows[0], sizeof out) == 0);
        check("the longest chain adds no group", same_answer(COUNTED(0, 0, 1), arb_compare(WIDE, chain, WIDE_ROW, wide_rows[1], WIDE_ROW)));
    }
}

// Whether every call that takes a row refuses this one, of 512 samples; comparing, in either place.
static int refuses_wide(uint64_t number, uint64_t place, const uint16_t *row) {
    static uint16_t study[ARB_STUDY_WORDS(WIDE, 1)], out[WIDE_ROW];
    uint64_t answer = REFUSED(number, place), moved = REFUSED(number, place + WIDE_ROW);
    return same_answer(ACCEPTED, arb_open(WIDE, study, COUNT(study))) && same_answer(answer, arb_add(study, COUNT(study), 1, row, WIDE_ROW))
        && same_answer(answer, arb_judge(WIDE, row, WIDE_ROW)) && same_answer(answer, arb_renumber(WIDE, row, WIDE_ROW, out, WIDE_ROW))
        && same_answer(answer, arb_compare(WIDE, row, WIDE_ROW, chain_up, WIDE_ROW))
        && same_answer(moved, arb_compare(WIDE, chain_up, WIDE_ROW, row, WIDE_ROW));
}

// The chain with its second node below the end; with the samples of the end moved up, so that the last node has no child; and then with
// that node below itself.
static void test_wrong_chains(void) {
    uint16_t row[WIDE_ROW];
    memcpy(row, chain_down, sizeof row);
    row[1 + WIDE + 1] = LAST;
    check("all inner nodes but the root are a ring", refuses_wide(9, 0, row));
    memcpy(row, chain_down, sizeof row);
    row[1 + 0] = row[1 + 1] = LAST - 1;
    check("the last of 1023 nodes has no child", refuses_wide(10, LAST, row));
    row[1 + LAST] = LAST;
    check("the last of 1023 nodes is lost", refuses_wide(9, LAST, row));
}

// n that 16 or 32 bits do not hold are refused with 1 (RULES 1.1), though what those bits leave of them fits the row.
static const struct large_n {
    const char *name;
    size_t n, words;
    const uint16_t *row;
} large_ns[] = {
    {"n is 2^16", 65536, 6, (const uint16_t[]){WITH_01}},
    {"n is 2^16 + 3", 65536 + 3, 6, (const uint16_t[]){WITH_01}},
    {"n is 2^16 + 512", 65536 + 512, WIDE_ROW, wide_rows[0]},
    {"n is 2^32 + 5", 4294967296 + 5, 10, (const uint16_t[]){RUN_1}},
};

static int refuses_samples(const char *call, uint64_t answer) {
    if (same_answer(REFUSED(1, 0), answer)) return 1;
    printf("in %s\n", call);
    return 0;
}

static void test_large_n(const struct large_n *l) {
    static uint16_t study[ARB_STUDY_WORDS(WIDE, 1)], out[WIDE_ROW];
    static const uint8_t tree[] = "((0,1),2);";
    uint8_t text[ARB_TEXT_BYTES(WIDE)] = {0};
    memset(study, 0, sizeof study);
    memset(out, 0, sizeof out);
    int is_right = refuses_samples("open", arb_open(l->n, study, COUNT(study)));
    is_right &= refuses_samples("judge", arb_judge(l->n, l->row, l->words));
    is_right &= refuses_samples("renumber", arb_renumber(l->n, l->row, l->words, out, l->words));
    is_right &= refuses_samples("compare", arb_compare(l->n, l->row, l->words, l->row, l->words));
    is_right &= refuses_samples("read", arb_read_newick(l->n, tree, sizeof tree - 1, out, l->words));
    is_right &= refuses_samples("write", arb_write_newick(l->n, l->row, l->words, text, sizeof text));
    is_right &= refuses_samples("write with supports", arb_write_newick_supports(l->n, l->row, l->words, l->row, l->words, text, sizeof text));
    check(l->name, is_right && study[0] == 0 && out[0] == 0 && text[0] == 0);
}

// Room for a study of more words than 16 bits can count, and for guard words after it.
enum { LONG = 70000 };
static uint16_t long_study[LONG + GUARD];

// Run number 1,025 is refused with 12, and taken after a withdrawal (RULES 10.9), however long the buffer is.
static void test_most_runs(size_t length) {
    static const uint16_t row[] = {ONLY_OF_2};
    uint64_t answers = arb_open(2, long_study, length);
    for (uint16_t id = 1; id <= ARB_MOST_RUNS; id++) answers |= arb_add(long_study, length, id, row, COUNT(row));
    check("1024 runs are taken", same_answer(ACCEPTED, answers) && long_study[5] == ARB_MOST_RUNS);
    check("the 1025th is refused", same_answer(REFUSED(12, 0), arb_add(long_study, length, 1025, row, COUNT(row))));
    check("one is withdrawn", same_answer(ACCEPTED, arb_withdraw(long_study, length, 7)));
    check("the 1025th is taken", same_answer(ACCEPTED, arb_add(long_study, length, 1025, row, COUNT(row))) && long_study[5] == ARB_MOST_RUNS);
}

// Whether a study of 512 samples has just these words: k runs, of which those with an odd identifier hold {0,1}, and 0 after them.
static int holds_runs(const uint16_t *study, size_t length, const uint16_t *identifiers, uint16_t k) {
    const uint16_t header[] = {HEADER(WIDE, k)};
    const uint16_t *slot = study + COUNT(header);
    int is_right = memcmp(study, header, sizeof header) == 0;
    for (int i = 0; i < k; i++, slot += WIDE_SLOT)
        is_right &= slot[0] == identifiers[i] && memcmp(slot + 1, wide_rows[identifiers[i] % 2], sizeof wide_rows[0]) == 0;
    while (slot < study + length) is_right &= *slot++ == 0;
    return is_right;
}

static uint64_t add_wide(size_t length, uint16_t identifier) {
    return arb_add(long_study, length, identifier, wide_rows[identifier % 2], WIDE_ROW);
}

// A long study takes `room` runs of 512 samples, and not one more (RULES 6.6).
static void test_long_study(size_t length, uint16_t room) {
    uint16_t identifiers[LONG / WIDE_SLOT];
    for (size_t i = 0; i < COUNT(long_study); i++) long_study[i] = GUARD_WORD;
    uint64_t answers = arb_open(WIDE, long_study, length);
    for (uint16_t i = 0; i < room; i++) answers |= add_wide(length, identifiers[i] = i + 1);
    check("a long study is filled", same_answer(ACCEPTED, answers) && holds_runs(long_study, length, identifiers, room));
    check("one run more is refused", same_answer(REFUSED(12, 0), add_wide(length, room + 1)) && holds_runs(long_study, length, identifiers, room));
    int is_right = 1;
    for (size_t i = length; i < COUNT(long_study); i++) is_right &= long_study[i] == GUARD_WORD;
    check("the words after a long study are as they were", is_right);
}

// 34 of 68 runs are half of them and too few for {0,1}; 35 are enough, at 51 as well, and too few at 52 (RULES 5.1 and 5.2).
static void test_long_report(void) {
    enum { RUNS = 68 };
    uint16_t identifiers[RUNS];
    for (int i = 0; i < RUNS; i++) identifiers[i] = i + 1;
    check("half of a long study's runs", same_report(long_study, LONG, 0, wide_rows[0], RUNS, 0));
    check("its last run is withdrawn", same_answer(ACCEPTED, arb_withdraw(long_study, LONG, RUNS)) && holds_runs(long_study, LONG, identifiers, RUNS - 1));
    identifiers[RUNS - 1] = RUNS + 1;
    check("another takes its room", same_answer(ACCEPTED, add_wide(LONG, RUNS + 1)) && holds_runs(long_study, LONG, identifiers, RUNS));
    check("one more than half", same_report(long_study, LONG, 0, wide_rows[1], RUNS, 35));
    check("one more than half, at 51", same_report(long_study, LONG, 51, wide_rows[1], RUNS, 35));
    check("one more than half, at 52", same_report(long_study, LONG, 52, wide_rows[0], RUNS, 0));
}

// The macros, on numbers packed by hand: 10 at place 4, and 7, 1 and 1 counted.
static void test_macros(void) {
    uint64_t answer = 0x40A, counted = 0x0001000100070000;
    check("an answer of 0 is accepted", ARB_ACCEPTED((uint64_t)0) && ARB_NUMBER((uint64_t)0) == 0);
    check("a refusal's number and place", !ARB_ACCEPTED(answer) && ARB_NUMBER(answer) == ARB_REFUSAL_CHILDREN && ARB_PLACE(answer) == 4);
    check("a refused threshold's number", ARB_REFUSAL_THRESHOLD == 16);
    check("the bounds of thresholds", ARB_NO_THRESHOLD == 0 && ARB_LEAST_THRESHOLD == 50 && ARB_MOST_THRESHOLD == 100);
    check("three counts", ARB_ACCEPTED(counted) && ARB_IN_BOTH(counted) == 7 && ARB_ONLY_FIRST(counted) == 1 && ARB_ONLY_SECOND(counted) == 1);
    check("words of rows and studies", ARB_ROW_WORDS(5) == 10 && ARB_SLOT_WORDS(5) == 11 && ARB_STUDY_WORDS(5, 3) == 41 && ARB_STUDY_WORDS(2, 1) == 13);
}

int main(void) {
    for (size_t i = 0; i < COUNT(accepted); i++) test_example(&accepted[i]);
    for (size_t i = 0; i < COUNT(refused); i++) test_example(&refused[i]);
    for (size_t i = 0; i < COUNT(bad_rows); i++) test_bad_row(&bad_rows[i]);
    for (size_t i = 0; i < COUNT(bad_thresholds); i++) test_bad_threshold(&bad_thresholds[i]);
    test_without_buffers();
    write_wide_rows();
    test_most_samples();
    write_chains();
    test_deepest();
    test_longest_chains();
    test_wrong_chains();
    for (size_t i = 0; i < COUNT(large_ns); i++) test_large_n(&large_ns[i]);
    test_most_runs(ARB_STUDY_WORDS(2, ARB_MOST_RUNS));
    test_most_runs(ARB_STUDY_WORDS(2, ARB_MOST_RUNS + 1));
    test_most_runs(LONG);
    test_long_study(65536, 63);
    test_long_study(69707, 67);
    test_long_study(69708, 68);
    test_long_study(LONG, 68);
    test_long_report();
    test_macros();
    test_texts();
    printf("%d passed, %d failed\n", passed, failed);
    return failed != 0 || passed == 0;
}
