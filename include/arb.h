/*
 * arb: runs of one sample set, and the tree of the groups that most of them hold. RULES 6, say, is section 6 of docs/RULES.md, where
 * all rules are numbered.
 *
 * SAMPLES, ROWS AND GROUPS (RULES 1 to 4). There are n samples, at least 2 and at most 512, with the numbers 0 to n-1. A run is one rooted
 * tree whose leaves are the samples. It has m nodes, more than n and fewer than 2n: first the samples, then, as nodes n to m-1, the inner
 * nodes. A tree is handed over as a row of 2n 16-bit words, ARB_ROW_WORDS(n):
 *
 *     word 0                  m
 *     word 1+v, v below m     the parent of node v: an inner node, or ARB_ROOT_MARK where v is the root, which is an inner node too
 *     all others              0, as filler
 *
 * There is one root, each node leads up to it, and each inner node has a child or more. Inner nodes of a row that you hand in may be
 * numbered in any order, and some may have a single child. To the group of a node belong the samples that are the node itself or stand
 * below it; two rows are the same tree if they have the same groups. Rows that the library writes or stores are in standard numbering:
 * inner nodes get their numbers, from n on, in the order of their groups, larger ones first, and of groups with the same size the one with
 * the smaller smallest sample first; each group has one node, so that no inner node has one child. So the root is node n, and the same tree
 * has the same words. The tree ((0,1),2), n = 3:
 *
 *     5 4 4 3 65535 3     in standard numbering: 3 is the root, and 4, the parent of samples 0 and 1, stands below it
 *     5 3 3 4 4 65535     the same tree with 3 and 4 the other way round
 *
 * And a row with a single branch: 5 4 3 3 65535 3 has node 4 above sample 0 alone, and becomes 4 3 3 3 65535 0 in standard numbering.
 *
 * STUDIES (RULES 6). A study is a buffer of yours that holds runs, each under an identifier from 1 to 65535 that you choose. Those that were
 * added and not withdrawn are in force, and there can be 1024 of these. A study needs ARB_STUDY_WORDS(n, runs) words, and has room for
 * (length - 8) / (2n + 1) runs, without the fraction. It holds no pointers: it can be copied, stored and read again. Copied into a longer
 * buffer whose further words are 0, it has more room.
 *
 *     words 0 to 3            65 82 66, which is ARB in ASCII, and the version, 1
 *     words 4 and 5           n, and k, the number of runs in force
 *     words 6 and 7           0
 *     from word 8 on          k slots, lowest identifier first, each of 2n+1 words: the identifier and its row, in standard numbering
 *     all others              0, to the end of the buffer
 *
 * THE REPORT (RULES 5). A report is asked for at a threshold p, in per cent: 50 to 100, or 0, which stands for 50. Of k runs in force, s
 * hold a group. The agreed tree has the group if 100s > pk, or if s = k, and only then: at 50 half of the runs is not enough, and at 100 all
 * have to hold the group. The support row, of 2n words as well, goes with the agreed row: k first, then for each node how many runs hold its
 * group, then 0 as filler.
 *
 * TEXTS (RULES 14). A tree can also come and go as Newick text, with its samples as numbers:
 *
 *     (((0,1)2,2)2,(3,4)2);
 *
 * A text is one subtree and a semicolon. A subtree is a sample, in one to five digits of which the first is not 0 if more follow, or a
 * pair: one subtree or several in round brackets, with commas between them. At most 511 brackets are open at once. Behind a closing bracket
 * digits may stand, a support say, and behind any subtree a colon and a length: digits, with at most one point among them, which has a
 * digit on each side. Reading drops both, and the brackets of a pair that holds one subtree. Blanks, which are space, tab, CR and LF, may
 * stand before and behind all of these, but not inside a number. Nothing else is of the form: no names, quotes or comments, no signs, no
 * exponents. A text is counted in bytes and has no end mark: a 0 byte is not of the form either. Any bytes may be handed in, and any number
 * of them. What is written has no blanks, and the children of a node stand in it by their smallest samples.
 *
 * BUFFERS. Each is a pointer and its length: of a text in bytes, of all others in 16-bit words. The pointer is valid for that many bytes or
 * words, and one to words is aligned for uint16_t; it may be NULL only where the length is 0. A buffer that a call writes (its pointer is not
 * const) must not overlap another buffer of that call. Any words and bytes may be handed in: each call checks them itself and stays within the
 * buffers. After a refusal no word or byte of them differs.
 *
 * The library keeps nothing between calls and takes no memory: calls may run at the same time on different buffers, or on the same ones where
 * none is written. With each call stands how much stack it takes at most, the return address and all that it calls included. The library uses
 * memcpy and memset of the C library, arb_judge neither of them, and is for x86-64 Linux.
 */
#ifndef ARB_H
#define ARB_H

#include <stddef.h>
#include <stdint.h>

#ifdef __cplusplus
extern "C" {
#endif

#define ARB_FEWEST_SAMPLES 2
#define ARB_MOST_SAMPLES 512
#define ARB_MOST_RUNS 1024
#define ARB_LEAST_IDENTIFIER 1
#define ARB_MOST_IDENTIFIER 65535
#define ARB_ROOT_MARK 65535
#define ARB_NO_THRESHOLD 0 /* names none, and so the default, 50 */
#define ARB_LEAST_THRESHOLD 50
#define ARB_MOST_THRESHOLD 100

/* Words of a row over n samples, of a study's header, of one run in it, and of a study with room for that many runs. */
#define ARB_ROW_WORDS(n) (2 * (size_t)(n))
#define ARB_HEADER_WORDS 8
#define ARB_SLOT_WORDS(n) (ARB_ROW_WORDS(n) + 1)
#define ARB_STUDY_WORDS(n, runs) (ARB_HEADER_WORDS + (size_t)(runs) * ARB_SLOT_WORDS(n))

/* Bytes that are enough for the text of any tree over n samples, with supports or without. */
#define ARB_TEXT_BYTES(n) (11 * (size_t)(n))

/*
 * ANSWERS (RULES 7). Each call answers a uint64_t: accepted, or a refusal with a number and a place. Where the list names no place it is 0. An
 * accepted arb_compare also has three counts, an accepted arb_write_newick or arb_write_newick_supports the length of its text. A node, a word
 * or a byte at a place is counted from 0. Places have 56 bits: those of texts shorter than 2^56 bytes are exact.
 */
#define ARB_ACCEPTED(answer) (ARB_NUMBER(answer) == 0)
#define ARB_NUMBER(answer) ((unsigned)((answer) & 255u))
#define ARB_PLACE(answer) ((size_t)((answer) >> 8)) /* of a refusal */
#define ARB_LENGTH(answer) ((size_t)((answer) >> 8)) /* in bytes, of an accepted arb_write_newick or arb_write_newick_supports */
#define ARB_IN_BOTH(answer) ((unsigned)((answer) >> 16 & 65535u)) /* of an accepted arb_compare, as the two below */
#define ARB_ONLY_FIRST(answer) ((unsigned)((answer) >> 32 & 65535u))
#define ARB_ONLY_SECOND(answer) ((unsigned)((answer) >> 48 & 65535u))

enum arb_refusal {
    ARB_REFUSAL_SAMPLES = 1,    /* n is below 2 or above 512 */
    ARB_REFUSAL_STUDY = 2,      /* the study is not well formed: its words are not as written above, or its buffer has no room for one run */
    ARB_REFUSAL_WORDS = 3,      /* a row or a buffer for one has other than 2n words; arb_open: the buffer has no room for one run; of a text that
                                   is written, as the last check: its buffer has fewer bytes than it */
    ARB_REFUSAL_IDENTIFIER = 4, /* the identifier is 0 */
    ARB_REFUSAL_NODES = 5,      /* m is not above n, or not below 2n */
    ARB_REFUSAL_PARENT = 6,     /* a node has none of the inner nodes for its parent (an inner node may have 65535); place: the lowest such node */
    ARB_REFUSAL_ROOT = 7,       /* of the inner nodes none, or more than one, has 65535 for its parent */
    ARB_REFUSAL_FILLER = 8,     /* a word of the filler is not 0; place: the lowest word of which this is so */
    ARB_REFUSAL_LOST = 9,       /* the way up from a node never comes to the root; place: the lowest node of which this is so */
    ARB_REFUSAL_CHILDREN = 10,  /* an inner node has no child at all; place: the lowest node of which this is so */
    ARB_REFUSAL_TAKEN = 11,     /* a run with this identifier is in force */
    ARB_REFUSAL_FULL = 12,      /* no room: as many runs are in force as the buffer holds, or 1024 */
    ARB_REFUSAL_ABSENT = 13,    /* no run with this identifier is in force */
    ARB_REFUSAL_EMPTY = 14,     /* no run is in force */
    ARB_REFUSAL_THRESHOLD = 16, /* p is neither 0 nor 50 to 100; 15 is a number of the listing program alone */
    ARB_REFUSAL_FORM = 17,      /* the text is not of the form; place: the first byte with which no text of the form goes on, or the length of the
                                   text where it ends too early */
    ARB_REFUSAL_LEAVES = 18     /* a sample stands in the text more than once or not at all, or a number does that is not below n; place: the
                                   lowest such number of all */
};

/*
 * THE CALLS. Each makes the checks of the numbers named with it, in that order, and answers the first that fails.
 */

/* Opening: makes the buffer, whatever its words, a study over n samples with no run in force; every word after the header becomes 0.
   Refusals: 1, 3. Stack: 64 bytes. */
uint64_t arb_open(size_t n, uint16_t *study, size_t study_length);

/* Adding: puts a run into the study, its row in standard numbering. `row` is not written.
   Refusals: 2, 3, 4, 5 to 10 for the row, 11, 12. Stack: 9,216 bytes. */
uint64_t arb_add(uint16_t *study, size_t study_length, uint16_t identifier, const uint16_t *row, size_t row_length);

/* Withdrawing: takes a run out of the study. Its room is free for another, and its identifier too.
   Refusals: 2, 4, 13. Stack: 9,216 bytes. */
uint64_t arb_withdraw(uint16_t *study, size_t study_length, uint16_t identifier);

/* Reporting: writes the agreed row at threshold p and its support row, 2n words each. The study is not written.
   Refusals: 2, 3 for either output, 16, 14. Stack: 41,984 bytes. */
uint64_t arb_report(const uint16_t *study, size_t study_length, size_t p, uint16_t *agreed, size_t agreed_length, uint16_t *support, size_t support_length);

/* Judging: is the row one tree over n samples? Writes nothing.
   Refusals: 1, 3, 5 to 10. Stack: 48 bytes. */
uint64_t arb_judge(size_t n, const uint16_t *row, size_t row_length);

/* Renumbering: writes the same tree in standard numbering to `out`, 2n words. `row` is not written.
   Refusals: 1, 3 for either buffer, 5 to 10. Stack: 9,216 bytes. */
uint64_t arb_renumber(size_t n, const uint16_t *row, size_t row_length, uint16_t *out, size_t out_length);

/* Comparing: how many groups both rows have, the first alone, and the second alone (RULES 8). Groups of more than one sample and
   fewer than all count, each once, and no others: so each count is at most n - 2. The last two together are the distance of the two
   trees: by how many groups they differ. Writes nothing.
   Refusals: 1, 3 for either row, then 5 to 10, of `first` and after that of `second`; there 2n is added to every place, that of 5 and 7 too.
   Stack: 27,648 bytes. */
uint64_t arb_compare(size_t n, const uint16_t *first, size_t first_length, const uint16_t *second, size_t second_length);

/* Reading Newick: writes the tree of a text over n samples to `out`, 2n words, in standard numbering. In the text each sample stands once and
   no other number does; pairs that hold one subtree add nothing. `text` is not written.
   Refusals: 1, 3 for `out`, 17, 18. Stack: 44,032 bytes. */
uint64_t arb_read_newick(size_t n, const uint8_t *text, size_t text_length, uint16_t *out, size_t out_length);

/* Writing Newick: puts the text of a row, in any numbering, to the front of `text`, and answers how many bytes it has (ARB_LENGTH). Nothing is
   put behind its semicolon: the bytes there stay as they were. Reading it gives the row in standard numbering. `row` is not written.
   Refusals: 1, 3 for the row, 5 to 10, 3 for the text. Stack: 33,792 bytes. */
uint64_t arb_write_newick(size_t n, const uint16_t *row, size_t row_length, uint8_t *text, size_t text_length);

/* The same with supports: behind each closing bracket but the last stands, in decimal, the word that `support`, 2n words, has for its node,
   which is word 1+v for node v of this row: of a report, say, the support row beside the agreed row. These words may be any; the others are
   not looked at. `support` is not written.
   Refusals: 1, 3 for either row, 5 to 10, 3 for the text. Stack: 33,792 bytes. */
uint64_t arb_write_newick_supports(size_t n, const uint16_t *row, size_t row_length, const uint16_t *support, size_t support_length,
    uint8_t *text, size_t text_length);

#ifdef __cplusplus
}
#endif

#endif
