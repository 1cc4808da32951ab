"""The calls of writing Newick that are stored, and such calls at random."""

from __future__ import annotations

from itertools import cycle
from random import Random
from typing import Iterator, Optional

import newick
import rows
import rules
import shapes
from calls import WITH_SUPPORTS, WRITE, Call
from calls_newick_read import onto_old as read_onto_old
from rules import MOST_SAMPLES, ROOT, Study, Words
from specimens import ONLY_TREE_OF_2, REPORT_OF_5, ROWS_OF_3, RUNS_OF_5

SEED = 20500  # its own, so that the calls stored before these stay as they are

# Supports that differ in how many digits they have.
SUPPORTS = [0, 1, 9, 10, 99, 100, 255, 256, 999, 1000, 1024, 9999, 10000, 32768, 65534, 65535]
SHORT_OR_LONG = [0, 0, -1, 1, 7]  # how many bytes a text's buffer has beyond the text's


def write(n: int, row: Words, support: Optional[Words], text: Words) -> Call:
    """The call that writes a row as text, with supports if there are some."""
    if support is None:
        return Call(WRITE, n, [row, [], text])
    return Call(WRITE, n, [row, support, text], WITH_SUPPORTS)


def old_bytes(rng: Random, length: int) -> Words:
    """Any bytes: what a text's buffer may hold before it is written to."""
    any_bytes = [rng.randrange(256) for _ in range(length)]
    same = [rng.choice([0, 32, 48, 59, 255])] * length
    return rng.choice([any_bytes, same])


def some_supports(rng: Random, n: int) -> Words:
    """A support row of any words: not only of the nodes below the root, which alone count."""
    return rng.choices([*SUPPORTS, rng.randrange(65536)], k=2 * n)


def text_length(n: int, row: Words, support: Optional[Words]) -> int:
    """How long the text of a row without single branches is; of another, how long one might be."""
    return len(newick.row_text(n, row, support)) if rows.is_branching(n, row) else 4 * n


def written(rng: Random, n: int, row: Words, support: Optional[Words], over: int = 0) -> Call:
    """The call that writes a row to a buffer with so many bytes more than this, or fewer."""
    length = max(0, text_length(n, row, support) + over)
    return write(n, row, support, old_bytes(rng, length))


def written_exactly(
    rng: Random, n: int, row: Words, support: Optional[Words], over: int = 0
) -> Call:
    """The same for a valid row and the length of its text, with single branches and without."""
    length = max(0, len(newick.row_text(n, row, support)) + over)
    return write(n, row, support, old_bytes(rng, length))


def in_both_ways(rng: Random, n: int, row: Words, over: int = 0) -> Iterator[Call]:
    """A row written without supports and with some."""
    yield written(rng, n, row, None, over)
    yield written(rng, n, row, some_supports(rng, n), over)


# Rows that are taken


def specimens(rng: Random) -> Iterator[Call]:
    """The rows of RULES 10, and the report of its three runs."""
    yield from in_both_ways(rng, 2, ONLY_TREE_OF_2)
    for row in ROWS_OF_3:
        yield from in_both_ways(rng, 3, row)
    for row in RUNS_OF_5:
        yield from in_both_ways(rng, 5, row)
    agreed, support = REPORT_OF_5
    for over in (0, 9, -1, -21):
        yield written(rng, 5, agreed, support, over)
        yield written(rng, 5, agreed, None, over)


def small_rows(rng: Random) -> Iterator[Call]:
    """Every row of two to four samples without single branches; buffers long enough and not."""
    overs = cycle(SHORT_OR_LONG)
    for n in (2, 3, 4):
        for row in rows.branching_rows(n):
            yield from in_both_ways(rng, n, row, next(overs))


def trees(rng: Random) -> Iterator[Call]:
    """Trees of every shape and of 2 to 40 samples in any numbering, with supports or without."""
    for shape in shapes.SHAPES:
        for n in range(2, 41):
            row = rows.shuffled_row(rng, n, shape(rng, n))
            support = rng.choice([None, some_supports(rng, n)])
            yield written(rng, n, row, support, rng.choice(SHORT_OR_LONG))


def standard_and_falling(rng: Random) -> Iterator[Call]:
    """Trees in standard numbering, and numbered the other way round."""
    for n in (3, 5, 6, 9, 14):
        for shape in (shapes.binary, shapes.multifurcating):
            order = rules.standard_order(shape(rng, n))
            yield from in_both_ways(rng, n, rules.row_in_order(n, order))
            yield from in_both_ways(rng, n, rules.row_in_order(n, order[::-1]))


def each_support(rng: Random) -> Iterator[Call]:
    """Each support at one node that is not the root, with other words at all other places."""
    for support in SUPPORTS:
        for n in (3, 4, 7):
            row = rows.shuffled_row(rng, n, shapes.binary(rng, n))
            v = rng.choice([v for v in rules.inner_nodes(n, row) if rules.parent(row, v) != ROOT])
            others = rows.old_words(rng, 2 * n)
            yield written(rng, n, row, others[: 1 + v] + [support] + others[2 + v :])


def words_beside(rng: Random) -> Iterator[Call]:
    """Supports of 7 at the nodes that count; each other word in turn is odd."""
    for n in (2, 3, 5):
        row = rows.shuffled_row(rng, n, shapes.few_inner(rng, n))
        below_root = [v for v in rules.inner_nodes(n, row) if rules.parent(row, v) != ROOT]
        for i in [i for i in range(2 * n) if i - 1 not in below_root]:
            for odd in (0, 65535):
                yield written(rng, n, row, [odd if j == i else 7 for j in range(2 * n)])


def reports(rng: Random) -> Iterator[Call]:
    """Agreed rows with their support rows."""
    for n in (2, 3, 4, 5, 6, 8, 11, 16, 25):
        for k in (1, 2, 3, rng.randint(4, 12), 101):
            trees = shapes.runs_counted_and_joined(rng, n, k)
            agreed, support = rules.reported_rows(Study(n, dict(enumerate(trees, 1))), 50)
            yield written(rng, n, agreed, support, rng.choice([0, 5]))


def wide_trees(rng: Random) -> Iterator[Call]:
    """Trees of every shape and of 512 samples, with supports or without."""
    ways = cycle([None, [ROOT] * 2 * MOST_SAMPLES])
    for shape in shapes.SHAPES:
        row = rows.shuffled_row(rng, MOST_SAMPLES, shape(rng, MOST_SAMPLES))
        yield written(rng, MOST_SAMPLES, row, next(ways), rng.choice([0, 3]))
    row = rows.shuffled_row(rng, 257, shapes.multifurcating(rng, 257))
    yield from in_both_ways(rng, 257, row)


def deepest_trees(rng: Random) -> Iterator[Call]:
    """The deepest trees of 512 samples, the lowest sample inmost and outmost."""
    n = MOST_SAMPLES
    for order in (list(range(n)), list(range(n))[::-1]):
        inner = rules.standard_order(shapes.caterpillar_of(order))
        yield written(rng, n, rules.row_in_order(n, inner), None)
        yield written(rng, n, rules.row_in_order(n, inner[::-1]), some_supports(rng, n), 2)
    chain = rows.shuffled_row(rng, n, shapes.caterpillar(rng, n))
    yield written(rng, n, chain, [ROOT] * 2 * n)
    yield written(rng, n, chain, [ROOT] * 2 * n, -1)
    yield written(rng, n, chain, None, -1)


# Buffers of every length


def every_length(rng: Random) -> Iterator[Call]:
    """Text buffers of every length up to some bytes more than the text."""
    for n in (2, 3, 5):
        row = rows.shuffled_row(rng, n, shapes.binary(rng, n))
        for support in (None, some_supports(rng, n)):
            for length in range(text_length(n, row, support) + 3):
                yield write(n, row, support, old_bytes(rng, length))


def old_texts(rng: Random) -> Iterator[Call]:
    """Buffers that hold a longer text, the same text, or one byte throughout."""
    for n in (2, 4, 9):
        row = rows.valid_row(rng, n)
        text = newick.row_text(n, row, some_supports(rng, n))
        for support in (None, some_supports(rng, n)):
            yield write(n, row, support, text * 3)
            yield write(n, row, None, newick.row_text(n, row, None))
            for byte in (0, 32, 41, 59, 255):
                yield write(n, row, support, [byte] * (6 * n + len(text)))


def wrong_lengths(rng: Random) -> Iterator[Call]:
    """Rows and support rows that are not 2n words; rows that are refused; short text buffers."""
    for n in (2, 3, 4, 5, 8, 16, 30):
        row, bad = rows.valid_row(rng, n), rows.wild_row(rng, n)
        for length in (0, 1, n, 2 * n - 1, 2 * n + 1, 4 * n):
            cut, support = (row + [0] * 2 * n)[:length], rows.old_words(rng, length)
            text = old_bytes(rng, rng.choice([0, 8 * n]))
            yield write(n, cut, None, text)
            yield write(n, row, support, text)
            yield write(n, bad, support, text)
            yield write(n, cut, some_supports(rng, n), text)
        yield write(n, row[1:], some_supports(rng, n) + [0], old_bytes(rng, 8 * n))
    row = rows.valid_row(rng, 64)
    yield write(MOST_SAMPLES, row, None, old_bytes(rng, 300))
    yield write(64, row, [], old_bytes(rng, 900))


def wrong_sizes(rng: Random) -> Iterator[Call]:
    """Rows of all sorts with n out of range."""
    for n in rows.WRONG_SIZES:
        in_16_bits = 2 * n % 65536
        for length in [0, 1, 4] + [in_16_bits] * (in_16_bits <= 2048):
            row, support = rows.old_words(rng, length), rows.old_words(rng, length)
            yield write(n, row, rng.choice([None, support]), old_bytes(rng, rng.choice([0, 30])))
        for few in (2, 3, 5):
            yield write(n, rows.valid_row(rng, few), None, old_bytes(rng, 40))
            yield write(n, rows.any_row(rng, few), some_supports(rng, few), old_bytes(rng, 60))
    row = rows.valid_row(rng, 513)
    yield write(513, row, None, old_bytes(rng, 4000))


# Rows that are refused


def rows_of_every_kind(rng: Random) -> Iterator[Call]:
    """Rows of every kind and of 2 to 14 samples, with supports or without."""
    for make in rows.ROWS:
        for n in [*range(2, 15), *range(3, 9)]:
            support = rng.choice([None, some_supports(rng, n)])
            yield written(rng, n, make(rng, n), support, rng.choice([*SHORT_OR_LONG, -9 * n]))


def with_word(row: Words, i: int, word: int) -> Words:
    """The row with another word at this place."""
    return row[:i] + [word] + row[i + 1 :]


def one_word_wrong(n: int, row: Words) -> Iterator[Words]:
    """A valid row with its m, each parent and each word of its filler changed in turn."""
    for m in (0, n, 2 * n, ROOT):
        yield with_word(row, 0, m)
    for i in range(1, 1 + row[0]):
        for above in (n - 1, n, row[0], ROOT):
            yield with_word(row, i, above)
    for i in range(1 + row[0], 2 * n):
        yield with_word(row, i, 1)


def words_in_turn(rng: Random) -> Iterator[Call]:
    """Rows with one word changed, most of them refused, with buffers long enough and empty."""
    for n in (2, 3, 5, 8):
        row = rows.shuffled_row(rng, n, shapes.some_groups(rng, n, min(1, n - 2)))
        for other in one_word_wrong(n, row):
            support = rng.choice([None, some_supports(rng, n)])
            yield written(rng, n, other, support, rng.choice([0, -9 * n]))


def refused_in_turn(rng: Random) -> Iterator[Call]:
    """Rows in which each node in turn is the lowest that is lost, or has few children."""
    for n in (3, 5, 9):
        m = 2 * n - 1
        for v in range(m):
            row = rows.lost_row(rng, n, m, rows.lost_from(rng, n, m, v))
            yield written(rng, n, row, None, rng.choice([0, -9 * n]))
        for v in range(n, m):
            for one, none in ([[v], []], [[], [v]], rows.few_from(rng, n, m, v)):
                row = rows.few_children_row(rng, n, m, one, none)
                yield written(rng, n, row, some_supports(rng, n), rng.choice([0, -9 * n]))


def wide_refused(rng: Random) -> Iterator[Call]:
    """Rows of 512 samples with the last node lost or with one child, or with wrong filler."""
    n, last = MOST_SAMPLES, 2 * MOST_SAMPLES - 2
    yield write(n, rows.lost_row(rng, n, last + 1, {last}), None, [])
    yield write(n, rows.few_children_row(rng, n, last + 1, [last], []), None, [])
    yield write(n, rows.filler_row(rng, n), some_supports(rng, n), old_bytes(rng, 100))


# What was written, written again


def read_and_written(rng: Random) -> Iterator[Call]:
    """Rows that reading made of texts, written; and what is written, read."""
    for n in (2, 3, 4, 6, 10, 17, 33):
        for support in (None, some_supports(rng, n)):
            call = written(rng, n, rows.valid_row(rng, n), support)
            text = newick.row_text(n, call.buffers[0], support)
            yield call
            back = read_onto_old(rng, n, bytes(text))
            yield back
            yield written(rng, n, newick.read(n, *back.buffers).buffers[1], None)


def stored() -> Iterator[Call]:
    """The calls that are stored."""
    rng = Random(SEED)
    yield from specimens(rng)
    yield from small_rows(rng)
    yield from trees(rng)
    yield from standard_and_falling(rng)
    yield from each_support(rng)
    yield from words_beside(rng)
    yield from reports(rng)
    yield from wide_trees(rng)
    yield from deepest_trees(rng)
    yield from every_length(rng)
    yield from old_texts(rng)
    yield from wrong_lengths(rng)
    yield from wrong_sizes(rng)
    yield from rows_of_every_kind(rng)
    yield from words_in_turn(rng)
    yield from refused_in_turn(rng)
    yield from wide_refused(rng)
    yield from read_and_written(rng)


def with_wrong_length(rng: Random, call: Call) -> Call:
    """The call with a wrong length of its row, or of its support row if it has one."""
    row, support, text = call.buffers
    if call.y == WITH_SUPPORTS:
        row, support = rows.one_wrong_length(rng, [row, support])
    else:
        row = rows.wrong_length(rng, row)
    return call._replace(buffers=[row, support, text])


def at_random(rng: Random) -> Call:
    """One call, with any n, any row, supports or none, and any text buffer."""
    n = rows.some_size(rng)
    row = rng.choice([rows.valid_row, rows.random_row])(rng, n)
    support = rng.choice([None, some_supports(rng, n)])
    over = rng.choice([*SHORT_OR_LONG, rng.randint(-9, 30)])
    make = written_exactly if rules.row_refusal(n, row) is None else written
    call = make(rng, n, row, support, over)
    if rng.random() < 0.04:
        call = with_wrong_length(rng, call)
    if rng.random() < 0.02:
        call = call._replace(x=rng.choice(rows.WRONG_SIZES))
    return call
