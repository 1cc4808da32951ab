"""The calls of renumbering that are stored, and such calls at random."""

from __future__ import annotations

from random import Random
from typing import Iterator

import rows
import rules
import shapes
from calls import RENUMBER, Call
from rules import Words
from specimens import ONLY_TREE_OF_2, ROWS_OF_3, RUNS_OF_5


def renumber(n: int, row: Words, out: Words) -> Call:
    """The call that writes a row in standard numbering to another buffer."""
    return Call(RENUMBER, n, [row, out])


def onto_old(rng: Random, n: int, row: Words) -> Call:
    """The same over a buffer of 2n words that held others."""
    return renumber(n, row, rows.old_words(rng, 2 * n))


def specimens(rng: Random) -> Iterator[Call]:
    """The specimen rows of RULES 10, and its three runs."""
    yield onto_old(rng, 2, ONLY_TREE_OF_2)
    for row in ROWS_OF_3:
        yield onto_old(rng, 3, row)
    for row in RUNS_OF_5:
        yield onto_old(rng, 5, row)


def small_rows(rng: Random) -> Iterator[Call]:
    """Rows of few samples: all without single branches, and all of three with parents in range."""
    for n in (2, 3, 4):
        for row in rows.branching_rows(n):
            yield onto_old(rng, n, row)
    for m in (4, 5):
        for row in rows.rows_in_range(3, m):
            yield onto_old(rng, 3, row)


def trees(rng: Random) -> Iterator[Call]:
    """Trees of every shape and of 2 to 40 samples, in any numbering and in the standard one."""
    for shape in shapes.SHAPES:
        for n in range(2, 41):
            tree = shape(rng, n)
            yield onto_old(rng, n, rows.shuffled_row(rng, n, tree))
            yield onto_old(rng, n, rows.shuffled_row(rng, n, tree))
            yield onto_old(rng, n, rows.standard_row(n, tree))


def rows_of_every_kind(rng: Random) -> Iterator[Call]:
    """Rows of every kind, refused ones too, of 3 to 30 samples."""
    for make in rows.ROWS:
        for n in range(3, 31):
            for _ in range(3):
                yield onto_old(rng, n, make(rng, n))


def wide_trees(rng: Random) -> Iterator[Call]:
    """Trees of every shape and of 512 samples."""
    for shape in shapes.SHAPES:
        yield onto_old(rng, 512, rows.shuffled_row(rng, 512, shape(rng, 512)))


def long_chains(rng: Random) -> Iterator[Call]:
    """The deepest trees of 511 and 512 samples, numbered from the root down and up to it."""
    for n in (511, 512):
        order = rules.standard_order(shapes.caterpillar(rng, n))
        yield onto_old(rng, n, rules.row_in_order(n, order))
        yield onto_old(rng, n, rules.row_in_order(n, order[::-1]))


def wide_rows(rng: Random) -> Iterator[Call]:
    """Rows of every kind and of up to 512 samples."""
    for make in rows.ROWS:
        yield onto_old(rng, 512, make(rng, 512))
        n = rng.randint(41, 511)
        yield onto_old(rng, n, make(rng, n))


def wrong_sizes(rng: Random) -> Iterator[Call]:
    """Buffers of all sorts with n out of range."""
    for n in rows.WRONG_SIZES:
        in_16_bits = 2 * n % 65536
        lengths = [0, 1, 4] + [in_16_bits] * (in_16_bits <= 2048)
        for length in lengths:
            yield renumber(n, rows.old_words(rng, length), rows.old_words(rng, length))
        for other in range(2, 9):
            yield renumber(n, rows.any_row(rng, other), rows.old_words(rng, 2 * other))


def wrong_lengths(rng: Random) -> Iterator[Call]:
    """A row, an output, or both, that are not 2n words; right rows and wrong ones."""
    for n in [2, 3, 4, 5, 8, 16, 30, 128, 512]:
        for length in (0, 1, n, 2 * n - 1, 2 * n + 1):
            row = rows.valid_row(rng, n)
            cut = (row + [0])[:length]
            yield renumber(n, cut, rows.old_words(rng, 2 * n))
            yield renumber(n, row, rows.old_words(rng, length))
            yield renumber(n, cut, rows.old_words(rng, length))
        yield renumber(n, rows.valid_row(rng, n)[1:], rows.old_words(rng, 2 * n + 1))
    for _ in range(100):
        n = rng.randint(2, 30)
        buffers = [rows.any_row(rng, n), rows.old_words(rng, 2 * n)]
        yield renumber(n, *rows.one_wrong_length(rng, buffers))


def stored(rng: Random) -> Iterator[Call]:
    """The calls that are stored."""
    yield from specimens(rng)
    yield from small_rows(rng)
    yield from trees(rng)
    yield from rows_of_every_kind(rng)
    yield from wide_trees(rng)
    yield from long_chains(rng)
    yield from wide_rows(rng)
    yield from wrong_sizes(rng)
    yield from wrong_lengths(rng)


def at_random(rng: Random) -> Call:
    """One call, with any n, any row and any output."""
    n = rows.some_size(rng)
    row = rng.choice([rows.valid_row, rows.random_row])(rng, n)
    buffers = [row, rows.old_words(rng, 2 * n)]
    if rng.random() < 0.04:
        buffers = rows.one_wrong_length(rng, buffers)
    if rng.random() < 0.02:
        n = rng.choice(rows.WRONG_SIZES)
    return renumber(n, *buffers)
