"""The calls of judging that are stored, and such calls at random."""

from __future__ import annotations

from itertools import product
from random import Random
from typing import Iterator

import rows
import rules
import shapes
from calls import JUDGE, LONGEST, Call
from rules import ROOT, Words
from specimens import ONLY_TREE_OF_2, ROWS_OF_3, RUNS_OF_5


def judge(n: int, row: Words) -> Call:
    """The call that judges a row."""
    return Call(JUDGE, n, [row])


def specimens() -> Iterator[Call]:
    """The specimen rows of RULES 10, and its three runs."""
    yield judge(2, ONLY_TREE_OF_2)
    for row in ROWS_OF_3:
        yield judge(3, row)
    for row in RUNS_OF_5:
        yield judge(5, row)


def sizes(rng: Random) -> Iterator[Call]:
    """RULES 10.8: the bounds of n, on both sides."""
    for shape in shapes.SHAPES:
        for n in (2, 512):
            yield judge(n, rows.shuffled_row(rng, n, shape(rng, n)))
    for row in ([2, 1], [2, 1, ROOT, 0], [1, ROOT], [1, 0], [0, 0], [2, ROOT], [ROOT, ROOT]):
        yield judge(1, row)
    for shape in shapes.SHAPES:
        yield judge(513, rows.shuffled_row(rng, 513, shape(rng, 513)))
    yield judge(513, rows.standard_row(512, shapes.binary(rng, 512)))


def wrong_sizes(rng: Random) -> Iterator[Call]:
    """Rows of all sorts with n out of range, the empty row among them."""
    for n in rows.WRONG_SIZES:
        yield judge(n, [])
        in_16_bits = 2 * n % 65536
        if in_16_bits <= 2048:
            yield judge(n, [0] * in_16_bits)
        for other in range(2, 9):
            yield judge(n, rows.any_row(rng, other))


def every_row_of_2() -> Iterator[Call]:
    """Every row of two samples over a small alphabet."""
    for row in product([0, 1, 2, 3, 4, ROOT], repeat=4):
        yield judge(2, list(row))


def every_row_of_3() -> Iterator[Call]:
    """Every row of three samples over a small alphabet; a smaller one where m is out of range."""
    for m, *rest in product([4, 5], *[[0, 2, 3, 4, 5, ROOT]] * 5):
        yield judge(3, [m] + rest)
    for m, *rest in product([0, 3, 6, ROOT], *[[0, 3, ROOT]] * 5):
        yield judge(3, [m] + rest)


def larger_rows(rng: Random) -> Iterator[Call]:
    """Rows of every kind and of some 4 to 40 samples."""
    for make in rows.ROWS:
        for n in range(4, 41):
            for _ in range(7):
                yield judge(n, make(rng, n))


def wide_rows(rng: Random) -> Iterator[Call]:
    """Rows of every kind and of up to 512 samples."""
    for make in rows.ROWS:
        yield judge(512, make(rng, 512))
        for _ in range(4):
            n = rng.randint(41, 512)
            yield judge(n, make(rng, n))


def wrong_lengths(rng: Random) -> Iterator[Call]:
    """Rows that are not 2n words, the empty one and the longest among them."""
    for n in [2, 3, 4, 5, 8, 16, 30, 128, 511, 512]:
        yield judge(n, [])
        for length in (1, n, 2 * n - 1, 2 * n + 1):
            yield judge(n, (rows.valid_row(rng, n) + [0])[:length])
    for _ in range(100):
        n = rng.randint(2, 30)
        yield judge(n, rows.wrong_length(rng, rows.any_row(rng, n)))
    yield judge(512, rules.filled(LONGEST // 2, rows.valid_row(rng, 512)))


def stored(rng: Random) -> Iterator[Call]:
    """The calls that are stored."""
    yield from specimens()
    yield from sizes(rng)
    yield from wrong_sizes(rng)
    yield from wrong_lengths(rng)
    yield from every_row_of_2()
    yield from every_row_of_3()
    yield from larger_rows(rng)
    yield from wide_rows(rng)


def at_random(rng: Random) -> Call:
    """One call, with any n and any row."""
    n = rows.some_size(rng)
    row = rows.random_row(rng, n)
    if rng.random() < 0.04:
        row = rows.wrong_length(rng, row)
    if rng.random() < 0.02:
        n = rng.choice(rows.WRONG_SIZES)
    return judge(n, row)
