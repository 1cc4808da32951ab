"""The calls of comparing that are stored, and such calls at random."""

from __future__ import annotations

from itertools import product
from random import Random
from typing import Iterator

import rows
import rules
import shapes
from calls import COMPARE, Call
from rules import Tree, Words
from specimens import ONLY_TREE_OF_2, ROWS_OF_3, RUNS_OF_5


def compare(n: int, first: Words, second: Words) -> Call:
    """The call that compares two rows."""
    return Call(COMPARE, n, [first, second])


def compare_trees(rng: Random, n: int, first: Tree, second: Tree) -> Call:
    """The call that compares two trees, each in some numbering."""
    return compare(n, rows.shuffled_row(rng, n, first), rows.shuffled_row(rng, n, second))


def specimens() -> Iterator[Call]:
    """Every pair of the specimen rows of RULES 10, refused ones in either place and in both."""
    yield compare(2, ONLY_TREE_OF_2, ONLY_TREE_OF_2)
    for first, second in product(ROWS_OF_3, repeat=2):
        yield compare(3, first, second)
    for first, second in product(RUNS_OF_5, repeat=2):
        yield compare(5, first, second)


def small_rows(rng: Random) -> Iterator[Call]:
    """Every pair of rows of three samples without single branches, and of trees of four."""
    for first, second in product(rows.branching_rows(3), repeat=2):
        yield compare(3, first, second)
    for first, second in product(rows.every_tree(4), repeat=2):
        yield compare_trees(rng, 4, first, second)


# A tree, and one to compare it with


def same(rng: Random, n: int, tree: Tree) -> Tree:
    """The tree itself."""
    return tree


def moved(rng: Random, n: int, tree: Tree) -> Tree:
    """A tree one move away."""
    return shapes.one_move(rng, n, tree)


def moved_often(rng: Random, n: int, tree: Tree) -> Tree:
    """A tree some moves away."""
    return shapes.near(rng, n, tree, 6)


def bare(rng: Random, n: int, tree: Tree) -> Tree:
    """The bare tree."""
    return shapes.bare(rng, n)


def other(rng: Random, n: int, tree: Tree) -> Tree:
    """A tree that has nothing to do with it."""
    return shapes.any_tree(rng, n)


PARTNERS = [same, moved, moved, moved_often, bare, other]


def pair(rng: Random, n: int, tree: Tree, partner: Tree) -> Call:
    """The call that compares a tree and its partner, in either order."""
    return compare_trees(rng, n, *shapes.shuffled(rng, [tree, partner]))


def trees(rng: Random) -> Iterator[Call]:
    """Trees of every shape and of 2 to 30 samples, each with every kind of partner."""
    for shape in shapes.SHAPES:
        for n in range(2, 31):
            tree = shape(rng, n)
            for partner in PARTNERS:
                yield pair(rng, n, tree, partner(rng, n, tree))


def wide_trees(rng: Random) -> Iterator[Call]:
    """Trees of 512 samples, each with every kind of partner."""
    for partner in PARTNERS:
        for shape in (shapes.binary, shapes.caterpillar):
            tree = shape(rng, 512)
            yield pair(rng, 512, tree, partner(rng, 512, tree))


def long_chains(rng: Random) -> Iterator[Call]:
    """The deepest trees of 512 samples, numbered from the root down and up to it."""
    order = rules.standard_order(shapes.caterpillar(rng, 512))
    down = rules.row_in_order(512, order)
    up = rules.row_in_order(512, order[::-1])
    yield compare(512, down, up)
    yield compare(512, up, up)
    yield compare(512, down, rows.standard_row(512, shapes.caterpillar(rng, 512)))


def in_either_place(rng: Random, n: int, row: Words) -> Iterator[Call]:
    """A row before a valid one, and after one."""
    yield compare(n, row, rows.valid_row(rng, n))
    yield compare(n, rows.valid_row(rng, n), row)


def rows_of_every_kind(rng: Random) -> Iterator[Call]:
    """Rows of every kind in either place and in both, of 3 to 24 samples."""
    for make in rows.ROWS:
        for n in range(3, 25):
            yield from in_either_place(rng, n, make(rng, n))
            yield compare(n, make(rng, n), rows.any_row(rng, n))


def wide_rows(rng: Random) -> Iterator[Call]:
    """Rows of every kind and of up to 512 samples."""
    for make in rows.ROWS:
        yield compare(512, rows.valid_row(rng, 512), make(rng, 512))
        n = rng.randint(41, 511)
        yield compare(n, make(rng, n), rows.any_row(rng, n))


def wrong_sizes(rng: Random) -> Iterator[Call]:
    """Rows of all sorts with n out of range."""
    for n in rows.WRONG_SIZES:
        in_16_bits = 2 * n % 65536
        lengths = [0, 1, 4] + [in_16_bits] * (in_16_bits <= 2048)
        for length in lengths:
            yield compare(n, rows.old_words(rng, length), rows.old_words(rng, length))
        for few in range(2, 9):
            yield compare(n, rows.any_row(rng, few), rows.any_row(rng, few))


def wrong_lengths(rng: Random) -> Iterator[Call]:
    """A first row, a second one, or both, that are not 2n words; right rows and wrong ones."""
    for n in [2, 3, 4, 5, 8, 16, 30, 128, 512]:
        for length in (0, 1, n, 2 * n - 1, 2 * n + 1):
            row = rows.valid_row(rng, n)
            cut = (row + [0])[:length]
            yield compare(n, cut, row)
            yield compare(n, row, cut)
            yield compare(n, cut, cut)
        yield compare(n, rows.valid_row(rng, n)[1:], rows.valid_row(rng, n) + [0])
    for _ in range(100):
        n = rng.randint(2, 30)
        buffers = [rows.any_row(rng, n), rows.any_row(rng, n)]
        yield compare(n, *rows.one_wrong_length(rng, buffers))


def stored(rng: Random) -> Iterator[Call]:
    """The calls that are stored."""
    yield from specimens()
    yield from small_rows(rng)
    yield from trees(rng)
    yield from wide_trees(rng)
    yield from long_chains(rng)
    yield from rows_of_every_kind(rng)
    yield from wide_rows(rng)
    yield from wrong_sizes(rng)
    yield from wrong_lengths(rng)


def random_rows(rng: Random, n: int) -> list[Words]:
    """Two rows: of a tree and its partner, or one of any kind in either place, or both."""
    tree = shapes.any_tree(rng, n)
    partner = rng.choice(PARTNERS)(rng, n, tree)
    buffers = [rows.shuffled_row(rng, n, one) for one in shapes.shuffled(rng, [tree, partner])]
    kind = rng.choice(["pair", "pair", "first", "second", "both"])
    if kind in ("first", "both"):
        buffers[0] = rows.random_row(rng, n)
    if kind in ("second", "both"):
        buffers[1] = rows.random_row(rng, n)
    return buffers


def at_random(rng: Random) -> Call:
    """One call, with any n and any two rows."""
    n = rows.some_size(rng)
    buffers = random_rows(rng, n)
    if rng.random() < 0.04:
        buffers = rows.one_wrong_length(rng, buffers)
    if rng.random() < 0.02:
        n = rng.choice(rows.WRONG_SIZES)
    return compare(n, *buffers)
