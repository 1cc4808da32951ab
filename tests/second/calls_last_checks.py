"""The calls with rows that get as far as checks 9 and 10 (RULES 7.5), stored after each op's.

Where a row was made to have one child of some node, that is a single branch: it is taken.
"""

from __future__ import annotations

from itertools import cycle, product
from random import Random
from typing import Iterator

import rows
import shapes
import studies
from calls import Call
from calls_compare import compare
from calls_judge import judge
from calls_renumber import onto_old
from rules import ROOT, Words
from sequences import add

SEED = 20350  # its own, so that the calls stored before these stay as they are
FREE = 5  # an identifier that no run of a made study has

SOME_SIZES = range(5, 41)
FEW_BITS = [5, 9]  # samples: their nodes may be one more than 8 or 16 bits can mark
MORE_BITS = [17, 33]  # the same for 32 and 64 bits
CHAINED = [6, 11]  # samples of the chains of every kind
SPOILT = range(5, 16)  # samples of the rows that an earlier check refuses
BUSHES = [128, 256, 257, 512, 512]  # children of one node; a byte counts few of them, or none
MASKED = [(130, 255), (257, 511)]  # samples, and an inner node: the low bits of ROOT

# The calls that take a row


def added(rng: Random, n: int, row: Words) -> Call:
    """The row added to a study that has room for it; it has up to two runs, none if n is large."""
    trees = shapes.runs_apart(rng, n, rng.randint(0, 2 if n < 50 else 0))
    return add(studies.study_of(rng, n, trees, studies.length_for(n, len(trees) + 1)), FREE, row)


def compared_first(rng: Random, n: int, row: Words) -> Call:
    """The row compared with a valid one."""
    return compare(n, row, rows.valid_row(rng, n))


def compared_second(rng: Random, n: int, row: Words) -> Call:
    """A valid row compared with it."""
    return compare(n, rows.valid_row(rng, n), row)


def judged(rng: Random, n: int, row: Words) -> Call:
    """The row judged."""
    return judge(n, row)


TAKERS = [added, onto_old, compared_first, compared_second]
ALL_TAKERS = [*TAKERS, judged]


def in_calls(rng: Random, n: int, row: Words, count: int) -> Iterator[Call]:
    """The row in this many of the calls."""
    for take in rng.sample(ALL_TAKERS, count):
        yield take(rng, n, row)


# Every row of few samples


def lacking_rows(n: int) -> list[Words]:
    """Every row of n samples that gets to check 9 and lacks the root's reach or a second child."""
    return [row for row in rows.rows_with_root(n) if not rows.is_branching(n, row)]


def add_rows_of_3(rng: Random) -> Iterator[Call]:
    """Every such row of three samples added: with room, without, under an identifier in force."""
    for row in lacking_rows(3):
        words = studies.study_of(rng, 3, shapes.runs_apart(rng, 3, 1), studies.length_for(3, 1))
        yield added(rng, 3, row)
        yield add(words, FREE, row)
        yield add(words, *studies.identifiers(words), row)


def compare_rows_of_3() -> Iterator[Call]:
    """Every such row of three samples compared with every one that is not, and with every other."""
    lacking, others = lacking_rows(3), rows.branching_rows(3)
    for first, second in [*product(lacking, others + lacking), *product(others, lacking)]:
        yield compare(3, first, second)


def rows_of_4(rng: Random) -> Iterator[Call]:
    """Every such row of four samples renumbered; every third one is added or compared too."""
    for i, row in enumerate(lacking_rows(4)):
        yield onto_old(rng, 4, row)
        if i % 3 == 0:
            yield rng.choice([added, compared_first, compared_second])(rng, 4, row)


# Rows in which each node in turn is the lowest of its kind


def lost_in_turn(rng: Random, n: int) -> Iterator[Words]:
    """Rows in which each node in turn is the lowest that is lost; some have filler."""
    for v in range(2 * n - 1):
        m = rows.nodes_from(rng, n, max(v + 1, n + 2))
        yield rows.lost_row(rng, n, m, rows.lost_from(rng, n, m, v))


def few_in_turn(rng: Random, n: int) -> Iterator[Words]:
    """Rows in which each inner node in turn is the only one, or the lowest, with few children."""
    for v in range(n, 2 * n - 1):
        m = rows.nodes_from(rng, n, max(v + 1, n + 2))
        for one, none in ([[v], []], [[], [v]], rows.few_from(rng, n, m, v)):
            yield rows.few_children_row(rng, n, m, one, none)


def in_turn(rng: Random) -> Iterator[Call]:
    """Such rows in every call, or in one if they are long."""
    for sizes, count in ((FEW_BITS, len(ALL_TAKERS)), (MORE_BITS, 1)):
        for n in sizes:
            for row in [*lost_in_turn(rng, n), *few_in_turn(rng, n)]:
                yield from in_calls(rng, n, row, count)


# Rows by chance


def lost_rows(rng: Random, n: int) -> Iterator[Words]:
    """Rows that lose samples of every kind, and inner nodes of some kind."""
    for samples in rows.lost_samples(rng, n):
        m = rows.nodes_from(rng, n, n + 2)
        inner = rng.choice(rows.lost_inner(rng, n, m))
        yield rows.lost_row(rng, n, m, {*samples, *inner})


def few_rows(rng: Random, n: int) -> Iterator[Words]:
    """Rows whose first, last or any inner nodes have one child or none."""
    m = rows.nodes_from(rng, n, n + 2)
    for v in (n, m - 1, rng.randrange(n, m)):
        yield rows.few_children_row(rng, n, m, *rows.few_from(rng, n, m, v))
    yield rows.few_children_row(rng, n, m, [rng.choice([n, m - 1])], [])
    yield rows.few_children_row(rng, n, m, [], [rng.choice([n, m - 1])])


def by_chance(rng: Random) -> Iterator[Call]:
    """Such rows of 5 to 40 samples, each in two calls."""
    for n in SOME_SIZES:
        for row in [*lost_rows(rng, n), *few_rows(rng, n)]:
            yield from in_calls(rng, n, row, 2)


def spoilt(rng: Random, n: int, row: Words) -> Iterator[Words]:
    """The row with a parent out of range, with a second root, and with filler that is not 0."""
    m, root = row[0], row.index(ROOT) - 1
    yield rows.with_parent(row, rng.randrange(m), m)
    yield rows.with_parent(row, rng.choice([v for v in range(n, m) if v != root]), ROOT)
    yield rows.with_filler(rng, n, row)


def refused_earlier(rng: Random) -> Iterator[Call]:
    """Rows with lost nodes or with few children that 6, 7 or 8 refuses."""
    for n in SPOILT:
        m = rng.randint(n + 2, 2 * n - 2)
        lost, few = rows.lost_from(rng, n, m, rng.randrange(m)), rows.few_from(rng, n, m, n)
        for row in (rows.lost_row(rng, n, m, lost), rows.few_children_row(rng, n, m, *few)):
            for other in spoilt(rng, n, row):
                yield from in_calls(rng, n, other, 1)


# Chains, for the longest ways up


def all_depths(n: int, end: int) -> list[list[int]]:
    """Depths of samples on a chain that has its end at this depth."""
    falling = rows.falling_depths(n, end)
    return [falling, falling[::-1], *rows.end_depths(n, end)]


def chains(rng: Random) -> Iterator[Call]:
    """Chains in every order, straight and bent, with the samples at all depths."""
    for n in CHAINED:
        m = rows.nodes_from(rng, n, n + 3)
        orders = rows.orders_of(rng, list(range(n, m)))
        for chain, depths in product(orders, all_depths(n, m - n - 1)):
            for row in [rows.chain_row(n, chain, depths), *rows.bent_chain_rows(n, chain, depths)]:
                yield from in_calls(rng, n, row, 1)


def deepest(rng: Random, n: int) -> Iterator[Words]:
    """The deepest trees, the lowest sample at the end of the longest way, in every order."""
    for chain in rows.orders_of(rng, list(range(n, 2 * n - 1))):
        yield rows.chain_row(n, chain, rows.falling_depths(n, n - 2))


def deepest_trees(rng: Random) -> Iterator[Call]:
    """One of them for each of 5 to 40 samples."""
    for n in SOME_SIZES:
        yield from in_calls(rng, n, rng.choice(list(deepest(rng, n))), 1)


# Many samples


def full_rings(rng: Random, n: int) -> Iterator[Words]:
    """Rows whose inner nodes are the root and one cycle: below it are one sample, all, or none."""
    chain = shapes.shuffled(rng, list(range(n, 2 * n - 1)))
    for depths in rows.end_depths(n, n - 2):
        yield rows.with_parent(rows.chain_row(n, chain, depths), chain[1], chain[-1])


WIDE = [
    (50, lost_rows),
    (50, few_rows),
    (511, lost_rows),
    (512, lost_rows),
    (512, few_rows),
    (512, deepest),
    (512, full_rings),
]


def wide_rows(rng: Random) -> Iterator[Call]:
    """Rows of the kinds above and of many samples, added, renumbered and compared in turn."""
    made = [(n, row) for n, make in WIDE for row in make(rng, n)]
    for (n, row), take in zip(made, cycle(TAKERS)):
        yield take(rng, n, row)


def bushes(rng: Random) -> Iterator[Call]:
    """Trees with many children of one node, and of two."""
    for n in BUSHES:
        yield from in_calls(rng, n, rows.standard_row(n, shapes.bare(rng, n)), 2)
    halves = rows.shuffled_row(rng, 512, shapes.one_group(rng, 512, 256))
    yield from in_calls(rng, 512, halves, 2)


def masked(rng: Random) -> Iterator[Call]:
    """Rows with one child of the node whose number is the low bits of the root's mark."""
    for n, v in MASKED:
        row = rows.few_children_row(rng, n, 2 * n - 1, [v], [])
        for take in TAKERS:
            yield take(rng, n, row)


def last_nodes(rng: Random) -> Iterator[Call]:
    """Rows in which the last node is lost or has few children, after a tree of as many nodes."""
    for n in (40, 512):
        last = 2 * n - 2
        tree = rows.shuffled_row(rng, n, shapes.binary(rng, n))
        for lost in ({last}, {n - 1, last}):
            yield compare(n, tree, rows.lost_row(rng, n, last + 1, lost))
        for one, none in (([last], []), ([], [last])):
            yield compare(n, tree, rows.few_children_row(rng, n, last + 1, one, none))


def stored() -> Iterator[Call]:
    """The calls that are stored."""
    rng = Random(SEED)
    yield from add_rows_of_3(rng)
    yield from compare_rows_of_3()
    yield from rows_of_4(rng)
    yield from in_turn(rng)
    yield from by_chance(rng)
    yield from refused_earlier(rng)
    yield from chains(rng)
    yield from deepest_trees(rng)
    yield from wide_rows(rng)
    yield from bushes(rng)
    yield from masked(rng)
    yield from last_nodes(rng)
