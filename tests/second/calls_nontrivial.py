"""The calls of comparing that tell which groups count (RULES 8.2), stored last of all."""

from __future__ import annotations

from itertools import combinations_with_replacement, permutations
from random import Random
from typing import Iterator

import rows
import shapes
from calls import Call
from calls_compare import compare, compare_trees
from rules import MOST_SAMPLES, ROOT, Group, Tree, Words, row_in_order, standard_order

SEED = 20400  # its own, so that the calls stored before these stay as they are

# How many samples the trees have.
EACH_SIZE = range(3, 13)  # those with groups of every size
IN_BOTH_KINDS = range(3, 8)  # of these, those for which each group is in both kinds of trees
DRAWN_FROM = [range(13, 21), range(21, 31), range(31, 41)]
EVERY_NUMBERING = [2, 3, 4]
SOME_NUMBERINGS = range(5, 13)
BARE = range(2, 13)
EACH_COUNT = range(2, 9)  # those with every number of nodes
IN_THREES = range(3, 11)

LACKED = [2, 511]  # sizes of the groups that one of two trees of 512 samples lacks


def each_way(rng: Random, n: int, one: Tree, other: Tree) -> Iterator[Call]:
    """Two trees compared in both orders, each time in some numberings."""
    yield compare_trees(rng, n, one, other)
    yield compare_trees(rng, n, other, one)


# A group that both trees have, the first alone, the second alone


def rival(rng: Random, n: int, group: Group) -> Group:
    """A group with one sample exchanged; its size is the same, often its smallest sample too."""
    out = rng.choice(sorted(group)[1:])
    return group - {out} | {rng.choice(sorted(set(range(n)) - group))}


def alone(rng: Random, n: int, group: Group) -> Iterator[Call]:
    """Trees with no other group: both have it, one is bare, one has another of its size."""
    tree = shapes.tree_of(n, group)
    yield compare_trees(rng, n, tree, tree)
    yield from each_way(rng, n, tree, shapes.tree_of(n))
    yield from each_way(rng, n, tree, shapes.tree_of(n, rival(rng, n, group)))


def among_others(rng: Random, n: int, group: Group) -> Iterator[Call]:
    """Trees with as many groups as there can be: both have it, or they differ in it alone."""
    tree = shapes.binary_with(rng, n, group)
    yield from each_way(rng, n, tree, shapes.binary_with(rng, n, group))
    yield from each_way(rng, n, tree, tree - {group})


def all_but_each(rng: Random, n: int) -> list[Group]:
    """Groups of all samples but one, each left out in turn."""
    return [frozenset(range(n)) - {left_out} for left_out in range(n)]


def two_with_each(rng: Random, n: int) -> list[Group]:
    """Groups of two samples, each in turn with another."""
    others = [rng.choice([other for other in range(n) if other != one]) for one in range(n)]
    return [frozenset(two) for two in enumerate(others)]


def sizes_between(rng: Random, n: int) -> list[Group]:
    """A group of each size above two and below n-1."""
    return [frozenset(rng.sample(range(n), size)) for size in range(3, n - 1)]


GROUPS = [all_but_each, two_with_each, sizes_between]


def groups_of_each_size(rng: Random) -> Iterator[Call]:
    """All of these groups, in both kinds of trees if n is small, else in one of them."""
    for n in EACH_SIZE:
        for group in [group for make in GROUPS for group in make(rng, n)]:
            for take in rng.sample([alone, among_others], 2 if n in IN_BOTH_KINDS else 1):
                yield from take(rng, n, group)


def groups_of_more_samples(rng: Random) -> Iterator[Call]:
    """One of each of these groups for an n from each range."""
    for sizes in DRAWN_FROM:
        n = rng.choice(sizes)
        for make in GROUPS:
            yield from rng.choice([alone, among_others])(rng, n, rng.choice(make(rng, n)))


def exchanged(order: list[int], i: int) -> list[int]:
    """The order with two neighbours exchanged: only its first i+1 samples are another group."""
    return [*order[:i], order[i + 1], order[i], *order[i + 2 :]]


def widest_trees(rng: Random) -> Iterator[Call]:
    """Trees of 512 samples: bare, with one group, the deepest, and some that differ a little."""
    n, order = MOST_SAMPLES, shapes.shuffled(rng, list(range(MOST_SAMPLES)))
    bare, deepest = shapes.tree_of(n), shapes.caterpillar_of(order)
    for tree in (bare, deepest, shapes.one_group(rng, n, 2), shapes.one_group(rng, n, n - 1)):
        yield compare_trees(rng, n, tree, tree)
    # Other groups of two samples and of 511; another of 257, which is 1 in 8 bits.
    orders = [exchanged(exchanged(order, 1), n - 2), exchanged(order, n // 2)]
    near = [shapes.caterpillar_of(other) for other in orders]
    lacking = [deepest - {frozenset(order[:size])} for size in LACKED]
    for tree in (bare, *near, *lacking):
        yield from each_way(rng, n, deepest, tree)


# Numberings


def against_near(rng: Random, n: int, tree: Tree, orders: list[list[Group]]) -> Iterator[Call]:
    """A tree's inner nodes in each of these orders, against the tree and another near it."""
    near = shapes.one_move(rng, n, tree)
    for order in orders:
        row = row_in_order(n, order)
        yield compare(n, row, rows.shuffled_row(rng, n, tree))
        yield compare(n, row, rows.shuffled_row(rng, n, near))
        yield compare(n, rows.shuffled_row(rng, n, near), row)


def every_numbering(rng: Random) -> Iterator[Call]:
    """Every tree of few samples in every numbering."""
    for n in EVERY_NUMBERING:
        for tree in rows.every_tree(n):
            orders = [list(order) for order in permutations(standard_order(tree))]
            yield from against_near(rng, n, tree, orders)


def some_numberings(rng: Random) -> Iterator[Call]:
    """Trees of more samples, numbered from the root down, up to it and at random."""
    for n in SOME_NUMBERINGS:
        tree = rng.choice([shapes.binary, shapes.caterpillar, shapes.multifurcating])(rng, n)
        order = standard_order(tree)
        yield from against_near(rng, n, tree, [order, order[::-1], shapes.shuffled(rng, order)])


# How many groups the trees have


def bare_trees(rng: Random) -> Iterator[Call]:
    """A bare tree against itself and against the fullest."""
    for n in BARE:
        bare = shapes.tree_of(n)
        yield compare_trees(rng, n, bare, bare)
        for full in (shapes.binary, shapes.caterpillar):
            yield from each_way(rng, n, bare, full(rng, n))


def every_count_of_nodes(rng: Random) -> Iterator[Call]:
    """Rows of n+1 to 2n-1 nodes, each m with each, their groups drawn from one tree."""
    for n in EACH_COUNT:
        for counts in combinations_with_replacement(range(n - 1), 2):
            groups = shapes.proper_groups(shapes.binary(rng, n))
            trees = [shapes.tree_of(n, *rng.sample(groups, count)) for count in counts]
            yield from each_way(rng, n, *trees)


def three_trees(rng: Random) -> Iterator[Call]:
    """Three trees, each compared with each in both orders (for RULES 8.5)."""
    for n in IN_THREES:
        for make in (shapes.runs_near, shapes.runs_swapped):
            for first, second in permutations(make(rng, n, 3), 2):
                yield compare_trees(rng, n, first, second)


# Refused rows, where counts seem to be known before all is checked


def lacking_row(rng: Random, n: int) -> Words:
    """A row that is refused, or has a single branch."""
    row = rows.any_row(rng, n)
    while rows.is_branching(n, row):
        row = rows.any_row(rng, n)
    return row


def refused_rows_of_2() -> list[Words]:
    """Rows of two samples with a wrong m, a wrong parent, no root."""
    return [[2, 2, 2, ROOT], [4, 2, 2, ROOT], [3, 2, 3, ROOT], [3, 2, 2, 2]]


def beside_trees(rng: Random, n: int, row: Words) -> Iterator[Call]:
    """Such a row against itself, and in either place beside bare and full trees."""
    yield compare(n, row, row)
    for tree in (shapes.bare(rng, n), shapes.binary(rng, n)):
        yield compare(n, row, rows.shuffled_row(rng, n, tree))
        yield compare(n, rows.shuffled_row(rng, n, tree), row)


def refused_rows(rng: Random) -> Iterator[Call]:
    """Refused rows of two samples and of more, a few with a single branch among them."""
    for row in refused_rows_of_2():
        yield from beside_trees(rng, 2, row)
    for n in EACH_SIZE:
        yield from beside_trees(rng, n, lacking_row(rng, n))


def stored() -> Iterator[Call]:
    """The calls that are stored."""
    rng = Random(SEED)
    yield from groups_of_each_size(rng)
    yield from groups_of_more_samples(rng)
    yield from widest_trees(rng)
    yield from every_numbering(rng)
    yield from some_numberings(rng)
    yield from bare_trees(rng)
    yield from every_count_of_nodes(rng)
    yield from three_trees(rng)
    yield from refused_rows(rng)
