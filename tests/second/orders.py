"""Makers of test material: trees in conflict, and the orders in which runs have them.

All chance comes from the random.Random handed in, and every list that chance
picks from has a fixed order, so the same seed makes the same material.
"""

from __future__ import annotations

from itertools import combinations, cycle, pairwise
from random import Random

import shapes
from rules import Group, Tree, agree, standard_order
from thresholds import Holding, any_of, last_of

# Which of k runs, counted from 0, are the `count` that hold


def first_of(rng: Random, k: int, count: int) -> list[int]:
    """The first runs."""
    return list(range(count))


def middle_of(rng: Random, k: int, count: int) -> list[int]:
    """The runs in the middle."""
    start = (k - count) // 2
    return list(range(start, start + count))


def ends_of(rng: Random, k: int, count: int) -> list[int]:
    """The first runs and the last, half of them each."""
    return [*range(count - count // 2), *range(k - count // 2, k)]


def in_turn(rng: Random, k: int, count: int) -> list[int]:
    """Runs spread evenly, the first among them."""
    return [i * k // count for i in range(count)]


def in_turn_to_last(rng: Random, k: int, count: int) -> list[int]:
    """Runs spread evenly, the last among them."""
    return [k - 1 - run for run in in_turn(rng, k, count)]


def by_twos(rng: Random, k: int, count: int) -> list[int]:
    """Every other two runs, the first two among them; if more are asked for, the first left out."""
    return sorted(range(k), key=lambda run: run // 2 % 2)[:count]


ORDERS: list[Holding] = [
    first_of,
    middle_of,
    last_of,
    ends_of,
    in_turn,
    in_turn_to_last,
    by_twos,
    any_of,
]


def near_half(k: int) -> range:
    """The number of runs just below half of k, half of it, and just above it."""
    return range((k - 1) // 2, k // 2 + 2)


# Trees in conflict


def conflict(one: Tree, other: Tree) -> bool:
    """Whether a group of one tree and one of the other are not in agreement."""
    return any(not agree(group, against) for group in one for against in other)


def resolutions(rng: Random, n: int) -> list[Tree]:
    """Three trees with one group each that the others lack and conflict with; n is above 2."""
    tree = shapes.drop_group(rng, n, shapes.binary(rng, n))
    below = (shapes.children(tree, group) for group in standard_order(tree))
    parts = next(parts for parts in below if len(parts) == 3)
    pairs = shapes.shuffled(rng, list(combinations(parts, 2)))
    return [tree | {one | other} for one, other in pairs]


def in_conflict(rng: Random, n: int) -> list[Tree]:
    """Two trees that conflict, near each other or not; n is above 2."""
    make = rng.choice([shapes.runs_near, shapes.runs_swapped, shapes.runs_apart])
    trees = make(rng, n, 2)
    while not conflict(*trees):
        trees = make(rng, n, 2)
    return trees


def against(rng: Random, order: list[int]) -> Tree:
    """A tree that conflicts with every proper group of the caterpillar in which samples come so."""
    first, _, *between, last = order
    drawn = rng.sample(between, rng.randint(0, len(between)))
    return shapes.binary_with(rng, len(order), frozenset([first, *drawn, last]))


# Trees one after another


def placed(k: int, runs: list[int], one: Tree, others: list[Tree]) -> list[Tree]:
    """The trees of k runs: one in these of them, the others by turns in the rest."""
    rest = cycle(others)
    return [one if run in runs else next(rest) for run in range(k)]


def in_blocks(trees: list[Tree], lengths: list[int]) -> list[Tree]:
    """The trees by turns, each as often as the next length says."""
    return [tree for tree, length in zip(cycle(trees), lengths) for _ in range(length)]


def swings(rng: Random, turns: int, end: int) -> list[int]:
    """Lengths of blocks of two trees: in each turn each gets ahead, the first last, by `end`."""
    leads = [sign * rng.randint(1, 2) for _ in range(turns) for sign in (1, -1)]
    return [abs(after - before) for before, after in pairwise([0, *leads, end])]


def runs_overruled(rng: Random, n: int, k: int, count: int, which: Holding) -> list[Tree]:
    """The trees of k runs: so many hold a caterpillar, all others conflict with all its groups.

    The others are one tree, or each is drawn.
    """
    order = shapes.shuffled(rng, list(range(n)))
    others = [against(rng, order) for _ in range(rng.choice([1, k]))]
    return placed(k, which(rng, k, count), shapes.caterpillar_of(order), others)


# Chains: each group is the one before it and one sample more


def chain_groups(order: list[int], sizes: set[int]) -> list[Group]:
    """The groups of these sizes of the chain in which samples come in this order."""
    return [frozenset(order[:size]) for size in sorted(sizes)]


def chain_tree(order: list[int], sizes: set[int]) -> Tree:
    """A tree with the groups of these sizes of a chain, in conflict with those of all others."""
    bounds = [1, *sorted(sizes), len(order)]
    turned = [order[start:end][::-1] for start, end in pairwise(bounds)]
    return shapes.caterpillar_of(order[:1] + sum(turned, []))


def runs_of_chain(rng: Random, n: int, k: int, counts: list[int]) -> list[Tree]:
    """The trees of k runs, the groups of one chain held by these counts in turn, in any orders.

    A run mostly conflicts with the groups of the chain that it does not hold.
    """
    held: list[set[int]] = [set() for _ in range(k)]
    for size, count in zip(range(2, n), cycle(shapes.shuffled(rng, counts))):
        for run in rng.choice(ORDERS)(rng, k, count):
            held[run].add(size)
    order = rng.choice([list(range(n)), shapes.shuffled(rng, list(range(n)))])
    with_these = [shapes.tree_of(n, *chain_groups(order, sizes)) for sizes in held]
    with_others = [chain_tree(order, sizes) for sizes in held]
    return [rng.choice([one, *[other] * 3]) for one, other in zip(with_these, with_others)]


# Trees whose nodes have many children, and caterpillars


def wide(rng: Random, n: int) -> Tree:
    """A tree whose nodes have up to n/2 children; n is above 3."""
    return shapes.split_tree(rng, n, max(3, n // 2))


def refined(rng: Random, tree: Tree) -> Tree:
    """The tree with the children of each node in a caterpillar, in any order."""
    grown = set(tree)
    for group in standard_order(tree):
        order = shapes.shuffled(rng, shapes.children(tree, group))
        grown |= {frozenset().union(*order[:count]) for count in range(2, len(order))}
    return frozenset(grown)


def beside_wide(rng: Random, n: int, tree: Tree) -> Tree:
    """A caterpillar in any order, or the tree refined and one sample moved."""
    moved = shapes.move_sample(rng, n, refined(rng, tree))
    return rng.choice([shapes.caterpillar(rng, n), moved])


def runs_of_wide(rng: Random, n: int, k: int, count: int, which: Holding) -> list[Tree]:
    """The trees of k runs: so many hold all groups of one wide tree, and the others may not."""
    tree, runs = wide(rng, n), which(rng, k, count)
    refinements = [rng.choice([tree, refined(rng, tree)]) for _ in range(k)]
    others = [beside_wide(rng, n, tree) for _ in range(k)]
    return [refinements[run] if run in runs else others[run] for run in range(k)]


def runs_of_deep(rng: Random, n: int, k: int, count: int, which: Holding) -> list[Tree]:
    """The trees of k runs: one caterpillar in so many, and a wide tree in each other."""
    others = [wide(rng, n) for _ in range(k)]
    return placed(k, which(rng, k, count), shapes.caterpillar(rng, n), others)
