"""Makers of test material: thresholds, and the trees of runs that lie at a threshold's edge.

All chance comes from the random.Random handed in, and every list that chance
picks from has a fixed order, so the same seed makes the same material.
"""

from __future__ import annotations

from random import Random
from typing import Callable

import shapes
from rules import BY_DEFAULT, LEAST_THRESHOLD, MOST_THRESHOLD, WHOLE, Group, Tree, threshold

# Thresholds, in per cent (RULES 5.7)

ACCEPTED = range(LEAST_THRESHOLD, MOST_THRESHOLD + 1)
USUAL = [BY_DEFAULT, 50, 51, 60, 66, 67, 75, 80, 99, 100]
# Beside the bounds, at those of a word, and such as are accepted when only their low byte counts.
REFUSED = [1, 49, 101, 256, 306, 356, 32767, 32768, 65535]


def refused_threshold(rng: Random) -> int:
    """A threshold that is refused."""
    below, above = rng.randint(2, LEAST_THRESHOLD - 2), rng.randint(MOST_THRESHOLD + 2, 65534)
    return rng.choice([*REFUSED, below, below, above, above])


def accepted_threshold(rng: Random) -> int:
    """A threshold that is accepted: mostly one that people ask for."""
    return rng.choice([*USUAL, rng.choice(ACCEPTED), rng.choice(ACCEPTED)])


def any_threshold(rng: Random) -> int:
    """A threshold, mostly accepted."""
    return refused_threshold(rng) if rng.random() < 0.08 else accepted_threshold(rng)


def around(p: int) -> list[int]:
    """A threshold, those beside it that are accepted, and the default."""
    return [BY_DEFAULT, *(other for other in (p - 1, p, p + 1) if other in ACCEPTED)]


# How many runs of k are at a threshold


def at_edge(k: int, p: int) -> int:
    """The most runs that are no more than the threshold's share of k."""
    return threshold(p) * k // WHOLE


def fewest(k: int, p: int) -> int:
    """The fewest of k runs that have to hold a group for it to be shown."""
    return min(k, at_edge(k, p) + 1)


# The trees of k runs, in the order of their identifiers

Holding = Callable[[Random, int, int], list[int]]  # which of k runs are the `count` that hold


def any_of(rng: Random, k: int, count: int) -> list[int]:
    """Any of the runs."""
    return rng.sample(range(k), count)


def last_of(rng: Random, k: int, count: int) -> list[int]:
    """The last runs."""
    return list(range(k - count, k))


def runs_held(rng: Random, n: int, k: int, counts: list[int], which: Holding) -> list[Tree]:
    """The trees of k runs, the proper groups of one tree held by these counts in turn."""
    groups = shapes.proper_groups(rng.choice([shapes.binary, shapes.caterpillar])(rng, n))
    held: list[set[Group]] = [set() for _ in range(k)]
    for i, group in enumerate(shapes.shuffled(rng, groups)):
        for run in which(rng, k, max(0, min(k, counts[i % len(counts)]))):
            held[run].add(group)
    trees = [shapes.trivial_groups(n) | run for run in held]
    return [with_own_group(rng, n, tree, frozenset(groups)) for tree in trees]


def with_own_group(rng: Random, n: int, tree: Tree, counted: Tree) -> Tree:
    """The tree with nodes joined at will, so that runs conflict; none of the counted is added."""
    other = shapes.join_children(rng, n, tree)
    return tree if (other - tree) & counted else other


def runs_at_edge(rng: Random, n: int, k: int, p: int) -> list[Tree]:
    """The trees of k runs, groups held by as many as the edge, and by one fewer and one more."""
    edge = at_edge(k, p)
    return runs_held(rng, n, k, [edge, edge + 1, edge - 1], any_of)


def runs_late(rng: Random, n: int, k: int, p: int) -> list[Tree]:
    """The trees of k runs, groups held by the last of them alone: just enough, and one too few."""
    enough = fewest(k, p)
    return runs_held(rng, n, k, [enough, enough - 1], last_of)


def runs_changed(rng: Random, n: int, k: int, p: int) -> list[Tree]:
    """The trees of k runs, one tree in just enough of the last, its neighbour in the first."""
    tree = rng.choice([shapes.binary, shapes.caterpillar])(rng, n)
    enough = fewest(k, p)
    return [shapes.one_move(rng, n, tree)] * (k - enough) + [tree] * enough


def runs_nearly_all(rng: Random, n: int, k: int) -> list[Tree]:
    """The trees of k runs, groups held by all of them, and by all but one."""
    return runs_held(rng, n, k, [k, k - 1], any_of)


EDGES: list[Callable[[Random, int, int, int], list[Tree]]] = [runs_at_edge, runs_late, runs_changed]


def any_edge(rng: Random, n: int, k: int, p: int) -> list[Tree]:
    """The trees of k runs at the edge of any kind."""
    return rng.choice(EDGES)(rng, n, k, p)
