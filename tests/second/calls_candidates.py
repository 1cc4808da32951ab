"""The calls of reporting that a slip over the order of the runs would show in, stored last."""

from __future__ import annotations

from itertools import product
from random import Random
from typing import Iterator

import orders
import rows
import shapes
import thresholds
from calls import Call
from calls_thresholds import report_in_order
from rules import BY_DEFAULT, MOST_SAMPLES

SEED = 20600  # its own, so that the calls stored before these stay as they are

SIZES = range(4, 13)  # of studies with few samples
# Thresholds asked for: of drawn trees, of chains, and of many runs.
ASKED = [BY_DEFAULT, 50, 67, 100]
ASKED_OF_CHAINS = [BY_DEFAULT, BY_DEFAULT, 50, 60, 67, 75, 100]
ASKED_OF_MANY = [50, 60, 66, 67, 75, 80, 90, 99, 100]

# Trees of three and of four samples


def every_five(rng: Random) -> Iterator[Call]:
    """Every sequence of five trees of three samples."""
    for trees in product(rows.every_tree(3), repeat=5):
        yield report_in_order(rng, 3, list(trees), BY_DEFAULT)


def drawn_six(rng: Random) -> Iterator[Call]:
    """Six trees of three samples, drawn."""
    every = rows.every_tree(3)
    for _ in range(600):
        yield report_in_order(rng, 3, rng.choices(every, k=6), BY_DEFAULT)


def drawn_of_four(rng: Random) -> Iterator[Call]:
    """Three to seven trees of four samples, drawn from two to five of them."""
    every = rows.every_tree(4)
    for _ in range(800):
        some = rng.sample(every, rng.randint(2, 5))
        trees = rng.choices(some, k=rng.randint(3, 7))
        yield report_in_order(rng, 4, trees, rng.choice(ASKED))


# Trees in conflict


def two_trees(rng: Random) -> Iterator[Call]:
    """Two trees in conflict, one in about half of the runs, in every order."""
    for which, k in product(orders.ORDERS, range(2, 13)):
        for count in orders.near_half(k):
            for make in (orders.resolutions, orders.in_conflict):
                n = rng.choice(SIZES)
                one, other, *_ = make(rng, n)
                trees = orders.placed(k, which(rng, k, count), one, [other])
                yield report_in_order(rng, n, trees, BY_DEFAULT)


def three_trees(rng: Random) -> Iterator[Call]:
    """Three trees by turns; at the end one comes until it has more than half, or just half."""
    for n, turns in product(SIZES, (1, 2, 3)):
        for more in (turns, turns + 1):
            trees = orders.resolutions(rng, n)
            yield report_in_order(rng, n, trees * turns + trees[-1:] * more, BY_DEFAULT)
            yield report_in_order(rng, n, trees * turns + trees[:1] * more, BY_DEFAULT)


def one_of_three(rng: Random) -> Iterator[Call]:
    """One of three trees in about half of the runs, in every order; the others by turns."""
    for which, k in product(orders.ORDERS, range(3, 10)):
        for count in orders.near_half(k):
            n = rng.choice(SIZES)
            one, *others = orders.resolutions(rng, n)
            trees = orders.placed(k, which(rng, k, count), one, others)
            yield report_in_order(rng, n, trees, BY_DEFAULT)


def coming_back(rng: Random) -> Iterator[Call]:
    """A tree that falls behind another and comes back, to be ahead, even or behind at the end."""
    for n, turns, end in product(SIZES, (1, 2, 3), (1, 0, -1)):
        for make in (orders.resolutions, orders.in_conflict):
            trees = orders.in_blocks(make(rng, n)[:2], orders.swings(rng, turns, end))
            yield report_in_order(rng, n, trees, BY_DEFAULT)


def late_trees(rng: Random) -> Iterator[Call]:
    """A tree in the last runs alone, more than half of them, just half or fewer."""
    for k in range(1, 16):
        for count in orders.near_half(k):
            for n in rng.sample(SIZES, 3):
                trees = orders.runs_overruled(rng, n, k, count, thresholds.last_of)
                yield report_in_order(rng, n, trees, BY_DEFAULT)


def overruled_trees(rng: Random) -> Iterator[Call]:
    """The same in every order."""
    for which, k in product(orders.ORDERS, range(3, 12)):
        n = rng.choice(SIZES)
        trees = orders.runs_overruled(rng, n, k, k // 2 + 1, which)
        yield report_in_order(rng, n, trees, BY_DEFAULT)


def chains(rng: Random) -> Iterator[Call]:
    """Groups within one another, each held by just enough runs to be shown or by one too few."""
    for n, k in product(SIZES, range(3, 14)):
        for p in rng.sample(ASKED_OF_CHAINS, 2):
            enough = thresholds.fewest(k, p)
            trees = orders.runs_of_chain(rng, n, k, [enough, enough - 1])
            yield report_in_order(rng, n, trees, p)


# Nodes with many children, and long paths


def wide_and_deep(rng: Random, n: int, k: int) -> Iterator[Call]:
    """A tree with many children, and a caterpillar, each in about half of k runs."""
    for make in (orders.runs_of_wide, orders.runs_of_deep):
        count = rng.choice(orders.near_half(k)[1:])
        trees = make(rng, n, k, count, rng.choice(orders.ORDERS))
        yield report_in_order(rng, n, trees, BY_DEFAULT)


def long_paths(rng: Random) -> Iterator[Call]:
    """Nodes with many children against caterpillars, up to 512 samples."""
    for n in range(5, 41):
        yield from wide_and_deep(rng, n, rng.randint(3, 9))
    for k in (3, 4, 5):
        yield from wide_and_deep(rng, 128, k)
    for k in (3, 5):
        yield from wide_and_deep(rng, MOST_SAMPLES, k)


def many_paths(rng: Random) -> Iterator[Call]:
    """Two binary trees near each other, one in just more than half of the runs."""
    for n in range(13, 49):
        k = rng.randint(3, 5)
        one = shapes.binary(rng, n)
        other = shapes.near(rng, n, one, 5)
        runs = rng.choice(orders.ORDERS)(rng, k, k // 2 + 1)
        yield report_in_order(rng, n, orders.placed(k, runs, one, [other]), BY_DEFAULT)


# Many runs


def many_runs(rng: Random) -> Iterator[Call]:
    """64 to 100 runs, groups on a threshold's edge."""
    for p in ASKED_OF_MANY:
        n, k = rng.randint(5, 9), rng.choice([64, 100, rng.randint(65, 99)])
        enough = thresholds.fewest(k, p)
        yield report_in_order(rng, n, orders.runs_of_chain(rng, n, k, [enough, enough - 1]), p)
        yield report_in_order(rng, n, thresholds.runs_at_edge(rng, n, k, p), p)


def stored() -> Iterator[Call]:
    """The calls that are stored."""
    rng = Random(SEED)
    yield from every_five(rng)
    yield from drawn_six(rng)
    yield from drawn_of_four(rng)
    yield from two_trees(rng)
    yield from three_trees(rng)
    yield from one_of_three(rng)
    yield from coming_back(rng)
    yield from late_trees(rng)
    yield from overruled_trees(rng)
    yield from chains(rng)
    yield from long_paths(rng)
    yield from many_paths(rng)
    yield from many_runs(rng)
