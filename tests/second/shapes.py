"""Makers of test material: trees of every shape, trees near others, the trees of runs.

All chance comes from the random.Random handed in, and every list that chance
picks from has a fixed order, so the same seed makes the same material.
"""

from __future__ import annotations

from random import Random
from typing import Callable

from rules import Group, Tree, standard_order

# Trees, as sets of groups


def shuffled(rng: Random, items: list) -> list:
    """The items in some order."""
    return rng.sample(items, len(items))


def cut(rng: Random, block: list[int], parts: int) -> list[list[int]]:
    """The block cut into this many parts, none empty."""
    cuts = sorted(rng.sample(range(1, len(block)), parts - 1))
    return [block[start:end] for start, end in zip([0] + cuts, cuts + [len(block)])]


def split(rng: Random, samples: list[int], most: int) -> Tree:
    """The groups of a tree of these samples whose inner nodes have 2 to `most` children each."""
    groups, waiting = set(), [shuffled(rng, samples)]
    while waiting:
        block = waiting.pop()
        groups.add(frozenset(block))
        if len(block) > 1:
            waiting += cut(rng, block, rng.randint(2, min(most, len(block))))
    return frozenset(groups)


def split_tree(rng: Random, n: int, most: int) -> Tree:
    """A tree whose inner nodes have 2 to `most` children each."""
    return split(rng, list(range(n)), most)


def trivial_groups(n: int) -> Tree:
    """The groups that every tree has: the single samples and the whole."""
    singles = (frozenset([sample]) for sample in range(n))
    return frozenset([*singles, frozenset(range(n))])


def tree_of(n: int, *groups: Group) -> Tree:
    """The tree with these groups beside the trivial ones; they have to agree."""
    return trivial_groups(n) | {*groups}


def bare(rng: Random, n: int) -> Tree:
    """The tree with one inner node."""
    return trivial_groups(n)


def binary(rng: Random, n: int) -> Tree:
    """A tree in which every inner node has two children."""
    return split_tree(rng, n, 2)


def binary_with(rng: Random, n: int, group: Group) -> Tree:
    """A tree in which every inner node has two children, and one of them this group."""
    one = min(group)
    # The group is split by itself; outside, one of its samples stands for all of them.
    around = split(rng, [one, *sorted(set(range(n)) - group)], 2)
    grown = frozenset(other | group if one in other else other for other in around)
    return split(rng, sorted(group), 2) | grown


def caterpillar(rng: Random, n: int) -> Tree:
    """The deepest tree: each group is the one below it and one more sample."""
    return caterpillar_of(shuffled(rng, list(range(n))))


def caterpillar_of(order: list[int]) -> Tree:
    """The deepest tree in which samples come together in this order."""
    n = len(order)
    return trivial_groups(n) | {frozenset(order[:size]) for size in range(2, n)}


def multifurcating(rng: Random, n: int) -> Tree:
    """A tree whose inner nodes have two to six children."""
    return split_tree(rng, n, 6)


def few_inner(rng: Random, n: int) -> Tree:
    """A tree with one to three groups that are not trivial, where n allows."""
    groups = proper_groups(binary(rng, n))
    kept = rng.sample(groups, min(len(groups), rng.randint(1, 3)))
    return trivial_groups(n) | frozenset(kept)


def some_groups(rng: Random, n: int, count: int) -> Tree:
    """A tree with this many groups that are not trivial, n - 2 at most."""
    return trivial_groups(n) | frozenset(rng.sample(proper_groups(binary(rng, n)), count))


def one_group(rng: Random, n: int, size: int) -> Tree:
    """A tree with one group of this size beside the trivial ones."""
    return trivial_groups(n) | {frozenset(rng.sample(range(n), size))}


SHAPES: list[Callable[[Random, int], Tree]] = [bare, binary, caterpillar, multifurcating, few_inner]


def any_tree(rng: Random, n: int) -> Tree:
    """A tree of any shape."""
    return rng.choice(SHAPES)(rng, n)


def proper_groups(tree: Tree) -> list[Group]:
    """The groups of a tree that are not trivial, in standard order."""
    return standard_order(tree)[1:]


# Trees near other trees


def children(tree: Tree, group: Group) -> list[Group]:
    """The largest groups inside a group, by their smallest sample."""
    largest: list[Group] = []
    rest = set(group)
    for other in sorted((other for other in tree if other < group), key=len, reverse=True):
        if other <= rest:
            largest.append(other)
            rest -= other
    return sorted(largest, key=min)


def drop_group(rng: Random, n: int, tree: Tree) -> Tree:
    """The tree without one of its groups; the same tree if all are trivial."""
    groups = proper_groups(tree)
    return tree - {rng.choice(groups)} if groups else tree


def join_children(rng: Random, n: int, tree: Tree) -> Tree:
    """The tree with some children of a node put under a new one; the same if it is binary."""
    if len(tree) == 2 * n - 1:
        return tree
    for group in shuffled(rng, standard_order(tree)):
        below = children(tree, group)
        if len(below) > 2:
            joined = rng.sample(below, rng.randint(2, len(below) - 1))
            return tree | {frozenset().union(*joined)}
    return tree


def move_sample(rng: Random, n: int, tree: Tree) -> Tree:
    """The tree with one sample taken out and put back, under a new node or an old one."""
    sample = rng.randrange(n)
    rest = frozenset(group - {sample} for group in tree) - {frozenset()}
    target = rng.choice(sorted(rest, key=lambda group: (len(group), min(group))))
    grown = {group | {sample} for group in rest if target <= group}
    beside = {group for group in rest if not target <= group}
    kept = {target} if len(target) == 1 or rng.random() < 0.5 else set()
    return frozenset(grown | beside | kept | {frozenset([sample])})


def swap_samples(rng: Random, n: int, tree: Tree) -> Tree:
    """The tree with two samples in each other's place: groups of the same sizes, often the same."""
    one, other = rng.sample(range(n), 2)
    there = {one: other, other: one}
    return frozenset(frozenset(there.get(sample, sample) for sample in group) for group in tree)


MOVES = [drop_group, join_children, move_sample, swap_samples]


def one_move(rng: Random, n: int, tree: Tree) -> Tree:
    """Another tree one move away; the same one if n is 2, where there is no other."""
    for move in shuffled(rng, MOVES):
        other = move(rng, n, tree)
        if other != tree:
            return other
    return tree


def near(rng: Random, n: int, tree: Tree, moves: int) -> Tree:
    """A tree at most this many moves away."""
    for _ in range(rng.randint(0, moves)):
        tree = one_move(rng, n, tree)
    return tree


# The trees of k runs


def runs_near(rng: Random, n: int, k: int) -> list[Tree]:
    """The trees of k runs that differ a little from a common tree."""
    common = any_tree(rng, n)
    # With this many moves about half of the common tree's groups are in most runs.
    moves = min(24, 3 + n // 5)
    return [near(rng, n, common, moves) for _ in range(k)]


def runs_halved(rng: Random, n: int, k: int) -> list[Tree]:
    """The trees of k runs, one tree in half of them and its neighbour in the others."""
    one = any_tree(rng, n)
    other = one_move(rng, n, one)
    return shuffled(rng, [one] * (k // 2) + [other] * (k - k // 2))


def runs_counted(rng: Random, n: int, k: int) -> list[Tree]:
    """The trees of k runs, each proper group of one tree held by about half of them."""
    held: list[set[Group]] = [set() for _ in range(k)]
    for group in proper_groups(rng.choice([binary, caterpillar])(rng, n)):
        count = k // 2 + rng.choice([-1, 0, 0, 1, 1, 2])
        for groups in rng.sample(held, max(0, min(k, count))):
            groups.add(group)
    return [trivial_groups(n) | groups for groups in held]


def runs_counted_and_joined(rng: Random, n: int, k: int) -> list[Tree]:
    """The same with nodes joined at will in each, so that runs conflict."""
    trees = runs_counted(rng, n, k)
    for _ in range(rng.randint(1, 3)):
        trees = [join_children(rng, n, tree) for tree in trees]
    return trees


def runs_swapped(rng: Random, n: int, k: int) -> list[Tree]:
    """The trees of k runs of one form: groups of equal sizes, often with equal smallest samples."""
    common = rng.choice([binary, caterpillar])(rng, n)
    return [swap_samples(rng, n, common) for _ in range(k)]


def runs_equal(rng: Random, n: int, k: int) -> list[Tree]:
    """One tree k times."""
    return [any_tree(rng, n)] * k


def runs_apart(rng: Random, n: int, k: int) -> list[Tree]:
    """The trees of k runs that have nothing to do with each other."""
    return [any_tree(rng, n) for _ in range(k)]


RUNS: list[Callable[[Random, int, int], list[Tree]]] = [
    runs_near,
    runs_near,
    runs_halved,
    runs_counted,
    runs_counted_and_joined,
    runs_swapped,
    runs_equal,
    runs_apart,
]


def any_runs(rng: Random, n: int, k: int) -> list[Tree]:
    """The trees of k runs of any kind above."""
    return rng.choice(RUNS)(rng, n, k)
