"""Makers of test material: rows that are trees and rows that are not, words of any kind.

All chance comes from the random.Random handed in, and every list that chance
picks from has a fixed order, so the same seed makes the same material.
"""

from __future__ import annotations

from collections import Counter
from itertools import product
from random import Random
from typing import Callable, Iterator

from rules import ROOT, Tree, Words, filled, groups_of, inner_nodes, node_groups, parent
from rules import row_in_order, row_of, row_refusal, standard_order
from shapes import any_tree, bare, binary, caterpillar, cut, few_inner, shuffled, some_groups

# How many samples

# n out of range; the doubles of some would be in range in 16 bits.
WRONG_SIZES = [0, 1, 513, 514, 1024, 32767, 32768, 32770, 65534, 65535]


def some_size(rng: Random) -> int:
    """How many samples a random row has: mostly few, sometimes up to 512."""
    return rng.randint(41, 512) if rng.random() < 0.03 else rng.randint(2, 40)


# Rows of trees


def standard_row(n: int, tree: Tree) -> Words:
    """The row of a tree in standard numbering."""
    return row_of(n, tree)


def shuffled_row(rng: Random, n: int, tree: Tree) -> Words:
    """The row of a tree in some numbering of its inner nodes."""
    return row_in_order(n, shuffled(rng, standard_order(tree)))


def valid_row(rng: Random, n: int) -> Words:
    """The row of a tree of any shape in any numbering."""
    tree = any_tree(rng, n)
    return standard_row(n, tree) if rng.random() < 0.25 else shuffled_row(rng, n, tree)


def rows_in_range(n: int, m: int) -> Iterator[Words]:
    """Every row of m nodes that the checks 5, 6 and 8 pass."""
    inner = list(range(n, m))
    for parents in product(*[inner] * n, *[inner + [ROOT]] * (m - n)):
        yield filled(n, [m, *parents])


def rows_with_root(n: int) -> list[Words]:
    """Every row of n samples that the checks 5 to 8 pass; n has to be small."""
    rows = [row for m in range(n + 1, 2 * n) for row in rows_in_range(n, m)]
    return [row for row in rows if row.count(ROOT) == 1]


def valid_rows(n: int) -> list[Words]:
    """Every valid row of n samples; n has to be small."""
    return [row for row in rows_with_root(n) if row_refusal(n, row) is None]


def child_counts(row: Words) -> Counter[int]:
    """How many children each node of a row has."""
    return Counter(row[1 : 1 + row[0]])


def is_branching(n: int, row: Words) -> bool:
    """Whether a row is valid and has no single branch (RULES 2.5)."""
    if row_refusal(n, row):
        return False
    children = child_counts(row)
    return all(children[v] > 1 for v in inner_nodes(n, row))


def branching_rows(n: int) -> list[Words]:
    """Every valid row of n samples that has no single branch; n has to be small."""
    return [row for row in rows_with_root(n) if is_branching(n, row)]


def every_tree(n: int) -> list[Tree]:
    """Every tree of n samples, each once; n has to be small."""
    rows = [row_of(n, groups_of(n, row)) for row in branching_rows(n)]
    return [groups_of(n, list(row)) for row in sorted(set(map(tuple, rows)))]


# Words that a buffer held before


def old_words(rng: Random, length: int) -> Words:
    """Any words: what a buffer may hold before it is written to."""
    any_words = [rng.randrange(65536) for _ in range(length)]
    same = [rng.choice([0, 1, 7, 256, ROOT])] * length
    return rng.choice([any_words, same])


# Rows that judging refuses, most of them


def some_place(rng: Random, n: int, row: Words) -> int:
    """A word of a row: word 0, or a leaf's parent, an inner node's parent or filler."""
    after = 1 + row[0]
    filler = range(after, 2 * n) or range(0, 1)
    leaves, inner = range(1, n + 1), range(n + 1, after)
    return rng.choice(rng.choice([range(0, 1), leaves, leaves, inner, inner, inner, filler]))


def fit_word(rng: Random, n: int, row: Words, i: int) -> int:
    """What the parent of an inner node may be, its own number among them."""
    return rng.choice([n, row[0] - 1, i - 1, ROOT, rng.randrange(n, row[0])]) % 65536


def bound_word(rng: Random, n: int, row: Words) -> int:
    """A word at the bounds of what words may be, or any word."""
    m = row[0]
    return rng.choice([n - 1, m, m + 1, 2 * n - 1, 2 * n, 0, ROOT, rng.randrange(65536)])


def damaged_row(rng: Random, n: int, row: Words) -> Words:
    """A valid row with one to three words put at another value."""
    damaged = list(row)
    for _ in range(rng.randint(1, 3)):
        i = some_place(rng, n, row)
        fit = rng.random() < 0.5
        damaged[i] = fit_word(rng, n, row, i) if fit else bound_word(rng, n, row)
    return damaged


def any_damaged_row(rng: Random, n: int) -> Words:
    """A valid row of any shape and numbering with one to three words changed."""
    return damaged_row(rng, n, valid_row(rng, n))


def row_of_parents(n: int, parents: dict[int, int]) -> Words:
    """The row in which each node has the parent given."""
    return filled(n, [len(parents)] + [parents[v] for v in range(len(parents))])


def some_inner_nodes(rng: Random, n: int) -> list[int]:
    """Inner nodes from n on, as many as a row may have, in some order."""
    return shuffled(rng, list(range(n, rng.randint(n + 1, 2 * n - 1))))


def leaves_anywhere(rng: Random, n: int, inner: list[int]) -> dict[int, int]:
    """Each leaf with some inner node as its parent."""
    return {leaf: rng.choice(inner) for leaf in range(n)}


def hung(rng: Random, root: int, others: list[int]) -> dict[int, int]:
    """The parents of a tree of these nodes: each of the others under an earlier one."""
    nodes = [root] + others
    return {root: ROOT, **{v: rng.choice(nodes[: i + 1]) for i, v in enumerate(others)}}


def grown_row(rng: Random, n: int) -> Words:
    """A row in which every node reaches the root, but inner nodes have one child or none (10)."""
    root, *others = some_inner_nodes(rng, n)
    leaves = leaves_anywhere(rng, n, [root] + others)
    return row_of_parents(n, hung(rng, root, others) | leaves)


def chained_row(rng: Random, n: int) -> Words:
    """A row whose inner nodes are one chain, for the longest climbs; leaves hang anywhere."""
    inner = some_inner_nodes(rng, n)
    parents = leaves_anywhere(rng, n, inner)
    parents.update(zip(inner, [ROOT] + inner))
    return row_of_parents(n, parents)


def nearly_binary_row(rng: Random, n: int) -> Words:
    """A valid row with one leaf moved: often one inner node is left with one child."""
    row = shuffled_row(rng, n, binary(rng, n))
    row[1 + rng.randrange(n)] = rng.randrange(n, row[0])
    return row


def ring(cycle: list[int]) -> dict[int, int]:
    """The parents of a cycle of these nodes."""
    return dict(zip(cycle, cycle[1:] + cycle[:1]))


def looped_row(rng: Random, n: int) -> Words:
    """A row with a cycle of any length (for 9), where n allows; the rest hangs anywhere."""
    root, *others = some_inner_nodes(rng, n)
    length = rng.randint(1, max(1, len(others)))
    parents = hung(rng, root, others) | ring(others[:length])
    return row_of_parents(n, parents | leaves_anywhere(rng, n, [root] + others))


def dry_looped_row(rng: Random, n: int) -> Words:
    """A row with a cycle of any length that has no leaf below it (for 9), where n allows."""
    root, *others = some_inner_nodes(rng, n)
    start = rng.randint(0, max(0, len(others) - 1))
    parents = hung(rng, root, others[:start]) | ring(others[start:])
    return row_of_parents(n, parents | leaves_anywhere(rng, n, [root] + others[:start]))


def bent_row(rng: Random, n: int) -> Words:
    """A deep tree with one inner node put under another, often one below itself (for 9)."""
    row = shuffled_row(rng, n, rng.choice([caterpillar, binary])(rng, n))
    below_root = [v for v in range(n, row[0]) if row[1 + v] != ROOT]
    if below_root:
        row[1 + rng.choice(below_root)] = rng.randrange(n, row[0])
    return row


def with_filler(rng: Random, n: int, row: Words) -> Words:
    """The row with filler that is not 0, if it has any."""
    spoilt, filler = list(row), range(1 + row[0], 2 * n)
    for i in rng.sample(filler, min(len(filler), rng.randint(1, 2))):
        spoilt[i] = rng.choice([1, n, 2 * n, 256, ROOT])
    return spoilt


def filler_row(rng: Random, n: int) -> Words:
    """A row of a tree with few inner nodes and filler that is not 0 (for 8), where n allows."""
    return with_filler(rng, n, shuffled_row(rng, n, rng.choice([bare, few_inner])(rng, n)))


def roots_row(rng: Random, n: int) -> Words:
    """A tree's row changed so that it has no root or more than one (for 7)."""
    row = valid_row(rng, n)
    for v in rng.sample(range(n, row[0]), rng.randint(1, min(3, row[0] - n))):
        row[1 + v] = rng.choice(range(n, row[0])) if row[1 + v] == ROOT else ROOT
    return row


def wild_row(rng: Random, n: int) -> Words:
    """A row with m in range or not, and any words after it."""
    m = rng.choice([rng.randint(n + 1, 2 * n - 1), n, 2 * n, rng.randrange(65536)])
    return [m] + [rng.choice([rng.randrange(n, 2 * n), 0, ROOT]) for _ in range(2 * n - 1)]


ROWS: list[Callable[[Random, int], Words]] = [
    valid_row,
    valid_row,
    valid_row,
    any_damaged_row,
    any_damaged_row,
    any_damaged_row,
    any_damaged_row,
    nearly_binary_row,
    grown_row,
    chained_row,
    looped_row,
    dry_looped_row,
    bent_row,
    filler_row,
    roots_row,
    wild_row,
]


def any_row(rng: Random, n: int) -> Words:
    """A row of 2n words of any kind above."""
    return rng.choice(ROWS)(rng, n)


# Rows with single branches


def with_node_above(row: Words, v: int) -> Words:
    """The row with one inner node more, a single branch above this node, numbered last."""
    m = row[0]
    return [m + 1, *with_parent(row, v, m)[1 : 1 + m], parent(row, v), *row[2 + m :]]


def with_nodes_above(row: Words, nodes: list[int]) -> Words:
    """The row with a single branch above each of these nodes, a chain where one stands often."""
    for v in nodes:
        row = with_node_above(row, v)
    return row


def root_of(row: Words) -> int:
    """The root of a valid row."""
    return row.index(ROOT) - 1


def places_of_branches(rng: Random, n: int, row: Words, count: int) -> list[list[int]]:
    """Where this many single branches may go: all at the root, above one sample, one node, any."""
    one, nodes = [root_of(row), rng.randrange(n), rng.randrange(n, row[0])], range(row[0])
    return [*([v] * count for v in one), rng.choices(nodes, k=count)]


def renamed(n: int, row: Words, names: list[int]) -> Words:
    """The row with other numbers for its inner nodes, that of node n first."""
    name = [*range(n), *names]
    above = [ROOT if word == ROOT else name[word] for word in row[1 : 1 + row[0]]]
    return row_of_parents(n, dict(zip(name, above)))


def in_any_numbering(rng: Random, n: int, row: Words) -> Words:
    """The row with its inner nodes numbered anew."""
    return renamed(n, row, shuffled(rng, list(inner_nodes(n, row))))


def depth(row: Words, v: int) -> int:
    """How many steps up the root is from a node of a valid row."""
    return 0 if parent(row, v) == ROOT else 1 + depth(row, parent(row, v))


def in_order_of_groups(n: int, row: Words, down: int = 1) -> Words:
    """The row numbered in the order of RULES 4.1; a chain from its top down, or up for -1."""
    groups = node_groups(n, row)

    def rank(v: int) -> tuple[int, int, int]:
        return -len(groups[v]), min(groups[v]), down * depth(row, v)

    in_order = sorted(inner_nodes(n, row), key=rank)
    return renamed(n, row, [n + in_order.index(v) for v in inner_nodes(n, row)])


def tree_with_room(rng: Random, n: int) -> Tree:
    """A tree that leaves room for at least one inner node more; n is above 2."""
    return some_groups(rng, n, rng.randint(0, n - 3))


def branches_above(rng: Random, n: int, tree: Tree, most: int) -> list[Words]:
    """Rows of a tree with up to so many single branches, put in each of the ways above."""
    row = row_of(n, tree)
    count = min(most, 2 * n - 1 - row[0])
    ways = places_of_branches(rng, n, row, count)
    return [in_any_numbering(rng, n, with_nodes_above(row, nodes)) for nodes in ways]


def single_branch_row(rng: Random, n: int) -> Words:
    """A valid row with single branches in any places and in any numbering, where n allows."""
    if n == 2:
        return valid_row(rng, n)
    most = rng.choice([1, 2, rng.randint(1, n), n])
    return rng.choice(branches_above(rng, n, tree_with_room(rng, n), most))


def random_row(rng: Random, n: int) -> Words:
    """A row of 2n words of any kind above, of which some have single branches."""
    return rng.choice([any_row, any_row, any_row, single_branch_row])(rng, n)


# Rows of other lengths


def wrong_length(rng: Random, row: Words) -> Words:
    """The words of a row, with some taken off its end or some added to it."""
    lengths = [0, 1, len(row) // 2, len(row) - 1, len(row) + 1, len(row) + 2, 2 * len(row)]
    length = rng.choice(lengths)
    return (row + [0] * length)[:length]


def one_wrong_length(rng: Random, buffers: list[Words]) -> list[Words]:
    """The buffers, one of them with a wrong length."""
    which = rng.randrange(len(buffers))
    return [wrong_length(rng, words) if i == which else words for i, words in enumerate(buffers)]


# Rows that checks 5 to 8 pass, made so that it is known where 9 and 10 apply


def nodes_from(rng: Random, n: int, least: int) -> int:
    """How many nodes a row has, this many at least; often so many that there is no filler."""
    return rng.choice([2 * n - 1, rng.randint(least, 2 * n - 1)])


def orders_of(rng: Random, inner: list[int]) -> list[list[int]]:
    """Orders of inner nodes, from the root down: rising, falling, each with another root, any."""
    first, *others = inner
    *before, last = inner
    return [inner, inner[::-1], [last, *before], [first, *others[::-1]], shuffled(rng, inner)]


def chain_row(n: int, chain: list[int], depths: list[int]) -> Words:
    """A chain of inner nodes, from the root down; each sample hangs from it at this depth."""
    parents = dict(zip(chain, [ROOT] + chain))
    parents.update((sample, chain[depth]) for sample, depth in enumerate(depths))
    return row_of_parents(n, parents)


def falling_depths(n: int, deepest: int) -> list[int]:
    """Depths of samples on a chain: the lowest sample is the deepest, each next one higher up."""
    return [min(n - 1 - sample, deepest) for sample in range(n)]


def end_depths(n: int, deepest: int) -> list[list[int]]:
    """Depths of samples: the lowest, the highest, all or none are deepest, the others at 0."""
    at_root = [0] * (n - 1)
    return [[deepest, *at_root], [*at_root, deepest], [deepest] * n, [0] * n]


def with_parent(row: Words, v: int, above: int) -> Words:
    """The row with another parent of one node."""
    return row[: 1 + v] + [above] + row[2 + v :]


def bent_chain_rows(n: int, chain: list[int], depths: list[int]) -> list[Words]:
    """Chains whose second node is below itself, below the third or below the last (for 9)."""
    straight = chain_row(n, chain, depths)
    return [with_parent(straight, chain[1], above) for above in (chain[1], chain[2], chain[-1])]


def rings(rng: Random, nodes: list[int]) -> dict[int, int]:
    """The parents of these nodes in one to three cycles."""
    cycles = cut(rng, nodes, rng.randint(1, min(3, len(nodes))))
    return {v: above for cycle in cycles for v, above in ring(cycle).items()}


def lost_row(rng: Random, n: int, m: int, lost: set[int]) -> Words:
    """A row of m nodes in which just these are lost: some inner ones, not all of them (for 9)."""
    inner = shuffled(rng, list(range(n, m)))
    root, *others = reaching = [v for v in inner if v not in lost]
    missing = [v for v in inner if v in lost]
    in_rings = rng.randint(1, len(missing))
    parents = hung(rng, root, others) | rings(rng, missing[:in_rings])
    parents.update((missing[i], rng.choice(missing[:i])) for i in range(in_rings, len(missing)))
    for leaf in range(n):
        parents[leaf] = rng.choice(missing if leaf in lost else reaching)
    return row_of_parents(n, parents)


def lost_samples(rng: Random, n: int) -> list[list[int]]:
    """Samples that a row may lose: none, the lowest, the highest, some, all."""
    some = rng.sample(range(n), rng.randint(1, n - 1))
    return [[], [0], [n - 1], some, list(range(n))]


def lost_inner(rng: Random, n: int, m: int) -> list[list[int]]:
    """Inner nodes that a row may lose: the first, the last, some, all but one."""
    inner = range(n, m)
    some = rng.sample(inner, rng.randint(1, len(inner) - 1))
    return [[n], [m - 1], some, rng.sample(inner, len(inner) - 1)]


def lost_from(rng: Random, n: int, m: int, v: int) -> set[int]:
    """Nodes that a row may lose: v is the lowest, and some are inner ones, but not all of these."""
    root = rng.choice([u for u in range(n, m) if u != v])
    higher = [u for u in range(v + 1, m) if u != root]
    inner = v if v >= n else rng.choice([u for u in higher if u >= n])
    share = rng.choice([0, 0.1, 0.5])
    return {v, inner, *(u for u in higher if rng.random() < share)}


def tree_parents(rng: Random, n: int, inner: list[int]) -> dict[int, int]:
    """The parents of a tree that has these inner nodes."""
    row = shuffled_row(rng, n, some_groups(rng, n, len(inner) - 1))
    names = {ROOT: ROOT, **dict(enumerate([*range(n), *inner]))}
    return {names[v]: names[row[1 + v]] for v in range(row[0])}


def few_children_row(rng: Random, n: int, m: int, one: list[int], none: list[int]) -> Words:
    """A row of m nodes: these inner ones have one child, these none (for 10), others more."""
    few = {*one, *none}
    others = [v for v in range(n, m) if v not in few]
    parents = tree_parents(rng, n, others)
    for v in one:
        root = next(u for u, above in parents.items() if above == ROOT)
        below = rng.choice([root, *rng.sample(sorted(parents), 2)])
        parents[v], parents[below] = parents[below], v
    parents.update((v, rng.choice(others)) for v in none)
    return row_of_parents(n, parents)


def few_from(rng: Random, n: int, m: int, v: int) -> list[list[int]]:
    """Inner nodes to have one child, and some to have none: v the lowest of both, not all."""
    kept = rng.choice([u for u in range(n, m) if u != v])
    few = [v, *(u for u in range(v + 1, m) if u != kept and rng.random() < 0.5)]
    one = [u for u in few if rng.random() < 0.5]
    return [one, [u for u in few if u not in one]]
