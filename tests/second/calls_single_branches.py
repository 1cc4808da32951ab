"""The calls with single branches (RULES 2.5), in every call that takes a row, a study or a text."""

from __future__ import annotations

from itertools import cycle, product
from random import Random
from typing import Callable, Iterator

import newick
import rows
import shapes
import studies
import texts
from calls import Call
from calls_compare import compare
from calls_judge import judge
from calls_last_checks import ALL_TAKERS, FREE, in_calls
from calls_newick_read import onto_old as read_onto_old
from calls_newick_write import SHORT_OR_LONG, some_supports, write, written, written_exactly
from calls_renumber import onto_old, renumber
from newick import MOST_OPEN
from rules import MOST_SAMPLES, Study, Tree, Words, groups_of, row_of, write_study
from sequences import add, adds, played, report, report_onto_old, withdraw, withdraws
from specimens import CHILDLESS_3, SINGLE_BRANCHES
from texts import Nest, text_of

SEED = 20550  # its own, so that the calls stored before these stay as they are

FEW = [3, 4]  # samples: every row of so few with a single branch is stored
SOME_SIZES = range(5, 51)
IN_SEQUENCES = [3, 4, 5, 7, 9, 16, 30]
IN_STUDIES = [3, 4, 5, 6, 8, 11, 17]
CHILDLESS = [3, 4, 5, 7, 9]
WRAPPED = [2, 3, 4, 5, 7]
NESTED = [2, 3, 5]


def distinct(n: int) -> Words:
    """A support row in which no two words are equal."""
    return list(range(100, 100 + 2 * n))


# A row in each call


def written_ways(rng: Random, n: int, row: Words, over: int = 0) -> Iterator[Call]:
    """The row written without supports, and with supports of which no two are equal."""
    yield written_exactly(rng, n, row, None, over)
    yield written_exactly(rng, n, row, distinct(n), over)


def read_ways(rng: Random, n: int, row: Words) -> Iterator[Call]:
    """What is written of a row, with supports or without, read."""
    support = rng.choice([None, distinct(n)])
    yield read_onto_old(rng, n, bytes(newick.row_text(n, row, support)))


def compared_ways(rng: Random, n: int, row: Words) -> Iterator[Call]:
    """A row compared with its tree without single branches, in both orders, and with itself."""
    tree = rows.shuffled_row(rng, n, groups_of(n, row))
    yield compare(n, row, tree)
    yield compare(n, tree, row)
    yield compare(n, row, row)


def compared_near(rng: Random, n: int, row: Words) -> Iterator[Call]:
    """A row compared with one of a tree near its own, that one with single branches or without."""
    near = shapes.one_move(rng, n, groups_of(n, row))
    other = rng.choice([rows.shuffled_row(rng, n, near), with_any_branches(rng, n, near)])
    yield compare(n, *shapes.shuffled(rng, [row, other]))


def added_ways(rng: Random, n: int, row: Words) -> Iterator[Call]:
    """A row added to a study that may have its tree; with room, without, under its identifier."""
    runs = [groups_of(n, row), *shapes.runs_apart(rng, n, 1)][: rng.randint(0, 2)]
    room = max(1, len(runs) + rng.choice([1, 1, 1, 0]))
    words = studies.study_of(rng, n, runs, studies.length_for(n, room))
    yield add(words, rng.choice([FREE, FREE, FREE, *studies.identifiers(words)]), row)


def with_any_branches(rng: Random, n: int, tree: Tree) -> Words:
    """A row of a tree with a few single branches, if it leaves room for them."""
    return rng.choice(rows.branches_above(rng, n, tree, rng.randint(1, 4)))


def in_all_calls(rng: Random, n: int, row: Words, over: int = 0) -> Iterator[Call]:
    """The row in each call that takes one, and its text."""
    yield judge(n, row)
    yield onto_old(rng, n, row)
    yield from compared_ways(rng, n, row)
    yield from compared_near(rng, n, row)
    yield from added_ways(rng, n, row)
    yield from written_ways(rng, n, row, over)
    yield from read_ways(rng, n, row)


# Rows that are taken


def specimens(rng: Random) -> Iterator[Call]:
    """RULES 10.4 and 10.15: the rows, what they become, and their texts."""
    yield from in_calls(rng, 3, CHILDLESS_3, len(ALL_TAKERS))
    yield written(rng, 3, CHILDLESS_3, None)
    for n, row, becomes, text in SINGLE_BRANCHES:
        yield from in_all_calls(rng, n, row)
        yield compare(n, row, becomes)
        yield compare(n, becomes, row)
        yield onto_old(rng, n, becomes)
        yield read_onto_old(rng, n, text)


def rows_with_branches(n: int) -> list[Words]:
    """Every valid row of n samples that has a single branch."""
    return [row for row in rows.valid_rows(n) if not rows.is_branching(n, row)]


def every_row(rng: Random) -> Iterator[Call]:
    """Every row of few samples with a single branch, in every numbering and in every call."""
    overs = cycle(SHORT_OR_LONG)
    for n in FEW:
        for row in rows_with_branches(n):
            yield from in_all_calls(rng, n, row, next(overs))


def rows_by_chance(rng: Random) -> Iterator[Call]:
    """Trees of 5 to 50 samples with branches at the root, above one sample, one node, or any."""
    for n in SOME_SIZES:
        most = rng.choice([1, 2, 3, n])
        made = rows.branches_above(rng, n, rows.tree_with_room(rng, n), most)
        for row in made if n < 20 else rng.sample(made, 2):
            yield from in_all_calls(rng, n, row, rng.choice(SHORT_OR_LONG))


def longest_chain(n: int, order: list[int], v: int) -> Words:
    """The bare tree with as long a chain as there may be above v, numbered in this order."""
    bare = row_of(n, shapes.trivial_groups(n))
    return rows.renamed(n, rows.with_nodes_above(bare, [v] * (n - 2)), order)


def longest_chains(rng: Random) -> Iterator[Call]:
    """The longest chains at the root, above the lowest sample and the highest, in some orders."""
    for n in (3, 5, 9, 33):
        for v, order in product((n, 0, n - 1), rows.orders_of(rng, list(range(n, 2 * n - 1)))):
            row = longest_chain(n, order, v)
            yield onto_old(rng, n, row)
            yield compare(n, *shapes.shuffled(rng, [row, rows.valid_row(rng, n)]))
            yield written_exactly(rng, n, row, rng.choice([None, distinct(n)]))


def wide_rows(rng: Random) -> Iterator[Call]:
    """Rows of 512 samples: the longest chains, and many branches in a tree with a third of them."""
    n = MOST_SAMPLES
    down = list(range(n, 2 * n - 1))
    row = longest_chain(n, shapes.shuffled(rng, down), n)
    yield onto_old(rng, n, row)
    yield judge(n, row)
    for v, order in ((0, down), (n - 1, down[::-1])):
        row = longest_chain(n, order, v)
        yield onto_old(rng, n, row)
        yield compare(n, row, rows.valid_row(rng, n))
        yield written_exactly(rng, n, row, None)
    tree = shapes.some_groups(rng, n, 2 * n // 3)
    for row in rows.branches_above(rng, n, tree, n):
        yield onto_old(rng, n, row)
    yield compare(n, row, rows.shuffled_row(rng, n, tree))
    yield add(studies.study_of(rng, n, [tree], studies.length_for(n, 2)), FREE, row)
    yield written_exactly(rng, n, row, distinct(n))
    yield from read_ways(rng, n, row)


# As many nodes as there may be, and one more


def too_many_nodes(rng: Random) -> Iterator[Call]:
    """Rows of 2n-1 nodes, and of 2n: 5 in 2n words, and 3 with the word that is over."""
    for n in [2, *range(3, 13), 50, 512]:
        full = rng.choice(rows.branches_above(rng, n, shapes.few_inner(rng, n), n))
        if n < 50:
            yield from in_all_calls(rng, n, full)
        more = rows.with_node_above(full, rng.randrange(full[0]))
        for row in (more[: 2 * n], more):
            yield judge(n, row)
            yield renumber(n, row, rows.old_words(rng, 2 * n))
            yield compare(n, full, row)
            yield add(studies.some_study(rng, n, 0), FREE, row)
            yield write(n, row, None, [7] * 30)


# Nodes without a child


def some_of(rng: Random, nodes: list[int], share: float) -> list[int]:
    """Some of these nodes, each with this chance."""
    return [v for v in nodes if rng.random() < share]


def childless_rows(rng: Random, n: int) -> Iterator[Words]:
    """Rows in which each inner node in turn is the lowest without a child; others have one."""
    for m in sorted({n + 2, 2 * n - 1}):
        for v in range(n, m):
            others = [u for u in range(n, m) if u != v]
            kept = rng.choice(others)
            free = [u for u in others if u != kept]
            for share in (0, 0.5, 1):
                one = some_of(rng, free, share)
                none = [v, *some_of(rng, [u for u in free if u > v and u not in one], 0.5)]
                yield rows.few_children_row(rng, n, m, one, none)


def childless(rng: Random) -> Iterator[Call]:
    """Such rows in every call."""
    for n in CHILDLESS:
        for row in childless_rows(rng, n):
            yield from in_calls(rng, n, row, len(ALL_TAKERS))
            yield written(rng, n, row, rng.choice([None, some_supports(rng, n)]))


def childless_in_full(rng: Random) -> Iterator[Call]:
    """Such rows, and rows with a single branch, where 11 and 12 would come after 10."""
    for n in CHILDLESS:
        words = studies.study_of(rng, n, shapes.runs_apart(rng, n, 2), studies.length_for(n, 2))
        row = rng.choice(list(childless_rows(rng, n)))
        for identifier in (0, FREE, *studies.identifiers(words)):
            yield add(words, identifier, row)
            yield add(words, identifier, rows.single_branch_row(rng, n))


# Studies


def reports(rng: Random, p: int) -> Callable[[Words], Call]:
    """The step that reports at this threshold."""
    return lambda words: report_onto_old(rng, words, p)


def kept_once(rng: Random, n: int) -> Iterator[Call]:
    """One tree with single branches and without, under some identifiers, reported and withdrawn."""
    tree, other = rows.tree_with_room(rng, n), shapes.any_tree(rng, n)
    first, second, third = (with_any_branches(rng, n, tree) for _ in range(3))
    plain = rows.shuffled_row(rng, n, tree)
    empty = write_study(studies.length_for(n, 4) + 1, Study(n, {}))
    at_0, at_50, at_67, at_75, at_99, at_100 = (reports(rng, p) for p in (0, 50, 67, 75, 99, 100))
    yield from played(empty, [adds(7, plain), adds(3, first), adds(9, second), at_0])
    yield from played(empty, [adds(9, second), adds(7, first), withdraws(9), at_100])
    others = [adds(2, rows.shuffled_row(rng, n, other)), at_50, adds(1, third), at_67]
    again = [withdraws(7), adds(7, third), at_75, adds(4, first), adds(5, first)]
    yield from played(empty, [adds(7, first), *others, *again, at_99, withdraws(2)])


def kept_in_sequences(rng: Random) -> Iterator[Call]:
    """The same for trees of some sizes."""
    for n in IN_SEQUENCES:
        for _ in range(3 if n < 10 else 1):
            yield from kept_once(rng, n)


def in_study_calls(rng: Random, words: Words) -> Iterator[Call]:
    """A study in each call that takes one."""
    n = words[4]
    yield add(words, FREE, rows.valid_row(rng, n))
    yield withdraw(words, rng.choice([words[8], words[8], FREE]))
    yield report(words, rng.choice([0, 50, 100]), [7] * 2 * n, [8] * 2 * n)


def with_stored(rng: Random, n: int, row: Words) -> Words:
    """A study that has this row in one of its slots, and is right in all else."""
    trees = [groups_of(n, row), *shapes.runs_apart(rng, n, rng.choice([0, 0, 1, 2]))]
    words = studies.study_of(rng, n, trees, studies.length_for(n, len(trees) + 1))
    return studies.changed(words, 1 + rng.choice(studies.slot_places(words)), row)


def in_order_rows(rng: Random, n: int) -> Iterator[Words]:
    """Rows in the order of RULES 4.1 with a single branch: above a sample, a node, the root."""
    for sample in sorted({0, n - 1, rng.randrange(n)}):
        row = rows.with_node_above(row_of(n, rows.tree_with_room(rng, n)), sample)
        yield rows.in_order_of_groups(n, row)
    row = row_of(n, rows.tree_with_room(rng, n))
    for v in sorted({n, row[0] - 1, rng.randrange(n, row[0])}):
        for down in (1, -1):
            yield rows.in_order_of_groups(n, rows.with_node_above(row, v), down)


def above_each_sample(n: int) -> Words:
    """The bare tree with a single branch above each sample but the last two, in order."""
    bare = row_of(n, shapes.trivial_groups(n))
    return rows.in_order_of_groups(n, rows.with_nodes_above(bare, list(range(n - 2))))


def stored_single_branches(rng: Random) -> Iterator[Call]:
    """Studies with a stored row that has a single branch: not well formed."""
    for row in rows_with_branches(3):
        yield from in_study_calls(rng, with_stored(rng, 3, row))
    for row in rows_with_branches(4):
        yield rng.choice(list(in_study_calls(rng, with_stored(rng, 4, row))))
    for n in IN_STUDIES:
        for row in [*in_order_rows(rng, n), above_each_sample(n)]:
            yield from in_study_calls(rng, with_stored(rng, n, row))
    yield from in_study_calls(rng, with_stored(rng, MOST_SAMPLES, above_each_sample(MOST_SAMPLES)))


# Texts


def wrapped_everywhere(rng: Random) -> Iterator[Call]:
    """Pairs around each subtree of some texts in turn and around all, plain and dressed."""
    for n in WRAPPED:
        nest = texts.any_nest(rng, n)
        for which in range(texts.subtrees(nest)):
            for count in (1, 2, 6):
                around = texts.wrapped_at(nest, which, count)
                text = rng.choice([texts.ape_plain, texts.dressed])(rng, around)
                yield read_onto_old(rng, n, text)
        for counts in ([1], [2], [0, 1], [3, 0, 0]):
            yield read_onto_old(rng, n, texts.dressed(rng, texts.wrapped_by(nest, cycle(counts))))


def wrapped_by_chance(rng: Random) -> Iterator[Call]:
    """Texts of 5 to 50 samples with pairs around some subtrees."""
    for n in SOME_SIZES:
        yield read_onto_old(rng, n, texts.random_wrapped(rng, n))


def height(nest: Nest) -> int:
    """How many brackets of a nest are open at once, at most."""
    return 0 if isinstance(nest, int) else 1 + max(map(height, nest))


def deepest_at(nest: Nest, which: int, most: int) -> Nest:
    """The nest with pairs around one of its subtrees, so that this many are open at once."""
    made = (texts.wrapped_at(nest, which, most - less) for less in range(most))
    return next(wrapped for wrapped in made if height(wrapped) == most)


def nested(rng: Random) -> Iterator[Call]:
    """As many brackets open at once as may be, and one more, around each subtree in turn."""
    for n in NESTED:
        nest = texts.any_nest(rng, n)
        for which in range(texts.subtrees(nest)):
            for most in (MOST_OPEN, MOST_OPEN + 1):
                yield read_onto_old(rng, n, text_of(deepest_at(nest, which, most)))


# Texts of two and three samples with wrong samples within single pairs.
WRONG_WITHIN = [b"((0),(0),1);", b"(((0),0),1);", b"((0,(0)),1);", b"(((0,0)),1);", b"((0));"]
WRONG_WITHIN += [b"((1),(1));", b"(((0)),((2)));", b"((((0),1)),(1));", b"((0),(1),(2),(3));"]
WRONG_WITHIN += [b"(((0))5:1,((0)7)8:2.5,1);", b"((0,1),(2,(2)));", b"(((99999)),0,1,2);"]
# And such that are not of the form.
BROKEN_WITHIN = [b"((0),1", b"((0)),1);", b"((0),(1);", b"(((0),1);", b"((),0,1);", b"((0)(1));"]
BROKEN_WITHIN += [b"((0),);", b"((0,),1);", b"((0)1 2,1);", b"((0):.5,1);", b"((0);,1);"]


def wrong_within(rng: Random) -> Iterator[Call]:
    """Single pairs with samples that are wrong, and in texts that are not of the form."""
    for text, n in product([*WRONG_WITHIN, *BROKEN_WITHIN], (2, 3)):
        yield read_onto_old(rng, n, text)


def wide_texts(rng: Random) -> Iterator[Call]:
    """Texts of 512 samples with far more pairs than a row has nodes."""
    n = MOST_SAMPLES
    yield read_onto_old(rng, n, text_of(texts.wrapped_by(list(range(n)), cycle([2]))))
    nest = texts.tree_nest(rng, n, shapes.binary(rng, n))
    yield read_onto_old(rng, n, text_of(texts.wrapped(rng, nest)))


def stored() -> Iterator[Call]:
    """The calls that are stored."""
    rng = Random(SEED)
    yield from specimens(rng)
    yield from every_row(rng)
    yield from rows_by_chance(rng)
    yield from longest_chains(rng)
    yield from wide_rows(rng)
    yield from too_many_nodes(rng)
    yield from childless(rng)
    yield from childless_in_full(rng)
    yield from kept_in_sequences(rng)
    yield from stored_single_branches(rng)
    yield from wrapped_everywhere(rng)
    yield from wrapped_by_chance(rng)
    yield from nested(rng)
    yield from wrong_within(rng)
    yield from wide_texts(rng)
