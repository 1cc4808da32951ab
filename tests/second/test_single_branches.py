"""Holds the rows, studies and texts with single branches against the rules; test_rules.py runs it.

The wrong versions are slips that RULES 11.14 names and others of the kind: of
each, several stored calls have to get another answer.
"""

from __future__ import annotations

from collections import Counter
from functools import lru_cache
from operator import le, lt
from random import Random
from types import ModuleType
from typing import Callable, NamedTuple, Optional
from unittest.mock import patch

import calls
import calls_single_branches
import newick
import rows
import rules
import shapes
import studies
from rules import ROOT, Group, Refusal, Tree, Words

SEVERAL = 10  # how many stored calls of an op have to notice each wrong version


# The makers


def test_number_of_rows() -> None:
    """Three samples have 8 rows with a single branch, four 460; two have none."""
    for n, count in ((2, 0), (3, 8), (4, 460)):
        made = calls_single_branches.rows_with_branches(n)
        assert len(made) == len(set(map(tuple, made))) == count
        assert all(rules.judge(n, row).number == 0 for row in made)


def test_branches_leave_the_tree() -> None:
    """Rows made with single branches are valid, have the tree's groups, and a node for each."""
    rng = Random(40)
    for n in (3, 4, 6, 9, 15):
        tree = rows.tree_with_room(rng, n)
        room = 2 * n - 1 - rows.standard_row(n, tree)[0]
        for most in (1, 2, n):
            for row in rows.branches_above(rng, n, tree, most):
                assert rules.judge(n, row).number == 0 and not rows.is_branching(n, row)
                assert rules.groups_of(n, row) == tree
                assert row[0] == n + len(rules.standard_order(tree)) + min(most, room)


def test_order_of_groups() -> None:
    """Rows in the order of RULES 4.1 are standard without single branches, and with them not."""
    rng = Random(41)
    for n in (3, 5, 8, 12):
        tree = shapes.any_tree(rng, n)
        row = rows.shuffled_row(rng, n, tree)
        assert rows.in_order_of_groups(n, row) == rows.standard_row(n, tree)
        for row in calls_single_branches.in_order_rows(rng, n):
            groups = rules.node_groups(n, row)[n:]
            assert groups == sorted(groups, key=lambda group: (-len(group), min(group)))
            assert rules.judge(n, row).number == 0 and rules.standard_tree(n, tuple(row)) is None


# What is stored


@lru_cache(maxsize=1)
def stored() -> list[tuple[calls.Call, rules.Answer]]:
    """The calls that calls_single_branches stores, each with its answer."""
    return [(call, calls.answer(call)) for call in calls_single_branches.stored()]


def test_stored_rows() -> None:
    """Every row of few samples with a single branch is in every call that takes a row."""
    came = set()
    for call, _ in stored():
        first = 1 if call.op == calls.ADD else 0
        came |= {(call.op, tuple(row)) for row in call.buffers[first:]}
    takers = (calls.JUDGE, calls.RENUMBER, calls.COMPARE, calls.ADD, calls.WRITE)
    for n in calls_single_branches.FEW:
        for row in calls_single_branches.rows_with_branches(n):
            assert all((op, tuple(row)) in came for op in takers)


def test_stored_counts_of_nodes() -> None:
    """Rows with single branches and each m that there can be are taken; 2n nodes give 5."""
    judged = of_op(calls.JUDGE)
    taken = {(call.x, call.buffers[0][0]) for call, answer in judged if answer.number == 0}
    assert {(n, 2 * n - 1) for n in range(3, 13)} <= taken
    refused = {call.x for call, answer in of_op(calls.RENUMBER) if answer.number == 5}
    assert {2, 3, 12, 50, 512} <= refused


def test_stored_childless() -> None:
    """Each inner node in turn is the lowest without a child, in rows with single branches too."""
    came = set()
    for call, answer in stored():
        if answer.number == 10 and call.op in (calls.JUDGE, calls.RENUMBER, calls.WRITE):
            row = call.buffers[0]
            single = 1 in [rows.child_counts(row)[v] for v in range(call.x, row[0])]
            came.add((call.x, row[0], answer.place, single))
    for n in calls_single_branches.CHILDLESS:
        last = 2 * n - 2
        places = {place for size, nodes, place, _ in came if (size, nodes) == (n, last + 1)}
        assert places == {*range(n, last + 1)}
        if n > 3:
            assert {single for size, *_, single in came if size == n} == {False, True}


def test_stored_studies() -> None:
    """Studies that are refused with 2 are well formed with their rows renumbered."""
    for op in (calls.ADD, calls.WITHDRAW, calls.REPORT):
        refused = [call.buffers[0] for call, answer in of_op(op) if answer.number == 2]
        assert len(refused) > 100
        for words in refused:
            assert rules.read_study(words) is None and rules.read_study(renumbered(words))


def renumbered(words: Words) -> Words:
    """A study's words with its rows renumbered."""
    n, k = words[4:6]
    width = rules.slot_width(n)
    for start in range(9, 9 + k * width, width):
        row = words[start : start + 2 * n]
        words = words[:start] + rules.row_of(n, rules.groups_of(n, row)) + words[start + 2 * n :]
    return words


def of_op(op: int) -> list[tuple[calls.Call, rules.Answer]]:
    """The stored calls of one op, each with its answer."""
    return [(call, answer) for call, answer in stored() if call.op == op]


# Wrong versions

ROW_OPS = [calls.JUDGE, calls.RENUMBER, calls.COMPARE, calls.ADD, calls.WRITE]
STUDY_OPS = [calls.ADD, calls.WITHDRAW, calls.REPORT]
RIGHT_RENUMBER, RIGHT_COMPARE, RIGHT_ADD = rules.renumber, rules.compare, rules.add
RIGHT_TREE, RIGHT_READ, RIGHT_TEXT = rules.standard_tree, newick.read, newick.node_text


def rank(group: Group) -> tuple[int, int]:
    """What RULES 4.1 orders by."""
    return -len(group), min(group)


def row_with(n: int, groups: list[Group]) -> Words:
    """The row with an inner node for each of these groups, also for one that comes again."""
    inner = sorted(groups, key=rank)
    samples = [frozenset([sample]) for sample in range(n)]
    placed = [*((group, len(inner)) for group in samples), *zip(inner, range(len(inner)))]
    above = [[n + i for i in range(end) if group <= inner[i]] for group, end in placed]
    return rules.filled(n, [n + len(inner), *((nodes or [ROOT])[-1] for nodes in above)])


# Check 10


def two_children(n: int, row: Words) -> Refusal:
    """10 for one child too."""
    children = rows.child_counts(row)
    return rules.refuse_at((v for v in rules.inner_nodes(n, row) if children[v] < 2), 10)


def no_children(n: int, row: Words) -> Refusal:
    """10 for no row at all."""
    return None


def all_but_the_last(n: int, row: Words) -> Refusal:
    """10 for no child of an inner node that is not the last."""
    children = rows.child_counts(row)
    return rules.refuse_at((v for v in range(n, row[0] - 1) if not children[v]), 10)


def highest_place(n: int, row: Words) -> Refusal:
    """10 at the highest node without a child."""
    children = rows.child_counts(row)
    return rules.refuse_at((v for v in reversed(range(n, row[0])) if not children[v]), 10)


# Standard numbering


def in_order(n: int, row: Words, follows: Callable) -> Optional[Tree]:
    """The groups of a valid row whose inner nodes follow each other so."""
    if rules.row_refusal(n, row):
        return None
    groups = rules.node_groups(n, row)
    ranks = [rank(group) for group in groups[n:]]
    return frozenset(groups) if all(map(follows, ranks, ranks[1:])) else None


def order_alone(n: int, row: tuple[int, ...]) -> Optional[Tree]:
    """A stored row is only asked for the order of RULES 4.1: a node above one sample is taken."""
    return in_order(n, list(row), lt)


def order_with_ties(n: int, row: tuple[int, ...]) -> Optional[Tree]:
    """The same, and a group may come again: a chain is taken."""
    return in_order(n, list(row), le)


def chain_apart(n: int, row: Words, out: Words) -> rules.Answer:
    """Renumbering that gives the lowest node of a chain a number of its own."""
    return renumbered_with(n, row, out, lambda groups: [g for g in groups if len(g) > 1], 2)


def sample_node_kept(n: int, row: Words, out: Words) -> rules.Answer:
    """Renumbering that keeps a node above one sample."""
    return renumbered_with(n, row, out, lambda groups: groups, 1)


def renumbered_with(n: int, row: Words, out: Words, kept: Callable, most: int) -> rules.Answer:
    """Renumbering that keeps such groups of inner nodes, each up to so many times."""
    answer = RIGHT_RENUMBER(n, row, out)
    if answer.number:
        return answer
    counts = Counter(kept(rules.node_groups(n, row)[n:]))
    groups = [group for group, count in counts.items() for _ in range(min(count, most))]
    return rules.accepted([row, row_with(n, groups)])


def same_count(n: int, row: Words, out: Words) -> rules.Answer:
    """Renumbering that leaves m as it was."""
    answer = RIGHT_RENUMBER(n, row, out)
    return answer if answer.number else rules.accepted([row, [row[0], *answer.buffers[1][1:]]])


def filler_left(n: int, row: Words, out: Words) -> rules.Answer:
    """Renumbering that writes no filler behind the nodes that are left."""
    answer = RIGHT_RENUMBER(n, row, out)
    if answer.number:
        return answer
    end = 1 + answer.buffers[1][0]
    return rules.accepted([row, answer.buffers[1][:end] + out[end:]])


def stored_as_it_came(words: Words, identifier: int, row: Words) -> rules.Answer:
    """Adding that puts a row into the order of RULES 4.1 and leaves its single branches in."""
    answer = RIGHT_ADD(words, identifier, row)
    if answer.number:
        return answer
    study, n = answer.buffers[0], len(row) // 2
    slot = next(place for place in studies.slot_places(study) if study[place] == identifier)
    kept = studies.changed(study, 1 + slot, rows.in_order_of_groups(n, row))
    return rules.accepted([kept, row])


# Comparing


def counts_with(n: int, first: Words, second: Words, counted: Callable) -> rules.Answer:
    """Comparing that counts such groups of nodes, each as often as it comes."""
    answer = RIGHT_COMPARE(n, first, second)
    if answer.number:
        return answer
    one, other = counted(n, first), counted(n, second)
    both = sum(group in other for group in one)
    counts = both, len(one) - both, sum(group not in one for group in other)
    return rules.accepted([first, second], counts)


def counted_by_nodes(n: int, first: Words, second: Words) -> rules.Answer:
    """A chain's group counts once for each of its nodes."""

    def counted(n: int, row: Words) -> list[Group]:
        return [group for group in rules.node_groups(n, row) if 1 < len(group) < n]

    return counts_with(n, first, second, counted)


def counted_below_root(n: int, first: Words, second: Words) -> rules.Answer:
    """Each group of an inner node below the root counts, that of one sample and the whole too."""

    def counted(n: int, row: Words) -> list[Group]:
        groups = rules.node_groups(n, row)
        return sorted({groups[v] for v in range(n, row[0]) if row[1 + v] != ROOT}, key=rank)

    return counts_with(n, first, second, counted)


# Texts


def support_of_child(children: dict, support: Optional[Words], v: int) -> str:
    """A single branch is written with the support of the node below it."""
    if support is None or len(children[v]) != 1:
        return RIGHT_TEXT(children, support, v)
    return newick.held_text(children, support, v) + str(support[1 + children[v][0]])


def branch_left_out(children: dict, support: Optional[Words], v: int) -> str:
    """A single branch is not written."""
    if len(children[v]) == 1:
        return newick.node_text(children, support, children[v][0])
    return RIGHT_TEXT(children, support, v)


def pairs_in(subtree: newick.Subtree) -> list[newick.Subtree]:
    """The pairs of a text."""
    parts = [] if isinstance(subtree, int) else subtree
    within = [pair for part in parts for pair in pairs_in(part)]
    return within if isinstance(subtree, int) else [subtree, *within]


def single_pairs_kept(n: int, text: Words, out: Words) -> rules.Answer:
    """Reading that makes a node of each pair, if a row has room for so many."""
    answer = RIGHT_READ(n, text, out)
    if answer.number:
        return answer
    pairs = pairs_in(newick.Reader(bytes(text)).whole())
    groups = [frozenset(newick.samples_in(pair)) for pair in pairs]
    return rules.accepted([text, row_with(n, groups)]) if len(groups) < n else answer


def single_pairs_refused(n: int, text: Words, out: Words) -> rules.Answer:
    """Reading that gives 10 for a pair with one subtree."""
    answer = RIGHT_READ(n, text, out)
    if answer.number or all(len(p) > 1 for p in pairs_in(newick.Reader(bytes(text)).whole())):
        return answer
    return rules.refused((10, 0), [text, out])


class Wrong(NamedTuple):
    """A function of a module, what stands in its place, and the ops whose calls may notice."""

    module: ModuleType
    name: str
    version: Callable
    ops: list[int]


WRONG = [
    Wrong(rules, "children_refusal", two_children, ROW_OPS),
    Wrong(rules, "children_refusal", no_children, ROW_OPS),
    Wrong(rules, "children_refusal", all_but_the_last, ROW_OPS),
    Wrong(rules, "children_refusal", highest_place, ROW_OPS),
    Wrong(rules, "standard_tree", order_alone, STUDY_OPS),
    Wrong(rules, "standard_tree", order_with_ties, STUDY_OPS),
    Wrong(rules, "renumber", chain_apart, [calls.RENUMBER]),
    Wrong(rules, "renumber", sample_node_kept, [calls.RENUMBER]),
    Wrong(rules, "renumber", same_count, [calls.RENUMBER]),
    Wrong(rules, "renumber", filler_left, [calls.RENUMBER]),
    Wrong(rules, "add", stored_as_it_came, [calls.ADD]),
    Wrong(rules, "compare", counted_by_nodes, [calls.COMPARE]),
    Wrong(rules, "compare", counted_below_root, [calls.COMPARE]),
    Wrong(newick, "node_text", support_of_child, [calls.WRITE]),
    Wrong(newick, "node_text", branch_left_out, [calls.WRITE]),
    Wrong(newick, "read", single_pairs_kept, [calls.READ]),
    Wrong(newick, "read", single_pairs_refused, [calls.READ]),
]
NARROW = 60  # calls with buffers of fewer words are tried


def answered(call: calls.Call) -> Optional[rules.Answer]:
    """What is answered to a call; nothing, if a wrong version cannot go on."""
    try:
        return calls.answer(call)
    except (IndexError, KeyError, ValueError, RecursionError):
        return None


def noticed(wrong: Wrong) -> Counter[int]:
    """How many stored calls of each op get another answer from a wrong version."""
    # The right answers come first: they are kept, and must not be those of a wrong version.
    right = [(call, answer) for op in wrong.ops for call, answer in of_op(op)]
    tried = [(call, answer) for call, answer in right if max(map(len, call.buffers)) < NARROW]
    RIGHT_TREE.cache_clear()
    with patch.object(wrong.module, wrong.name, wrong.version):
        found = Counter(call.op for call, answer in tried if answered(call) != answer)
    RIGHT_TREE.cache_clear()
    return found


def test_wrong_versions() -> None:
    """Each wrong version is noticed by several calls of each op that may notice it."""
    for wrong in WRONG:
        found = noticed(wrong)
        few = [op for op in wrong.ops if found[op] < SEVERAL]
        assert not few, (wrong.version.__name__, found)
