"""Holds rules.py against every specimen of docs/RULES.md; runs all other tests too.

python3 test_rules.py
"""

from __future__ import annotations

import sys
import traceback
from fractions import Fraction
from itertools import combinations, product
from random import Random
from typing import Callable

sys.dont_write_bytecode = True

import files  # noqa: E402
import listing  # noqa: E402
import rows  # noqa: E402
import rules  # noqa: E402
import shapes  # noqa: E402
import test_makers  # noqa: E402
import test_newick  # noqa: E402
import test_single_branches  # noqa: E402
import thresholds  # noqa: E402
from listing import listed  # noqa: E402
from rules import BY_DEFAULT, ROOT, Tree, Words  # noqa: E402
from specimens import BARE_3, BRANCH_0, CHAIN_MIDDLE, CHAIN_ROOT, CHILDLESS_3  # noqa: E402
from specimens import ONLY_TREE_OF_2, RUNS_OF_5, SINGLE_BRANCHES, WITH_01, WITH_02  # noqa: E402

RUN_1, RUN_2, RUN_3 = RUNS_OF_5


def verdict(answer: rules.Answer) -> tuple[int, int]:
    """Number and place of an answer."""
    return answer.number, answer.place


def opened(n: int, length: int) -> Words:
    """The words of a study just opened over a buffer that held other words."""
    answer = rules.open_study(n, [9] * length)
    assert verdict(answer) == (0, 0)
    return answer.buffers[0]


def added(words: Words, identifier: int, row: Words) -> Words:
    """The words after an add that is accepted."""
    answer = rules.add(words, identifier, row)
    assert verdict(answer) == (0, 0) and answer.buffers[1] == row
    return answer.buffers[0]


def withdrawn(words: Words, identifier: int) -> Words:
    """The words after a withdrawal that is accepted."""
    answer = rules.withdraw(words, identifier)
    assert verdict(answer) == (0, 0)
    return answer.buffers[0]


def study_of(n: int, runs: list[Words]) -> Words:
    """A study of 300 words that holds these rows as runs 1, 2, and so on."""
    words = opened(n, 300)
    for i, row in enumerate(runs):
        words = added(words, 1 + i, row)
    return words


def reported(words: Words, n: int, p: int = BY_DEFAULT) -> list[Words]:
    """The agreed row and the support row of a report that is accepted."""
    answer = rules.report(words, p, [7] * 2 * n, [8] * 2 * n)
    assert verdict(answer) == (0, 0) and answer.buffers[0] == words
    return answer.buffers[1:]


def refusal_leaves_all(answer: rules.Answer, number: int, place: int, *buffers: Words) -> None:
    """Asserts a refusal after which the buffers are as they were."""
    assert verdict(answer) == (number, place), verdict(answer)
    assert answer.counts is None and answer.buffers == list(buffers)


# Specimens: rows


def test_only_tree_of_two() -> None:
    """RULES 10.2: two samples have one tree."""
    words = [0, 1, 2, 3, 4, ROOT]
    valid = [list(row) for row in product(words, repeat=4) if rules.judge(2, list(row)).number == 0]
    assert valid == [ONLY_TREE_OF_2]


def test_same_tree_renumbers() -> None:
    """RULES 10.3: one tree in two numberings."""
    assert verdict(rules.judge(3, WITH_01)) == (0, 0)
    other = [5, 3, 3, 4, 4, ROOT]
    assert rules.groups_of(3, other) == rules.groups_of(3, WITH_01)
    assert rules.renumber(3, other, [1] * 6) == (0, 0, None, [other, WITH_01])
    assert rules.renumber(3, WITH_01, [1] * 6) == (0, 0, None, [WITH_01, WITH_01])


def test_specimens_of_three() -> None:
    """RULES 10.4: rows of three samples, judged."""
    refusal_leaves_all(rules.judge(3, [4, 3, 3, 3, ROOT, 7]), 8, 5, [4, 3, 3, 3, ROOT, 7])
    assert verdict(rules.judge(3, BARE_3)) == (0, 0)
    assert verdict(rules.judge(3, [5, 3, 3, 3, ROOT, 4])) == (9, 4)
    assert verdict(rules.judge(3, [5, 3, 3, 3, ROOT, 3])) == (10, 4)
    assert verdict(rules.judge(3, [5, 2, 3, 3, ROOT, 3])) == (6, 0)
    assert verdict(rules.judge(3, [5, 4, 4, 3, ROOT, ROOT])) == (7, 0)


def test_nodes_of_three_or_six() -> None:
    """RULES 10.4: a first word of 3 or 6, whatever the others are."""
    for m, *rest in product([3, 6], *[[0, 3, 4, ROOT]] * 5):
        assert verdict(rules.judge(3, [m, *rest])) == (5, 0)


def test_specimens_of_single_branches() -> None:
    """RULES 10.15: a node above one sample, a chain at the root, a chain in the middle."""
    for n, row, becomes, _ in SINGLE_BRANCHES:
        assert verdict(rules.judge(n, row)) == (0, 0)
        assert rules.renumber(n, row, [1] * 2 * n) == (0, 0, None, [row, becomes])
        assert rules.renumber(n, becomes, [1] * 2 * n).buffers[1] == becomes
    becomes = [6, 5, 5, 4, 4, ROOT, 4, 0]
    assert rules.compare(4, CHAIN_MIDDLE, becomes).counts == (1, 0, 0)
    assert rules.compare(4, CHAIN_MIDDLE, CHAIN_MIDDLE).counts == (1, 0, 0)
    assert rules.compare(3, BRANCH_0, CHAIN_ROOT).counts == (0, 0, 0)
    assert rules.compare(3, WITH_01, BRANCH_0).counts == (0, 1, 0)


def test_single_branches_in_studies() -> None:
    """RULES 4.5: a run is stored with each group once; another form of it is not well formed."""
    for n, row, becomes, _ in SINGLE_BRANCHES:
        assert study_of(n, [row, becomes]) == study_of(n, [becomes, row])
        words = study_of(n, [row])
        assert words[8 : 9 + 2 * n] == [1, *becomes] and words[5] == 1
        stored = words[:9] + row + words[9 + 2 * n :]
        refusal_leaves_all(rules.withdraw(stored, 1), 2, 0, stored)
        refusal_leaves_all(rules.add(stored, 2, becomes), 2, 0, stored, becomes)
        refusal_leaves_all(rules.report(stored, 0, [], []), 2, 0, stored, [], [])
    halves = study_of(4, [CHAIN_MIDDLE, [5, 4, 4, 4, 4, ROOT, 0, 0], CHAIN_MIDDLE])
    assert reported(halves, 4) == [[6, 5, 5, 4, 4, ROOT, 4, 0], [3, 3, 3, 3, 3, 3, 2, 0]]


def test_sizes() -> None:
    """RULES 10.8: the bounds of n."""
    for n in (0, 1, 513, 65535):
        refusal_leaves_all(rules.judge(n, [3] * 4), 1, 0, [3] * 4)
        refusal_leaves_all(rules.judge(n, []), 1, 0, [])
        refusal_leaves_all(rules.renumber(n, [3], [4]), 1, 0, [3], [4])
        refusal_leaves_all(rules.compare(n, [3], [4]), 1, 0, [3], [4])
        refusal_leaves_all(rules.open_study(n, [5] * 3000), 1, 0, [5] * 3000)
    for n in (2, 512):
        row = rows.standard_row(n, shapes.trivial_groups(n))
        assert verdict(rules.judge(n, row)) == (0, 0)
        assert reported(added(opened(n, 3000), 1, row), n)[0] == row


# Comparing


def compared(n: int, first: Tree, second: Tree) -> tuple[int, int, int]:
    """The counts of two trees."""
    answer = rules.compare(n, rows.standard_row(n, first), rows.standard_row(n, second))
    assert verdict(answer) == (0, 0)
    return answer.counts


def pairs_of_four() -> list[tuple[Tree, Tree]]:
    """Every tree of four samples with every one."""
    return [*product(rows.every_tree(4), repeat=2)]


def test_comparing() -> None:
    """RULES 10.6: run 1 against run 2, and others."""
    assert rules.compare(5, RUN_1, RUN_2) == (0, 0, (1, 1, 1), [RUN_1, RUN_2])
    assert rules.compare(5, RUN_1, RUN_3).counts == (1, 1, 2)
    assert rules.compare(5, RUN_3, RUN_1).counts == (1, 2, 1)


def test_comparing_two_samples() -> None:
    """RULES 8.2: of two samples all groups are trivial."""
    answer = rules.compare(2, ONLY_TREE_OF_2, ONLY_TREE_OF_2)
    assert answer == (0, 0, (0, 0, 0), [ONLY_TREE_OF_2, ONLY_TREE_OF_2])


def test_comparing_with_itself() -> None:
    """RULES 8.2: a tree shares with itself its groups that are not trivial."""
    cases = [(3, BARE_3, 0), (3, WITH_01, 1), (5, RUN_1, 2), (5, RUN_2, 2), (5, RUN_3, 3)]
    for n, row, groups in cases:
        assert rules.compare(n, row, row).counts == (groups, 0, 0)
    other_numbering = [5, 3, 3, 4, 4, ROOT]
    assert rules.compare(3, other_numbering, WITH_01).counts == (1, 0, 0)


def test_comparing_all_but_one() -> None:
    """RULES 11.10: a group of n-1 samples counts, whichever sample it leaves out."""
    for n, left_out in [*product([3, 4, 7], [0, 1, 2]), (512, 0), (512, 511)]:
        bare, whole = shapes.tree_of(n), frozenset(range(n))
        tree = shapes.tree_of(n, whole - {left_out})
        other = shapes.tree_of(n, whole - {(left_out + 1) % n})
        assert compared(n, tree, tree) == (1, 0, 0)
        assert compared(n, tree, bare) == (0, 1, 0)
        assert compared(n, bare, tree) == (0, 0, 1)
        assert compared(n, tree, other) == (0, 1, 1)


def test_comparing_bare_and_full() -> None:
    """RULES 8.2: two bare trees share nothing; a full one has n-2 groups, and a bare one none."""
    for n in (3, 4, 9, 512):
        bare, chain = shapes.tree_of(n), shapes.caterpillar_of(list(range(n)))
        assert compared(n, bare, bare) == (0, 0, 0)
        assert compared(n, bare, chain) == (0, 0, n - 2)
        assert compared(n, chain, bare) == (0, n - 2, 0)
        assert compared(n, chain, chain) == (n - 2, 0, 0)


def test_comparing_by_sets() -> None:
    """RULES 8.1 and 8.2: each set of two or three of four samples counts once, where it belongs."""
    counted = [some for some in sets_of_samples(4) if len(some) in (2, 3)]
    for one, other in pairs_of_four():
        where = [(some in one, some in other) for some in counted]
        in_each = [where.count(which) for which in ((True, True), (True, False), (False, True))]
        assert compared(4, one, other) == tuple(in_each)


def test_comparing_exchanged() -> None:
    """RULES 8.3: with the rows exchanged, the last two counts are exchanged."""
    for one, other in pairs_of_four():
        both, first, second = compared(4, one, other)
        assert compared(4, other, one) == (both, second, first)


def test_comparing_same_groups() -> None:
    """RULES 8.4: the last two counts are both 0 exactly if the trees have the same groups."""
    for one, other in pairs_of_four():
        assert (compared(4, one, other)[1:] == (0, 0)) == (one == other)


def distance(one: Tree, other: Tree) -> int:
    """The last two counts of two trees of four samples, together."""
    _, first, second = compared(4, one, other)
    return first + second


def test_distance() -> None:
    """RULES 8.5: how many groups exactly one of two trees has; symmetric, 0 only for the same."""
    for one, other in pairs_of_four():
        in_one = sum((some in one) != (some in other) for some in sets_of_samples(4))
        assert distance(one, other) == in_one
        assert distance(one, other) == distance(other, one)
        assert (distance(one, other) == 0) == (one == other)


def test_distance_by_a_third() -> None:
    """RULES 8.5: the distance of two trees is never more than by way of a third."""
    trees = rows.every_tree(4)
    apart = {pair: distance(*pair) for pair in product(trees, repeat=2)}
    for one, third, other in product(trees, repeat=3):
        assert apart[one, other] <= apart[one, third] + apart[third, other]


# Refused rows


def test_places_of_second_row() -> None:
    """RULES 7.7: 2n is added to every place of the second row; the first row is checked first."""
    for number, place, row in ROWS_REFUSED:
        refusal_leaves_all(rules.compare(3, row, BARE_3), number, place, row, BARE_3)
        refusal_leaves_all(rules.compare(3, BARE_3, row), number, place + 6, BARE_3, row)
        refusal_leaves_all(rules.compare(3, row, [0] * 6), number, place, row, [0] * 6)
        refusal_leaves_all(rules.renumber(3, row, [1] * 6), number, place, row, [1] * 6)


ROWS_REFUSED = [
    (5, 0, [3, 3, 3, 3, ROOT, 0]),
    (5, 0, [6, 3, 3, 3, ROOT, 0]),
    (6, 0, [5, 2, 3, 3, ROOT, 3]),
    (6, 2, [5, 4, 4, ROOT, ROOT, 5]),
    (6, 4, [5, 4, 4, 3, ROOT, 5]),
    (7, 0, [5, 4, 4, 3, ROOT, ROOT]),
    (7, 0, [5, 4, 4, 3, 4, 3]),
    (7, 0, [4, 3, 3, 3, 3, 1]),
    (8, 5, [4, 3, 3, 3, ROOT, 7]),
    (9, 0, [5, 4, 3, 3, ROOT, 4]),
    (9, 2, [5, 3, 3, 4, ROOT, 4]),
    (9, 3, [5, 4, 4, 4, 3, ROOT]),
    (9, 4, [5, 3, 3, 3, ROOT, 4]),
    (10, 3, [5, 4, 4, 4, 4, ROOT]),
    (10, 4, [5, 3, 3, 3, ROOT, 3]),
]


def test_last_checks_of_four() -> None:
    """RULES 7.5, lines 9 and 10: cycles of one and two nodes, no child, one, the deepest tree."""
    cases = [
        (9, 5, [7, 4, 4, 4, 4, ROOT, 6, 5]),
        (9, 4, [7, 6, 6, 6, 6, 5, 4, ROOT]),
        (9, 3, [7, 4, 4, 4, 6, ROOT, 6, 5]),
        (9, 0, [7, 5, 4, 4, 4, ROOT, 6, 6]),
        (9, 6, [7, 5, 5, 4, 4, ROOT, 4, 6]),
        (10, 4, [7, 5, 5, 5, 6, 5, ROOT, 5]),
        (10, 5, [7, 4, 4, 4, 4, ROOT, 4, 4]),
        (10, 5, [7, 4, 4, 4, 6, ROOT, 4, 4]),
        (10, 6, [7, 4, 4, 5, 5, ROOT, 4, 4]),
        (0, 0, [7, 5, 6, 6, 5, ROOT, 4, 5]),
        (0, 0, [7, 4, 4, 6, 6, ROOT, 4, 5]),
        (0, 0, [7, 4, 4, 4, 6, ROOT, 4, 5]),
        (0, 0, [7, 6, 6, 6, 6, ROOT, 4, 5]),
        (0, 0, [7, 6, 6, 5, 4, ROOT, 4, 5]),
        (0, 0, [7, 4, 4, 5, 6, 5, 6, ROOT]),
    ]
    for number, place, row in cases:
        assert verdict(rules.judge(4, row)) == (number, place)
        assert verdict(rules.compare(4, row, row)) == (number, place)


def reaches_root(row: Words, v: int) -> bool:
    """Whether as many steps up as there are nodes come to the root's mark."""
    for _ in range(row[0]):
        v = row[1 + v]
        if v == ROOT:
            return True
    return False


def test_lost_by_steps() -> None:
    """RULES 7.5, line 9: the nodes that reach the root are those from which enough steps do."""
    rng = Random(20)
    made = [row for n in (3, 4) for row in rows.rows_with_root(n)]
    made += [rows.lost_row(rng, n, n + 3, {n, n - 1}) for n in range(5, 40)]
    for row in made:
        by_steps = {v for v in range(row[0]) if reaches_root(row, v)}
        assert rules.reaching_root(row) == by_steps


def test_lengths() -> None:
    """3 for every row and every output of a length other than 2n."""
    for wrong in ([], [5], [0] * 5, [0] * 7):
        refusal_leaves_all(rules.judge(3, wrong), 3, 0, wrong)
        refusal_leaves_all(rules.renumber(3, WITH_01, wrong), 3, 0, WITH_01, wrong)
        refusal_leaves_all(rules.renumber(3, wrong, [0] * 6), 3, 0, wrong, [0] * 6)
        refusal_leaves_all(rules.compare(3, [9] * 6, wrong), 3, 0, [9] * 6, wrong)
        study = opened(3, 20)
        refusal_leaves_all(rules.report(study, 0, [0] * 6, wrong), 3, 0, study, [0] * 6, wrong)
        refusal_leaves_all(rules.report(study, 0, wrong, [0] * 6), 3, 0, study, wrong, [0] * 6)
        refusal_leaves_all(rules.add(study, 0, wrong), 3, 0, study, wrong)


# Specimens: studies


def test_three_runs() -> None:
    """RULES 10.1: the report of the three runs."""
    agreed, support = reported(study_of(5, [RUN_1, RUN_2, RUN_3]), 5)
    assert agreed == [9, 7, 7, 6, 8, 8, ROOT, 5, 6, 5]
    assert support == [3, 3, 3, 3, 3, 3, 3, 2, 2, 2]


def test_three_runs_at_thresholds() -> None:
    """RULES 10.1 and 5.1: 2 of 3 is more than 66 per cent and not more than 67."""
    words = study_of(5, [RUN_1, RUN_2, RUN_3])
    for p in (0, 50, 66):
        agreed, support = reported(words, 5, p)
        assert agreed == [9, 7, 7, 6, 8, 8, ROOT, 5, 6, 5]
        assert support == [3, 3, 3, 3, 3, 3, 3, 2, 2, 2]
    for p in (67, 100):
        agreed, support = reported(words, 5, p)
        assert agreed == [6, 5, 5, 5, 5, 5, ROOT, 0, 0, 0]
        assert support == [3, 3, 3, 3, 3, 3, 3, 0, 0, 0]


def test_groups_of_three_runs() -> None:
    """The groups named beside the three runs."""
    for row, named in ((RUN_1, "012 01"), (RUN_2, "012 34"), (RUN_3, "0134 01 34")):
        groups = shapes.proper_groups(rules.groups_of(5, row))
        assert groups == [frozenset(map(int, samples)) for samples in named.split()]


def test_half_is_too_few() -> None:
    """RULES 10.5: one of two runs is not enough."""
    assert reported(study_of(3, [WITH_01, WITH_02]), 3) == [BARE_3, [2, 2, 2, 2, 2, 0]]


def test_halves_and_three_of_four() -> None:
    """RULES 10.7: two of four, and three of four."""
    two_of_four = study_of(3, [WITH_01, WITH_02, WITH_01, WITH_02])
    assert reported(two_of_four, 3) == [BARE_3, [4, 4, 4, 4, 4, 0]]
    three_of_four = study_of(3, [WITH_01, WITH_02, WITH_01, WITH_01])
    assert reported(three_of_four, 3) == [WITH_01, [4, 4, 4, 4, 4, 3]]
    assert reported(three_of_four, 3, 74) == [WITH_01, [4, 4, 4, 4, 4, 3]]
    assert reported(three_of_four, 3, 75) == [BARE_3, [4, 4, 4, 4, 4, 0]]


def test_what_all_runs_hold() -> None:
    """RULES 5.1: at 100 what all runs hold is shown, and nothing else."""
    for k in (1, 2, 5):
        all_hold = study_of(3, [WITH_01] * k)
        assert reported(all_hold, 3, 100) == [WITH_01, [k] * 6]
        all_but_one = added(all_hold, 9, WITH_02)
        assert reported(all_but_one, 3, 100) == [BARE_3, [k + 1] * 5 + [0]]


def test_all_but_one_at_99() -> None:
    """RULES 5.1: all runs but one are more than 99 per cent of 101 runs, and not of 100."""
    one, other = rules.groups_of(3, WITH_01), rules.groups_of(3, WITH_02)
    for k, agreed in ((99, BARE_3), (100, BARE_3), (101, WITH_01)):
        runs = {1: other, **{identifier: one for identifier in range(2, k + 1)}}
        assert reported(rules.write_study(1000, rules.Study(3, runs)), 3, 99)[0] == agreed


def test_one_run_is_reported() -> None:
    """RULES 10.7: a single run is its own report."""
    for row in (RUN_1, RUN_2, RUN_3):
        agreed, support = reported(study_of(5, [row]), 5)
        assert agreed == rules.renumber(5, row, [0] * 10).buffers[1]
        assert support == [1] * (1 + row[0]) + [0] * (9 - row[0])


def test_largest_identifier() -> None:
    """RULES 10.8: the largest identifier."""
    words = added(opened(2, 20), 65535, ONLY_TREE_OF_2)
    assert words == [65, 82, 66, 1, 2, 1, 0, 0, 65535, 3, 2, 2, ROOT] + [0] * 7


def test_run_1025() -> None:
    """RULES 10.9: run number 1,025 is refused, and taken when there is room."""
    tree = rules.groups_of(2, ONLY_TREE_OF_2)
    runs = {identifier: tree for identifier in range(1, 1024)}
    for length in (8 + 1024 * 5, 8 + 1030 * 5):
        words = added(rules.write_study(length, rules.Study(2, runs)), 1024, ONLY_TREE_OF_2)
        full = rules.add(words, 1025, ONLY_TREE_OF_2)
        refusal_leaves_all(full, 12, 0, words, ONLY_TREE_OF_2)
        words = added(withdrawn(words, 7), 1025, ONLY_TREE_OF_2)
        assert words[5] == 1024 and words[8:38:5] == [1, 2, 3, 4, 5, 6] and words[38] == 8


def test_last_run_withdrawn() -> None:
    """RULES 10.10: no report once the last run is withdrawn."""
    words = withdrawn(study_of(3, [WITH_01]), 1)
    assert words == opened(3, 300)
    refusal_leaves_all(rules.report(words, 0, [1] * 6, [2] * 6), 14, 0, words, [1] * 6, [2] * 6)


def test_added_again() -> None:
    """RULES 10.10: a withdrawn identifier comes back with a new tree."""
    words = added(withdrawn(study_of(3, [WITH_01]), 1), 1, WITH_02)
    assert words == study_of(3, [WITH_02])
    assert reported(words, 3)[0] == WITH_02


# Studies, beyond the specimens


def test_opening() -> None:
    """RULES 6.8: a study without runs, or 3 where no run has room."""
    assert opened(3, 15) == [65, 82, 66, 1, 3, 0, 0, 0] + [0] * 7
    for length in (0, 7, 8, 14):
        refusal_leaves_all(rules.open_study(3, [4] * length), 3, 0, [4] * length)


def test_capacity() -> None:
    """RULES 6.6: how many runs there is room for."""
    for length, runs in ((0, 0), (7, 0), (8, 0), (12, 0), (13, 1), (17, 1), (18, 2), (5127, 1023)):
        assert rules.capacity(length, 2) == runs
    assert rules.capacity(32768, 2) == 1024 and rules.capacity(32768, 512) == 31


def test_refusals_of_studies() -> None:
    """4, 11, 12 and 13, and what goes before them."""
    words = added(opened(3, 22), 6, WITH_01)
    refusal_leaves_all(rules.add(words, 0, CHILDLESS_3), 4, 0, words, CHILDLESS_3)
    refusal_leaves_all(rules.add(words, 6, CHILDLESS_3), 10, 4, words, CHILDLESS_3)
    refusal_leaves_all(rules.add(words, 6, BRANCH_0), 11, 0, words, BRANCH_0)
    refusal_leaves_all(rules.add(words, 6, WITH_02), 11, 0, words, WITH_02)
    words = added(words, 5, WITH_02)
    assert words == [65, 82, 66, 1, 3, 2, 0, 0, 5, *WITH_02, 6, *WITH_01]
    refusal_leaves_all(rules.add(words, 6, WITH_02), 11, 0, words, WITH_02)
    refusal_leaves_all(rules.add(words, 7, WITH_02), 12, 0, words, WITH_02)
    refusal_leaves_all(rules.withdraw(words, 0), 4, 0, words)
    refusal_leaves_all(rules.withdraw(words, 7), 13, 0, words)


def test_not_well_formed() -> None:
    """2 for a study with any single word changed to one that it may not be."""
    words = added(added(opened(3, 30), 5, WITH_02), 6, WITH_01)
    changes = [(0, 66), (1, 0), (2, 65), (3, 2), (4, 1), (4, 513), (4, 4), (5, 1), (5, 3), (5, 4)]
    changes += [(6, 1), (7, 1), (8, 0), (8, 6), (8, 7), (9, 4), (10, 3), (22, 1), (29, 1)]
    for i, word in changes:
        damaged = words[:i] + [word] + words[i + 1 :]
        refusal_leaves_all(rules.withdraw(damaged, 0), 2, 0, damaged)
        refusal_leaves_all(rules.add(damaged, 0, []), 2, 0, damaged, [])
        refusal_leaves_all(rules.report(damaged, 1, [], []), 2, 0, damaged, [], [])
    unordered = [65, 82, 66, 1, 3, 1, 0, 0, 5, 5, 3, 3, 4, 4, ROOT]
    assert rules.judge(3, unordered[9:]).number == 0
    refusal_leaves_all(rules.withdraw(unordered, 5), 2, 0, unordered)
    for length in (0, 7, 8, 14):
        assert rules.read_study(opened(3, 15)[:length]) is None


def test_refused_thresholds() -> None:
    """RULES 5.7: 16 for p other than 0 and 50 to 100, however large."""
    words = study_of(3, [WITH_01, WITH_02])
    for p in [*range(1, 50), *range(101, 400), 65535, 65536, 65586, 2**32 + 50, 2**64 - 1]:
        refusal_leaves_all(rules.report(words, p, [1] * 6, [2] * 6), 16, 0, words, [1] * 6, [2] * 6)
    for p in [0, *range(50, 101)]:
        assert reported(words, 3, p) == [BARE_3, [2, 2, 2, 2, 2, 0]]


def test_order_of_reporting() -> None:
    """RULES 7.8: 2, then 3, then 16, then 14."""
    empty, right, wrong = opened(3, 20), [1] * 6, [1] * 5
    damaged = empty[:-1] + [1]
    for p, number in ((49, 16), (101, 16), (306, 16), (0, 14), (50, 14), (100, 14)):
        refusal_leaves_all(rules.report(damaged, p, wrong, right), 2, 0, damaged, wrong, right)
        refusal_leaves_all(rules.report(empty, p, wrong, right), 3, 0, empty, wrong, right)
        refusal_leaves_all(rules.report(empty, p, right, wrong), 3, 0, empty, right, wrong)
        refusal_leaves_all(rules.report(empty, p, right, right), number, 0, empty, right, right)


def test_report_is_the_rule() -> None:
    """Every set of samples is shown exactly if RULES 5.1 says so, by fractions."""
    rng = Random(3)
    for k in range(1, 9):
        for trees in (shapes.runs_near(rng, 5, k), shapes.runs_halved(rng, 5, k)):
            for p in (50, 60, 66, 67, 75, 99, 100):
                by_fractions(rng, trees, p)
    for p in range(50, 101):
        for k in (3, rng.randint(4, 20)):
            by_fractions(rng, thresholds.any_edge(rng, 5, k, p), p)


def by_fractions(rng: Random, trees: list[Tree], p: int) -> None:
    """Asserts that the report of trees of five samples at p has the groups that it has to have."""
    k = len(trees)
    words = study_of(5, [rows.shuffled_row(rng, 5, tree) for tree in trees])
    agreed, support = reported(words, 5, p)
    shown = rules.groups_of(5, agreed)
    for samples in sets_of_samples(5):
        held = Fraction(sum(samples in tree for tree in trees), k)
        assert (samples in shown) == (held > Fraction(p, 100) or held == 1)
    assert support[0] == k and all(2 * held > k for held in support[1 : 1 + agreed[0]])


def test_default_threshold() -> None:
    """RULES 5.8: 0 stands for 50."""
    rng = Random(12)
    for k in range(1, 13):
        trees = thresholds.runs_at_edge(rng, 6, k, 50)
        words = study_of(6, [rows.standard_row(6, tree) for tree in trees])
        assert reported(words, 6, 0) == reported(words, 6, 50)
        assert reported(words, 6, 0) == reported(words, 6)


def sets_of_samples(n: int) -> list[frozenset[int]]:
    """Every set of samples that is not empty."""
    return [frozenset(some) for size in range(1, n + 1) for some in combinations(range(n), size)]


# The listing program


def test_the_case() -> None:
    """The 75 bytes of RULES 10, and their whole listing."""
    assert len(files.THE_CASE) == 75
    assert files.THE_CASE[:13] == b"ARB\1\0\5\0\3\0\1\0\x08\0"
    lines = ["ARB 1 5 3", "5 - 3 0 1 2 3 4", "6 5 2 0 1 2", "7 6 2 0 1", "8 5 2 3 4"]
    assert listed(files.THE_CASE).decode() == "".join(line + "\n" for line in lines)


def test_small_listings() -> None:
    """One run of two samples; two runs that agree on nothing; the order of slots."""
    only = files.file_of(2, [[65535] + ONLY_TREE_OF_2])
    assert listed(only) == b"ARB 1 2 1\n2 - 1 0 1\n"
    halves = files.file_of(3, [[9] + WITH_01, [4] + WITH_02])
    assert listed(halves) == b"ARB 1 3 2\n3 - 2 0 1 2\n"
    three = files.file_of(3, [[9] + WITH_01, [4] + WITH_02, [1, 5, 3, 3, 4, 4, ROOT]])
    assert listed(three) == b"ARB 1 3 3\n3 - 3 0 1 2\n4 3 2 0 1\n"


def test_bad_files() -> None:
    """RULES 9.3: 15 for lengths, marks and versions, before any other number."""
    for length in range(75):
        assert listed(files.THE_CASE[:length]) == b"refused 15 0 0\n"
    others = [files.THE_CASE + b"\0", b"ARC" + files.THE_CASE[3:]]
    others += [files.head(5, 3, 2) + files.THE_CASE[9:], files.head(513, 0, 0)]
    others += [files.head(2, 6553) + b"\0" * 65530, files.head(5, 32771) + files.THE_CASE[9:]]
    for data in others + list(files.wrong_products(Random(1))):
        assert listed(data) == b"refused 15 0 0\n"


def test_refused_sizes() -> None:
    """1 for n out of range with its own length, 14 for no run."""
    for n, k in ((0, 0), (0, 7), (1, 2), (513, 0), (513, 31), (16379, 1), (65535, 0)):
        assert listed(files.head(n, k) + b"\7\0" * (k * (2 * n + 1))) == b"refused 1 0 0\n"
    for n in (2, 512):
        assert listed(files.head(n, 0)) == b"refused 14 0 0\n"


def test_refused_slots() -> None:
    """Number, position of the slot and place: the first slot that is refused decides."""
    good, other = [7] + WITH_01, [8] + WITH_02
    for number, place, row in ROWS_REFUSED:
        line = f"refused {number} 1 {place}\n".encode()
        assert listed(files.file_of(3, [good, [9] + row, [0] + row])) == line
        assert listed(files.file_of(3, [good, [7] + row, good])) == line
        assert listed(files.file_of(3, [good, [0] + row])) == b"refused 4 1 0\n"
    assert listed(files.file_of(3, [good, other, good])) == b"refused 11 2 0\n"
    assert listed(files.file_of(3, [[0] + WITH_01, good, good])) == b"refused 4 0 0\n"


def test_slots_refused_by_last_checks() -> None:
    """Of each n four files are refused with 9; the next two with 10, or have a single branch."""
    made = list(files.refused_by_last_checks(Random(files.LAST_CHECKS_SEED)))
    numbers = [listing.number_in(listed(data)) for data in made]
    for i in range(0, len(made), 6):
        assert numbers[i : i + 4] == [9] * 4 and {*numbers[i + 4 : i + 6]} <= {0, 10}
    assert numbers.count(10) > 3


def test_single_branches_listed() -> None:
    """Files with single branches are listed as those without; 10 only where a child lacks."""
    plain = files.file_of(4, [[1, *SINGLE_BRANCHES[2][2]], [2, 5, 4, 4, 4, 4, ROOT, 0, 0]])
    chain = files.file_of(4, [[1, *CHAIN_MIDDLE], [2, 6, 4, 4, 4, 4, ROOT, 4, 0]])
    assert listed(chain) == b"refused 10 1 5\n"
    chain = files.file_of(4, [[1, *CHAIN_MIDDLE], [2, 6, 5, 5, 5, 5, ROOT, 4, 0]])
    assert listed(chain) == listed(plain) == b"ARB 1 4 2\n4 - 2 0 1 2 3\n"
    assert listed(files.file_of(3, [[7, *BRANCH_0]])) == b"ARB 1 3 1\n3 - 1 0 1 2\n"
    made = list(files.single_branches(Random(1)))
    while made:
        (with_branches, without, childless), made = made[:3], made[3:]
        assert with_branches != without and listed(with_branches) == listed(without)
        assert listing.number_in(listed(with_branches)) == 0
        assert listing.number_in(listed(childless)) == 10


def test_more_slots_than_runs() -> None:
    """k above 1,024 gives 12 at slot 1,024, if that slot passes 4 to 11."""
    slots = [[1 + i] + ONLY_TREE_OF_2 for i in range(1026)]
    assert listed(files.file_of(2, slots[:1024])) == b"ARB 1 2 1024\n2 - 1024 0 1\n"
    for k in (1025, 1026):
        assert listed(files.file_of(2, slots[:k])) == b"refused 12 1024 0\n"
    assert listed(files.file_of(2, slots[:1024] + [slots[5]])) == b"refused 11 1024 0\n"
    bad = [3, 2, 2, 2]
    assert listed(files.file_of(2, slots[:1024] + [[2000] + bad])) == b"refused 7 1024 0\n"
    assert listed(files.file_of(2, slots[:1025] + [[0] + bad])) == b"refused 12 1024 0\n"


def test_listing_is_the_calls() -> None:
    """RULES 9.2: what is listed is what the calls answer."""
    rng = Random(4)
    for _ in range(150):
        n = rng.randint(2, 7)
        data = files.with_row(rng, n, rows.any_row(rng, n))
        if rng.random() < 0.3:
            data = files.with_identifiers(rng, n, [7, 7])
        assert listed(data) == by_calls(data), data.hex()


def by_calls(data: bytes) -> bytes:
    """The listing of a file that is not bad, by the calls on a study."""
    n, slots = listing.read_file(data)
    words = opened(n, 32768)
    for position, (identifier, *row) in enumerate(slots):
        answer = rules.add(words, identifier, row)
        if answer.number:
            return f"refused {answer.number} {position} {answer.place}\n".encode()
        words = answer.buffers[0]
    agreed, support = reported(words, n)
    lines = [f"ARB 1 {n} {support[0]}"]
    for v in range(n, agreed[0]):
        above = "-" if agreed[1 + v] == ROOT else agreed[1 + v]
        samples = " ".join(str(s) for s in range(n) if v in path_up(agreed, s))
        lines.append(f"{v} {above} {support[1 + v]} {samples}")
    return "".join(line + "\n" for line in lines).encode()


def path_up(row: Words, v: int) -> list[int]:
    """The nodes from one up to the root."""
    return [] if v == ROOT else [v] + path_up(row, row[1 + v])


def passes(test: Callable[[], None]) -> bool:
    """Whether a test passes; what went wrong is printed."""
    try:
        test()
    except Exception:
        print(f"{test.__name__} failed\n{traceback.format_exc()}")
        return False
    return True


def main() -> int:
    """Runs every test, here, of the makers, of Newick texts and of single branches."""
    modules = (test_makers, test_newick, test_single_branches)
    named = [item for module in modules for item in vars(module).items()] + [*globals().items()]
    tests = [test for name, test in named if name.startswith("test_") and callable(test)]
    passed = sum(map(passes, tests))
    print(f"{passed} passed, {len(tests) - passed} failed")
    return 0 if passed == len(tests) else 1


if __name__ == "__main__":
    sys.exit(main())
