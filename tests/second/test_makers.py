"""Holds the makers of test material against rules.py; test_rules.py runs these tests too."""

from __future__ import annotations

from collections import Counter
from functools import lru_cache
from itertools import combinations, islice, permutations, product
from random import Random
from typing import NamedTuple

import calls
import calls_candidates
import calls_judge
import calls_last_checks
import calls_nontrivial
import calls_thresholds
import material
import orders
import rows
import rules
import sequences
import shapes
import studies
import thresholds
from rules import ROOT
from specimens import RUNS_OF_5

EVERY_OP = [calls.OPEN, calls.ADD, calls.WITHDRAW, calls.REPORT]
EVERY_OP += [calls.JUDGE, calls.RENUMBER, calls.COMPARE, calls.READ, calls.WRITE]

# Trees and rows


def test_number_of_trees() -> None:
    """The rows that judging accepts make 1, 4 and 26 trees of 2, 3 and 4 samples."""
    for n, trees in ((2, 1), (3, 4), (4, 26)):
        in_range = [row for m in range(n + 1, 2 * n) for row in rows.rows_in_range(n, m)]
        valid = [row for row in in_range if rules.judge(n, row).number == 0]
        assert valid == rows.valid_rows(n)
        assert len({rules.groups_of(n, row) for row in valid}) == trees
        assert len({tuple(rules.renumber(n, row, row).buffers[1]) for row in valid}) == trees
        assert len(set(rows.every_tree(n))) == len(rows.every_tree(n)) == trees


def test_makers_make_trees() -> None:
    """Trees of every shape, and their neighbours, are trees in every numbering."""
    rng = Random(1)
    for n in (2, 3, 4, 7, 12):
        for shape in shapes.SHAPES * 5:
            tree = shape(rng, n)
            for other in (tree, *(move(rng, n, tree) for move in shapes.MOVES)):
                for row in (rows.standard_row(n, other), rows.shuffled_row(rng, n, other)):
                    assert rules.judge(n, row).number == 0
                    assert rules.groups_of(n, row) == other
                assert all(rules.agree(*pair) for pair in combinations(other, 2))


def test_moves_move() -> None:
    """A tree one move away is another tree, where there is one."""
    rng = Random(2)
    for n in (3, 5, 9):
        for tree in (shapes.any_tree(rng, n) for _ in range(50)):
            assert shapes.one_move(rng, n, tree) != tree


def test_binary_trees_with_a_group() -> None:
    """A binary tree made around a group is valid, has it, and as many groups as there can be."""
    rng = Random(21)
    for n in (2, 3, 5, 9):
        for size in range(1, n + 1):
            group = frozenset(rng.sample(range(n), size))
            tree = shapes.binary_with(rng, n, group)
            assert rules.judge(n, rows.standard_row(n, tree)).number == 0
            assert group in tree and len(tree) == 2 * n - 1


# Rows for checks 9 and 10


def children_of(row: rules.Words, v: int) -> list[int]:
    """The nodes whose parent is v."""
    return [u for u in range(row[0]) if row[1 + u] == v]


def places(n: int) -> list[tuple[int, int]]:
    """Every m that leaves two inner nodes or more, with each node."""
    return [(m, v) for m in range(n + 2, 2 * n) for v in range(m)]


def test_number_of_rows_with_root() -> None:
    """With i inner nodes, one the root, all others have any of the i as their parent."""
    for n in (2, 3, 4):
        made = rows.rows_with_root(n)
        assert len(made) == len(set(map(tuple, made))) == sum(i ** (n + i) for i in range(1, n))
        lacking = calls_last_checks.lacking_rows(n)
        assert len(lacking) == len(made) - len(rows.branching_rows(n))
        refusals = [rules.row_refusal(n, row) for row in lacking]
        assert {refusal[0] for refusal in refusals if refusal} <= {9, 10}
        assert refusals.count(None) == len(rows.valid_rows(n)) - len(rows.branching_rows(n))


def test_lost_rows() -> None:
    """Rows made to lose some nodes lose just these, and are refused with 9 at the lowest."""
    rng = Random(15)
    for n in (3, 4, 5, 9, 14):
        for m, v in places(n) * 5:
            lost = rows.lost_from(rng, n, m, v)
            row = rows.lost_row(rng, n, m, lost)
            assert row[0] == m and lost == {*range(m)} - rules.reaching_root(row)
            assert rules.row_refusal(n, row) == (9, v)


def test_kinds_of_lost_nodes() -> None:
    """Any samples and any inner nodes that a row may lose make a row that loses just these."""
    rng = Random(16)
    for n in (3, 4, 8, 13):
        for m in range(n + 2, 2 * n):
            for samples in rows.lost_samples(rng, n):
                for inner in rows.lost_inner(rng, n, m):
                    row = rows.lost_row(rng, n, m, {*samples, *inner})
                    assert {*range(m)} - rules.reaching_root(row) == {*samples, *inner}
                    assert rules.row_refusal(n, row) == (9, min(samples + inner))


def test_rows_of_few_children() -> None:
    """Rows made with no child of some nodes are refused with 10 at the lowest of these."""
    rng = Random(17)
    for n in (3, 4, 5, 9, 14):
        for m, v in [(m, v) for m, v in places(n) if v >= n]:
            for one, none in ([[v], []], [[], [v]], rows.few_from(rng, n, m, v)):
                row = rows.few_children_row(rng, n, m, one, none)
                counts = {u: len(children_of(row, u)) for u in range(n, m)}
                assert [u for u in counts if counts[u] == 1] == one
                assert [u for u in counts if counts[u] == 0] == none
                assert rules.row_refusal(n, row) == ((10, min(none)) if none else None)
                assert rows.is_branching(n, row) == (not one and not none)


def test_chains() -> None:
    """Samples of a chain are as deep as asked for; of a bent one all below the root are lost."""
    rng = Random(18)
    for n in (4, 7, 12):
        for m in range(n + 3, 2 * n):
            orders = rows.orders_of(rng, list(range(n, m)))
            assert all(sorted(chain) == [*range(n, m)] for chain in orders)
            for chain, depths in product(orders, calls_last_checks.all_depths(n, m - n - 1)):
                row = rows.chain_row(n, chain, depths)
                assert [chain.index(row[1 + sample]) for sample in range(n)] == depths
                assert row == rows.with_parent(row, chain[1], chain[0])
                lost = {*chain[1:], *(sample for sample in range(n) if depths[sample] > 0)}
                for bent in rows.bent_chain_rows(n, chain, depths):
                    assert {*range(m)} - rules.reaching_root(bent) == lost


def test_deepest_trees() -> None:
    """The deepest trees are valid, and the way up from sample 0 passes every inner node."""
    for n in (3, 4, 9, 20):
        for row in calls_last_checks.deepest(Random(19), n):
            assert rules.row_refusal(n, row) is None and row[0] == 2 * n - 1
            assert sum(0 in group for group in rules.groups_of(n, row)) == n


def taken(call: calls.Call, place: int) -> tuple[str, rules.Words]:
    """How a call took the row that it refuses at this place, and the row."""
    if call.op != calls.COMPARE:
        return calls.NAMES[call.op], call.buffers[1 if call.op == calls.ADD else 0]
    first, second = call.buffers
    return ("first", first) if place < len(first) else ("second", second)


def bound(row: rules.Words, place: int) -> str:
    """Which node of a row a place of 9 or 10 is."""
    n = len(row) // 2
    names = {0: "lowest", n - 1: "highest", n: "first", row[0] - 1: "last"}
    return names.get(place % len(row), "other")


def test_stored_places() -> None:
    """Each call that takes a row has 9 and 10 at its first and last nodes, also with filler."""
    came = {taker: set() for taker in ("add", "renumber", "first", "second", "judge")}
    for call in calls_last_checks.stored():
        number, place, *_ = calls.answer(call)
        if number in (9, 10):
            taker, row = taken(call, place)
            came[taker].add((number, bound(row, place), row[0] == len(row) - 1))
    inner = [*product([9, 10], ["first", "last", "other"], [False, True])]
    wanted = {*inner, *product([9], ["lowest", "highest"], [False, True])}
    assert all(numbers == wanted for numbers in came.values()), came


# Comparing


class Compared(NamedTuple):
    """The trees of a comparison that is accepted."""

    n: int
    first: rules.Tree
    second: rules.Tree


def trees_compared(call: calls.Call) -> Compared:
    """The trees that a call compares."""
    return Compared(call.x, *(rules.groups_of(call.x, row) for row in call.buffers))


@lru_cache(maxsize=1)
def stored_comparisons() -> list[tuple[calls.Call, rules.Answer]]:
    """The calls that calls_nontrivial stores, each with its answer."""
    return [(call, calls.answer(call)) for call in calls_nontrivial.stored()]


@lru_cache(maxsize=1)
def accepted_comparisons() -> list[Compared]:
    """The trees of those that are accepted."""
    return [trees_compared(call) for call, answer in stored_comparisons() if answer.number == 0]


def placed_groups(compared: Compared) -> list[tuple[str, rules.Group]]:
    """The groups of both trees; and the group of one of them, if they differ in that alone."""
    _, one, other = compared
    placed = [("both", group) for group in one & other]
    if len(one ^ other) == 1:
        placed += [("first", group) for group in one - other]
        placed += [("second", group) for group in other - one]
    return placed


PLACES = ["both", "first", "second"]


def test_stored_sizes_of_groups() -> None:
    """A group of each size, from two samples to all but one, is in both trees, and in either."""
    rng = Random(calls_nontrivial.SEED)
    made = [*calls_nontrivial.groups_of_each_size(rng), *calls_nontrivial.widest_trees(rng)]
    came = set()
    for compared in map(trees_compared, made):
        came |= {(compared.n, place, len(group)) for place, group in placed_groups(compared)}
    wanted = {(rules.MOST_SAMPLES, *each) for each in product(PLACES, calls_nontrivial.LACKED)}
    for n in calls_nontrivial.EACH_SIZE:
        wanted |= {(n, *each) for each in product(PLACES, range(2, n))}
    assert wanted <= came


def test_stored_samples_in_turn() -> None:
    """Each sample is the one that a group lacks, and in a group of two, in each place."""
    lacked, in_two = set(), set()
    for compared in accepted_comparisons():
        n, whole = compared.n, frozenset(range(compared.n))
        for place, group in placed_groups(compared):
            if len(group) == n - 1:
                lacked.add((n, place, *(whole - group)))
            if len(group) == 2:
                in_two |= {(n, place, sample) for sample in group}
    wanted = {(n, *each) for n in calls_nontrivial.EACH_SIZE for each in product(PLACES, range(n))}
    assert wanted <= lacked and wanted <= in_two


def test_stored_lone_groups() -> None:
    """Lone groups of two samples and of all but one: in both, against none, against another."""
    came = set()
    for compared in accepted_comparisons():
        proper = [shapes.proper_groups(tree) for tree in (compared.first, compared.second)]
        if max(map(len, proper)) == 1:
            sizes = [sum(map(len, groups)) for groups in proper]
            came.add((compared.n, *sizes, proper[0] == proper[1]))
    for n in calls_nontrivial.EACH_SIZE:
        for size in (2, n - 1):
            assert {(n, size, size, True), (n, size, size, False)} <= came
            assert {(n, size, 0, False), (n, 0, size, False)} <= came


def test_stored_counts_of_nodes() -> None:
    """Rows of each m are compared with rows of each m."""
    came = {(call.x, *(row[0] for row in call.buffers)) for call, _ in stored_comparisons()}
    for n in calls_nontrivial.EACH_COUNT:
        assert {(n, *counts) for counts in product(range(n + 1, 2 * n), repeat=2)} <= came


def test_stored_orders() -> None:
    """Two trees are compared in one order as often as in the other, and so are refused rows."""
    trees = Counter(accepted_comparisons())
    assert trees == Counter(Compared(n, second, first) for n, first, second in trees.elements())
    refused = [(call, answer.place) for call, answer in stored_comparisons() if answer.number]
    places = Counter(taken(call, place)[0] for call, place in refused)
    against_itself = sum(call.buffers[0] == call.buffers[1] for call, _ in refused)
    assert places["first"] - against_itself == places["second"] > 0


def test_stored_numberings() -> None:
    """Every row of up to four samples without single branches: against its own tree and another."""
    same, before, after = set(), set(), set()
    for call in calls_nontrivial.every_numbering(Random(1)):
        n, one, other = trees_compared(call)
        first, second = ((n, *row) for row in call.buffers)
        if one == other:
            same.add(first)
        else:
            before.add(first)
            after.add(second)
    sizes = calls_nontrivial.EVERY_NUMBERING
    every = {(n, *row) for n in sizes for row in rows.branching_rows(n)}
    # Two samples have no other tree.
    assert same == every and before == after == {row for row in every if row[0] > 2}


def test_stored_threes() -> None:
    """Three trees are compared each with each, and no two are farther apart than by the third."""
    made = calls_nontrivial.three_trees(Random(1))
    while six := list(islice(made, 6)):
        (n, one, other), (_, _, third), *_ = map(trees_compared, six)
        pairs = [*permutations([one, other, third], 2)]
        assert [trees_compared(call) for call in six] == [(n, *pair) for pair in pairs]
        counts = [calls.answer(call).counts for call in six]
        apart = {pair: first + second for pair, (_, first, second) in zip(pairs, counts)}
        for start, way, end in permutations([one, other, third]):
            assert apart[start, end] <= apart[start, way] + apart[way, end]


# Runs


def proper_holders(n: int, trees: list[rules.Tree]) -> list[int]:
    """How many of the trees hold each group that is not trivial."""
    holders = rules.holders_of(dict(enumerate(trees)))
    return [held for group, held in holders.items() if 1 < len(group) < n]


def test_runs_are_trees() -> None:
    """Runs of every kind are as many trees as asked for."""
    rng = Random(5)
    for make in shapes.RUNS:
        for n, k in ((2, 3), (3, 1), (6, 4), (9, 7)):
            trees = make(rng, n, k)
            assert len(trees) == k
            assert all(rules.judge(n, rows.standard_row(n, tree)).number == 0 for tree in trees)


def test_runs_near_half() -> None:
    """Groups counted into runs are held by about half; of runs near a tree about half is shown."""
    rng = Random(6)
    for k in (1, 2, 5, 8):
        held = proper_holders(9, shapes.runs_counted(rng, 9, k))
        assert all(k // 2 - 1 <= count <= k // 2 + 2 for count in held)
    held = [proper_holders(9, shapes.runs_halved(rng, 9, 8)) for _ in range(20)]
    assert all(set(counts) <= {4, 8} for counts in held) and any(4 in counts for counts in held)
    shown = common = 0
    for _ in range(40):
        tree = shapes.binary(rng, 14)
        held = proper_holders(14, [shapes.near(rng, 14, tree, 5) for _ in range(9)])
        shown += sum(2 * count > 9 for count in held)
        common += len(shapes.proper_groups(tree))
    assert 0.3 * common < shown < 0.8 * common


# Thresholds


def proper_runs(call: calls.Call) -> list[list[int]]:
    """Of each proper group of a reported study, the runs that hold it, counted from 0."""
    study = rules.read_study(call.buffers[0])
    trees = [study.runs[identifier] for identifier in sorted(study.runs)]
    groups = [group for group in rules.holders_of(study.runs) if 1 < len(group) < study.n]
    return [[i for i, tree in enumerate(trees) if group in tree] for group in groups]


def test_thresholds() -> None:
    """The makers of thresholds make those that are refused, accepted, and some of both."""
    rng = Random(13)
    assert all(rules.threshold_refusal(thresholds.refused_threshold(rng)) for _ in range(300))
    assert not any(rules.threshold_refusal(thresholds.accepted_threshold(rng)) for _ in range(300))
    refused = sum(bool(rules.threshold_refusal(thresholds.any_threshold(rng))) for _ in range(900))
    assert 30 < refused < 150
    assert thresholds.around(50) == [0, 50, 51] and thresholds.around(100) == [0, 99, 100]


def test_fewest() -> None:
    """The fewest runs that a group needs to be shown, for every threshold."""
    for p in [0, *range(50, 101)]:
        for k in range(1, 40):
            enough = thresholds.fewest(k, p)
            assert rules.is_shown(enough, k, p) and not rules.is_shown(enough - 1, k, p)


def test_runs_at_edges() -> None:
    """The runs at an edge hold groups exactly so often; the last ones, where late ones do."""
    rng = Random(14)
    for p, k in ((50, 4), (66, 3), (75, 8), (80, 10), (99, 100), (100, 5)):
        edge, enough = thresholds.at_edge(k, p), thresholds.fewest(k, p)
        held = proper_holders(6, thresholds.runs_at_edge(rng, 6, k, p))
        assert {edge, edge - 1, min(k, edge + 1)} - {0} <= set(held)
        assert {k, k - 1} <= set(proper_holders(6, thresholds.runs_nearly_all(rng, 6, k)))
        for make in (thresholds.runs_late, thresholds.runs_changed):
            trees = make(rng, 6, k, p)
            late = frozenset.intersection(*trees[k - enough :]).difference(*trees[: k - enough])
            assert any(1 < len(group) < 6 for group in late)


def test_stored_exact_shares() -> None:
    """Stored reports have groups held by exactly the threshold's share, and beside it."""
    found = {(p, over): set() for p in (50, 60, 75, 80, 99, 100) for over in (-1, 0, 1)}
    for call in calls_thresholds.exact_shares(Random(1)):
        k = call.buffers[0][5]
        for runs in proper_runs(call):
            if call.x * k % 100 == 0 and (call.x, len(runs) - call.x * k // 100) in found:
                found[call.x, len(runs) - call.x * k // 100].add(k)
    few = {p_and_over for p_and_over, ks in found.items() if len(ks) < 2}
    assert few == {(100, 1)}, few


def test_stored_late_runs() -> None:
    """Stored reports show groups that no run holds but the last ones, as few as there may be."""
    latest = {(p, k): 0 for p in calls_thresholds.LATE for k in calls_thresholds.RUNS_OF_LATE}
    for call in calls_thresholds.late_runs(Random(1)):
        k = call.buffers[0][5]
        shown = [runs[0] for runs in proper_runs(call) if rules.is_shown(len(runs), k, call.x)]
        latest[call.x, k] = max([latest.get((call.x, k), 0), *shown])
    assert all(first == k - thresholds.fewest(k, p) for (p, k), first in latest.items()), latest


def test_stored_refusals_of_thresholds() -> None:
    """Stored reports at refused thresholds get 2, 3 and 16, the last with runs and without."""
    came = {number: set() for number in (2, 3, 16)}
    without_runs = set()
    for call in calls_thresholds.stored():
        number = calls.answer(call).number
        if rules.threshold_refusal(call.x):
            came[number].add(call.x)
        if number == 16 and call.buffers[0][5] == 0:
            without_runs.add(call.x)
    assert all(set(thresholds.REFUSED) <= asked for asked in (*came.values(), without_runs))


# The order of runs


def test_orders() -> None:
    """Every order has as many of k runs as are asked for, each once."""
    rng = Random(31)
    for which, k in product(orders.ORDERS, range(1, 16)):
        for count in range(k + 1):
            runs = which(rng, k, count)
            assert len(set(runs)) == len(runs) == count and set(runs) <= set(range(k))
    assert orders.by_twos(rng, 9, 6) == [0, 1, 4, 5, 8, 2]
    assert orders.in_turn(rng, 5, 3) == [0, 1, 3] and orders.in_turn(rng, 6, 3) == [0, 2, 4]
    assert orders.ends_of(rng, 6, 3) == [0, 1, 5] and orders.middle_of(rng, 6, 2) == [2, 3]
    assert [*orders.near_half(6)] == [2, 3, 4] and [*orders.near_half(7)] == [3, 4]


def test_blocks() -> None:
    """Blocks are as long as asked for; swings end as asked, with each tree ahead in each turn."""
    rng = Random(32)
    one, other = orders.in_conflict(rng, 4)
    assert orders.in_blocks([one, other], [2, 1, 3]) == [one, one, other, one, one, one]
    for turns, end in product((1, 2, 3), (1, 0, -1)):
        lengths = orders.swings(rng, turns, end)
        leads = [sum(lengths[:i:2]) - sum(lengths[1:i:2]) for i in range(1, len(lengths) + 1)]
        assert leads[-1] == end and len(leads) == 2 * turns + 1
        assert all(lead > 0 for lead in leads[:-1:2]) and all(lead < 0 for lead in leads[1::2])


def test_trees_in_conflict() -> None:
    """Trees made to conflict do: three in one group each, one with all groups of another."""
    rng = Random(33)
    for n in (3, 4, 7, 12) * 5:
        for one, other in permutations(orders.resolutions(rng, n), 2):
            assert len(one - other) == 1 and orders.conflict(one - other, other - one)
        assert orders.conflict(*orders.in_conflict(rng, n))
        order = shapes.shuffled(rng, list(range(n)))
        tree = orders.against(rng, order)
        groups = shapes.proper_groups(shapes.caterpillar_of(order))
        assert all(orders.conflict(tree, frozenset([group])) for group in groups)


def test_chains_and_refinements() -> None:
    """A tree of a chain has the groups asked for alone; a refined tree is binary."""
    rng = Random(34)
    for n in (4, 7, 12):
        order = shapes.shuffled(rng, list(range(n)))
        for count in range(n - 1):
            sizes = set(rng.sample(range(2, n), count))
            tree, others = orders.chain_tree(order, sizes), set(range(2, n)) - sizes
            assert tree.issuperset(orders.chain_groups(order, sizes))
            left_out = [frozenset([group]) for group in orders.chain_groups(order, others)]
            assert all(orders.conflict(tree, group) for group in left_out)
        tree = orders.wide(rng, n)
        assert tree <= orders.refined(rng, tree) and len(orders.refined(rng, tree)) == 2 * n - 1


def test_runs_in_orders() -> None:
    """Runs made in orders are trees, and hold groups as often as asked for, or more."""
    rng = Random(35)
    makers = (orders.runs_overruled, orders.runs_of_wide, orders.runs_of_deep)
    for make, which, k in product(makers, orders.ORDERS, (1, 4, 7)):
        trees = make(rng, 9, k, k // 2 + 1, which)
        assert len(trees) == k and max(proper_holders(9, trees)) > k // 2
        assert all(rules.judge(9, rows.standard_row(9, tree)).number == 0 for tree in trees)
    for k in (3, 6, 10):
        trees = orders.runs_of_chain(rng, 7, k, [k - 1, k - 2])
        assert {k - 1, k - 2} <= set(proper_holders(7, trees))


def test_stored_sequences_of_five() -> None:
    """Every sequence of five trees of three samples is stored."""
    made = [rules.read_study(call.buffers[0]) for call in calls_candidates.every_five(Random(1))]
    assert len({tuple(study.runs[run] for run in sorted(study.runs)) for study in made}) == 4**5


def test_stored_late_trees() -> None:
    """Of 1 to 15 runs, groups that just more than half hold, the last ones, are stored."""
    latest = {k: 0 for k in range(1, 16)}
    for call in calls_candidates.late_trees(Random(1)):
        k = call.buffers[0][5]
        shown = [runs[0] for runs in proper_runs(call) if rules.is_shown(len(runs), k, call.x)]
        latest[k] = max([latest[k], *shown])
    assert all(first == k - k // 2 - 1 for k, first in latest.items()), latest


# Studies


def test_studies_are_well_formed() -> None:
    """Studies of every kind are well formed; those with a change of any kind mostly are not."""
    rng = Random(7)
    for change in studies.CHANGES:
        spoilt = 0
        for n in (2, 3, 4, 5, 6) * 10:
            words = studies.some_study(rng, n, 3)
            assert rules.read_study(words) is not None
            assert len(studies.identifiers(words)) == 3
            spoilt += rules.read_study(change(rng, words)) is None
        assert spoilt > 20, change.__name__


def test_each_length() -> None:
    """A study is well formed at just those lengths that have room for its runs and for one."""
    rng = Random(8)
    for k in (0, 1, 3):
        words = studies.study_of(rng, 3, shapes.runs_apart(rng, 3, k), studies.length_for(3, 4))
        lengths = list(studies.each_length(words))
        assert {len(other) for other in lengths} >= {0, 7, 8, 14, 15, 16}
        for other in lengths:
            right = len(other) >= studies.length_for(3, max(1, k))
            assert (rules.read_study(other) is not None) == right


# Sequences


def test_sequences_go_on() -> None:
    """Each call is on the study that the one before left, or on a damaged copy of it."""
    rng = Random(9)
    for n, slots in ((2, 3), (3, 5), (6, 4)):
        made = sequences.sequence(rng, n, slots, 150, sequences.RANDOM, sequences.study_after)
        first, *others = made
        words, on_copies = rules.open_study(n, first.buffers[0]).buffers[0], 0
        for call in others:
            if call.buffers[0] == words:
                words = calls.answer(call).buffers[0]
            else:
                on_copies += 1
        assert 0 < on_copies < 40


def test_runs_in_force() -> None:
    """An identifier is in force exactly if its last accepted call was an add, with its tree."""
    rng = Random(10)
    for n, slots in ((3, 6), (5, 4)):
        words, in_force = rules.open_study(n, [9] * studies.length_for(n, slots)).buffers[0], {}
        pool = studies.some_identifiers(rng, slots + 3)
        for _ in range(200):
            make = rng.choice([sequences.next_add, sequences.next_add, sequences.next_withdraw])
            call = make(rng, words, pool)
            answer = calls.answer(call)
            if answer.number == 0 and call.op == calls.ADD:
                in_force[call.x] = rules.groups_of(n, call.buffers[1])
            elif answer.number == 0:
                del in_force[call.x]
            words = answer.buffers[0]
            assert words == rules.write_study(len(words), rules.Study(n, in_force))


def test_full_studies() -> None:
    """The stored sequences fill studies of two samples and of 512, and go on after a withdrawal."""
    answers = {(2, 1023): set(), (2, 1024): set(), (512, 30): set(), (512, 31): set()}
    for call in sequences.in_sequences(calls.ADD):
        n_and_k = tuple(call.buffers[0][4:6])
        if n_and_k in answers:
            answers[n_and_k].add(calls.answer(call).number)
    assert list(answers.values()) == [{0}, {12}, {0}, {12}]


# Calls


def test_ops_of_material() -> None:
    """Every op has material once."""
    assert sorted(material.active() + [later.op for later in material.LATER]) == EVERY_OP
    for one in material.MATERIAL + material.LATER:
        made = [one.stored(Random(1)), one.random(Random(1))]
        assert all(call.op == one.op for some in made for call in islice(some, 50))


def test_numbers_of_calls() -> None:
    """Random calls of each op give only the numbers that it can give, most of them soon."""
    for op in EVERY_OP:
        made = material.random_calls(Random(op), [op], 400)
        came = {calls.answer(call).number for call in made}
        assert came <= calls.NUMBERS[op] and len(came) >= len(calls.NUMBERS[op]) - 2


def test_requests_are_read_back() -> None:
    """Requests turned into bytes and back are the same calls."""
    stored = list(material.stored_calls([calls.JUDGE]))
    for made in (stored, list(material.random_calls(Random(11), EVERY_OP, 200))):
        data = b"".join(calls.to_bytes(calls.request_words(call)) for call in made)
        assert list(calls.read_requests(calls.from_bytes(data))) == made


def test_bytes_of_a_request() -> None:
    """A request and its reply, byte for byte."""
    call = calls_judge.judge(3, [4, 3, 3, 3, ROOT, 7])
    row = bytes([4, 0, 3, 0, 3, 0, 3, 0, 255, 255, 7, 0])
    head = bytes([5, 0, 3, 0, 0, 0, 6, 0, 0, 0, 0, 0])
    assert calls.to_bytes(calls.request_words(call)) == head + row
    head = bytes([8, 0, 5, 0, 0, 0, 0, 0, 0, 0, 0, 0])
    assert calls.to_bytes(calls.reply_words(calls.answer(call))) == head + row


def test_bytes_of_three_buffers() -> None:
    """A report's reply has the study and both outputs; a comparison's its counts."""
    words = rules.add(rules.open_study(2, [9] * 13).buffers[0], 7, [3, 2, 2, ROOT]).buffers[0]
    call = sequences.report(words, 75, [1] * 4, [2] * 4)
    assert calls.request_words(call) == [4, 75, 0, 13, 4, 4, *words, *[1] * 4, *[2] * 4]
    reply = [0] * 6 + [*words, 3, 2, 2, ROOT, 1, 1, 1, 1]
    assert calls.reply_words(calls.answer(call)) == reply
    call = calls.Call(calls.COMPARE, 2, [[3, 2, 2, ROOT], [3, 2, 2, 2]])
    assert calls.reply_words(calls.answer(call))[:6] == [7, 4, 0, 0, 0, 0]
    call = calls.Call(calls.COMPARE, 5, [RUNS_OF_5[2], [8, 6, 6, 5, 7, 7, ROOT, 5, 5, 0]])
    assert calls.reply_words(calls.answer(call))[:6] == [0, 0, 0, 2, 1, 0]
