"""The calls of reporting at other thresholds that are stored, after those at the default alone."""

from __future__ import annotations

from random import Random
from typing import Iterator

import rows
import studies
import thresholds
from calls import REPORT, Call
from rules import BY_DEFAULT, MOST_RUNS, Tree, groups_of
from sequences import in_sequences, report_onto_old
from specimens import RUNS_OF_5, WITH_01, WITH_02

SEED = 20300  # its own, so that the calls stored before these stay as they are

# Thresholds, each with numbers of runs of which its share is a whole number.
EXACT = [
    *((50, k) for k in (2, 4, 10, 36)),
    *((60, k) for k in (5, 10, 15, 35)),
    *((75, k) for k in (4, 8, 12, 40)),
    *((80, k) for k in (5, 10, 25)),
    *((99, k) for k in (100, 200)),
    *((100, k) for k in (1, 2, 3, 10)),
]
ABOUT_100 = [99, 100, 101]
NEARLY_ALL = [1, 2, 3, 4, 7, 20, 50, 51, *ABOUT_100, 150]
# Thresholds at which groups are held by late runs alone, and how many runs there are.
LATE = [50, 60, 66, 67, 75, 80, 99, 100]
RUNS_OF_LATE = [1, 2, 3, 4, 5, 6, 7, 10, 13, 20, 30]
# 100 times the support and p times the runs, each above 65,535 or below it.
MANY = [
    *((p, MOST_RUNS) for p in (BY_DEFAULT, 64, 75, 99, 100)),
    *((65, 1008), (66, 1023), (80, 1000), (99, 1000)),
]
MOST_SAMPLES_IN_SEQUENCES = 6  # of the reports in sequences that are asked for again


def report_in_order(rng: Random, n: int, trees: list[Tree], p: int) -> Call:
    """The report at p of a study in which these trees stand in this order."""
    length = studies.length_for(n, len(trees)) + rng.choice([0, 0, 1, 2 * n])
    return report_onto_old(rng, studies.study_in_order(rng, n, trees, length), p)


def report_at_each(rng: Random, n: int, trees: list[Tree], asked: list[int]) -> Iterator[Call]:
    """The reports of one such study at each of these thresholds."""
    first = report_in_order(rng, n, trees, asked[0])
    yield first
    for p in asked[1:]:
        yield report_onto_old(rng, first.buffers[0], p)


# Accepted thresholds


def specimens(rng: Random) -> Iterator[Call]:
    """The case of RULES 10.1, and three of four, at many thresholds."""
    case = [groups_of(5, row) for row in RUNS_OF_5]
    yield from report_at_each(rng, 5, case, [*thresholds.USUAL, 65, 68])
    three_of_four = [groups_of(3, row) for row in (WITH_02, WITH_01, WITH_01, WITH_01)]
    yield from report_at_each(rng, 3, three_of_four, [*thresholds.USUAL, 74, 76])


def exact_shares(rng: Random) -> Iterator[Call]:
    """Groups that just the threshold's share of the runs hold, and one run fewer and more."""
    for p, k in EXACT:
        trees = thresholds.runs_at_edge(rng, 5, k, p)
        yield from report_at_each(rng, 5, trees, thresholds.around(p))


def every_threshold(rng: Random) -> Iterator[Call]:
    """Groups at the edge of each threshold that is accepted."""
    for p in thresholds.ACCEPTED:
        for k in (2, 3, rng.randint(4, 12), rng.randint(13, 24)):
            n = rng.randint(4, 7)
            yield report_in_order(rng, n, thresholds.runs_at_edge(rng, n, k, p), p)


def nearly_all(rng: Random) -> Iterator[Call]:
    """Groups that all runs hold, and groups that all but one hold."""
    for k in NEARLY_ALL:
        trees = thresholds.runs_nearly_all(rng, 4, k)
        yield from report_at_each(rng, 4, trees, [BY_DEFAULT, 98, 99, 100])


def late_runs(rng: Random) -> Iterator[Call]:
    """Groups that only the last runs hold, as few of them as are shown, and one fewer."""
    for p in LATE:
        for k in RUNS_OF_LATE + ABOUT_100 * (p in (99, 100)):
            n = rng.randint(4, 6) if k < 20 else 4
            yield report_in_order(rng, n, thresholds.runs_late(rng, n, k, p), p)
            yield report_in_order(rng, n, thresholds.runs_changed(rng, n, k, p), p)


def many_runs(rng: Random) -> Iterator[Call]:
    """The same with as many runs as there may be, or nearly so."""
    for p, k in MANY:
        yield report_in_order(rng, 4, thresholds.runs_late(rng, 4, k, p), p)


def wide_runs(rng: Random) -> Iterator[Call]:
    """The same with 512 samples."""
    for p, k in ((75, 4), (60, 5), (100, 2)):
        yield report_in_order(rng, 512, thresholds.runs_late(rng, 512, k, p), p)


def in_sequences_again(rng: Random) -> Iterator[Call]:
    """The reports of the stored sequences, asked for at any threshold."""
    for call in in_sequences(REPORT):
        if len(call.buffers[1]) <= 2 * MOST_SAMPLES_IN_SEQUENCES:
            yield call._replace(x=thresholds.any_threshold(rng))


# Refused thresholds, and refusals beside them


def with_wrong_output(rng: Random, call: Call) -> Call:
    """The same report with an output of wrong length."""
    words, *outputs = call.buffers
    return call._replace(buffers=[words, *rows.one_wrong_length(rng, outputs)])


def with_damaged_study(rng: Random, call: Call) -> Call:
    """The same report of a damaged study."""
    words, *outputs = call.buffers
    return call._replace(buffers=[studies.damaged(rng, words), *outputs])


def with_all_else(rng: Random, p: int) -> Iterator[Call]:
    """Reports at p: of runs and of none, with outputs of wrong length, of damaged studies."""
    n = rng.randint(2, 8)
    for k in (0, rng.randint(1, 4)):
        call = report_onto_old(rng, studies.some_study(rng, n, k), p)
        yield call
        yield with_wrong_output(rng, call)
        yield with_damaged_study(rng, call)
        yield with_damaged_study(rng, with_wrong_output(rng, call))


def beside_other_refusals(rng: Random) -> Iterator[Call]:
    """Thresholds refused and accepted, with each other refusal and without."""
    by_chance = [thresholds.refused_threshold(rng) for _ in range(16)]
    for p in [*thresholds.REFUSED, *by_chance, *thresholds.USUAL]:
        yield from with_all_else(rng, p)


def stored() -> Iterator[Call]:
    """The calls that are stored."""
    rng = Random(SEED)
    yield from specimens(rng)
    yield from exact_shares(rng)
    yield from every_threshold(rng)
    yield from nearly_all(rng)
    yield from late_runs(rng)
    yield from many_runs(rng)
    yield from wide_runs(rng)
    yield from in_sequences_again(rng)
    yield from beside_other_refusals(rng)
