"""The calls of reporting that are stored, and such calls at random."""

from __future__ import annotations

from itertools import product
from random import Random
from typing import Iterator

import calls_thresholds
import rows
import shapes
import studies
import thresholds
from calls import REPORT, Call
from calls_studies import changed_bases, damaged_studies, too_many
from rules import BY_DEFAULT, MOST_RUNS, Tree, Words
from sequences import in_sequences, random_in_sequences, report, report_onto_old


def report_trees(rng: Random, n: int, trees: list[Tree]) -> Call:
    """The default report of a study that holds these trees under any identifiers."""
    k = len(trees)
    length = studies.some_length(rng, n, k) if n < 40 else studies.length_for(n, k)
    return report_onto_old(rng, studies.study_of(rng, n, trees, length), BY_DEFAULT)


def small_runs(rng: Random) -> Iterator[Call]:
    """Every choice of one to four trees of three samples, and of two trees of four."""
    for k in (1, 2, 3, 4):
        for trees in product(rows.every_tree(3), repeat=k):
            yield report_trees(rng, 3, list(trees))
    for trees in product(rows.every_tree(4), repeat=2):
        yield report_trees(rng, 4, list(trees))


def runs_of_every_kind(rng: Random) -> Iterator[Call]:
    """Runs of every kind, of 2 to 16 samples."""
    for make in shapes.RUNS:
        for n in range(2, 17):
            for k in (1, 2, 3, 4, rng.randint(5, 8), rng.randint(9, 15)):
                yield report_trees(rng, n, make(rng, n, k))


def even_halves(rng: Random) -> Iterator[Call]:
    """Groups in exactly half of the runs."""
    for k in range(2, 21, 2):
        for n in (3, 4, 5, 8):
            yield report_trees(rng, n, shapes.runs_halved(rng, n, k))


def more_runs(rng: Random) -> Iterator[Call]:
    """Up to a hundred runs of 17 to 40 samples."""
    for make in shapes.RUNS:
        n = rng.randint(17, 40)
        yield report_trees(rng, n, make(rng, n, rng.randint(13, 30)))
    for k in (63, 64, 100):
        yield report_trees(rng, 9, shapes.runs_counted_and_joined(rng, 9, k))


def chains(rng: Random) -> Iterator[Call]:
    """Runs that are all as deep as can be, near each other and not."""
    for n in (5, 9, 17, 33):
        chain = shapes.caterpillar(rng, n)
        for k in (2, 3, 6):
            yield report_trees(rng, n, [shapes.swap_samples(rng, n, chain) for _ in range(k)])
            yield report_trees(rng, n, [shapes.caterpillar(rng, n) for _ in range(k)])


def wide_runs(rng: Random) -> Iterator[Call]:
    """Runs of 512 samples."""
    for make in shapes.RUNS:
        yield report_trees(rng, 512, make(rng, 512, rng.randint(2, 4)))
    chain = shapes.caterpillar(rng, 512)
    yield report_trees(rng, 512, [chain])
    for k in (5, 31):
        yield report_trees(rng, 512, [shapes.swap_samples(rng, 512, chain) for _ in range(k)])
    yield report_trees(rng, 512, shapes.runs_counted(rng, 512, 8))


def most_runs(rng: Random) -> Iterator[Call]:
    """As many runs as there may be, and one fewer: groups in about half of them."""
    for n in (2, 3, 4, 5):
        for k in (MOST_RUNS - 1, MOST_RUNS):
            yield report_trees(rng, n, shapes.runs_counted(rng, n, k))
    yield report_trees(rng, 3, shapes.runs_halved(rng, 3, MOST_RUNS))
    yield report_trees(rng, 4, shapes.runs_near(rng, 4, MOST_RUNS))


def without_runs(rng: Random) -> Iterator[Call]:
    """No run in force: 14, and 3 before it."""
    for n in [*range(2, 42), 512]:
        words = studies.some_study(rng, n, 0)
        yield report_onto_old(rng, words, BY_DEFAULT)
        outputs = [rows.old_words(rng, 2 * n), rows.old_words(rng, 2 * n)]
        yield report(words, BY_DEFAULT, *rows.one_wrong_length(rng, outputs))


def wrong_lengths(rng: Random) -> Iterator[Call]:
    """An output, or both, that are not 2n words."""
    for n in (2, 3, 5, 9, 16):
        words = studies.some_study(rng, n, 2)
        right = rows.old_words(rng, 2 * n)
        for length in (0, 1, n, 2 * n - 1, 2 * n + 1, 4 * n):
            wrong = rows.old_words(rng, length)
            yield report(words, BY_DEFAULT, right, wrong)
            yield report(words, BY_DEFAULT, wrong, right)
            yield report(words, BY_DEFAULT, wrong, wrong)
        yield report(words, BY_DEFAULT, right[1:], right + [0])


def stored(rng: Random) -> Iterator[Call]:
    """The calls that are stored: those at the default threshold, then those at others."""
    yield from in_sequences(REPORT)
    yield from small_runs(rng)
    yield from runs_of_every_kind(rng)
    yield from even_halves(rng)
    yield from more_runs(rng)
    yield from chains(rng)
    yield from wide_runs(rng)
    yield from most_runs(rng)
    yield from without_runs(rng)
    yield from wrong_lengths(rng)
    for words in [*changed_bases(rng), *damaged_studies(rng), too_many(rng)]:
        yield report_onto_old(rng, words, BY_DEFAULT)
    yield from calls_thresholds.stored()


def some_number_of_runs(rng: Random, n: int) -> int:
    """How many runs a random study has: mostly few, sometimes about 100 if the samples are few."""
    if n < 8 and rng.random() < 0.1:
        return rng.randint(95, 105)
    return rng.randint(1, 4 if n > 40 else 12)


def random_study(rng: Random, n: int, p: int) -> Words:
    """A study with runs of any kind, or at the edge of a threshold."""
    k = some_number_of_runs(rng, n)
    at_edge = rng.random() < 0.5
    trees = thresholds.any_edge(rng, n, k, p) if at_edge else shapes.any_runs(rng, n, k)
    return studies.study_in_order(rng, n, trees, studies.some_length(rng, n, k))


def random_report(rng: Random) -> Call:
    """One call at any threshold, outputs of any words, and sometimes something wrong."""
    n, p = rows.some_size(rng), thresholds.any_threshold(rng)
    words = random_study(rng, n, p)
    outputs = [rows.old_words(rng, 2 * n) for _ in range(2)]
    if rng.random() < 0.1:
        words = studies.damaged(rng, words)
    if rng.random() < 0.04:
        outputs = rows.one_wrong_length(rng, outputs)
    return report(words, p, *outputs)


def random(rng: Random) -> Iterator[Call]:
    """Calls without end, in sequences and out of them."""
    for call in random_in_sequences(rng, REPORT):
        yield call
        yield random_report(rng)
