"""Calls on studies, and sequences of them.

A sequence is kept as single calls, each with the whole study before it: the
study after one call is the study before the next, except where a call is tried
on a copy. So each op can take its own calls out of the sequences.
"""

from __future__ import annotations

from functools import lru_cache
from random import Random
from typing import Callable, Iterator

import rows
import studies
import thresholds
from calls import ADD, LONGEST, OPEN, REPORT, WITHDRAW, Call, answer
from rules import BY_DEFAULT, MOST_RUNS, Words
from specimens import ONLY_TREE_OF_2, RUNS_OF_5, WITH_01, WITH_02


def open_study(n: int, words: Words) -> Call:
    """The call that opens a study of n samples."""
    return Call(OPEN, n, [words])


def add(words: Words, identifier: int, row: Words) -> Call:
    """The call that adds a run."""
    return Call(ADD, identifier, [words, row])


def withdraw(words: Words, identifier: int) -> Call:
    """The call that withdraws a run."""
    return Call(WITHDRAW, identifier, [words])


def report(words: Words, p: int, agreed: Words, support: Words) -> Call:
    """The call that reports the agreed tree at threshold p."""
    return Call(REPORT, p, [words, agreed, support])


def report_onto_old(rng: Random, words: Words, p: int) -> Call:
    """The report of a study into buffers that held other words; six each if n is out of range."""
    n = words[4] if len(words) > 4 and words[4] in range(2, 513) else 3
    return report(words, p, rows.old_words(rng, 2 * n), rows.old_words(rng, 2 * n))


# Sequences by chance

Next = Callable[[Random, Words, list[int]], Call]  # by the study and a pool of identifiers
After = Callable[[Call], Words]  # the study before the next call


def next_open(rng: Random, words: Words, pool: list[int]) -> Call:
    """The study opened again, with the same n, another one or one out of range."""
    n = words[4]
    return open_study(rng.choice([n, n + 1, max(2, n - 1), 2, 512, *rows.WRONG_SIZES]), words)


def next_add(rng: Random, words: Words, pool: list[int]) -> Call:
    """An identifier of the pool added, or 0; the row is mostly valid."""
    n = words[4]
    row = rows.valid_row(rng, n) if rng.random() < 0.7 else rows.any_row(rng, n)
    if rng.random() < 0.05:
        row = rows.wrong_length(rng, row)
    return add(words, 0 if rng.random() < 0.06 else rng.choice(pool), row)


def next_add_of_any(rng: Random, words: Words, pool: list[int]) -> Call:
    """The same; some rows have single branches."""
    call = next_add(rng, words, pool)
    if rng.random() < 0.2:
        return add(words, call.x, rows.single_branch_row(rng, words[4]))
    return call


def next_withdraw(rng: Random, words: Words, pool: list[int]) -> Call:
    """An identifier withdrawn: mostly one in force, or one of the pool, or 0."""
    in_force = studies.identifiers(words) if rng.random() < 0.7 else []
    return withdraw(words, 0 if rng.random() < 0.06 else rng.choice(in_force or pool))


def next_report(rng: Random, words: Words, pool: list[int]) -> Call:
    """A report at the default threshold into buffers that held other words."""
    outputs = [rows.old_words(rng, 2 * words[4]) for _ in range(2)]
    if rng.random() < 0.05:
        outputs = rows.one_wrong_length(rng, outputs)
    return report(words, BY_DEFAULT, *outputs)


def next_report_at_any(rng: Random, words: Words, pool: list[int]) -> Call:
    """The same at any threshold."""
    return next_report(rng, words, pool)._replace(x=thresholds.any_threshold(rng))


def nexts(adding: Next, reporting: Next) -> list[Next]:
    """What comes next in a sequence, each as many times as it is likely."""
    return [adding] * 14 + [next_withdraw] * 5 + [reporting] * 3 + [next_open]


STORED = nexts(next_add, next_report)
RANDOM = nexts(next_add_of_any, next_report_at_any)


def study_after(call: Call) -> Words:
    """The study that a call leaves."""
    return answer(call).buffers[0]


def adds_single_branch(call: Call) -> bool:
    """Whether a call adds a row that has a single branch."""
    taken = call.op == ADD and answer(call).number == 0
    return taken and not rows.is_branching(call.buffers[0][4], call.buffers[1])


def stored_after(call: Call) -> Words:
    """The same, but a row with a single branch was added to a copy, which is not gone on with."""
    return call.buffers[0] if adds_single_branch(call) else study_after(call)


def on_damaged_copy(rng: Random, call: Call) -> Call:
    """The same call on a damaged study."""
    study, *others = call.buffers
    return call._replace(buffers=[studies.damaged(rng, study), *others])


def sequence(
    rng: Random, n: int, slots: int, steps: int, may_come: list[Next], after: After
) -> Iterator[Call]:
    """A study opened with room for this many runs, and this many calls on it."""
    pool = studies.some_identifiers(rng, slots + 3)
    length = studies.length_for(n, slots) + rng.choice([0, 0, 1, 2 * n])
    opening = open_study(n, rows.old_words(rng, length))
    yield opening
    words = after(opening)
    for _ in range(steps):
        call = rng.choice(may_come)(rng, words, pool)
        if call.op != OPEN and rng.random() < 0.1:
            yield on_damaged_copy(rng, call)
        else:
            yield call
            words = after(call)


# Sequences step by step


def played(words: Words, steps: list[Callable[[Words], Call]]) -> Iterator[Call]:
    """Calls one after another, each on the words that the one before left."""
    for step in steps:
        call = step(words)
        yield call
        words = study_after(call)


def opens(n: int) -> Callable[[Words], Call]:
    """The step that opens a study."""
    return lambda words: open_study(n, words)


def adds(identifier: int, row: Words) -> Callable[[Words], Call]:
    """The step that adds a run."""
    return lambda words: add(words, identifier, row)


def withdraws(identifier: int) -> Callable[[Words], Call]:
    """The step that withdraws a run."""
    return lambda words: withdraw(words, identifier)


def reports() -> Callable[[Words], Call]:
    """The step that reports at the default threshold."""
    return lambda words: report(words, BY_DEFAULT, [7] * (2 * words[4]), [8] * (2 * words[4]))


def specimens() -> Iterator[Call]:
    """The specimens of studies in section 10 of docs/RULES.md, call by call."""
    # RULES 10.8: the largest identifier.
    yield from played([9] * 20, [opens(2), adds(65535, ONLY_TREE_OF_2), adds(0, ONLY_TREE_OF_2)])
    # RULES 10.10: the last run is withdrawn, and its identifier comes back.
    first = [opens(3), reports(), adds(1, WITH_01), reports(), withdraws(1), withdraws(1)]
    again = [reports(), adds(1, WITH_02), adds(1, WITH_01), reports(), withdraws(2)]
    yield from played([9] * 30, first + again)
    # RULES 10.5 and 10.7: one of two, two of four, three of four.
    four = [adds(i, row) for i, row in enumerate([WITH_01, WITH_02, WITH_02, WITH_01], 1)]
    yield from played([9] * 40, [opens(3), *four[:2], reports(), *four[2:], reports()])
    yield from played([9] * 40, [opens(3), four[0], *four[2:], adds(9, WITH_01), reports()])
    # RULES 10.1.
    three = [adds(i, row) for i, row in enumerate(RUNS_OF_5, 1)]
    yield from played([9] * 50, [opens(5), *three, reports(), withdraws(2), reports()])


def crowded(rng: Random, over: int) -> Iterator[Call]:
    """RULES 10.9: run number 1,025 is refused, and taken when there is room."""
    words = studies.nearly_full(rng, 2, MOST_RUNS - 1, over)
    lowest, *_, highest = studies.identifiers(words)
    first, last, other = (adds(identifier, ONLY_TREE_OF_2) for identifier in (1, 65535, 40000))
    yield from played(words, [last, first, withdraws(highest), first, other, withdraws(1), other])
    yield from played(words, [first, last, withdraws(lowest), withdraws(2), last])


def crowded_in_the_longest(rng: Random) -> Iterator[Call]:
    """The 1,025th run of two samples in a buffer that is long enough for more."""
    words = studies.nearly_full(rng, 2, MOST_RUNS, LONGEST - studies.length_for(2, MOST_RUNS + 1))
    yield add(words, 65535, ONLY_TREE_OF_2)


def widest(rng: Random) -> Iterator[Call]:
    """512 samples in the longest buffer: 31 runs have room."""
    words = studies.nearly_full(rng, 512, 30, LONGEST - studies.length_for(512, 31))
    lowest, *_ = studies.identifiers(words)
    first, last = (adds(identifier, rows.valid_row(rng, 512)) for identifier in (1, 65535))
    yield from played(words, [first, last, reports(), withdraws(lowest)])


# All of them

# Samples, slots and calls of each stored sequence by chance.
SEQUENCES = [
    (2, 1, 60),
    (2, 4, 120),
    (3, 3, 200),
    (3, 8, 200),
    (3, 25, 200),
    (4, 5, 300),
    (5, 6, 300),
    (6, 10, 300),
    (7, 7, 200),
    (9, 4, 200),
    (12, 6, 150),
    (16, 3, 100),
    (24, 5, 80),
    (70, 2, 20),
    (512, 2, 16),
]
SEED = 20250  # of the sequences, from which each op takes its calls


@lru_cache(maxsize=1)
def stored_sequences() -> tuple[Call, ...]:
    """The calls of all stored sequences, in order."""
    rng = Random(SEED)
    made = (sequence(rng, *sizes, STORED, stored_after) for sizes in SEQUENCES)
    by_chance = [call for calls in made for call in calls]
    crowds = [*crowded(rng, 0), *crowded(rng, 10), *crowded_in_the_longest(rng)]
    return (*specimens(), *by_chance, *crowds, *widest(rng))


def in_sequences(op: int) -> list[Call]:
    """The calls of one op in the stored sequences."""
    return [call for call in stored_sequences() if call.op == op]


def random_sequence(rng: Random) -> Iterator[Call]:
    """A sequence of any size: mostly of few samples, seldom one of very many runs."""
    if rng.random() < 0.003:
        return crowded(rng, rng.randrange(12))
    n = rows.some_size(rng) if rng.random() < 0.3 else rng.randint(2, 8)
    most = 3 if n > 40 else 12
    slots, steps = rng.randint(1, most), rng.randint(5, 60)
    return sequence(rng, n, slots, steps, RANDOM, study_after)


def random_in_sequences(rng: Random, op: int) -> Iterator[Call]:
    """The calls of one op in random sequences, without end."""
    while True:
        yield from (call for call in random_sequence(rng) if call.op == op)
