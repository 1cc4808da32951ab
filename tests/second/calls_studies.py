"""The calls of opening, adding and withdrawing that are stored, and such calls at random."""

from __future__ import annotations

from random import Random
from typing import Iterator

import rows
import shapes
import studies
from calls import ADD, LONGEST, OPEN, WITHDRAW, Call
from rules import MOST_RUNS, Words
from sequences import add, in_sequences, open_study, random_in_sequences, withdraw
from specimens import ONLY_TREE_OF_2

# Opening


def open_lengths(rng: Random) -> Iterator[Call]:
    """Buffers of 0 to 8 words, and around each slot's end."""
    for n in (2, 3, 4, 7, 16, 40):
        ends = [studies.length_for(n, slots) + over for slots in (1, 2, 3) for over in (-1, 0, 1)]
        for length in [*range(10), *ends]:
            yield open_study(n, rows.old_words(rng, length))
    for length in (8, 1032, 1033, 1034):
        yield open_study(512, rows.old_words(rng, length))


def open_wrong_sizes(rng: Random) -> Iterator[Call]:
    """Buffers of any length with n out of range."""
    for n in rows.WRONG_SIZES:
        for length in (0, 7, 8, 9, 13, 40, 1100):
            yield open_study(n, rows.old_words(rng, length))


def open_again(rng: Random) -> Iterator[Call]:
    """Studies opened again, with the same n and with others; damaged ones too."""
    for n in range(2, 13):
        for k in range(4):
            words = studies.some_study(rng, n, k)
            for size in (n, n - 1, n + 1, rng.randint(2, 20)):
                yield open_study(size, words)
            yield open_study(n, studies.damaged(rng, words))


def stored_open(rng: Random) -> Iterator[Call]:
    """The calls of opening that are stored."""
    yield from in_sequences(OPEN)
    yield from open_lengths(rng)
    yield from open_wrong_sizes(rng)
    yield from open_again(rng)
    yield open_study(2, rows.old_words(rng, LONGEST))


def random_opening(rng: Random) -> Call:
    """One call of opening, of a buffer with any words, often just long enough or too short."""
    n = rows.some_size(rng)
    length = studies.length_for(n, rng.randint(0, 2)) + rng.randint(-2, 2)
    if rng.random() < 0.1:
        n = rng.choice(rows.WRONG_SIZES)
    return open_study(n, rows.old_words(rng, length))


def random_open(rng: Random) -> Iterator[Call]:
    """Calls of opening without end, in sequences and out of them."""
    for call in random_in_sequences(rng, OPEN):
        yield call
        yield random_opening(rng)


# Adding and withdrawing


def bases(rng: Random) -> Iterator[Words]:
    """Some small studies, to be changed in every way."""
    for n, k, slots in ((2, 0, 1), (2, 2, 3), (3, 3, 4), (4, 1, 1), (5, 2, 3)):
        trees = shapes.runs_apart(rng, n, k)
        yield studies.study_of(rng, n, trees, studies.length_for(n, slots) + 1)


def changed_bases(rng: Random) -> Iterator[Words]:
    """Small studies with each word changed and at other lengths, and some with a wrong n."""
    for words in bases(rng):
        yield from studies.each_word_changed(words)
        yield from studies.each_length(words)
    yield from studies.each_length(studies.some_study(rng, 512, 0))
    yield from studies.wrong_sizes(rng)


def damaged_studies(rng: Random) -> Iterator[Words]:
    """Studies of every kind with every kind of change."""
    for change in studies.CHANGES:
        for n in (2, 3, 3, 4, 5, 6, 8, 11, 15):
            yield change(rng, studies.some_study(rng, n, rng.randint(1, 4)))
    for change in studies.IN_SLOTS:
        yield change(rng, studies.some_study(rng, 512, 1))


def too_many(rng: Random) -> Words:
    """A study with one slot more than there may be, and right in all else."""
    trees = shapes.runs_equal(rng, 2, MOST_RUNS + 1)
    return studies.study_of(rng, 2, trees, studies.length_for(2, MOST_RUNS + 1))


def beside(identifiers: list[int]) -> list[int]:
    """The identifiers, those beside them, and those at the bounds."""
    around = {identifier + step for identifier in identifiers for step in (-1, 0, 1)}
    return sorted((around | {0, 1, 65535}) - {65536})


def add_everywhere(rng: Random) -> Iterator[Call]:
    """Runs added before, between and after others, and under identifiers in force."""
    for n, k in ((2, 3), (3, 1), (3, 4), (4, 2), (5, 3), (7, 2)):
        words = studies.some_study(rng, n, k)
        for identifier in beside(studies.identifiers(words)):
            yield add(words, identifier, rows.valid_row(rng, n))


def add_rows_of_every_kind(rng: Random) -> Iterator[Call]:
    """Rows of every kind added, of 3 to 14 samples."""
    for make in rows.ROWS:
        for n in [*range(3, 15), *range(3, 9)]:
            words = studies.some_study(rng, n, rng.randint(0, 2))
            identifier = rng.choice([0, 5, 5, 5, *studies.identifiers(words)])
            yield add(words, identifier, make(rng, n))


def add_wide_rows(rng: Random) -> Iterator[Call]:
    """Rows of every kind and of 512 samples added."""
    for make in rows.ROWS:
        yield add(studies.some_study(rng, 512, 0), 7, make(rng, 512))


def add_wrong_lengths(rng: Random) -> Iterator[Call]:
    """Rows that are not 2n words added."""
    for n in (2, 3, 4, 6, 10):
        words = studies.some_study(rng, n, 2)
        for length in (0, 1, n, 2 * n - 1, 2 * n + 1, 4 * n):
            yield add(words, rng.choice([0, 5]), (rows.valid_row(rng, n) * 2)[:length])
            yield add(words, rng.choice([0, 5]), rows.old_words(rng, length))


def stored_add(rng: Random) -> Iterator[Call]:
    """The calls of adding that are stored."""
    yield from in_sequences(ADD)
    yield from add_everywhere(rng)
    yield from add_rows_of_every_kind(rng)
    yield from add_wide_rows(rng)
    yield from add_wrong_lengths(rng)
    for words in [*changed_bases(rng), *damaged_studies(rng)]:
        yield add_to_any(rng, words)
    yield add(too_many(rng), 3, ONLY_TREE_OF_2)


def random_add(rng: Random) -> Iterator[Call]:
    """Calls of adding without end."""
    return random_in_sequences(rng, ADD)


def add_to_any(rng: Random, words: Words) -> Call:
    """A run added to a study that need not be well formed; its row fits word 4, if that can be."""
    n = words[4] if len(words) > 4 and words[4] in range(2, 513) else 3
    row = rows.valid_row(rng, n) if rng.random() < 0.8 else rows.any_row(rng, n)
    return add(words, rng.choice([0, 5, 40000, 40000]), row)


def withdraw_everywhere(rng: Random) -> Iterator[Call]:
    """Every run withdrawn, and identifiers that are not in force."""
    for n in range(2, 12):
        for k in range(5):
            words = studies.some_study(rng, n, k)
            for identifier in beside(studies.identifiers(words)):
                yield withdraw(words, identifier)


def withdraw_wide(rng: Random) -> Iterator[Call]:
    """Runs of many samples withdrawn."""
    for n in (40, 100, 255, 256, 512):
        words = studies.some_study(rng, n, 3)
        for identifier in studies.identifiers(words):
            yield withdraw(words, identifier)


def stored_withdraw(rng: Random) -> Iterator[Call]:
    """The calls of withdrawing that are stored."""
    yield from in_sequences(WITHDRAW)
    yield from withdraw_everywhere(rng)
    yield from withdraw_wide(rng)
    for words in [*changed_bases(rng), *damaged_studies(rng)]:
        yield withdraw_from_any(rng, words)
    yield withdraw(too_many(rng), 1)


def withdraw_from_any(rng: Random, words: Words) -> Call:
    """A run withdrawn from a study that need not be well formed: that of word 8, or another."""
    first = words[8] if len(words) > 8 else 5
    return withdraw(words, rng.choice([first, first, 0, 40000]))


def random_withdraw(rng: Random) -> Iterator[Call]:
    """Calls of withdrawing without end."""
    return random_in_sequences(rng, WITHDRAW)
