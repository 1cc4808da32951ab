"""Makers of test material: studies, and studies that are not well formed.

All chance comes from the random.Random handed in, and every list that chance
picks from has a fixed order, so the same seed makes the same material.
"""

from __future__ import annotations

from random import Random
from typing import Callable, Iterator

import rows
import shapes
from rules import HEADER, ROOT, Study, Tree, Words, capacity, groups_of, row_in_order
from rules import slot_width, standard_order, write_study

# Studies

BOUNDS = [1, 2, 255, 256, 257, 32767, 32768, 65534, 65535]  # identifiers


def some_identifiers(rng: Random, count: int) -> list[int]:
    """This many identifiers, all different, in some order; if they are few, half are at bounds."""
    bounds = rng.sample(BOUNDS, min(len(BOUNDS), (count + 1) // 2))
    between = rng.sample(range(300, 30000), count - len(bounds))
    return shapes.shuffled(rng, bounds + between)


def length_for(n: int, slots: int) -> int:
    """How many words a study of exactly this many slots has."""
    return HEADER + slots * slot_width(n)


def study_of(rng: Random, n: int, trees: list[Tree], length: int) -> Words:
    """A study of this many words that holds these trees under any identifiers."""
    runs = dict(zip(some_identifiers(rng, len(trees)), trees))
    return write_study(length, Study(n, runs))


def study_in_order(rng: Random, n: int, trees: list[Tree], length: int) -> Words:
    """A study of this many words in which these trees stand in this order."""
    runs = dict(zip(sorted(some_identifiers(rng, len(trees))), trees))
    return write_study(length, Study(n, runs))


def some_length(rng: Random, n: int, k: int) -> int:
    """A length with room for k runs and up to two more."""
    over = rng.choice([0, 0, 1, rng.randrange(slot_width(n)), 2 * n])
    return length_for(n, max(1, k + rng.randint(0, 2))) + over


def some_study(rng: Random, n: int, k: int) -> Words:
    """A study with k runs of any kind and some room."""
    return study_of(rng, n, shapes.any_runs(rng, n, k), some_length(rng, n, k))


def nearly_full(rng: Random, n: int, k: int, over: int) -> Words:
    """A study with k runs, none at a bound, room for one more slot, and this many words over."""
    trees = shapes.runs_counted(rng, n, k)
    runs = dict(zip(rng.sample(range(300, 30000), k), trees))
    return write_study(length_for(n, k + 1) + over, Study(n, runs))


# Reading a well-formed study's words


def slot_places(words: Words) -> list[int]:
    """Where the slots begin."""
    n, k = words[4], words[5]
    return [length_for(n, i) for i in range(k)]


def identifiers(words: Words) -> list[int]:
    """The identifiers in force."""
    return [words[place] for place in slot_places(words)]


# Studies with some words changed: not well formed, most of them


def changed(words: Words, place: int, others: Words) -> Words:
    """The words with others put over them from some place on."""
    return words[:place] + others + words[place + len(others) :]


def other_word(rng: Random, word: int) -> int:
    """A word beside this one, or at a bound, or any word."""
    near = [word + 1, word - 1, word + 256]
    return rng.choice(near + [0, 1, 256, ROOT, rng.randrange(65536)]) % 65536


def with_other_header(rng: Random, words: Words) -> Words:
    """One of the eight header words changed."""
    place = rng.randrange(HEADER)
    return changed(words, place, [other_word(rng, words[place])])


def with_other_size(rng: Random, words: Words) -> Words:
    """n or k at another value, close to what fits or at a bound."""
    n, k = words[4], words[5]
    if rng.random() < 0.4:
        return changed(words, 4, [rng.choice([0, 1, n - 1, n + 1, 512, 513, n + 32768])])
    room = capacity(len(words), n)
    return changed(words, 5, [rng.choice([0, k - 1, k + 1, room, room + 1, 1025, 65535]) % 65536])


def with_other_identifier(rng: Random, words: Words) -> Words:
    """One identifier 0, or beside or equal to another."""
    place = rng.choice(slot_places(words))
    word = rng.choice([0, *identifiers(words), words[place] + 1, words[place] - 1]) % 65536
    return changed(words, place, [word])


def with_slots_exchanged(rng: Random, words: Words) -> Words:
    """Two slots in each other's place, or one slot standing twice."""
    width = slot_width(words[4])
    one, other = rng.choice(slot_places(words)), rng.choice(slot_places(words))
    copied = changed(words, one, words[other : other + width])
    return rng.choice([copied, changed(copied, other, words[one : one + width])])


def with_other_row(rng: Random, words: Words) -> Words:
    """One row with a few words changed, or a row of any kind in its place."""
    n, place = words[4], 1 + rng.choice(slot_places(words))
    spoilt = rows.damaged_row(rng, n, words[place : place + 2 * n])
    return changed(words, place, rng.choice([spoilt, spoilt, rows.any_row(rng, n)]))


def with_other_numbering(rng: Random, words: Words) -> Words:
    """One row in another numbering: any, or with two neighbours exchanged; if it has several."""
    n, place = words[4], 1 + rng.choice(slot_places(words))
    order = standard_order(groups_of(n, words[place : place + 2 * n]))
    i = rng.randrange(len(order))
    beside = order[:i] + order[i : i + 2][::-1] + order[i + 2 :]
    other = rng.choice([beside, beside, shapes.shuffled(rng, order)])
    return changed(words, place, row_in_order(n, other))


def with_words_behind(rng: Random, words: Words) -> Words:
    """A word after the last slot that is not 0, if there is room for one."""
    end = length_for(words[4], words[5])
    behind = range(end, len(words))
    if not behind:
        return with_other_header(rng, words)
    place = rng.choice([end, len(words) - 1, rng.choice(behind)])
    return changed(words, place, [rng.choice([1, 256, ROOT, rng.randrange(1, 65536)])])


def with_other_length(rng: Random, words: Words) -> Words:
    """The study cut off somewhere, or with a word more that is not 0."""
    return rng.choice([words[: rng.randrange(len(words))], words[:-1], words + [1]])


ANYWHERE = [with_other_header, with_other_size, with_words_behind, with_other_length]
IN_SLOTS = [
    with_other_identifier,
    with_slots_exchanged,
    with_other_row,
    with_other_row,
    with_other_numbering,
    with_other_numbering,
]
CHANGES: list[Callable[[Random, Words], Words]] = ANYWHERE + IN_SLOTS


def damaged(rng: Random, words: Words) -> Words:
    """A well-formed study with one change of any kind above: other words, in any case."""
    other = words
    while other == words:
        other = rng.choice(CHANGES if words[5] else ANYWHERE)(rng, words)
    return other


def each_word_changed(words: Words) -> Iterator[Words]:
    """The study with each single word put at other values in turn."""
    for place, word in enumerate(words):
        for other in sorted({0, 1, ROOT, (word + 1) % 65536, (word - 1) % 65536} - {word}):
            yield changed(words, place, [other])


def wrong_sizes(rng: Random) -> Iterator[Words]:
    """Studies with a wrong n and all else right: without runs, and with slots as wide as n asks."""
    for n in (0, 1, 513, 514):
        yield write_study(length_for(n, 1), Study(n, {}))
        yield write_study(length_for(n, 3) + 1, Study(n, {}))
    yield changed(write_study(20, Study(0, {})), 5, [3, 0, 0, 5, 6, 9])
    yield study_of(rng, 513, [shapes.binary(rng, 513)], length_for(513, 1))


def each_length(words: Words) -> Iterator[Words]:
    """The study at lengths 0 to 8 and around each slot's end, up to two slots after its runs."""
    n, k = words[4], words[5]
    ends = [length_for(n, slots) + over for slots in range(k + 3) for over in (-1, 0, 1)]
    for length in [*range(HEADER), *ends]:
        yield (words + [0] * length)[:length]
