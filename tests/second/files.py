"""Writes the files that the listing program is held against, each with its whole output.

python3 files.py FOLDER    writes FOLDER/NAME.in and FOLDER/NAME.out
python3 files.py           counts the files by refusal number
"""

from __future__ import annotations

import argparse
import sys
from collections import Counter
from pathlib import Path
from random import Random
from typing import Iterator

sys.dont_write_bytecode = True

import rows  # noqa: E402
import shapes  # noqa: E402
import studies  # noqa: E402
from calls import to_bytes  # noqa: E402
from listing import LONGEST, MARK, listed, number_in  # noqa: E402
from rules import MOST_RUNS, Tree, Words, groups_of, slot_width  # noqa: E402
from specimens import BARE_3, BRANCH_0, ONLY_TREE_OF_2, RUNS_OF_5, WITH_01, WITH_02  # noqa: E402

SEED = 20250
LAST_CHECKS_SEED = 20350  # of files made later, so that those before them stay as they are
SINGLE_BRANCHES_SEED = 20550  # of the files made last

# Files


def head(n: int, k: int, version: int = 1) -> bytes:
    """The first nine bytes of a file."""
    return MARK + to_bytes([version, n, k])


def file_of(n: int, slots: list[Words]) -> bytes:
    """The file of these slots."""
    return head(n, len(slots)) + b"".join(map(to_bytes, slots))


def slots_of(rng: Random, n: int, trees: list[Tree]) -> list[Words]:
    """A slot for each tree: any identifiers in any order, any numbering."""
    identifiers = studies.some_identifiers(rng, len(trees))
    return [[i] + rows.shuffled_row(rng, n, tree) for i, tree in zip(identifiers, trees)]


def file_of_trees(rng: Random, n: int, trees: list[Tree]) -> bytes:
    """A valid file that holds these trees."""
    return file_of(n, slots_of(rng, n, trees))


THE_CASE = file_of(5, [[i] + row for i, row in enumerate(RUNS_OF_5, 1)])  # the 75 bytes of RULES 10
HALVES = [WITH_01, WITH_02, WITH_02, WITH_01]

# Valid files


def specimens() -> Iterator[bytes]:
    """The runs of RULES 10: the case, two halves, two of four, three of four, one run."""
    yield THE_CASE
    yield file_of(5, [[i] + row for i, row in zip((65535, 7, 300), RUNS_OF_5)])
    for k in (1, 2, 3, 4):
        yield file_of(3, [[9 - i] + row for i, row in enumerate(HALVES[:k])])
    yield file_of(3, [[2] + WITH_01, [4] + WITH_01, [1] + WITH_02, [3] + WITH_01])
    yield file_of(3, [[65535] + BARE_3])
    yield file_of(2, [[1] + ONLY_TREE_OF_2])


def valid(rng: Random) -> Iterator[bytes]:
    """Runs of every kind, of 2 to 30 samples."""
    for make in shapes.RUNS:
        for n in [2, 3, 3, 4, 4, 5, 6, 7, 9, 10, 11, 12, 16, 30]:
            yield file_of_trees(rng, n, make(rng, n, rng.randint(1, 9)))


def wide(rng: Random) -> Iterator[bytes]:
    """Runs of many samples, and the longest outputs."""
    for n in (99, 100, 101, 255, 256, 512):
        yield file_of_trees(rng, n, shapes.runs_counted(rng, n, 5))
    chain = shapes.caterpillar(rng, 512)
    yield file_of_trees(rng, 512, [chain])
    yield file_of_trees(rng, 512, [shapes.swap_samples(rng, 512, chain) for _ in range(3)])
    yield file_of_trees(rng, 512, [shapes.bare(rng, 512), shapes.binary(rng, 512)])


def largest(rng: Random) -> Iterator[bytes]:
    """As many runs as there is room for; 65,529 bytes where that comes out exactly."""
    for n, k in ((2, 1024), (3, 1023), (15, 1024), (17, 936), (31, 520), (136, 120), (409, 40)):
        yield file_of_trees(rng, n, shapes.runs_counted(rng, n, k))
    yield file_of_trees(rng, 512, shapes.runs_counted(rng, 512, 31))


# Files with a slot that is refused


def refused_rows(rng: Random) -> Iterator[bytes]:
    """A row of any kind in some slot, of 2 to 20 samples."""
    for make in rows.ROWS:
        for n in (2, 3, 4, 5, 8, 12, 20):
            yield with_row(rng, n, make(rng, n))
    for make in (rows.looped_row, rows.grown_row, rows.filler_row):
        yield with_row(rng, 512, make(rng, 512))


def with_row(rng: Random, n: int, row: Words) -> bytes:
    """A file with this row in some slot."""
    slots = slots_of(rng, n, shapes.any_runs(rng, n, rng.randint(1, 5)))
    slot = rng.choice(slots)
    slot[1:] = row
    return file_of(n, slots)


def refused_by_last_checks(rng: Random) -> Iterator[bytes]:
    """A row in some slot: its first or last samples or inner nodes are lost or lack children."""
    for n in (3, 4, 7, 16, 40, 512):
        m = rows.nodes_from(rng, n, n + 2)
        for v in (0, n - 1, n, m - 1):
            yield with_row(rng, n, rows.lost_row(rng, n, m, rows.lost_from(rng, n, m, v)))
        for v in (n, m - 1):
            yield with_row(rng, n, rows.few_children_row(rng, n, m, *rows.few_from(rng, n, m, v)))


def with_branches(rng: Random, n: int, slots: list[Words]) -> bytes:
    """The file of these slots, those that leave room for it with single branches."""
    trees = [groups_of(n, row) for _, *row in slots]
    rows_of = [rng.choice(rows.branches_above(rng, n, tree, rng.randint(1, n))) for tree in trees]
    return file_of(n, [[slot[0], *row] for slot, row in zip(slots, rows_of)])


def without_a_child(rng: Random, n: int, slots: list[Words]) -> bytes:
    """The file of these slots, one of them with a node that has no child, and single branches."""
    m = rows.nodes_from(rng, n, n + 2)
    v, kept = rng.sample(range(n, m), 2)
    one = [u for u in range(n, m) if u not in (v, kept) and rng.random() < 0.5]
    slot = rng.choice(slots)
    spoilt = [slot[0], *rows.few_children_row(rng, n, m, one, [v])]
    return file_of(n, [spoilt if other is slot else other for other in slots])


def single_branches(rng: Random) -> Iterator[bytes]:
    """Trees with single branches, the same trees without, and a node that has no child."""
    for n in (3, 3, 4, 4, 5, 6, 8, 11, 16, 30, 100):
        trees = [rows.tree_with_room(rng, n), *shapes.runs_near(rng, n, rng.randint(0, 5))]
        slots = slots_of(rng, n, trees)
        yield with_branches(rng, n, slots)
        yield file_of(n, slots)
        yield without_a_child(rng, n, slots)


def refused_identifiers(rng: Random) -> Iterator[bytes]:
    """Identifier 0, identifiers that stand twice, and bad rows with them."""
    for n in range(2, 14):
        for identifiers in ([0], [7, 7], [7, 7], [7, 7, 0], [0, 0]):
            yield with_identifiers(rng, n, identifiers)


def with_identifiers(rng: Random, n: int, identifiers: list[int]) -> bytes:
    """A file with these identifiers in some of its slots; now and then a row is bad."""
    slots = slots_of(rng, n, shapes.any_runs(rng, n, rng.randint(3, 6)))
    for slot, identifier in zip(shapes.shuffled(rng, slots), identifiers):
        slot[0] = identifier
    if rng.random() < 0.3:
        rng.choice(slots)[1:] = rows.any_row(rng, n)
    return file_of(n, slots)


def too_many(rng: Random) -> Iterator[bytes]:
    """More than 1,024 slots: 12 at slot 1,024, if it is not refused for something else first."""
    for n, k in ((2, 1025), (2, 6552), (3, 1300), (15, 1056)):
        yield file_of_trees(rng, n, shapes.runs_equal(rng, n, k))
    for place in (MOST_RUNS - 1, MOST_RUNS, MOST_RUNS + 1):
        for slot in ([0] + WITH_01, [7] + BRANCH_0, [0] + BRANCH_0):
            slots = slots_of(rng, 3, shapes.runs_equal(rng, 3, MOST_RUNS + 2))
            slots[place] = slot
            yield file_of(3, slots)
        slots = slots_of(rng, 3, shapes.runs_equal(rng, 3, MOST_RUNS + 2))
        slots[place][0] = slots[place - 1][0]
        yield file_of(3, slots)


# Files with sizes that are refused


def without_slots() -> Iterator[bytes]:
    """k = 0: 14 where n is in range, else 1."""
    for n in (0, 1, 2, 3, 4, 256, 511, 512, 513, 514, 32767, 32768, 65534, 65535):
        yield head(n, 0)


def wrong_sizes(rng: Random) -> Iterator[bytes]:
    """n out of range, with the length that it asks for."""
    sizes = [(0, 1), (0, 5), (0, 1025), (0, 32760), (1, 1), (1, 3), (1, 1025), (1, 10920)]
    sizes += [(513, 1), (513, 31), (514, 2), (768, 1), (1024, 3), (16379, 1)]
    for n, k in sizes:
        yield head(n, k) + to_bytes(rows.old_words(rng, k * slot_width(n)))
    yield file_of_trees(rng, 513, [shapes.binary(rng, 513)])
    yield file_of(1, [[1, 2, 1], [2, 1, 65535]])


# Bad files


def wrong_lengths(rng: Random) -> Iterator[bytes]:
    """The case at every length below its own, and a little over; other files cut or made longer."""
    for length in range(len(THE_CASE)):
        yield THE_CASE[:length]
    for over in (b"\0", b"\n", b"\0\0", b"\0" * 22, THE_CASE, b"\0" * 65536):
        yield THE_CASE + over
    for n, k in ((2, 1), (3, 2), (40, 3), (512, 2)):
        data = file_of_trees(rng, n, shapes.any_runs(rng, n, k))
        yield data[:-1]
        yield data + b"\0"
        yield data[: -2 * slot_width(n)]


def too_long(rng: Random) -> Iterator[bytes]:
    """More than 65,529 bytes, with a length that fits n and k and with others."""
    longest = file_of_trees(rng, 2, shapes.runs_equal(rng, 2, 6552))
    assert len(longest) == LONGEST
    for over in (1, 2, 6, 7, 8, 100):
        yield longest + b"\0" * over
    for n, k in ((2, 6553), (2, 13107), (15, 1057), (512, 32), (0, 32761), (0, 65535), (16380, 1)):
        yield head(n, k) + b"\1\0" * (k * slot_width(n))
    yield b"\0" * (LONGEST + 1)


def wrong_marks() -> Iterator[bytes]:
    """Other marks and other versions."""
    for mark in (b"arb", b"ARC", b"ASB", b"BRB", b"BRA", b"\0\0\0", b"AR\0", b"\xc1RB", b" AR"):
        yield mark + THE_CASE[3:]
    for version in (0, 2, 255, 256, 257, 32769, 65535):
        yield head(5, 3, version) + THE_CASE[9:]
        yield head(513, 0, version)


def wrapped(bits: int) -> list[tuple[int, int, int]]:
    """Some n and k for which 2k(2n+1) is just above a power of two, and by how many bytes."""
    found = []
    for n in range(65535, 1, -1):
        double = 2 * slot_width(n)
        k = -(-(2**bits) // double)
        if k <= 65535 and k * double - 2**bits <= 300:
            found.append((n, k, k * double - 2**bits))
    return found


def wrong_products(rng: Random) -> Iterator[bytes]:
    """Lengths that are right only for a product that lost its high bits."""
    for bits in (16, 17, 18, 24, 31, 32, 33):
        found = wrapped(bits)
        for n, k, length in [found[0], found[-1], *rng.sample(found, 2)]:
            yield head(n, k) + bytes(length)
    for n, k in ((5, 3 + 32768), (5 + 16384, 3), (5 + 32768, 3), (5 + 49152, 3 + 32768)):
        yield head(n, k) + THE_CASE[9:]
    for n in (2, 5, 512, 32767, 65535):
        for k in (16384, 32768, 49152):
            yield head(n, k)
    for n, k in ((65535, 65535), (65535, 1), (32768, 1), (32768, 3), (0, 65535)):
        yield head(n, k) + b"\1\0" * k
        yield head(n, k)


# All of them


def named_files() -> Iterator[tuple[str, bytes]]:
    """Every file and its name."""
    rng = Random(SEED)
    kinds = {
        "specimen": specimens(),
        "valid": valid(rng),
        "wide": wide(rng),
        "largest": largest(rng),
        "row": refused_rows(rng),
        "identifier": refused_identifiers(rng),
        "many": too_many(rng),
        "empty": without_slots(),
        "size": wrong_sizes(rng),
        "length": wrong_lengths(rng),
        "long": too_long(rng),
        "mark": wrong_marks(),
        "product": wrong_products(rng),
        "last": refused_by_last_checks(Random(LAST_CHECKS_SEED)),
        "single": single_branches(Random(SINGLE_BRANCHES_SEED)),
    }
    for kind, files in kinds.items():
        for i, data in enumerate(files):
            yield f"{kind}-{i:03}", data


# Files at random


def cut_or_drawn_out(rng: Random, data: bytes) -> bytes:
    """A file of another length."""
    return rng.choice([data[: rng.randrange(len(data))], data[:-1], data + b"\0", data * 2])


def with_other_head(rng: Random, data: bytes) -> bytes:
    """A file with one of its first nine bytes changed."""
    place = rng.randrange(9)
    return data[:place] + bytes([rng.randrange(256)]) + data[place + 1 :]


def random_valid(rng: Random) -> bytes:
    """A valid file."""
    n = rows.some_size(rng)
    return file_of_trees(rng, n, shapes.any_runs(rng, n, rng.randint(1, 3 if n > 40 else 12)))


def random_row(rng: Random) -> bytes:
    """A file with a row of any kind in some slot."""
    n = rows.some_size(rng)
    return with_row(rng, n, rows.random_row(rng, n))


def random_identifiers(rng: Random) -> bytes:
    """A file with identifier 0, or with one that stands twice."""
    return with_identifiers(rng, rows.some_size(rng), rng.choice([[0], [7, 7], [7, 0, 7]]))


def random_sizes(rng: Random) -> bytes:
    """A file without slots, with n out of range, or with more runs than there is room for."""
    n = rng.choice([0, 1, rng.randint(513, 2000), rng.randint(2, 512)])
    if rng.random() < 0.2:
        return file_of_trees(rng, 2, shapes.runs_equal(rng, 2, MOST_RUNS + rng.randint(0, 2)))
    k = rng.randint(0, 3) if not 2 <= n <= 512 else 0
    return head(n, k) + to_bytes(rows.old_words(rng, k * slot_width(n)))


def random_bad(rng: Random) -> bytes:
    """A file of another length, or with another head."""
    return rng.choice([cut_or_drawn_out, with_other_head])(rng, random_valid(rng))


RANDOM = 4 * [random_valid] + 3 * [random_row] + [random_identifiers, random_sizes, random_bad]


def random_file(rng: Random) -> bytes:
    """A file: valid or not, in any of these ways."""
    return rng.choice(RANDOM)(rng)


def write(folder: Path) -> None:
    """Writes every file and its output."""
    folder.mkdir(exist_ok=True)
    for name, data in named_files():
        (folder / f"{name}.in").write_bytes(data)
        (folder / f"{name}.out").write_bytes(listed(data))


def main() -> int:
    """Does what the command line asks."""
    parser = argparse.ArgumentParser(description="Files of the listing program and their outputs.")
    parser.add_argument("folder", type=Path, nargs="?", help="where they are written")
    options = parser.parse_args()
    if options.folder is not None:
        write(options.folder)
        return 0
    counts = Counter(number_in(listed(data)) for _, data in named_files())
    for number, files in sorted(counts.items()):
        print(f"{number:>6} {files:>7}")
    print(f"all{sum(counts.values()):>11}")
    return 0


if __name__ == "__main__":
    sys.exit(main())
