"""Writes the calls and answers that the replay program is held against, or checks them.

python3 write.py FOLDER            writes FOLDER/stdin and FOLDER/stdout
python3 write.py --check FOLDER    fails if they are not byte for byte what it would write,
                                   or if a number that a call can give comes too seldom
python3 write.py --count           counts the calls by op and number, and the bytes by op

With --ops 5,6,7 it does so for these ops, whether they are stored or not.
"""

from __future__ import annotations

import argparse
import sys
from collections import Counter
from pathlib import Path
from typing import NamedTuple

sys.dont_write_bytecode = True

from calls import NUMBERS, Counts, answer, name_of, reply_words  # noqa: E402
from calls import request_words, table, to_bytes  # noqa: E402
from material import active, known_ops, stored_calls  # noqa: E402

OFTEN = 20  # how often each number has to come among the stored calls of an op


class Stored(NamedTuple):
    """What each file has to hold; the calls by op and number; the bytes by op."""

    files: dict[str, bytes]
    counts: Counts
    sizes: Counter[str]


def all_stored(ops: list[int]) -> Stored:
    """All that is stored of these ops."""
    requests, replies = bytearray(), bytearray()
    counts: Counts = Counter()
    sizes: Counter[str] = Counter()
    for call in stored_calls(ops):
        request, reply = request_words(call), reply_words(answer(call))
        requests += to_bytes(request)
        replies += to_bytes(reply)
        counts[name_of(call.op), reply[0]] += 1
        sizes[name_of(call.op)] += 2 * len(request + reply)
    return Stored({"stdin": bytes(requests), "stdout": bytes(replies)}, counts, sizes)


def write(folder: Path, ops: list[int]) -> None:
    """Writes the files."""
    folder.mkdir(exist_ok=True)
    for name, content in all_stored(ops).files.items():
        (folder / name).write_bytes(content)
        print(f"{folder / name}: {len(content)} bytes")


def first_difference(one: bytes, other: bytes) -> int:
    """The place of the first byte that differs, or the end of the shorter."""
    pairs = enumerate(zip(one, other))
    return next((i for i, (a, b) in pairs if a != b), min(len(one), len(other)))


def complaint(path: Path, content: bytes) -> str:
    """What is wrong with a stored file, or nothing."""
    if not path.is_file():
        return f"{path} is missing"
    found = path.read_bytes()
    if found != content:
        place = first_difference(found, content)
        return f"{path} is not what the second program writes, from byte {place} on"
    return ""


def too_seldom(counts: Counts, ops: list[int]) -> list[str]:
    """A line for each number that an op can give and that comes too seldom."""
    return [
        f"{name_of(op)}: only {counts[name_of(op), number]} stored calls give {number}"
        for op in ops
        for number in sorted(NUMBERS[op])
        if counts[name_of(op), number] < OFTEN
    ]


def check(folder: Path, ops: list[int]) -> int:
    """The status: 1 if a stored file is not what would be written, or has too little in it."""
    files, counts, _ = all_stored(ops)
    complaints = [complaint(folder / name, content) for name, content in files.items()]
    complaints = [line for line in complaints if line] + too_seldom(counts, ops)
    for line in complaints:
        print(line, file=sys.stderr)
    return 1 if complaints else 0


def count(ops: list[int]) -> None:
    """Prints how many stored calls there are, by op and number, and their bytes, by op."""
    _, counts, sizes = all_stored(ops)
    print(table(counts))
    for name, size in sorted(sizes.items()):
        print(f"{name:<11} {size:>14} bytes")
    print(f"all{sum(sizes.values()):>23} bytes")


def main() -> int:
    """Does what the command line asks."""
    parser = argparse.ArgumentParser(description="Stored calls and answers of the replay program.")
    parser.add_argument("folder", type=Path, nargs="?", help="where stdin and stdout stand")
    parser.add_argument("--check", action="store_true", help="write nothing, compare")
    parser.add_argument("--count", action="store_true", help="count the calls by op and number")
    parser.add_argument("--ops", type=known_ops, default=active(), help="such as 5,6")
    options = parser.parse_args()
    if options.count:
        count(options.ops)
        return 0
    if options.folder is None:
        parser.error("a folder is needed")
    if options.check:
        return check(options.folder, options.ops)
    write(options.folder, options.ops)
    return 0


if __name__ == "__main__":
    sys.exit(main())
