"""Random calls through one program and random files through another, held against the rules.

python3 soak.py --calls N --seed S [--ops 5] [--texts 6] PROGRAM [ARGUMENT...]
python3 soak.py --files N --seed S --listing "PROGRAM ARGUMENT..."

The first program reads requests on standard input and writes replies on
standard output; the second, the listing program, reads a file and writes its
listing. Both may be named at once. With --texts 6 every Newick text of up to six
bytes is read too. If all agree the last line says so. At the first difference
the call or the file is shown and the status is 1.
"""

from __future__ import annotations

import argparse
import shlex
import subprocess
import sys
from collections import Counter
from itertools import chain, islice
from random import Random
from typing import Iterator

sys.dont_write_bytecode = True

from calls import (  # noqa: E402
    HEAD,
    TEXT,
    Call,
    Counts,
    answer,
    from_bytes,
    name_of,
    reply_length,
    reply_words,
    request_words,
    table,
    to_bytes,
)
from calls_newick_read import every_text  # noqa: E402
from files import random_file  # noqa: E402
from listing import listed, number_in  # noqa: E402
from material import active, known_ops, random_calls  # noqa: E402
from rules import Words  # noqa: E402


LISTING = "listing"  # what the files are counted under


class Difference(Exception):
    """What a program did that the rules do not say."""


def run(program: list[str], data: bytes) -> tuple[int, bytes]:
    """The status of a program and all that it writes when it is given these bytes."""
    try:
        done = subprocess.run(program, input=data, stdout=subprocess.PIPE, check=False)
    except OSError as problem:
        raise Difference(f"the program cannot be run: {problem}") from problem
    return done.returncode, done.stdout


# Calls


def shown_call(call: Call) -> str:
    """A call in words."""
    lines = [f"call      op {call.op} x {call.x} y {call.y}"]
    lines += [f"  buffer  {shown(words)}" for words in call.buffers]
    if call.op in TEXT:
        lines.append(f"  text    {bytes(call.buffers[TEXT[call.op]])!r}")
    return "\n".join(lines)


def shown(words: Words) -> str:
    """Words in a line."""
    return " ".join(map(str, words)) or "(none)"


def shown_reply(words: Words) -> str:
    """A reply in a line, a bar between its head and its buffers."""
    return f"{shown(words[:HEAD])} | {shown(words[HEAD:])}"


def difference(call: Call, expected: Words, came: Words, status: int) -> Difference:
    """The call, what was expected, what came, and how the program ended."""
    replies = [f"expected  {shown_reply(expected)}", f"came      {shown_reply(came)}"]
    return Difference("\n".join([shown_call(call), *replies, f"status    {status}"]))


def soak_batch(program: list[str], calls: list[Call]) -> Counts:
    """Runs a batch of calls; how many there were by op and number."""
    counts: Counts = Counter()
    status, output = run(program, b"".join(to_bytes(request_words(call)) for call in calls))
    came, start = from_bytes(output), 0
    for call in calls:
        expected = reply_words(answer(call))
        reply = came[start : start + reply_length(call)]
        if reply != expected:
            raise difference(call, expected, reply, status)
        start += len(reply)
        counts[name_of(call.op), expected[0]] += 1
    if 2 * start != len(output) or status != 0:
        over = len(output) - 2 * start
        raise Difference(f"bytes after the last reply: {over}, status of the program: {status}")
    return counts


def soak_calls(program: list[str], calls: Iterator[Call], batch: int) -> Counts:
    """Runs calls in batches; how many there were by op and number."""
    counts: Counts = Counter()
    while some := list(islice(calls, batch)):
        counts += soak_batch(program, some)
    return counts


# Files


def ended_by_signal(status: int) -> bool:
    """Whether a program with this status was ended by a signal, started directly or by a shell."""
    return status < 0 or status >= 128


def soak_files(program: list[str], rng: Random, files: int) -> Counts:
    """Runs the listing program on random files; how many there were by number."""
    counts: Counts = Counter()
    for _ in range(files):
        data = random_file(rng)
        expected = listed(data)
        status, came = run(program, data)
        if came != expected or ended_by_signal(status):
            shown_file = f"file      {data.hex()}\nexpected  {expected!r}\ncame      {came!r}"
            raise Difference(f"{shown_file}\nstatus    {status}")
        counts[LISTING, number_in(expected)] += 1
    return counts


def agreement(counts: Counts) -> str:
    """That all of these agreed, in words."""
    files = sum(count for (name, _), count in counts.items() if name == LISTING)
    calls = sum(counts.values()) - files
    return f"all {calls} calls and {files} files agree with the second program"


def calls_of(options: argparse.Namespace) -> Iterator[Call]:
    """The random calls that the command line names, and the texts, if it names any."""
    calls = random_calls(Random(options.seed), options.ops, options.calls)
    if options.texts is None:
        return calls
    return chain(calls, every_text(Random(options.seed), options.texts))


def soak(options: argparse.Namespace) -> Counts:
    """Runs what the command line names, up to the first difference."""
    counts: Counts = Counter()
    if options.program:
        counts += soak_calls(options.program, calls_of(options), options.batch)
    if options.listing:
        counts += soak_files(options.listing, Random(options.seed), options.files)
    return counts


def main() -> int:
    """Does what the command line asks."""
    parser = argparse.ArgumentParser(description="Random calls and files, held against the rules.")
    parser.add_argument("--calls", type=int, default=10000)
    parser.add_argument("--seed", type=int, default=1)
    parser.add_argument("--ops", type=known_ops, default=active(), help="such as 5,6")
    parser.add_argument("--texts", type=int, help="read each text of up to so many bytes too")
    parser.add_argument("--batch", type=int, default=2000, help="calls in one run of the program")
    parser.add_argument("--files", type=int, default=1000)
    parser.add_argument("--listing", type=shlex.split, help="the listing program, in one word")
    parser.add_argument("program", nargs=argparse.REMAINDER, help="the program and its arguments")
    options = parser.parse_args()
    if not (options.program or options.listing) or options.batch < 1:
        parser.error("a program is needed, and a batch of at least one call")
    try:
        counts = soak(options)
    except Difference as found:
        print(found)
        return 1
    print(table(counts))
    print(agreement(counts))
    return 0


if __name__ == "__main__":
    sys.exit(main())
