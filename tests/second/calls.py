"""Calls as replay takes them, and the answers the rules give.

A request is `op x y la lb lc` and the words of up to three buffers; a reply is
`number place-low place-high c1 c2 c3` and the buffers as they stand after the
call. All are 16-bit words, low byte first.
"""

from __future__ import annotations

import struct
from collections import Counter
from typing import Callable, Iterator, NamedTuple

import newick
import rules
from rules import Answer, Words

OPEN, ADD, WITHDRAW, REPORT, JUDGE, RENUMBER, COMPARE, READ, WRITE = range(1, 10)
NAMES = {
    OPEN: "open",
    ADD: "add",
    WITHDRAW: "withdraw",
    REPORT: "report",
    JUDGE: "judge",
    RENUMBER: "renumber",
    COMPARE: "compare",
    READ: "read",
    WRITE: "write",
}
# How many buffers each call takes.
BUFFERS = {OPEN: 1, ADD: 2, WITHDRAW: 1, REPORT: 3, JUDGE: 1, RENUMBER: 2, COMPARE: 2}
BUFFERS |= {READ: 2, WRITE: 3}
# Which of them is a text, one byte in each word.
TEXT = {READ: 0, WRITE: 2}
# The numbers that each call can give back, 0 for accepted.
OF_A_ROW = {5, 6, 7, 8, 9, 10}
NUMBERS = {
    OPEN: {0, 1, 3},
    ADD: {0, 2, 3, 4, 11, 12} | OF_A_ROW,
    WITHDRAW: {0, 2, 4, 13},
    REPORT: {0, 2, 3, 14, 16},
    JUDGE: {0, 1, 3} | OF_A_ROW,
    RENUMBER: {0, 1, 3} | OF_A_ROW,
    COMPARE: {0, 1, 3} | OF_A_ROW,
    READ: {0, 1, 3, 17, 18},
    WRITE: {0, 1, 3} | OF_A_ROW,
}
WITH_SUPPORTS = 1  # y of writing, if supports are wanted
HEAD = 6  # words before the buffers, in a request and in a reply
LONGEST = 32768  # words in a buffer


class Call(NamedTuple):
    """One request: x is n, an identifier or a threshold; y is 0 where nothing needs it.

    Writing without supports has an empty support row.
    """

    op: int
    x: int
    buffers: list[Words]
    y: int = 0


# Requests and replies as words


def request_words(call: Call) -> Words:
    """The words of a request."""
    lengths = [len(words) for words in call.buffers] + [0] * (3 - len(call.buffers))
    return [call.op, call.x, call.y] + lengths + joined(call.buffers)


def reply_words(answer: Answer) -> Words:
    """The words of a reply."""
    place = [answer.place % 65536, answer.place // 65536]
    counts = list(answer.counts or (0, 0, 0))
    return [answer.number] + place + counts + joined(answer.buffers)


def reply_length(call: Call) -> int:
    """How many words a reply to this call has."""
    return HEAD + sum(len(words) for words in call.buffers)


def joined(buffers: list[Words]) -> Words:
    """The words of the buffers, one after another."""
    return [word for words in buffers for word in words]


def to_bytes(words: Words) -> bytes:
    """16-bit words as bytes, low byte first."""
    return struct.pack(f"<{len(words)}H", *words)


def from_bytes(data: bytes) -> Words:
    """Bytes as 16-bit words, low byte first; a last odd byte is left out."""
    count = len(data) // 2
    return list(struct.unpack(f"<{count}H", data[: 2 * count]))


def read_requests(words: Words) -> Iterator[Call]:
    """The calls of which these are the requests."""
    start = 0
    while start < len(words):
        op, x, y, *lengths = words[start : start + HEAD]
        start += HEAD
        buffers = []
        for length in lengths[: BUFFERS[op]]:
            buffers.append(words[start : start + length])
            start += length
        yield Call(op, x, buffers, y)


# What the rules answer

ANSWERS: dict[int, Callable[[int, list[Words]], Answer]] = {
    OPEN: lambda x, buffers: rules.open_study(x, buffers[0]),
    ADD: lambda x, buffers: rules.add(buffers[0], x, buffers[1]),
    WITHDRAW: lambda x, buffers: rules.withdraw(buffers[0], x),
    REPORT: lambda x, buffers: rules.report(buffers[0], x, *buffers[1:]),
    JUDGE: lambda x, buffers: rules.judge(x, buffers[0]),
    RENUMBER: lambda x, buffers: rules.renumber(x, *buffers),
    COMPARE: lambda x, buffers: rules.compare(x, *buffers),
    READ: lambda x, buffers: newick.read(x, *buffers),
}


def answer(call: Call) -> Answer:
    """What the rules answer to a call."""
    if call.op == WRITE:
        row, support, text = call.buffers
        return newick.write(call.x, row, support if call.y == WITH_SUPPORTS else None, text)
    return ANSWERS[call.op](call.x, call.buffers)


# Counts

Counts = Counter[tuple[str, int]]  # how many there were, by name and number


def name_of(op: int) -> str:
    """An op's number and name."""
    return f"{op} {NAMES[op]}"


def table(counts: Counts) -> str:
    """The counts, a line for each name and number."""
    lines = ["call        number   count"]
    for (name, number), count in sorted(counts.items()):
        lines.append(f"{name:<11} {number:>6} {count:>7}")
    lines.append(f"all{sum(counts.values()):>23}")
    return "\n".join(lines)
