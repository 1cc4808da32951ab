"""What reading and writing a tree as Newick text answer by docs/RULES.md, worked out with sets.

A text is a list of bytes, one in each word. Reading follows the form of a text
(RULES 14) subtree by subtree; what the text means is looked at afterwards.
"""

from __future__ import annotations

import sys
from collections import Counter, defaultdict
from typing import Optional, Union

import rules
from rules import ROOT, Answer, Group, Refusal, Words

# RULES 14: the form of a text.
MOST_OPEN = 511  # brackets open at once
MOST_DIGITS = 5  # of a sample
BLANKS = b" \t\r\n"
DIGITS = b"0123456789"

# A bracket within a bracket takes some calls within calls, here and in the makers of texts.
sys.setrecursionlimit(20 * MOST_OPEN)


# The form


class NotOfForm(Exception):
    """Up to a place some text of the form goes on like this one; with the byte there, none does."""

    def __init__(self, place: int):
        super().__init__(place)
        self.place = place


Subtree = Union[int, list["Subtree"]]  # a sample, or what a pair of brackets holds


class Reader:
    """A text, and the place up to which it has been read."""

    def __init__(self, text: bytes):
        self.text = text
        self.place = 0

    def sees(self, some: bytes) -> bool:
        """Whether the next byte is one of these; at the end it is not."""
        return self.place < len(self.text) and self.text[self.place] in some

    def take(self, some: bytes) -> int:
        """The next byte, which has to be one of these."""
        if not self.sees(some):
            raise NotOfForm(self.place)
        self.place += 1
        return self.text[self.place - 1]

    def skip(self, some: bytes) -> None:
        """Goes on behind all of these bytes that come next."""
        while self.sees(some):
            self.place += 1

    def sees_token(self, some: bytes) -> bool:
        """Whether the next byte that is not blank is one of these."""
        self.skip(BLANKS)
        return self.sees(some)

    def take_token(self, some: bytes) -> None:
        """Takes the next byte that is not blank, which has to be one of these."""
        self.skip(BLANKS)
        self.take(some)

    def digits(self) -> None:
        """One digit or more."""
        self.take(DIGITS)
        self.skip(DIGITS)

    def sample(self) -> int:
        """One to five digits, the first of which is not 0 if there are more."""
        start = self.place
        if self.take(DIGITS) != ord("0"):
            while self.place < start + MOST_DIGITS and self.sees(DIGITS):
                self.place += 1
        return int(self.text[start : self.place])

    def number(self) -> None:
        """Digits, and then perhaps a point and digits; no blank stands between."""
        self.digits()
        if self.sees(b"."):
            self.take(b".")
            self.digits()

    def pair(self, around: int) -> list[Subtree]:
        """Subtrees parted by commas, in brackets, and perhaps digits; this many pairs are open."""
        if around == MOST_OPEN:
            raise NotOfForm(self.place)
        self.take(b"(")
        held = [self.subtree(around + 1)]
        while self.sees_token(b","):
            self.take(b",")
            held.append(self.subtree(around + 1))
        self.take_token(b")")
        if self.sees_token(DIGITS):
            self.digits()
        return held

    def subtree(self, around: int) -> Subtree:
        """A pair or a sample, and then perhaps a colon and a number."""
        found = self.pair(around) if self.sees_token(b"(") else self.sample()
        if self.sees_token(b":"):
            self.take(b":")
            self.skip(BLANKS)
            self.number()
        return found

    def whole(self) -> Subtree:
        """One subtree and a semicolon, and the end of the text."""
        found = self.subtree(0)
        self.take_token(b";")
        self.skip(BLANKS)
        if self.place < len(self.text):
            raise NotOfForm(self.place)
        return found


# The meaning


def samples_in(subtree: Subtree) -> list[int]:
    """The samples of a subtree, each as often as it stands there."""
    if isinstance(subtree, int):
        return [subtree]
    return [sample for part in subtree for sample in samples_in(part)]


def samples_refusal(n: int, subtree: Subtree) -> Refusal:
    """18: the lowest sample that is repeated, missing or not below n."""
    stands = Counter(samples_in(subtree))
    wrong = {sample for sample in range(n) if stands[sample] != 1}
    wrong |= {sample for sample in stands if sample >= n}
    return rules.refuse_at(sorted(wrong), 18)


def groups_in(subtree: Subtree) -> list[Group]:
    """The groups of a subtree's samples and pairs, that of all its samples first."""
    if isinstance(subtree, int):
        return [frozenset([subtree])]
    parts = [groups_in(part) for part in subtree]
    own = frozenset().union(*(groups[0] for groups in parts))
    return [own] + [group for groups in parts for group in groups]


# Reading


def read(n: int, text: Words, out: Words) -> Answer:
    """The row of a text, in standard numbering, written to a buffer."""
    refusal = rules.size_refusal(n) or rules.length_refusal(n, out)
    if refusal:
        return rules.refused(refusal, [text, out])
    # 17: the text is not of the form.
    try:
        subtree = Reader(bytes(text)).whole()
    except NotOfForm as found:
        return rules.refused((17, found.place), [text, out])
    refusal = samples_refusal(n, subtree)
    if refusal:
        return rules.refused(refusal, [text, out])
    # RULES 14.9: the groups, each once; so a pair with one subtree adds nothing.
    return rules.accepted([text, rules.row_of(n, frozenset(groups_in(subtree)))])


# Writing


def smallest_samples(n: int, row: Words) -> dict[int, int]:
    """The smallest sample in the group of each node of a valid row."""
    smallest: dict[int, int] = {}
    for sample in range(n):
        v = sample
        while v != ROOT:
            smallest.setdefault(v, sample)
            v = rules.parent(row, v)
    return smallest


def children_in_order(n: int, row: Words) -> dict[int, list[int]]:
    """The children of each node of a valid row, in the order of their smallest samples."""
    smallest = smallest_samples(n, row)
    children = defaultdict(list)
    for v in sorted(range(row[0]), key=lambda v: smallest[v]):
        children[rules.parent(row, v)].append(v)
    return children


def node_text(children: dict[int, list[int]], support: Optional[Words], v: int) -> str:
    """The text of a node that is not the root, with what is below it and its support."""
    if not children[v]:
        return str(v)
    return held_text(children, support, v) + ("" if support is None else str(support[1 + v]))


def held_text(children: dict[int, list[int]], support: Optional[Words], v: int) -> str:
    """The text of a node's children, in brackets."""
    return "(" + ",".join(node_text(children, support, child) for child in children[v]) + ")"


def row_text(n: int, row: Words, support: Optional[Words]) -> Words:
    """The text of a valid row, with supports if there are some."""
    children = children_in_order(n, row)
    (root,) = children[ROOT]
    return list(f"{held_text(children, support, root)};".encode())


def write(n: int, row: Words, support: Optional[Words], text: Words) -> Answer:
    """A row as text, at the start of a buffer; the first count is how long the text is."""
    lent = [row, support or [], text]
    refusal = (
        rules.size_refusal(n)
        or rules.length_refusal(n, row, *([] if support is None else [support]))
        or rules.row_refusal(n, row)
    )
    if refusal:
        return rules.refused(refusal, lent)
    written = row_text(n, row, support)
    # 3 once more: the text is longer than its buffer.
    if len(written) > len(text):
        return rules.refused((3, 0), lent)
    return rules.accepted([*lent[:2], written + text[len(written) :]], (len(written), 0, 0))
