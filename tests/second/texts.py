"""Makers of test material: Newick texts, of the form (RULES 14) and not.

A nest is a tree on its way to a text: the number of a sample, or a list of
nests, one for each subtree in a pair of brackets. Its tokens make a text, with
blanks between them or without.

All chance comes from the random.Random handed in, and every list that chance
picks from has a fixed order, so the same seed makes the same material.
"""

from __future__ import annotations

from itertools import product
from random import Random
from typing import Callable, Iterator, NamedTuple, Union

from newick import MOST_OPEN
from rules import ROOT, Tree, Words, row_of
from shapes import any_tree, cut, shuffled

Nest = Union[int, list["Nest"]]

BRACKETS = b"(),;01"  # what texts without lengths and blanks are made of
SYMBOLS = b"(),;01:. "
BLANKS = " \t\r\n"
# Bytes that no text of the form has, some of them beside those that it has.
ODD = b"\0\1\x08\x0b\x0c\x0e\x1f!'*+-/<=@[]_aeE{\x7f\x80\x89\x8a\xa0\xa8\xb0\xff"
USUAL = b"(),;:.0123456789" + BLANKS.encode()
# Numbers that are too large for every n, and a sample's number in some of their bits.
ALIASES = [256, 257, 512, 513, 1024, 32768, 65535, 65536, 65537, 65538, 66048, 99999]


# Nests


def row_nest(n: int, row: Words) -> Nest:
    """The nest of a valid row, subtrees in the order of their nodes."""
    children: dict[int, list[int]] = {v: [] for v in [ROOT, *range(row[0])]}
    for v in range(row[0]):
        children[row[1 + v]].append(v)

    def nest(v: int) -> Nest:
        return v if v < n else [nest(child) for child in children[v]]

    return nest(*children[ROOT])


def stirred(rng: Random, nest: Nest) -> Nest:
    """The nest with the subtrees of every pair in some order."""
    if isinstance(nest, int):
        return nest
    return [stirred(rng, part) for part in shuffled(rng, nest)]


def tree_nest(rng: Random, n: int, tree: Tree) -> Nest:
    """The nest of a tree, subtrees in any order."""
    return stirred(rng, row_nest(n, row_of(n, tree)))


def any_nest(rng: Random, n: int) -> Nest:
    """The nest of a tree of any shape."""
    return tree_nest(rng, n, any_tree(rng, n))


def nest_over(rng: Random, numbers: list[int]) -> Nest:
    """Some nest of these numbers, in some order, with two subtrees or more in every pair."""
    if len(numbers) == 1:
        return numbers[0]
    parts = cut(rng, shuffled(rng, numbers), rng.randint(2, min(5, len(numbers))))
    return [nest_over(rng, part) for part in parts]


def chain_nest(numbers: list[int], deepest_first: bool) -> Nest:
    """The deepest nest of these numbers: the first two in the inmost pair, and so on outwards."""
    nest: Nest = numbers[0]
    for number in numbers[1:]:
        nest = [nest, number] if deepest_first else [number, nest]
    return nest


def wrapped_by(nest: Nest, counts: Iterator[int]) -> Nest:
    """The nest with pairs put around its subtrees: the next count of them around each in turn."""
    count = next(counts)
    inside = nest if isinstance(nest, int) else [wrapped_by(part, counts) for part in nest]
    return in_pairs(inside, count)


def in_pairs(nest: Nest, count: int) -> Nest:
    """The nest in this many pairs more."""
    for _ in range(count):
        nest = [nest]
    return nest


def subtrees(nest: Nest) -> int:
    """How many subtrees a nest has, itself among them."""
    return 1 if isinstance(nest, int) else 1 + sum(map(subtrees, nest))


def wrapped_at(nest: Nest, which: int, count: int = 1) -> Nest:
    """The nest with this many pairs around one of its subtrees, counted in the text's order."""
    return wrapped_by(nest, iter([count if i == which else 0 for i in range(subtrees(nest))]))


def wrapped(rng: Random, nest: Nest) -> Nest:
    """The nest with pairs around some of its subtrees."""
    return wrapped_by(nest, iter(rng.choices([0, 1, 2], [8, 2, 1], k=subtrees(nest))))


# Tokens


class Style(NamedTuple):
    """What stands after a closing bracket, and behind the colon after a subtree; "" for nothing."""

    label: Callable[[], str]
    length: Callable[[], str]


def nothing() -> str:
    """Nothing, not even a colon."""
    return ""


PLAIN = Style(nothing, nothing)


def tokens(nest: Nest, style: Style) -> list[str]:
    """The tokens of a nest, without the semicolon."""
    found = [str(nest)] if isinstance(nest, int) else pair_tokens(nest, style)
    length = style.length()
    return found + [":", length] if length else found


def pair_tokens(nest: list[Nest], style: Style) -> list[str]:
    """The tokens of a pair of brackets and what is in them."""
    found = []
    for part in nest:
        found += [",", *tokens(part, style)]
    label = style.label()
    return ["(", *found[1:], ")"] + ([label] if label else [])


def text_of(nest: Nest, style: Style = PLAIN) -> bytes:
    """The text of a nest, without blanks."""
    return "".join([*tokens(nest, style), ";"]).encode()


def spaced(rng: Random, found: list[str]) -> bytes:
    """The text of these tokens, with blanks at some places where they may stand."""
    share = rng.choice([0.05, 0.3, 1])
    text = "".join(some_blanks(rng, share) + token for token in found)
    return (text + some_blanks(rng, share)).encode()


def some_blanks(rng: Random, share: float) -> str:
    """One to three blanks, or none."""
    return "".join(rng.choices(BLANKS, k=rng.randint(1, 3))) if rng.random() < share else ""


# Digits and numbers


def some_digits(rng: Random) -> str:
    """A run of digits, often with zeros in front, sometimes a long one."""
    count = rng.choice([1, 1, 2, 2, 3, 3, 5, 6, 7, 12]) if rng.random() < 0.95 else 60
    digits = rng.choice(["0123456789", "0123456789", "01", "0"])
    return "".join(rng.choices(digits, k=count))


def some_number(rng: Random) -> str:
    """A number as it stands after a colon."""
    digits = some_digits(rng)
    return digits if rng.random() < 0.4 else f"{digits}.{some_digits(rng)}"


def seldom(rng: Random, share: float, make: Callable[[Random], str]) -> Callable[[], str]:
    """What this makes, in this share of all places."""
    return lambda: make(rng) if rng.random() < share else ""


def any_style(rng: Random) -> Style:
    """Digits and numbers at all places, at some, or at none."""
    labels, lengths = rng.choice([0, 0.3, 1]), rng.choice([0, 0.3, 1])
    return Style(seldom(rng, labels, some_digits), seldom(rng, lengths, some_number))


def dressed(rng: Random, nest: Nest) -> bytes:
    """The text of a nest with any digits, numbers and blanks where they may stand."""
    return spaced(rng, [*tokens(nest, any_style(rng)), ";"])


# Texts as other programs write them, with numbers for names


def ape(rng: Random, nest: Nest) -> bytes:
    """As ape does: lengths of up to ten digits, labels at the inner nodes, one line."""
    length = lambda: f"{rng.uniform(0.01, 0.99):.10f}".rstrip("0")  # noqa: E731
    found = tokens(nest, Style(lambda: str(rng.randint(1, 100)), length))
    return "".join([*found[:-2], ";\n"]).encode()  # the root has no length


def ape_plain(rng: Random, nest: Nest) -> bytes:
    """As ape does for a tree that has neither."""
    return text_of(nest) + b"\n"


def dendropy(rng: Random, nest: Nest) -> bytes:
    """As DendroPy does: lengths with a point, also after the root."""
    return text_of(nest, Style(nothing, lambda: str(rng.randint(0, 40) / 4))) + b"\n"


def dendropy_supports(rng: Random, nest: Nest) -> bytes:
    """As DendroPy does, with a support in front of each inner node's length."""
    style = Style(lambda: str(rng.randint(50, 100)), lambda: str(rng.randint(0, 40) / 4))
    return text_of(nest, style) + b"\n"


def phylip(rng: Random, nest: Nest) -> bytes:
    """As PHYLIP does: lengths of five places, lines broken behind commas."""
    found = tokens(nest, Style(nothing, lambda: f"{rng.random():.5f}"))
    return in_lines([*found[:-2], ";"], 55, "\n")


def phylip_consensus(rng: Random, nest: Nest) -> bytes:
    """As PHYLIP does for a consensus: counts for lengths; here the lines end with CR and LF."""
    found = tokens(nest, Style(nothing, lambda: f"{rng.randint(1, 100)}.0"))
    return in_lines([*found[:-2], ";"], 30, "\r\n")


PACKAGES = [ape, ape_plain, dendropy, dendropy_supports, phylip, phylip_consensus]


def in_lines(found: list[str], width: int, end: str) -> bytes:
    """The text of these tokens; a line that is this wide ends behind its next comma."""
    lines = [""]
    for token in found:
        lines[-1] += token
        if token == "," and len(lines[-1]) > width:
            lines.append("")
    return "".join(line + end for line in lines).encode()


# Changes


def put_in(text: bytes, place: int, some: bytes) -> bytes:
    """The text with these bytes put in at a place."""
    return text[:place] + some + text[place:]


def left_out(text: bytes, place: int) -> bytes:
    """The text without one of its bytes."""
    return text[:place] + text[place + 1 :]


def changed(text: bytes, place: int, some: bytes) -> bytes:
    """The text with one of its bytes changed to these."""
    return text[:place] + some + text[place + 1 :]


def some_byte(rng: Random) -> bytes:
    """A byte: mostly one that texts have."""
    return bytes([rng.choice(ODD if rng.random() < 0.15 else USUAL)])


def other_byte(rng: Random, text: bytes, place: int) -> bytes:
    """Another byte than the text has at this place."""
    return rng.choice([bytes([byte]) for byte in USUAL if byte != text[place]] + [some_byte(rng)])


def mutated(rng: Random, text: bytes) -> bytes:
    """The text with one to three bytes changed, left out or put in, or cut."""
    for _ in range(rng.choice([1, 1, 1, 2, 3])):
        place = rng.randrange(len(text) + 1)
        put, gone = put_in(text, place, some_byte(rng)), left_out(text, place)
        text = rng.choice([put, gone, changed(text, place, some_byte(rng)), text[:place]])
    return text


def spliced(rng: Random, one: bytes, other: bytes) -> bytes:
    """The start of one text and the end of another, or a part of one put into the other."""
    place, start, end = (rng.randrange(len(text) + 1) for text in (one, other, other))
    if rng.random() < 0.5:
        return one[:place] + other[start:]
    return put_in(one, place, other[min(start, end) : max(start, end)])


# All short texts


def texts_of(symbols: bytes, length: int) -> Iterator[bytes]:
    """Every text of this length over these bytes."""
    return map(bytes, product(symbols, repeat=length))


def short_texts(symbols: bytes, longest: int) -> Iterator[bytes]:
    """Every text of up to this length over these bytes, the shortest first."""
    for length in range(longest + 1):
        yield from texts_of(symbols, length)


# Texts at random


def random_valid(rng: Random, n: int) -> bytes:
    """The text of a tree, dressed or as another program writes it."""
    return rng.choice([dressed, dressed, dressed, *PACKAGES])(rng, any_nest(rng, n))


def random_mutated(rng: Random, n: int) -> bytes:
    """Such a text with some bytes changed."""
    return mutated(rng, random_valid(rng, n))


def random_spliced(rng: Random, n: int) -> bytes:
    """A text made of two."""
    return spliced(rng, random_valid(rng, n), random_valid(rng, n))


def random_wrapped(rng: Random, n: int) -> bytes:
    """The text of a tree with more pairs than it needs."""
    return dressed(rng, wrapped(rng, any_nest(rng, n)))


def wrong_numbers(rng: Random, n: int) -> list[int]:
    """The samples with some repeated, left out or too large, one at least left."""
    numbers = shuffled(rng, list(range(n)))[rng.choice([0, 0, 0, 1, 2]) :] or [0]
    numbers += rng.choices(range(n), k=rng.choice([0, 0, 1, 2]))
    return numbers + rng.choices([n, n + 1, *ALIASES], k=rng.choice([0, 0, 1, 2]))


def random_numbers(rng: Random, n: int) -> bytes:
    """The text of any nest of such numbers, sometimes with more pairs than it needs."""
    nest = nest_over(rng, wrong_numbers(rng, n))
    return dressed(rng, wrapped(rng, nest) if rng.random() < 0.3 else nest)


def random_short(rng: Random, n: int) -> bytes:
    """A text of up to six bytes."""
    return bytes(rng.choices(SYMBOLS, k=rng.randint(0, 6)))


def random_deep(rng: Random, n: int) -> bytes:
    """A text with about as many brackets open at once as may be, around one of its subtrees."""
    nest = any_nest(rng, n)
    which = rng.randrange(subtrees(nest))
    deep = text_of(wrapped_at(nest, which, MOST_OPEN - rng.randint(0, 3)))
    return deep if rng.random() < 0.6 else mutated(rng, deep)


RANDOM = [
    *[random_valid] * 8,
    *[random_mutated] * 8,
    *[random_spliced] * 2,
    *[random_wrapped] * 3,
    *[random_numbers] * 4,
    *[random_short] * 2,
    random_deep,
]


def random_text(rng: Random, n: int) -> bytes:
    """A text of any of these kinds."""
    return rng.choice(RANDOM)(rng, n)
