"""Holds newick.py against other definitions of the same, and the makers of texts against it.

The form of a text is defined twice more here: by a grammar that tells which
bytes begin a text of the form, and by regular expressions that take pairs of
brackets away from the inside. test_rules.py runs these tests too.
"""

from __future__ import annotations

import json
import re
from functools import lru_cache
from random import Random
from typing import Optional, Union

import calls
import calls_newick_read
import calls_newick_write
import calls_single_branches
import newick
import rows
import rules
import shapes
import texts
from newick import MOST_OPEN
from rules import ROOT, Group, Words
from specimens import CHAIN_MIDDLE, ONLY_TREE_OF_2, REPORT_OF_5, ROWS_OF_3, SINGLE_BRANCHES
from specimens import TEXT_OF_5, WITH_01


def verdict(n: int, text: bytes) -> tuple[int, int]:
    """Number and place of reading a text; a refusal leaves the output as it was."""
    answer = newick.read(n, list(text), [7] * 2 * n)
    assert answer.counts is None and answer.buffers[0] == list(text)
    assert answer.number == 0 or answer.buffers[1] == [7] * 2 * n
    return answer.number, answer.place


def read_row(n: int, text: bytes) -> Words:
    """The row of a text that is taken."""
    answer = newick.read(n, list(text), [7] * 2 * n)
    assert (answer.number, answer.place) == (0, 0), text
    return answer.buffers[1]


def written(n: int, row: Words, support: Optional[Words] = None) -> bytes:
    """The text of a row that is taken, into a buffer that is longer."""
    answer = newick.write(n, row, support, [255] * 10 * n)
    assert (answer.number, answer.place) == (0, 0)
    length, *others = answer.counts
    assert others == [0, 0] and answer.buffers[:2] == [row, support or []]
    assert answer.buffers[2][length:] == [255] * (10 * n - length)
    return bytes(answer.buffers[2][:length])


# Specimens


def test_the_text() -> None:
    """RULES 10.1 and 14: the report of the three runs as text, and read back."""
    agreed, support = REPORT_OF_5
    assert written(5, agreed, support) == TEXT_OF_5
    assert written(5, agreed) == b"(((0,1),2),(3,4));"
    assert read_row(5, TEXT_OF_5) == read_row(5, written(5, agreed)) == agreed


def test_small_texts() -> None:
    """The texts of two and three samples, in every numbering."""
    assert written(2, ONLY_TREE_OF_2, [9, 9, 9, 9]) == b"(0,1);"
    assert written(3, WITH_01, [9, 9, 9, 9, 9, 65535]) == b"((0,1)65535,2);"
    assert written(3, [5, 4, 3, 3, 4, ROOT], [9, 9, 9, 9, 0, 9]) == b"(0,(1,2)0);"
    assert read_row(2, b" ( 1,0 ) : 1\t;\r\n") == ONLY_TREE_OF_2
    assert read_row(3, b"(2:0.5,(1,0)100:00)007:1;") == WITH_01


def test_places_of_17() -> None:
    """RULES 7.5, line 17: the first byte with which no text of the form begins, or the length."""
    cases = {b"123456;": 5, b"(00,1);": 2, b"(01,1);": 2, b"(1 2": 3, b"(0:1:1,1);": 4}
    cases |= {b"(0:.5,1);": 3, b"(0:1.,1);": 5, b"(0:1.": 5, b"(0:1.5.5": 6, b"(0:-1": 3}
    cases |= {b"": 0, b"  ": 2, b"(": 1, b"(0,1)": 5, b"(0,1) ": 6, b"(0,1);0": 6, b"(0,1); (": 7}
    cases |= {b"()": 1, b"(,": 1, b"(0,)": 3, b"0,": 1, b";": 0, b"\0": 0, b"(0,1);\0": 6}
    cases |= {b"(0)1 2": 5, b"(0)1.5": 4, b"(0):1 2": 6, b"(0):1:": 5, b"(0) :1 .5": 7, b"0 1": 2}
    cases |= {b"(0:1. 5": 5, b"(0\xa01": 2, b"(0\x0b": 2, b"[0]": 0, b"(0 0": 3, b"(0(1": 2}
    for text, place in cases.items():
        assert verdict(2, text) == (17, place), text


def test_places_of_18() -> None:
    """RULES 7.5, line 18: the lowest number that is repeated, missing or not below n."""
    cases = [(2, b"0;", 1), (2, b"1;", 0), (2, b"(0);", 1), (3, b"(0,1);", 2), (2, b"(0,1,2);", 2)]
    cases += [(2, b"(0,1,99999);", 99999), (2, b"(99999,1,0,65536);", 65536), (2, b"(5,1);", 0)]
    cases += [(4, b"(0,3,3,9);", 1), (4, b"(0,1,2,2,9);", 2), (4, b"(1,0,(3,9));", 2)]
    cases += [(2, b"(65536,1);", 0), (2, b"(0,256);", 1), (3, b"((0),((1),0));", 0)]
    for n, text, place in cases:
        assert verdict(n, text) == (18, place), text


def test_single_pairs() -> None:
    """RULES 14.9 and 10.15: a pair with one subtree adds nothing to what is read."""
    only = [b"(((0)),1);", b"((0,1));", b"(0,(1));", b" ( 0 , ( (1)2) ) ;", b"((0),(1));"]
    for text in [*only, b"(((0,1)));", b"((0)5:1.5,((1):2)7)8;"]:
        assert read_row(2, text) == ONLY_TREE_OF_2, text
    assert read_row(3, b"((0,(1)),(2));") == WITH_01
    for n, row, becomes, text in SINGLE_BRANCHES:
        assert written(n, row) == text
        assert read_row(n, text) == becomes
    assert written(4, CHAIN_MIDDLE, [9, 9, 9, 9, 9, 9, 55, 66]) == b"(((0,1)66)55,2,3);"


def test_order_of_reading() -> None:
    """RULES 7.9: 1, 3, then 17 over the whole text, and 18."""
    for text in (b"(0,1);", b"((0)", b"((0),0);", b"((0),1);"):
        for n in (0, 1, 513, 65535):
            assert newick.read(n, list(text), []) == (1, 0, None, [list(text), []])
        for out in ([], [5] * 3, [5] * 5):
            assert newick.read(2, list(text), out) == (3, 0, None, [list(text), out])
    assert verdict(2, b"((0),0,9)") == (17, 9)
    assert verdict(2, b"((0),0,9);") == (18, 0)
    assert verdict(2, b"((0),1);") == (0, 0)


def test_nesting() -> None:
    """RULES 14.6: 511 brackets may be open at once, whatever n is and however many there are."""
    for count, refusal in ((510, (0, 0)), (511, (0, 0)), (512, (17, 511))):
        text = texts.text_of(texts.in_pairs([0, 1], count - 1))
        assert verdict(2, text) == refusal
        assert verdict(2, b"(" * count) == (17, min(count, 511))
        lone = texts.text_of(texts.in_pairs(0, count))
        assert verdict(2, lone) == (refusal if refusal[0] else (18, 1))
    twice = texts.text_of([texts.in_pairs(0, 510), texts.in_pairs(1, 510)])
    assert read_row(2, twice) == ONLY_TREE_OF_2
    chain = texts.chain_nest(list(range(512)), True)
    assert read_row(512, texts.text_of(chain))[0] == 1023
    assert verdict(512, texts.text_of([chain])) == (17, 511)


# The form by a grammar

# A name stands for any of its lines, bytes for one of them. No name leads back to itself before
# a byte has come, and each stands for something: so what has lines left can go on to the end.
Line = tuple[Union[str, bytes], ...]
GRAMMAR: dict[str, list[Line]] = {
    "text": [("blanks", "subtree", "blanks", b";", "blanks")],
    "subtree": [("sample", "length"), ("pair", "length")],
    "pair": [(b"(", "list", b")", "label")],
    "list": [("blanks", "subtree", "blanks"), ("blanks", "subtree", "blanks", b",", "list")],
    "label": [(), ("blanks", "digits")],
    "length": [(), ("blanks", b":", "blanks", "digits", "fraction")],
    "fraction": [(), (b".", "digits")],
    "sample": [(b"0",), *((b"123456789", *["digit"] * more) for more in range(5))],
    "digits": [("digit",), ("digit", "digits")],
    "digit": [(b"0123456789",)],
    "blanks": [(), (b" \t\r\n", "blanks")],
}
START: frozenset[Line] = frozenset([("text",)])


@lru_cache(maxsize=None)
def opened(line: Line) -> frozenset[Line]:
    """All that a line stands for, as lines that begin with bytes, and perhaps the empty line."""
    if not line or isinstance(line[0], bytes):
        return frozenset([line])
    first, *rest = line
    return frozenset().union(*(opened((*other, *rest)) for other in GRAMMAR[first]))


@lru_cache(maxsize=None)
def after(lines: frozenset[Line], byte: int) -> frozenset[Line]:
    """What may follow this byte, where these lines may come."""
    may_come = [line for one in lines for line in opened(one) if line]
    return frozenset(line[1:] for line in may_come if byte in line[0])


def place_by_grammar(text: bytes) -> Optional[int]:
    """The first byte with which no text of the form begins, or the length; None if it is one."""
    lines = START
    for place, byte in enumerate(text):
        lines = after(lines, byte)
        if not lines:
            return place
    return None if any(() in opened(line) for line in lines) else len(text)


def holds_by_grammar(text: bytes) -> None:
    """Asserts that 17 and its place are those of the grammar."""
    number, place = verdict(2, text)
    assert place_by_grammar(text) == (place if number == 17 else None), text


def test_form_by_grammar() -> None:
    """Every text of up to five bytes, and of up to six without lengths and blanks."""
    for symbols, longest in ((texts.SYMBOLS, 5), (texts.BRACKETS, 6)):
        for text in texts.short_texts(symbols, longest):
            holds_by_grammar(text)


def test_tokens_by_grammar() -> None:
    """Longer texts over few bytes: digits of samples, supports, lengths, blanks."""
    for symbols, longest in ((b"10;", 8), (b"(0)9;", 6), (b"0:.1", 7), (b"0:\t. ;", 6)):
        for text in texts.short_texts(symbols, longest):
            holds_by_grammar(text)


def test_changed_by_grammar() -> None:
    """Texts of every kind, and some with each byte changed, left out or put in, and cut."""
    rng = Random(31)
    for make in [make for make in texts.RANDOM if make != texts.random_deep] * 10:
        holds_by_grammar(make(rng, rng.randint(2, 6)))
    for text in (calls_newick_read.SPACED, calls_newick_read.DENSE, TEXT_OF_5):
        for place in range(len(text)):
            byte = texts.some_byte(rng)
            holds_by_grammar(texts.put_in(text, place, byte))
            holds_by_grammar(texts.changed(text, place, byte))
            holds_by_grammar(texts.left_out(text, place))
            holds_by_grammar(text[:place])


def most_open(text: bytes) -> int:
    """How many brackets of a text are open at once, at most."""
    depth = [text[:end].count(b"(") - text[:end].count(b")") for end in range(len(text) + 1)]
    return max(depth)


# The form by regular expressions

B = rb"[ \t\r\n]*"
LENGTH = rb"(?:" + B + rb":" + B + rb"[0-9]+(?:\.[0-9]+)?)?"
PART = rb"(?:@|(?:0|[1-9][0-9]{0,4})" + LENGTH + rb")"
LIST = B + PART + B + rb"(?:," + B + PART + B + rb")*"
PAIR = re.compile(rb"\(" + LIST + rb"\)(?:" + B + rb"[0-9]+)?" + LENGTH)
WHOLE = re.compile(B + PART + B + rb";" + B)


def is_of_form(text: bytes) -> bool:
    """Whether a text is of the form: pair after pair, the inmost first, becomes one sign."""
    if b"@" in text or most_open(text) > MOST_OPEN:
        return False
    left = -1
    while len(text) != left:
        left = len(text)
        text = PAIR.sub(b"@", text)
    return WHOLE.fullmatch(text) is not None


def test_form_by_expressions() -> None:
    """Texts of every kind, of any length."""
    rng = Random(32)
    came = set()
    for make in texts.RANDOM * 25:
        n = rng.randint(2, 12)
        text = make(rng, n)
        number, place = verdict(n, text)
        assert (number != 17) == is_of_form(text), text
        came.add((make, number == 17))
    assert {(texts.random_valid, False), (texts.random_mutated, True)} <= came
    assert {(texts.random_deep, True), (texts.random_deep, False)} <= came


def test_places_go_on() -> None:
    """What stands before the place of 17 can go on to a text; with the byte there, it cannot."""
    rng = Random(33)
    ends = [b"", b"0", b",0", b"0,0", b".0", b"1"]
    for _ in range(400):
        text = texts.random_mutated(rng, rng.randint(2, 9))
        number, place = verdict(2, text)
        if number == 17:
            closed = b")" * most_open(text) + b";"
            tails = [end + closed[i:] for end in ends for i in range(len(closed))] + [b""]
            assert any(is_of_form(text[:place] + tail) for tail in tails), text
            if place < len(text):
                assert not any(is_of_form(text[: place + 1] + tail) for tail in tails), text


# The meaning


def lists_in(text: bytes) -> list:
    """The lists of a text of the form: without blanks, digits after brackets and lengths."""
    bare = re.sub(rb"[ \t\r\n]", b"", text).rstrip(b";")
    bare = re.sub(rb"\)[0-9]+", b")", re.sub(rb":[0-9.]+", b"", bare))
    return json.loads(bare.replace(b"(", b"[").replace(b")", b"]"))


def numbers_in(lists: Union[int, list]) -> list[int]:
    """The numbers in such lists."""
    if isinstance(lists, int):
        return [lists]
    return [number for part in lists for number in numbers_in(part)]


def groups_in(lists: Union[int, list]) -> set[Group]:
    """The group of each list and number."""
    parts = [] if isinstance(lists, int) else lists
    return {frozenset(numbers_in(lists))}.union(*map(groups_in, parts))


def refusal_by_lists(n: int, text: bytes) -> tuple[int, int]:
    """What reading a text of the form answers, by its lists."""
    numbers = numbers_in(lists_in(text))
    repeated = {number for number in numbers if numbers.count(number) > 1}
    wrong = {*range(n)} ^ {*numbers} | repeated
    return (18, min(wrong)) if wrong else (0, 0)


def test_meaning_by_lists() -> None:
    """Numbers, places and groups of texts of every kind are those of their lists."""
    rng = Random(34)
    came = set()
    for make in texts.RANDOM * 25:
        n = rng.randint(2, 9)
        text = make(rng, n)
        found = verdict(n, text)
        if found[0] != 17:
            assert found == refusal_by_lists(n, text), text
            came.add(found[0])
        if found[0] == 0:
            row = read_row(n, text)
            assert rules.groups_of(n, row) == groups_in(lists_in(text))
            assert rules.renumber(n, row, row).buffers[1] == row
    assert came == {0, 18}


# Writing


def text_by_groups(labels: dict[Group, list[str]], group: Group) -> str:
    """The text of a group of a tree and of those within it: a pair for each of its labels."""
    within = [other for other in labels if other < group]
    parts = [one for one in within if not any(one < other for other in within)]
    text = ",".join(text_by_groups(labels, part) for part in sorted(parts, key=min))
    for label in labels[group]:
        text = f"({text or min(group)}){label}"
    return text or str(min(group))


def by_groups(n: int, row: Words, support: Optional[Words]) -> bytes:
    """The text of a row, by the groups of its nodes; of a chain, the lowest node comes first."""
    labels: dict[Group, list[str]] = {}
    for v in sorted(range(row[0]), key=lambda v: -len(path_up(row, v))):
        group = frozenset(s for s in range(n) if v in path_up(row, s))
        label = "" if support is None or row[1 + v] == ROOT else str(support[1 + v])
        labels.setdefault(group, []).extend([label] if v >= n else [])
    return f"{text_by_groups(labels, frozenset(range(n)))};".encode()


def path_up(row: Words, v: int) -> list[int]:
    """The nodes from one up to the root."""
    return [] if v == ROOT else [v] + path_up(row, row[1 + v])


def some_rows(rng: Random) -> list[tuple[int, Words]]:
    """Every valid row of two to four samples; of more some with single branches and without."""
    small = [(n, row) for n in (2, 3, 4) for row in rows.valid_rows(n)]
    makes = [rows.valid_row, rows.single_branch_row] * 40
    more = [(rng.randint(5, 14), make) for make in makes]
    return small + [(n, make(rng, n)) for n, make in more]


def test_writing_by_groups() -> None:
    """Texts with supports and without are those of the rows' groups."""
    rng = Random(35)
    for n, row in some_rows(rng):
        support = calls_newick_write.some_supports(rng, n)
        assert written(n, row) == by_groups(n, row, None)
        assert written(n, row, support) == by_groups(n, row, support)


def test_read_what_was_written() -> None:
    """RULES 14: reading what was written gives the row renumbered; a pair for each inner node."""
    rng = Random(36)
    wide = [(512, rows.shuffled_row(rng, 512, shape(rng, 512))) for shape in shapes.SHAPES]
    for n, row in some_rows(rng) + wide:
        renumbered = rules.renumber(n, row, row).buffers[1]
        for support in (None, calls_newick_write.some_supports(rng, n)):
            text = written(n, row, support)
            assert read_row(n, text) == renumbered
            assert text.count(b"(") == text.count(b")") == row[0] - n
            assert is_of_form(text) and not set(text) - set(b"(),;0123456789")


def test_text_buffers() -> None:
    """RULES 14: any buffer that is long enough; nothing is written to a shorter one."""
    agreed, support = REPORT_OF_5
    for length in range(40):
        old = [200 + i % 50 for i in range(length)]
        answer = newick.write(5, agreed, support, old)
        if length < len(TEXT_OF_5):
            assert answer == (3, 0, None, [agreed, support, old])
        else:
            text = [*TEXT_OF_5, *old[21:]]
            assert answer == (0, 0, (21, 0, 0), [agreed, support, text])


def test_order_of_writing() -> None:
    """RULES 14: 1, 3 for the rows, 5 to 10, and 3 for the text's buffer last."""
    for row in ROWS_OF_3:
        refusal = rules.row_refusal(3, row) or (3, 0)
        for support in (None, [9] * 6):
            lent = [row, support or [], [1] * 5]
            assert newick.write(513, row, support, [1] * 5) == (1, 0, None, lent)
            assert newick.write(4, row, support, [1] * 5) == (3, 0, None, lent)
            assert newick.write(3, row, support, [1] * 5) == (*refusal, None, lent)
        for wrong in ([], [9] * 5, [9] * 7):
            assert newick.write(3, row, wrong, [1] * 50) == (3, 0, None, [row, wrong, [1] * 50])


def test_words_not_looked_at() -> None:
    """RULES 14: word 0, the samples' words, the root's and the filler change nothing."""
    agreed, support = REPORT_OF_5
    for i in range(10):
        other = [*support[:i], 65535, *support[i + 1 :]]
        same = written(5, agreed, other) == TEXT_OF_5
        assert same == (i not in (7, 8, 9))
    bare = [6, 5, 5, 5, 5, 5, ROOT, 0, 0, 0]
    assert written(5, bare, [65535] * 10) == written(5, bare) == b"(0,1,2,3,4);"


# Makers of texts


def test_makers_of_texts() -> None:
    """Texts as other programs write them are taken, dressed ones too, and mean the tree."""
    rng = Random(37)
    for make in [*texts.PACKAGES, texts.dressed]:
        for n in (2, 3, 5, 9, 20):
            tree = shapes.any_tree(rng, n)
            text = make(rng, texts.tree_nest(rng, n, tree))
            assert rules.groups_of(n, read_row(n, text)) == tree, text
    lines = texts.phylip(rng, texts.tree_nest(rng, 40, shapes.bare(rng, 40))).split(b"\n")
    assert len(lines) > 5 and max(map(len, lines)) < 80


def test_wrapped_nests() -> None:
    """A nest with pairs around one subtree is read as the nest."""
    rng = Random(38)
    for n in (2, 3, 7):
        nest = texts.any_nest(rng, n)
        row = read_row(n, texts.text_of(nest))
        assert row[0] == texts.subtrees(nest)
        for which in range(texts.subtrees(nest)):
            for count in (1, 3):
                around = texts.wrapped_at(nest, which, count)
                assert texts.subtrees(around) == texts.subtrees(nest) + count
                assert read_row(n, texts.text_of(around)) == row


def test_short_texts() -> None:
    """There are as many short texts as there should be, none twice."""
    made = list(texts.short_texts(texts.SYMBOLS, 4))
    assert len(made) == len(set(made)) == 1 + 9 + 81 + 729 + 6561
    taken = [text for text in texts.short_texts(texts.BRACKETS, 6) if verdict(2, text)[0] == 0]
    assert taken == [b"(0,1);", b"(1,0);"]


# Stored calls


@lru_cache(maxsize=1)
def stored_readings() -> list[tuple[int, bytes, rules.Answer]]:
    """The n and the text of each stored call of reading but the shortest texts, and its answer."""
    made = [call for call in calls_newick_read.stored() if len(call.buffers[0]) > 6]
    return [(call.x, bytes(call.buffers[0]), calls.answer(call)) for call in made]


def test_stored_short_texts() -> None:
    """Every text that is to be stored is, for two samples."""
    made = {bytes(call.buffers[0]) for call in calls_newick_read.every_short_text(Random(1))}
    assert made == {*texts.short_texts(texts.SYMBOLS, 4), *texts.short_texts(texts.BRACKETS, 6)}


def test_stored_near_texts() -> None:
    """Every text of up to 80 bytes is cut at every place."""
    came = {(n, text) for n, text, _ in stored_readings()}
    for n, text in [*calls_newick_read.TAKEN, (3, calls_newick_read.DENSE)]:
        assert len(text) <= calls_newick_read.AT_EVERY_PLACE
        assert {(n, text[:place]) for place in range(7, len(text))} <= came


def test_stored_blanks() -> None:
    """Each blank is put in at each place of a text with every token, and taken between tokens."""
    text = calls_newick_read.DENSE
    inside = [i for i in range(1, len(text)) if re.match(rb"[0-9.]{2}", text[i - 1 : i + 1])]
    came = {(t, answer.number) for _, t, answer in stored_readings()}
    for blank in texts.BLANKS.encode():
        for place in range(len(text) + 1):
            number = 17 if place in inside else 0
            assert (texts.put_in(text, place, bytes([blank])), number) in came


def test_stored_depths() -> None:
    """As many brackets are open at once as may be, one fewer and one more, at n of 2 and 512."""
    came = {(n, most_open(text), answer.number) for n, text, answer in stored_readings()}
    assert {(2, 510, 0), (2, 511, 0), (2, 511, 18), (2, 512, 17), (511, 510, 0)} <= came
    assert {(512, 511, 0), (512, 512, 17), (511, 511, 0)} <= came


def test_stored_places_in_texts() -> None:
    """17 at the start, at the end and far in; 18 up to the largest number."""
    came = {answer[:2] for _, _, answer in stored_readings()}
    at_end = [text for _, text, answer in stored_readings() if answer[:2] == (17, len(text))]
    assert {(17, 0), (17, 511)} <= came and len(at_end) > 100
    assert {(18, place) for place in (0, 1, 511, 512, 65535, 65536, 99999)} <= came
    assert max(place for number, place in came if number == 17) > 8192


def test_stored_writings() -> None:
    """Every valid row of two to four samples is written in both ways, into buffers of any kind."""
    stored = [*calls_newick_write.stored(), *calls_single_branches.stored()]
    made = [call for call in stored if call.op == calls.WRITE]
    came = {(call.x, call.y, *call.buffers[0]) for call in made}
    for n in (2, 3, 4):
        assert {(n, y, *row) for y in (0, 1) for row in rows.valid_rows(n)} <= came
    over = set()
    for call in made:
        answer = calls.answer(call)
        if answer.number == 0:
            over.add((call.y, min(2, len(call.buffers[2]) - answer.counts[0])))
    assert over == {(y, some) for y in (0, 1) for some in (0, 1, 2)}


def test_writing_calls() -> None:
    """A call of writing has three buffers, the second empty where no supports are wanted."""
    agreed, support = REPORT_OF_5
    plain = calls_newick_write.write(5, agreed, None, [9] * 20)
    assert calls.request_words(plain) == [9, 5, 0, 10, 0, 20, *agreed, *[9] * 20]
    text = [*b"(((0,1),2),(3,4));", 9, 9]
    assert calls.reply_words(calls.answer(plain)) == [0, 0, 0, 18, 0, 0, *agreed, *text]
    labelled = calls_newick_write.write(5, agreed, support, [9] * 20)
    assert calls.request_words(labelled) == [9, 5, 1, 10, 10, 20, *agreed, *support, *[9] * 20]
    assert calls.reply_words(calls.answer(labelled))[:6] == [3, 0, 0, 0, 0, 0]
    empty = calls_newick_write.write(5, agreed, [], [9] * 20)
    assert calls.reply_words(calls.answer(empty))[:6] == [3, 0, 0, 0, 0, 0]


def test_reading_calls() -> None:
    """A call of reading has one byte of its text in each word; a place may need two words."""
    call = calls_newick_read.read(2, b"(0,1,99999);", [5] * 4)
    assert calls.request_words(call) == [8, 2, 0, 12, 4, 0, *b"(0,1,99999);", 5, 5, 5, 5]
    head = [18, 99999 - 65536, 1, 0, 0, 0]
    assert calls.reply_words(calls.answer(call)) == [*head, *b"(0,1,99999);", 5, 5, 5, 5]
