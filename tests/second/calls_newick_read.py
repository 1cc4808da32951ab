"""The calls of reading Newick that are stored, and such calls at random."""

from __future__ import annotations

from itertools import product
from random import Random
from typing import Iterator, Optional

import newick
import rows
import shapes
import texts
from calls import LONGEST, READ, Call
from newick import MOST_OPEN
from rules import MOST_SAMPLES, Words
from specimens import TEXT_OF_5
from texts import Nest, text_of

SEED = 20450  # its own, so that the calls stored before these stay as they are
AT_EVERY_PLACE = 80  # the longest text, in bytes, that is changed at every place
AT_SOME_PLACES = 50  # at how many places a longer one is

# Texts that are taken, each with its n.
TAKEN = [
    (2, b"(0,1);"),
    (2, b"(1,0)7;"),
    (2, b" ( 0 , 1 ) 7 : 1.5 ;\n"),
    (3, b"(0,(1,2));"),
    (3, b"((0:1,2:0.25)99:3.75,1:00)100:0.0;"),
    (4, b"((0,3),(1,2));"),
    (4, b"(0,1,\r\n\t2,3)\r\n;\r\n"),
    (5, TEXT_OF_5),
    (12, b"((11,(10:0.5,9)7)61:2,(8,(7,6)),((5,4)00,3):1,(2,(1,0)));"),
]
# A text of each kind of token, and one of the same bytes without blanks.
SPACED = b" (\t( 0\n:\r1.5 , 1 ) 23 : 45 , 2 ) 6 : 7.8 ; "
DENSE = b"((0:1.5,1)23:45,2)6:7.8;"

# What may stand for a sample, for the digits after a bracket or for a length, and what may not.
AS_SAMPLES = ["0", "1", "9", "10", "100", "10000", "12345", "99999"]
AS_SAMPLES += ["00", "01", "000", "09", "0000", "00000", "000000", "099999"]
AS_SAMPLES += ["100000", "123456", "999999", "1234567", "9" * 40]
AS_LABELS = ["0", "00", "000", "01", "007", "65535", "65536", "99999", "100000", "4294967296"]
AS_LABELS += ["1" * 30, "9" * 300, "8" * 256, "0" * 70, "0 ", "1\t"]
AS_LABELS += ["1 2", "1.5", "1.", ".5", "-1", "+1", "1e5", "a", "1_0", "'1'", "[1]", "1\0"]
AS_LABELS += ["1,", "1(", "1)"]
AS_LENGTHS = ["0", "1", "00", "007", "0.0", "00.00", "1.50", "123456.789012"]
AS_LENGTHS += ["1.5\n", " 1", "\r\n1"]
AS_LENGTHS += ["9" * 300, "0." + "0" * 200 + "1", "1" * 99 + "." + "2" * 99]
AS_LENGTHS += ["", " ", ".", ".5", "1.", "1.5.5", "1..5", "1 .5", "1. 5", "1 5", "1.5 5"]
AS_LENGTHS += [":1", "1:1", "1.5:", "-1", "+1", "-0.5", "1e5", "1e-05", "1E5", "0x1", "nan"]
AS_LENGTHS += ["1,5", "(1)", "1;", "1'"]

# Subtrees and whole texts with tokens missing, in the wrong order or too many; and lone samples.
MISPLACED = ["0 1", "0(1)", "(1)(0)", "(1)0(0)", "0:1 1", "0:1:1", "(1):1 1", "(1):1:1", "(0)1 1"]
WHOLE_TEXTS = ["0,1;", "(0,1)", "(0,1;", "0,1);", "(0,1));", "((0,1);", "(0,1);;", "(0,1);0", ";"]
WHOLE_TEXTS += ["(0,);", "(,0);", "(0,,1);", "(,);", "();", "(());", "(0,());", ":1;", "(:1,0);"]
WHOLE_TEXTS += ["0;", "1;", "(0);", "((1));", "0:1;", "0 :1.5 ;", "99999;", "0 0;", "0(1);", "7 ;"]

# Numbers beside the samples of n at most 4: none, just too large, alias of one, the largest.
TOO_LARGE = [[], ["n"], ["n", "n+1"], [65536], [256, 65537], [99999], [99999, 65535]]


def read(n: int, text: bytes, out: Words) -> Call:
    """The call that reads a text."""
    return Call(READ, n, [list(text), out])


def onto_old(rng: Random, n: int, text: bytes) -> Call:
    """The same over a buffer of 2n words that held others."""
    return read(n, text, rows.old_words(rng, 2 * n))


# Short texts


def every_text(rng: Random, longest: int) -> Iterator[Call]:
    """Every text of up to this many bytes."""
    for text in texts.short_texts(texts.SYMBOLS, longest):
        yield onto_old(rng, 2, text)


def every_short_text(rng: Random) -> Iterator[Call]:
    """Every text of up to four bytes, and those of five and six without lengths and blanks."""
    yield from every_text(rng, 4)
    for length in (5, 6):
        for text in texts.texts_of(texts.BRACKETS, length):
            yield onto_old(rng, 2, text)


# Texts that are taken, and texts near them


def taken(rng: Random) -> Iterator[Call]:
    """The texts above, and for other n."""
    for n, text in TAKEN:
        for other in (n, n - 1, n + 1, MOST_SAMPLES):
            yield onto_old(rng, other, text)


def of_packages(rng: Random) -> Iterator[Call]:
    """Texts as other programs write them, with line ends of every kind and with none."""
    for make in texts.PACKAGES:
        for n in (2, 3, 4, 5, 7, 10, 11, 16, 25):
            yield onto_old(rng, n, make(rng, texts.any_nest(rng, n)))
        text = make(rng, texts.any_nest(rng, 8))
        for end in (b"\n", b"\r\n", b"\r", b""):
            yield onto_old(rng, 8, text.replace(b"\r", b"").replace(b"\n", end))


def of_packages_refused(rng: Random) -> Iterator[Call]:
    """What other programs write and what is not of the form: exponents, signs, notes, names."""
    for n in (3, 5, 9):
        nest = texts.any_nest(rng, n)
        text = text_of(nest, texts.Style(lambda: "88", lambda: "0.5"))
        for old, new in ((b"0.5", b"5e-05"), (b"0.5", b"-0.5"), (b"88", b"0.88"), (b"88", b"'88'")):
            place = rng.choice([i for i in range(len(text)) if text.startswith(old, i)])
            yield onto_old(rng, n, text[:place] + new + text[place + len(old) :])
        yield onto_old(rng, n, b"[&R] " + text)
        yield onto_old(rng, n, text.replace(b";", b"[1];"))
        yield onto_old(rng, n, text + b"\n" + text)
        yield onto_old(rng, n, text.replace(b",", b",_", 1))
        yield onto_old(rng, n, b"\xef\xbb\xbf" + text)


def bases(rng: Random) -> list[tuple[int, bytes]]:
    """Texts to be cut and changed at every place: of 6 to 80 bytes."""
    made = [(5, texts.dressed), (6, texts.ape_plain), (3, texts.dendropy_supports)]
    drawn = [(n, make(rng, texts.any_nest(rng, n))) for n, make in made]
    assert all(len(text) <= AT_EVERY_PLACE for _, text in drawn)
    return [*TAKEN, (3, SPACED), (3, DENSE), *drawn]


def longer_bases(rng: Random) -> list[tuple[int, bytes]]:
    """Texts to be cut and changed at some places: of more than 80 bytes."""
    made = [(6, texts.ape), (11, texts.phylip_consensus), (28, texts.ape_plain)]
    return [(n, make(rng, texts.tree_nest(rng, n, shapes.binary(rng, n)))) for n, make in made]


def changed_at(rng: Random, n: int, text: bytes, place: int) -> Iterator[Call]:
    """The text with the byte at a place changed and left out, and one put in before it."""
    yield onto_old(rng, n, texts.changed(text, place, texts.other_byte(rng, text, place)))
    yield onto_old(rng, n, texts.left_out(text, place))
    yield onto_old(rng, n, texts.put_in(text, place, texts.some_byte(rng)))


def near_texts(rng: Random) -> Iterator[Call]:
    """Texts cut, changed, left out of and put into at every place, or at 50 if they are longer."""
    for n, text in [*bases(rng), *longer_bases(rng)]:
        every = range(len(text))
        at_all = len(text) <= AT_EVERY_PLACE
        for place in every if at_all else sorted(rng.sample(every, AT_SOME_PLACES)):
            yield onto_old(rng, n, text[:place])
            yield from changed_at(rng, n, text, place)
        yield onto_old(rng, n, text + texts.some_byte(rng))


# Single bytes


def every_byte(rng: Random) -> Iterator[Call]:
    """Each byte put in at each place of the shortest text that is taken."""
    text = b"(0,1);"
    for byte in range(256):
        for place in range(len(text) + 1):
            yield onto_old(rng, 2, texts.put_in(text, place, bytes([byte])))


def blanks_and_others(rng: Random) -> Iterator[Call]:
    """Each blank and each odd byte put in at each place of a text with every token."""
    for byte in [*texts.BLANKS.encode(), 0, 11, 12, 46, 48, 160, 255]:
        for place in range(len(DENSE) + 1):
            yield onto_old(rng, 3, texts.put_in(DENSE, place, bytes([byte])))


def blanks_alone(rng: Random) -> Iterator[Call]:
    """Blanks, and bytes that are none, alone and before and after a text or a part of one."""
    odd = (b"\0", b"\0\0", b"\0\n", b"\0;", b"\x0b", b"\x0c", b" \0", b" \xa0", b"\n\xff")
    for blanks in (b" ", b"\t", b"\r", b"\n", b"\r\n", b" " * 30, *odd):
        for text in (b"", b"(", b"(0,1)", b"(0,1);", b"0", b";"):
            yield onto_old(rng, 2, blanks + text)
            yield onto_old(rng, 2, text + blanks)


# Digits


def with_samples(rng: Random) -> Iterator[Call]:
    """Samples written in every way: as a lone sample, first, last and in a pair within a pair."""
    for digits in AS_SAMPLES:
        yield onto_old(rng, 2, f"{digits};".encode())
        yield onto_old(rng, 2, f"({digits},1);".encode())
        yield onto_old(rng, 2, f"(0,{digits});".encode())
        yield onto_old(rng, 2, f"((0,{digits}:1),1);".encode())
        yield onto_old(rng, 2, f"({digits}".encode())


def with_labels(rng: Random) -> Iterator[Call]:
    """Digits, and what are none, after inner brackets and after the last, with lengths or not."""
    for label in AS_LABELS:
        for text in (f"((0,1){label},2);", f"((0,1),2){label};", f"((0,1){label}:1.5,2){label}:2;"):
            yield onto_old(rng, 3, text.encode())


def with_lengths(rng: Random) -> Iterator[Call]:
    """Numbers, and what are none, after a sample, a pair, a pair's digits and the whole."""
    for length in AS_LENGTHS:
        yield onto_old(rng, 2, f"(0:{length},1);".encode())
        yield onto_old(rng, 3, f"(2,(0,1):{length});".encode())
        yield onto_old(rng, 3, f"(2,(0,1)3:{length});".encode())
        yield onto_old(rng, 2, f"(0,1):{length};".encode())
        yield onto_old(rng, 2, f"(0,1):{length}".encode())


def misplaced(rng: Random) -> Iterator[Call]:
    """Tokens that are of the form by themselves, where they may not stand."""
    for part in MISPLACED:
        yield onto_old(rng, 2, f"({part},1);".encode())
        yield onto_old(rng, 2, f"(0,{part});".encode())
    for text in WHOLE_TEXTS:
        yield onto_old(rng, 2, text.encode())


# Which samples stand


def numbers_too_large(n: int) -> Iterator[list[int]]:
    """Numbers that are not below n, in every choice above."""
    names = {"n": n, "n+1": n + 1}
    for some in TOO_LARGE:
        yield [names.get(number, number) for number in some]


def every_choice(rng: Random) -> Iterator[Call]:
    """Each of up to four samples missing, there, or there again, with numbers not below n."""
    for n, most in ((2, 3), (3, 3), (4, 2)):
        for counts in product(range(most + 1), repeat=n):
            standing = [sample for sample in range(n) for _ in range(counts[sample])]
            for others in numbers_too_large(n):
                if standing + others:
                    yield onto_old(rng, n, text_of(texts.nest_over(rng, standing + others)))


def wrong_samples(rng: Random) -> Iterator[Call]:
    """Trees of more samples with one sample changed to another, left out, or there again."""
    for n in (5, 9, 17, 40, 257):
        for sample in sorted({0, n - 1, rng.randrange(n)}):
            others = [number for number in range(n) if number != sample]
            twice, aliases = [sample, sample], [sample + 256, sample + 65536]
            for more in ([], [rng.choice(others)], twice, aliases[:1], aliases[1:]):
                yield onto_old(rng, n, text_of(texts.nest_over(rng, others + more)))


def only_too_large(rng: Random) -> Iterator[Call]:
    """All samples once, and several numbers that are too large, in any order."""
    for n in (2, 3, 5, 8, 12, 100):
        for _ in range(8):
            others = rng.sample([n, n + 1, n + 9, *texts.ALIASES], rng.choice([2, 2, 3]))
            yield onto_old(rng, n, text_of(texts.nest_over(rng, [*range(n), *others])))
        for number in (n, 512, 65535, 65536, 65537, 99998, 99999):
            yield onto_old(rng, n, text_of(texts.nest_over(rng, [*range(n), number])))


def around_most_samples(rng: Random) -> Iterator[Call]:
    """512 samples with 512 in place of one, beside them, and 511 missing."""
    n, numbers = MOST_SAMPLES, list(range(MOST_SAMPLES))
    beside = [[*numbers, number] for number in (n - 1, n, 99999)]
    for some in (numbers[1:] + [n], numbers[:-1], *beside):
        yield onto_old(rng, n, text_of(texts.nest_over(rng, some)))


def more_pairs_than_nodes(rng: Random) -> Iterator[Call]:
    """Many more subtrees than a row has nodes; at the end all is well, or it is not of the form."""
    for n, count in ((2, 40), (3, 300), (7, 90), (MOST_SAMPLES, 1100)):
        text = text_of(texts.nest_over(rng, rng.choices(range(n), k=count)))
        yield onto_old(rng, n, text)
        yield onto_old(rng, n, text[:-2])
    for n in (2, 5):
        yield onto_old(rng, n, text_of([*range(n), *[[0, 1]] * 200]))
        yield onto_old(rng, n, text_of([texts.nest_over(rng, list(range(n))), *[n] * 300]))


# Pairs that hold one subtree


def single_pairs(rng: Random) -> Iterator[Call]:
    """One pair, or two, around each subtree of some trees; around two of them at once."""
    for n in (2, 3, 4, 6):
        for nest in (texts.any_nest(rng, n), texts.tree_nest(rng, n, shapes.caterpillar(rng, n))):
            count = texts.subtrees(nest)
            for which in range(count):
                yield onto_old(rng, n, text_of(texts.wrapped_at(nest, which)))
                yield onto_old(rng, n, texts.dressed(rng, texts.wrapped_at(nest, which, 2)))
                both = [which, rng.randrange(count)]
                counts = iter([int(i in both) for i in range(count)])
                yield onto_old(rng, n, text_of(texts.wrapped_by(nest, counts)))


def single_pairs_and_others(rng: Random) -> Iterator[Call]:
    """Single pairs with wrong samples, which come first, and in texts that are not of the form."""
    for n in (2, 3, 4, 5, 8, 13):
        for _ in range(6):
            nest = texts.nest_over(rng, texts.wrong_numbers(rng, n))
            text = text_of(texts.wrapped(rng, texts.wrapped_at(nest, 0)))
            yield onto_old(rng, n, text)
            yield onto_old(rng, n, text[:-1])
            yield onto_old(rng, n, texts.mutated(rng, text))


def single_pairs_far_in(rng: Random) -> Iterator[Call]:
    """A single pair that opens late in a text, at a place that takes more than eight bits."""
    for n in (100, 150):
        nest = texts.chain_nest(list(range(n)), deepest_first=False)
        for which in (2 * n - 2, 2 * n - 3, 2 * n - 7, n + 20, n):
            yield onto_old(rng, n, text_of(texts.wrapped_at(nest, which)))


# Nesting


def around_lone(count: int) -> Nest:
    """Sample 0 in this many pairs."""
    return texts.in_pairs(0, count)


def deep_texts(count: int) -> Iterator[bytes]:
    """Texts in which this many brackets are open at once, and no more; some have them twice."""
    yield text_of(around_lone(count))
    yield text_of(texts.in_pairs([0, 1], count - 1))
    yield text_of([0, texts.in_pairs(1, count - 1)])
    yield text_of([around_lone(count - 1), texts.in_pairs(1, count - 1)])
    yield text_of([around_lone(count - 2), texts.in_pairs(1, count - 1)])
    yield text_of(around_lone(count)).replace(b"(", b"( ").replace(b")", b")5:1 ")
    yield b"(" * count
    yield b"(" * count + b"0"


def deep(rng: Random) -> Iterator[Call]:
    """As many brackets open as may be, one fewer and one more, in texts of two samples."""
    for count in (MOST_OPEN - 1, MOST_OPEN, MOST_OPEN + 1):
        for text in deep_texts(count):
            yield onto_old(rng, 2, text)


def deep_and_damaged(rng: Random) -> Iterator[Call]:
    """The deepest texts with a bracket too few or too many at the end."""
    for count in (MOST_OPEN, MOST_OPEN + 1):
        text = text_of(texts.in_pairs([0, 1], count - 1))
        for other in (text[:-1], text[:-2] + b";", text[:-1] + b");"):
            yield onto_old(rng, 2, other)


def deepest_trees(rng: Random) -> Iterator[Call]:
    """The deepest trees of 512 samples and of 511, both ways round, and with pairs more."""
    for deepest_first in (True, False):
        order = shapes.shuffled(rng, list(range(MOST_SAMPLES)))
        nest = texts.chain_nest(order, deepest_first)
        yield onto_old(rng, MOST_SAMPLES, text_of(nest))
        yield onto_old(rng, MOST_SAMPLES, text_of([nest]))
        yield onto_old(rng, MOST_SAMPLES - 1, text_of(nest))
        inmost = MOST_OPEN if deepest_first else texts.subtrees(nest) - 1
        yield onto_old(rng, MOST_SAMPLES, text_of(texts.wrapped_at(nest, inmost)))
    yield onto_old(rng, MOST_SAMPLES, text_of(texts.chain_nest(list(range(MOST_SAMPLES)), True)))
    nest = texts.chain_nest(list(range(MOST_SAMPLES - 1)), False)
    for count in (0, 1, 2):
        yield onto_old(rng, MOST_SAMPLES - 1, text_of(texts.in_pairs(nest, count)))


# Many samples, and other texts by chance


def wide_trees(rng: Random) -> Iterator[Call]:
    """Trees of every shape and of 512 samples, and some of 511."""
    for shape in shapes.SHAPES:
        nest = texts.tree_nest(rng, MOST_SAMPLES, shape(rng, MOST_SAMPLES))
        yield onto_old(rng, MOST_SAMPLES, text_of(nest))
    nest = texts.any_nest(rng, MOST_SAMPLES - 1)
    yield onto_old(rng, MOST_SAMPLES - 1, texts.dressed(rng, nest))
    yield onto_old(rng, MOST_SAMPLES, text_of(nest))


def longest_texts(rng: Random) -> Iterator[Call]:
    """A text as long as a buffer, with blanks and digits, and shorter ones that are refused."""
    start, end = b"(0:12.", b" ,1)5;"
    digits = b"7" * (LONGEST // 4)
    blanks = b" " * (LONGEST - len(start + digits + end))
    yield onto_old(rng, 2, start + digits + blanks + end)
    for late in (b",1)", b",1):.", b",(1));", b",1,2);"):
        yield onto_old(rng, 2, start + digits + late)


def small_trees(rng: Random) -> Iterator[Call]:
    """Every tree of two to four samples, plain and dressed."""
    for n in (2, 3, 4):
        for tree in rows.every_tree(n):
            yield onto_old(rng, n, text_of(texts.tree_nest(rng, n, tree)))
            yield onto_old(rng, n, texts.dressed(rng, texts.tree_nest(rng, n, tree)))


def trees(rng: Random) -> Iterator[Call]:
    """Trees of every shape and of 2 to 40 samples, plain or dressed."""
    for shape in shapes.SHAPES:
        for n in range(2, 41):
            make = rng.choice([texts.dressed, texts.ape_plain]) if n < 20 else texts.ape_plain
            yield onto_old(rng, n, make(rng, texts.tree_nest(rng, n, shape(rng, n))))


def texts_of_every_kind(rng: Random) -> Iterator[Call]:
    """Texts of every kind, of 2 to 12 samples."""
    for make in [make for make in dict.fromkeys(texts.RANDOM) if make != texts.random_deep]:
        for n in [*range(2, 13), *range(2, 8)]:
            yield onto_old(rng, n, make(rng, n))


# Sizes and lengths


def wrong_sizes(rng: Random) -> Iterator[Call]:
    """Texts of all sorts with n out of range, and outputs of some length."""
    for n in rows.WRONG_SIZES:
        lengths = [0, 4, *[2 * n % 65536] * (2 * n % 65536 <= 2048)]
        for length in lengths:
            for text in (b"", b"(0,1);", b"0;", b"(0,1"):
                yield read(n, text, rows.old_words(rng, length))
    tree = texts.any_nest(rng, 513)
    yield onto_old(rng, 513, text_of(tree))
    yield onto_old(rng, 1, b"(0);")


def wrong_lengths(rng: Random) -> Iterator[Call]:
    """Outputs that are not 2n words, for texts that are taken and others."""
    for n in (2, 3, 4, 5, 8, 30):
        nest = texts.any_nest(rng, n)
        for length in (0, 1, n, 2 * n - 1, 2 * n + 1, 4 * n):
            whole = text_of(nest)
            for text in (whole, whole[:-1], text_of([nest]), text_of([nest, 0]), b""):
                yield read(n, text, rows.old_words(rng, length))
    text = text_of(texts.any_nest(rng, 64))
    for n, length in ((MOST_SAMPLES, 1023), (MOST_SAMPLES, 1025), (MOST_SAMPLES, 0), (64, 127)):
        yield read(n, text, rows.old_words(rng, length))


# What was written


def written_text(n: int, row: Words, support: Optional[Words]) -> bytes:
    """The text that writing makes of a row."""
    return bytes(newick.row_text(n, row, support))


def read_back(rng: Random) -> Iterator[Call]:
    """What is written of rows in any numbering, with supports and without."""
    for n in [2, 3, 4, 5, 6, 7, 8, 9, 11, 15, 22, 40]:
        for _ in range(4):
            row = rows.valid_row(rng, n)
            yield onto_old(rng, n, written_text(n, row, None))
            yield onto_old(rng, n, written_text(n, row, rows.old_words(rng, 2 * n)))


def stored() -> Iterator[Call]:
    """The calls that are stored."""
    rng = Random(SEED)
    yield from taken(rng)
    yield from of_packages(rng)
    yield from of_packages_refused(rng)
    yield from near_texts(rng)
    yield from every_byte(rng)
    yield from blanks_and_others(rng)
    yield from blanks_alone(rng)
    yield from with_samples(rng)
    yield from with_labels(rng)
    yield from with_lengths(rng)
    yield from misplaced(rng)
    yield from every_choice(rng)
    yield from wrong_samples(rng)
    yield from only_too_large(rng)
    yield from around_most_samples(rng)
    yield from more_pairs_than_nodes(rng)
    yield from single_pairs(rng)
    yield from single_pairs_and_others(rng)
    yield from single_pairs_far_in(rng)
    yield from deep(rng)
    yield from deep_and_damaged(rng)
    yield from deepest_trees(rng)
    yield from wide_trees(rng)
    yield from longest_texts(rng)
    yield from small_trees(rng)
    yield from trees(rng)
    yield from texts_of_every_kind(rng)
    yield from wrong_sizes(rng)
    yield from wrong_lengths(rng)
    yield from read_back(rng)
    yield from every_short_text(rng)


def at_random(rng: Random) -> Call:
    """One call, with any n, any text and any output."""
    n = rows.some_size(rng)
    text, out = texts.random_text(rng, n), rows.old_words(rng, 2 * n)
    if rng.random() < 0.04:
        out = rows.wrong_length(rng, out)
    if rng.random() < 0.02:
        n = rng.choice(rows.WRONG_SIZES)
    return read(n, text, out)
