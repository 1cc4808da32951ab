"""What each call answers by docs/RULES.md, worked out with sets of samples.

A call takes lists of 16-bit words and answers number, place, counts and the
buffers as they stand afterwards. Number 0 means accepted. No list that is
handed in is ever changed. "RULES 6.4" is a rule of that page.
"""

from __future__ import annotations

from collections import Counter, defaultdict
from functools import lru_cache
from typing import Iterable, NamedTuple, Optional

Words = list[int]
Group = frozenset[int]  # never empty
Tree = frozenset[Group]  # RULES 3.2
Refusal = Optional[tuple[int, int]]  # RULES 7.1: number and place

ROOT = 65535  # RULES 2.2: the root's word
LEAST_SAMPLES, MOST_SAMPLES = 2, 512  # RULES 1.1
MOST_RUNS = 1024  # RULES 1.4
MARK = [65, 82, 66]  # RULES 6.1
VERSION = 1  # RULES 6.1
HEADER = 8  # RULES 6.3: words before the first slot
WHOLE = 100  # RULES 5.1: all runs, in per cent
BY_DEFAULT = 0  # RULES 5.8: what stands for the default threshold
DEFAULT_THRESHOLD = 50  # RULES 5.8
LEAST_THRESHOLD, MOST_THRESHOLD = 50, 100  # RULES 5.7


class Answer(NamedTuple):
    """Number and place, comparing's counts, and the buffers after the call."""

    number: int
    place: int
    counts: Optional[tuple[int, int, int]]
    buffers: list[Words]


class Study(NamedTuple):
    """The samples of a study and its runs in force: identifier to groups."""

    n: int
    runs: dict[int, Tree]


# Answers


def accepted(buffers: list[Words], counts: Optional[tuple[int, int, int]] = None) -> Answer:
    """The answer of a call that did its work."""
    return Answer(0, 0, counts, [list(words) for words in buffers])


def refused(refusal: tuple[int, int], buffers: list[Words]) -> Answer:
    """The answer of a refused call, which changes no word (RULES 7.4)."""
    return Answer(*refusal, None, [list(words) for words in buffers])


def refuse_if(condition: bool, number: int) -> Refusal:
    """The refusal with this number if the condition holds."""
    # RULES 7.3: no place is named.
    return (number, 0) if condition else None


def refuse_at(places: Iterable[int], number: int) -> Refusal:
    """The refusal at the first of these rising places, if there is one."""
    return next(((number, place) for place in places), None)


# Checks of sizes


def size_refusal(n: int) -> Refusal:
    """1: n breaks RULES 1.1."""
    return refuse_if(not LEAST_SAMPLES <= n <= MOST_SAMPLES, 1)


def length_refusal(n: int, *buffers: Words) -> Refusal:
    """3: one of these has a length other than 2n."""
    return refuse_if(any(len(words) != 2 * n for words in buffers), 3)


def identifier_refusal(identifier: int) -> Refusal:
    """4: the identifier is 0."""
    return refuse_if(identifier == 0, 4)


# Checks of a row of 2n words


def parent(row: Words, v: int) -> int:
    """The word for node v (RULES 2.2)."""
    return row[1 + v]


def inner_nodes(n: int, row: Words) -> range:
    """The inner nodes (RULES 1.2)."""
    return range(n, row[0])


def nodes_refusal(n: int, row: Words) -> Refusal:
    """5: m breaks RULES 1.2."""
    return refuse_if(not n + 1 <= row[0] <= 2 * n - 1, 5)


def has_fit_parent(n: int, row: Words, v: int) -> bool:
    """Whether v's parent is an inner node or, for an inner node, 65535."""
    if parent(row, v) in inner_nodes(n, row):
        return True
    return v >= n and parent(row, v) == ROOT


def parent_refusal(n: int, row: Words) -> Refusal:
    """6: the lowest node whose parent does not fit."""
    return refuse_at((v for v in range(row[0]) if not has_fit_parent(n, row, v)), 6)


def root_refusal(n: int, row: Words) -> Refusal:
    """7: there is no root, or more than one."""
    roots = [v for v in inner_nodes(n, row) if parent(row, v) == ROOT]
    return refuse_if(len(roots) != 1, 7)


def filler_refusal(n: int, row: Words) -> Refusal:
    """8: the lowest word of the filler that is not 0 (RULES 2.3)."""
    return refuse_at((i for i in range(1 + row[0], 2 * n) if row[i] != 0), 8)


def reaching_root(row: Words) -> set[int]:
    """The nodes from which the parents reach the root: it, its children, theirs, and so on."""
    children = defaultdict(list)
    for v in range(row[0]):
        children[parent(row, v)].append(v)
    reaching: set[int] = set()
    latest = children[ROOT]
    while latest:
        reaching.update(latest)
        latest = [v for above in latest for v in children[above]]
    return reaching


def climb_refusal(n: int, row: Words) -> Refusal:
    """9: the lowest node, of samples and inner nodes, whose way up misses the root."""
    reaching = reaching_root(row)
    return refuse_at((v for v in range(row[0]) if v not in reaching), 9)


def children_refusal(n: int, row: Words) -> Refusal:
    """10: the lowest inner node with no child at all."""
    parents = {parent(row, v) for v in range(row[0])}
    return refuse_at((v for v in inner_nodes(n, row) if v not in parents), 10)


def row_refusal(n: int, row: Words) -> Refusal:
    """The first of 5 to 10 that a row of 2n words gives."""
    # RULES 7.2: by rising number.
    return (
        nodes_refusal(n, row)
        or parent_refusal(n, row)
        or root_refusal(n, row)
        or filler_refusal(n, row)
        or climb_refusal(n, row)
        or children_refusal(n, row)
    )


# Rows and groups


def node_groups(n: int, row: Words) -> list[Group]:
    """The group of each node of a valid row (RULES 3.1)."""
    below: list[set[int]] = [set() for _ in range(row[0])]
    for sample in range(n):
        v = sample
        while v != ROOT:
            below[v].add(sample)
            v = parent(row, v)
    return [frozenset(samples) for samples in below]


def groups_of(n: int, row: Words) -> Tree:
    """The groups of a valid row (RULES 3.2); those of a chain's nodes are one (RULES 2.5)."""
    return frozenset(node_groups(n, row))


def nontrivial(n: int, tree: Tree) -> Tree:
    """The groups of a tree with more than one sample and fewer than all (RULES 3.3)."""
    return frozenset(group for group in tree if 1 < len(group) < n)


def agree(one: Group, other: Group) -> bool:
    """Whether two groups are in agreement (RULES 3.4)."""
    return one <= other or other <= one or not one & other


def standard_order(tree: Tree) -> list[Group]:
    """The groups of a tree's inner nodes in standard numbering, each once (RULES 4.5)."""
    # RULES 4.1: larger groups first; of equal sizes, the one with the smaller smallest sample.
    inner = (group for group in tree if len(group) > 1)
    return sorted(inner, key=lambda group: (-len(group), min(group)))


def nodes_of(n: int, inner: list[Group]) -> list[Group]:
    """The group of each node by number, the inner ones as listed."""
    return [frozenset([sample]) for sample in range(n)] + inner


def row_in_order(n: int, inner: list[Group]) -> Words:
    """The row of a tree whose inner nodes, from n on, have the groups as listed."""
    number = {group: n + i for i, group in enumerate(inner)}
    by_size = sorted(inner, key=len)
    nodes = nodes_of(n, inner)
    # The parent's group is the smallest that properly contains the node's.
    parents = [next((number[g] for g in by_size if group < g), ROOT) for group in nodes]
    return filled(n, [len(nodes)] + parents)


def row_of(n: int, tree: Tree) -> Words:
    """The row of a tree in standard numbering."""
    return row_in_order(n, standard_order(tree))


def filled(n: int, words: Words) -> Words:
    """These words with filler after them, 2n in all."""
    return words + [0] * (2 * n - len(words))


# Calls on rows


def judge(n: int, row: Words) -> Answer:
    """Whether a row is valid; nothing is written (RULES 7.6)."""
    refusal = size_refusal(n) or length_refusal(n, row) or row_refusal(n, row)
    return refused(refusal, [row]) if refusal else accepted([row])


def renumber(n: int, row: Words, out: Words) -> Answer:
    """A row in standard numbering (RULES 4.4 and 4.5), written to another buffer."""
    refusal = size_refusal(n) or length_refusal(n, row, out) or row_refusal(n, row)
    if refusal:
        return refused(refusal, [row, out])
    return accepted([row, row_of(n, groups_of(n, row))])


def second_refusal(n: int, row: Words) -> Refusal:
    """The refusal of comparing's second row, with 2n added to the place (RULES 7.7)."""
    refusal = row_refusal(n, row)
    return refusal and (refusal[0], refusal[1] + 2 * n)


def compare(n: int, first: Words, second: Words) -> Answer:
    """Counts of groups: those of both rows, of the first alone, of the second alone (RULES 8.1)."""
    # RULES 7.7: n, both lengths, all of the first row, all of the second.
    refusal = (
        size_refusal(n)
        or length_refusal(n, first, second)
        or row_refusal(n, first)
        or second_refusal(n, second)
    )
    if refusal:
        return refused(refusal, [first, second])
    # RULES 8.2: no trivial groups; in a set each counts once, however many nodes have it.
    one, other = nontrivial(n, groups_of(n, first)), nontrivial(n, groups_of(n, second))
    return accepted([first, second], (len(one & other), len(one - other), len(other - one)))


# The study's words


def slot_width(n: int) -> int:
    """How many words a slot has (RULES 6.3)."""
    return 2 * n + 1


def capacity(length: int, n: int) -> int:
    """How many runs a study of this many words can hold (RULES 6.6)."""
    if length < HEADER:
        return 0
    return min(MOST_RUNS, (length - HEADER) // slot_width(n))


def write_study(length: int, study: Study) -> Words:
    """The words of a study, as many as asked for."""
    # RULES 6.1 and 6.2.
    words = MARK + [VERSION, study.n, len(study.runs), 0, 0]
    # RULES 6.4: lowest identifier first.
    for identifier in sorted(study.runs):
        words += [identifier] + row_of(study.n, study.runs[identifier])
    # RULES 6.5: 0 to the end.
    return words + [0] * (length - len(words))


def has_header(words: Words) -> bool:
    """Whether mark, version, n, k, words 6 and 7 and the capacity are right."""
    if len(words) < HEADER or words[:4] != MARK + [VERSION] or words[6:8] != [0, 0]:
        return False
    n, k = words[4], words[5]
    # RULES 1.1 and 1.4.
    if size_refusal(n) or k > MOST_RUNS:
        return False
    # RULES 6.7: there is room for one run, and for k.
    return capacity(len(words), n) >= max(1, k)


@lru_cache(maxsize=64)
def standard_tree(n: int, row: tuple[int, ...]) -> Optional[Tree]:
    """The groups of a row of 2n words, or None if it is not valid or not in standard numbering."""
    words = list(row)
    if row_refusal(n, words):
        return None
    tree = groups_of(n, words)
    # RULES 4.5: a row with a single branch has more nodes than the tree's row.
    return tree if words == row_of(n, tree) else None


def has_identifiers(identifiers: list[int]) -> bool:
    """Whether these are above 0, in rising order, and none stands twice."""
    return 0 not in identifiers and identifiers == sorted(set(identifiers))


def read_study(words: Words) -> Optional[Study]:
    """The study in these words, or None if they are not well formed (RULES 6.7)."""
    if not has_header(words):
        return None
    n, k = words[4], words[5]
    width, end = slot_width(n), HEADER + k * slot_width(n)
    slots = [words[start : start + width] for start in range(HEADER, end, width)]
    # RULES 6.5: 0 to the end.
    if any(words[end:]) or not has_identifiers([slot[0] for slot in slots]):
        return None
    # RULES 6.3 and 6.7: valid rows, in standard numbering, with no single branch.
    trees = [standard_tree(n, tuple(slot[1:])) for slot in slots]
    if None in trees:
        return None
    return Study(n, {slot[0]: tree for slot, tree in zip(slots, trees)})


# Calls on studies


def open_study(n: int, words: Words) -> Answer:
    """A study without runs, if there is room for one (RULES 6.8)."""
    # 3: there is no room for a run.
    refusal = size_refusal(n) or refuse_if(capacity(len(words), n) < 1, 3)
    if refusal:
        return refused(refusal, [words])
    return accepted([write_study(len(words), Study(n, {}))])


def run_refusal(study: Study, room: int, identifier: int, row: Words) -> Refusal:
    """The first of 3 to 12 that a study with this much room gives to one run more."""
    return (
        length_refusal(study.n, row)
        or identifier_refusal(identifier)
        or row_refusal(study.n, row)
        # 11: a run in force has it.
        or refuse_if(identifier in study.runs, 11)
        # 12: the study is full.
        or refuse_if(len(study.runs) == room, 12)
    )


def add(words: Words, identifier: int, row: Words) -> Answer:
    """A run is put into the study."""
    study = read_study(words)
    if study is None:  # 2: not well formed
        return refused((2, 0), [words, row])
    refusal = run_refusal(study, capacity(len(words), study.n), identifier, row)
    if refusal:
        return refused(refusal, [words, row])
    after = {**study.runs, identifier: groups_of(study.n, row)}
    return accepted([write_study(len(words), Study(study.n, after)), row])


def withdraw(words: Words, identifier: int) -> Answer:
    """A run is taken out of the study."""
    study = read_study(words)
    if study is None:  # 2: not well formed
        return refused((2, 0), [words])
    n, runs = study
    # 13: no run in force has it.
    refusal = identifier_refusal(identifier) or refuse_if(identifier not in runs, 13)
    if refusal:
        return refused(refusal, [words])
    after = {other: tree for other, tree in runs.items() if other != identifier}
    return accepted([write_study(len(words), Study(n, after))])


def report(words: Words, p: int, agreed: Words, support: Words) -> Answer:
    """The agreed row and the support row at threshold p, in two buffers (RULES 5.4 and 5.5)."""
    study = read_study(words)
    if study is None:  # 2: not well formed
        return refused((2, 0), [words, agreed, support])
    # RULES 7.8: 16 comes before 14.
    refusal = (
        length_refusal(study.n, agreed, support) or threshold_refusal(p) or empty_refusal(study)
    )
    if refusal:
        return refused(refusal, [words, agreed, support])
    return accepted([words, *reported_rows(study, p)])


def threshold(p: int) -> int:
    """The threshold that p names, in per cent (RULES 5.8)."""
    return DEFAULT_THRESHOLD if p == BY_DEFAULT else p


def threshold_refusal(p: int) -> Refusal:
    """16: p names no threshold that there may be (RULES 5.7)."""
    return refuse_if(not LEAST_THRESHOLD <= threshold(p) <= MOST_THRESHOLD, 16)


def empty_refusal(study: Study) -> Refusal:
    """14: no run is in force."""
    return refuse_if(len(study.runs) == 0, 14)


def reported_rows(study: Study, p: int) -> list[Words]:
    """The agreed row and the support row of a study with runs in force."""
    n, k = study.n, len(study.runs)
    holders = holders_of(study.runs)
    tree = shown(holders, k, p)
    return [row_of(n, tree), support_row(n, tree, holders, k)]


def holders_of(runs: dict[int, Tree]) -> Counter[Group]:
    """How many runs hold each group."""
    return Counter(group for tree in runs.values() for group in tree)


def is_shown(held: int, k: int, p: int) -> bool:
    """Whether a group that this many of k runs hold is shown at threshold p (RULES 5.1)."""
    # RULES 5.2: the threshold itself is not enough, unless all runs hold the group.
    return WHOLE * held > threshold(p) * k or held == k


def shown(holders: Counter[Group], k: int, p: int) -> Tree:
    """The groups of the agreed tree."""
    return frozenset(group for group, held in holders.items() if is_shown(held, k, p))


def support_row(n: int, tree: Tree, holders: Counter[Group], k: int) -> Words:
    """The support of each node of a tree in standard numbering."""
    # RULES 5.5: k, then a count for each node.
    nodes = nodes_of(n, standard_order(tree))
    return filled(n, [k] + [holders[group] for group in nodes])
