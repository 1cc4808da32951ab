"""The calls that are stored and those made at random, op by op."""

from __future__ import annotations

import argparse
from random import Random
from typing import Callable, Iterator, NamedTuple

import calls_candidates
import calls_compare
import calls_judge
import calls_last_checks
import calls_newick_read
import calls_newick_write
import calls_nontrivial
import calls_renumber
import calls_report
import calls_single_branches
import calls_studies
from calls import ADD, COMPARE, JUDGE, OPEN, READ, RENUMBER, REPORT, WITHDRAW, WRITE, Call


class Material(NamedTuple):
    """The calls of one op: those stored, in order, and random ones without end."""

    op: int
    stored: Callable[[Random], Iterator[Call]]
    random: Callable[[Random], Iterator[Call]]


def endless(make: Callable[[Random], Call]) -> Callable[[Random], Iterator[Call]]:
    """Calls without end, each made at random."""

    def makes(rng: Random) -> Iterator[Call]:
        while True:
            yield make(rng)

    return makes


def appended(rng: Random) -> Iterator[Call]:
    """Nothing: what is stored of the op is all among the calls appended."""
    return iter([])


# The ops whose calls are stored.
MATERIAL = [
    Material(JUDGE, calls_judge.stored, endless(calls_judge.at_random)),
    Material(RENUMBER, calls_renumber.stored, endless(calls_renumber.at_random)),
    Material(COMPARE, calls_compare.stored, endless(calls_compare.at_random)),
    Material(OPEN, calls_studies.stored_open, calls_studies.random_open),
    Material(ADD, calls_studies.stored_add, calls_studies.random_add),
    Material(WITHDRAW, calls_studies.stored_withdraw, calls_studies.random_withdraw),
    Material(REPORT, calls_report.stored, calls_report.random),
    Material(READ, appended, endless(calls_newick_read.at_random)),
    Material(WRITE, appended, endless(calls_newick_write.at_random)),
]

# Those whose calls are not stored yet: a line moved from here to there stores them.
LATER: list[Material] = []

# Calls stored behind all of these, in this order: what was stored before stays the first bytes.
APPENDED: list[Callable[[], Iterator[Call]]] = [
    calls_last_checks.stored,
    calls_nontrivial.stored,
    calls_newick_read.stored,
    calls_newick_write.stored,
    calls_single_branches.stored,
    calls_candidates.stored,
]

SEED = 20250  # with the op's number added, so that no op's calls depend on another's


def active() -> list[int]:
    """The ops whose calls are stored."""
    return [material.op for material in MATERIAL]


def known_ops(text: str) -> list[int]:
    """The ops of a list such as 5,6; only those with material."""
    ops = [int(part) for part in text.split(",")]
    unknown = set(ops) - {material.op for material in MATERIAL + LATER}
    if unknown:
        raise argparse.ArgumentTypeError(f"no calls are made for op {min(unknown)}")
    return ops


def material_of(ops: list[int]) -> list[Material]:
    """The material of these ops, in the order of the lists."""
    return [material for material in MATERIAL + LATER if material.op in ops]


def stored_calls(ops: list[int]) -> Iterator[Call]:
    """All calls of these ops that are stored, in their order: op by op, then those appended."""
    for material in material_of(ops):
        yield from material.stored(Random(SEED + material.op))
    for stored in APPENDED:
        yield from (call for call in stored() if call.op in ops)


def random_calls(rng: Random, ops: list[int], count: int) -> Iterator[Call]:
    """This many random calls of these ops."""
    streams = [material.random(rng) for material in material_of(ops)]
    for _ in range(count):
        yield next(rng.choice(streams))
