"""What the listing program prints for a file: bytes in, bytes out.

"RULES 9.1" is a rule of docs/RULES.md.
"""

from __future__ import annotations

from typing import NamedTuple, Optional

import rules
from calls import from_bytes
from rules import ROOT, Study, Words

SHORTEST, LONGEST = 9, 65529  # RULES 9.3, in bytes
MARK = b"ARB"  # RULES 9.1
STUDY_WORDS = 32768  # RULES 9.2


class File(NamedTuple):
    """n, and the words of each slot in file order."""

    n: int
    slots: list[Words]


def read_file(data: bytes) -> Optional[File]:
    """What a file holds, or None if it is a bad file."""
    if not SHORTEST <= len(data) <= LONGEST or data[:3] != MARK:
        return None
    # RULES 9.1: what stands before the slots.
    version, n, k = from_bytes(data[3:9])
    width = rules.slot_width(n)
    # RULES 9.3: n and k give the length.
    if version != rules.VERSION or len(data) != 9 + 2 * k * width:
        return None
    words = from_bytes(data[9:])
    return File(n, [words[i * width : (i + 1) * width] for i in range(k)])


def listed(data: bytes) -> bytes:
    """All that the program writes."""
    # RULES 9.3: 15 is looked for first.
    file = read_file(data)
    if file is None:
        return refused_line((15, 0))
    refusal = rules.size_refusal(file.n)
    if refusal:
        return refused_line(refusal)
    # RULES 9.2: slot after slot, then the report.
    study, room = Study(file.n, {}), rules.capacity(STUDY_WORDS, file.n)
    for position, (identifier, *row) in enumerate(file.slots):
        refusal = rules.run_refusal(study, room, identifier, row)
        if refusal:
            return refused_line(refusal, position)
        study.runs[identifier] = rules.groups_of(file.n, row)
    refusal = rules.empty_refusal(study)
    return refused_line(refusal) if refusal else tree_lines(study)


def refused_line(refusal: tuple[int, int], position: int = 0) -> bytes:
    """The line of a refusal: its number, which slot it was or 0, its place (RULES 9.7)."""
    number, place = refusal
    return f"refused {number} {position} {place}\n".encode()


def tree_lines(study: Study) -> bytes:
    """The listing of the agreed tree."""
    agreed, support = rules.reported_rows(study, rules.BY_DEFAULT)
    groups = rules.nodes_of(study.n, rules.standard_order(rules.groups_of(study.n, agreed)))
    # RULES 9.4.
    lines = [["ARB", rules.VERSION, study.n, len(study.runs)]]
    # RULES 9.5: a line for each inner node.
    for v in rules.inner_nodes(study.n, agreed):
        above = rules.parent(agreed, v)
        lines.append([v, "-" if above == ROOT else above, support[1 + v], *sorted(groups[v])])
    # RULES 9.6.
    return "".join(" ".join(map(str, fields)) + "\n" for fields in lines).encode()


def number_in(output: bytes) -> int:
    """The number of the refusal in an output, 0 for a listing."""
    return int(output.split()[1]) if output.startswith(b"refused ") else 0
