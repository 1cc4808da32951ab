"""Every must-fail edit fits: each text that it replaces stands in its file, once. `rt must-fail` and `rt ci` try the edits, and would tell only then.

python3 tests/edits.py    says where that is not so; its status is then 1
"""

from __future__ import annotations

import sys
from pathlib import Path
from typing import Iterator, NamedTuple

TOP = Path(__file__).resolve().parent.parent
PARTS = ("src", "specs", "proofs")  # of a crate


class Replacement(NamedTuple):
    """A text in a file of the crate, and the text that takes its place."""

    file: str
    old: str
    new: str


def replacements(edit: Path) -> Iterator[Replacement]:
    """What an edit replaces, in order; a `file:` line holds for the pairs after it, and other lines are comments."""
    file = old = ""
    for line in edit.read_text().splitlines():
        kind, _, rest = line.partition(":")
        rest = rest.removeprefix(" ")
        if kind == "file":
            file = rest
        elif kind == "old":
            old = rest
        elif kind == "new":
            yield Replacement(file, old, rest)


def changed(edit: Path) -> tuple[dict[str, str], list[str]]:
    """The files that an edit changes, as they are after it, and what is wrong with it."""
    texts: dict[str, str] = {}
    wrong = []
    for file, old, new in replacements(edit):
        path = edit.parent.parent / file
        if file.partition("/")[0] not in PARTS or not path.is_file():
            wrong.append(f"the crate has no file {file}")
            continue
        text = texts.get(file, path.read_text())
        if not old or text.count(old) != 1:
            wrong.append(f"{file} has this text {text.count(old)} times: {old.strip()}")
        texts[file] = text.replace(old, new)
    return texts, wrong if texts else wrong or ["it replaces nothing"]


def edits() -> list[Path]:
    """All edits, by crate and name."""
    return sorted(TOP.glob("crates/*/must-fail/*.edit"))


def main() -> int:
    """Looks at every edit."""
    wrong = [f"{edit.relative_to(TOP)}: {what}" for edit in edits() for what in changed(edit)[1]]
    print("\n".join(wrong), end="\n" if wrong else "")
    return 1 if wrong else 0


if __name__ == "__main__":
    sys.exit(main())
