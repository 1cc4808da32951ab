#!/usr/bin/env python3
"""Brings the repository's own definitions and lemmas to the kit's spelling: words in snake case, parted by underscores.

python3 tools/respell.py [TOP]    once, after the kit's port.py, at the top of the repository (or of a copy in TOP)

Turned are the names that specs/ and proofs/ declare, wherever they stand: in antt, in the ghost text of src/, and between backquotes in comments
and pages. Functions of src/, types, strings, inputs and outputs keep their names, and so do must-fail edits, which are turned by hand. A name that
would meet another keeps its dashes. It prints each old name and its new one.
"""

from __future__ import annotations

import re
import sys
from pathlib import Path

TOKEN = re.compile(r'[^\s(){}.;,@"`:]+|[:]')
HUMP = re.compile(r"(?<=[a-z0-9])([A-Z])")
DECLARED = re.compile(r'^( *)(?:(?:pub|abbrev|unfoldable) +)*(?:(?:data|record|ruleset) +)?([^\s(){}.;,@"]+)(?: [({].*?[)}])* :(?: |$)')


def snake(word: str) -> str:
    """A word in snake case; words in capitals at its start are types, and stay."""
    return word if word[:1].isupper() else HUMP.sub(lambda m: "_" + m[1].lower(), word)


def sources(top: Path) -> list[Path]:
    """The texts of the crates, but for must-fail edits."""
    return sorted(path for path in top.glob("crates/*/*/**/*") if path.suffix in {".antt", ".rt"} and "out" not in path.parts)


def own_files(paths: list[Path]) -> list[Path]:
    """Files of definitions and lemmas: those that the proof of a function has in its folder are not theirs."""
    return [path for path in paths if path.suffix == ".antt" and (path.parent.name in {"specs", "proofs"})]


def code(line: str) -> str:
    """A line without its comment."""
    return "" if line.lstrip().startswith("--") else line


def declared(paths: list[Path]) -> set[str]:
    """The names that the crates' own files declare."""
    matches = (DECLARED.match(code(line)) for path in own_files(paths) for line in path.read_text().splitlines())
    return {match[2] for match in matches if match}


def humped(paths: list[Path]) -> set[str]:
    """The names of arguments that are in camel case."""
    lines = (code(line) for path in own_files(paths) for line in path.read_text().splitlines())
    return {word for line in lines for word in TOKEN.findall(line) if HUMP.search(word) and word[0].islower() and "-" not in word}


def parts(name: str) -> list[str]:
    """The parts of a name, each in snake case."""
    return [snake(part) for part in name.replace("getD", "get_or").split("-")]


def renamings(top: Path) -> dict[str, str]:
    """Each name that changes, with its new spelling; names that would fall together keep their dashes."""
    paths = sources(top)
    own = declared(paths)
    every = {word for path in paths if path.suffix == ".antt" for line in path.read_text().splitlines() for word in TOKEN.findall(code(line))}
    wanted = {name: "_".join(parts(name)) for name in sorted(own | humped(paths)) if not name[0].isupper() and name.isprintable()}
    wanted = {old: new for old, new in wanted.items() if old != new}
    for old in sorted(wanted):
        others = [other for other in wanted if other != old and wanted[other] == wanted[old]]
        if others or wanted[old] in every:
            kept = "-".join(parts(old))
            print(f"look: {old} would meet {', '.join(others) or 'a name that is there'} as {wanted[old]}: {kept}")
            wanted[old] = kept
    return {old: new for old, new in wanted.items() if old != new}


def turned_word(line: str, match: re.Match[str], new: dict[str, str], fields: set[str], proof: bool) -> str:
    """A word of a line in its new spelling. In the proof of a function a word behind a dot is the kit's, unless it is a field of ours."""
    word = match[0]
    behind_dot = match.start() > 0 and line[match.start() - 1] == "."
    if proof and behind_dot and word not in fields:
        return word
    return new.get(word, word)


def turned_line(line: str, new: dict[str, str], fields: set[str], proof: bool, comment: str) -> str:
    """A line in its new spelling; in a comment only what stands between backquotes, and names in camel case."""
    stripped = line.lstrip()
    if stripped.startswith(comment):
        quoted = re.sub(r"`[^`]*`", lambda q: TOKEN.sub(lambda m: new.get(m[0], m[0]), q[0]), line)
        return TOKEN.sub(lambda m: new.get(m[0], m[0]) if HUMP.search(m[0]) else m[0], quoted)
    return TOKEN.sub(lambda m: turned_word(line, m, new, fields, proof), line)


def record_fields(paths: list[Path]) -> set[str]:
    """The fields of the records that the crates declare."""
    found = set()
    for path in own_files(paths):
        inside = False
        for line in path.read_text().splitlines():
            if re.match(r" *(?:pub )?record ", line):
                inside = True
            elif inside and (field := re.match(r" +pub (\S+) :", line)):
                found.add(field[1])
            elif line and not line.startswith((" ", "--")):
                inside = False
    return found


def main(top: Path) -> int:
    """Turns the crates and the pages."""
    new = renamings(top)
    paths = sources(top)
    fields = record_fields(paths)
    for path in paths:
        text = path.read_text()
        proof = path.suffix == ".antt" and path not in own_files([path])
        comment = "--" if path.suffix == ".antt" else "//"
        lines = [turned_line(line, new, fields, proof, comment) for line in text.split("\n")]
        if (turned := "\n".join(lines)) != text:
            path.write_text(turned)
    for page in sorted([top / "README.md", *(top / "docs").glob("*.md")]):
        text = page.read_text()
        turned = re.sub(r"`[^`\n]*`", lambda q: TOKEN.sub(lambda m: new.get(m[0], m[0]), q[0]), text)
        if turned != text:
            page.write_text(turned)
    for old, name in sorted(new.items()):
        print(f"{old} {name}")
    return 0


if __name__ == "__main__":
    sys.exit(main(Path(sys.argv[1] if len(sys.argv) > 1 else ".")))
