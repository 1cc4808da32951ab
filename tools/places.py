"""Where src/ could be written otherwise: the places of docs/DESIGN-PASS.md, point by point, as text search finds them.

python3 tools/places.py [TOP] [-v]    counts for each point over TOP/crates/*/src (default: this repository); -v prints each place
"""

from __future__ import annotations

import re
import sys
from collections import defaultdict
from pathlib import Path

WORD = re.compile(r"[A-Za-z_]\w*|\d+|\S")
KEPT = set("fn pub let mut if else while for loop match return in as true false Ok Err Some None usize u8 u16 u32 u64 bool self".split())


class Function:
    """A function of src/: where it stands, its parameters, its clauses, its body."""

    def __init__(self, where: str, name: str, parameters: str, clauses: str, body: str):
        self.where, self.name, self.parameters, self.clauses, self.body = where, name, parameters, clauses, body


def functions(path: Path, where: str) -> list[Function]:
    text = re.sub(r"//.*", "", path.read_text())
    found = []
    for m in re.finditer(r"\bfn (\w+)(?:<[^(]*>)?\(", text):
        at, depth = m.end(), 1
        while depth:
            depth += {"(": 1, ")": -1}.get(text[at], 0)
            at += 1
        head = text[m.end() : at - 1]
        opening = re.compile(r"^ *\{$", re.M).search(text, at) or re.compile(r"\{").search(text, at)
        same_line = re.compile(r"[^\n]*\{\n").match(text, at)
        start = same_line.end() if same_line else opening.end()
        clauses = text[at : start]
        end, depth = start, 1
        while depth:
            depth += {"{": 1, "}": -1}.get(text[end], 0)
            end += 1
        line = text.count("\n", 0, m.start()) + 1
        found.append(Function(f"{where}:{line}", m[1], head, clauses, text[start : end - 1]))
    return found


def shape(body: str) -> str:
    return " ".join(w if w in KEPT or not re.match(r"\w", w) else "x" for w in WORD.findall(body))


def loops(f: Function) -> list[str]:
    """Loops that count an index by hand: a while whose condition has a word that its body counts up or down by one."""
    found = []
    for m in re.finditer(r"\bwhile ([^{]*)\{", f.body):
        at, depth = m.end(), 1
        while depth:
            depth += {"{": 1, "}": -1}.get(f.body[at], 0)
            at += 1
        counted = set(re.findall(r"\b(\w+) [+-]= 1;", f.body[m.end() : at]))
        if counted & set(re.findall(r"\w+", m[1])):
            found.append(f"{f.where} {f.name}: while {m[1].strip()}")
    return found


def conjuncts(f: Function) -> set[str]:
    """The facts of its requires, each parameter in them replaced by its type."""
    types = {n: t.strip() for n, t in re.findall(r"(\w+): ([^,]+)", f.parameters)}
    facts = set()
    for clause in re.findall(r"requires[^{]*\{(.*?)\}\n", f.clauses, re.S):
        for fact in re.split(r" × ", " ".join(clause.split())):
            facts.add(re.sub(r"\b(\w+)(\.\w+)?", lambda m: f"<{types[m[1]]}>{m[2] or ''}" if m[1] in types else m[0], fact.strip(" ()")))
    return facts


def main() -> None:
    words = [w for w in sys.argv[1:] if w != "-v"]
    top = Path(words[0]) if words else Path(__file__).resolve().parent.parent
    places: dict[str, list[str]] = defaultdict(list)
    every: list[Function] = []
    for path in sorted(top.glob("crates/*/src/*.rt")):
        where = f"{path.parent.parent.name}/{path.name}"
        lines = path.read_text().splitlines()
        for k, line in enumerate(lines, 1):
            at = f"{where}:{k} {line.strip()}"
            if re.match(r"(pub(\(crate\))? )?enum ", line):
                places["1 enums"].append(at)
            if re.match(r"\s+(pub )?\w+: bool,$", line):
                places["1 flags in a struct"].append(at)
            if re.match(r"\s*(pub(\(crate\))? )?const \w+: (u8|u16|usize) = \d+;", line):
                places["1 numbers with a name"].append(at)
            if re.search(r"let (Answer::Accepted|Progress::Reached\(\w*\)|Told::Ready\(.*\)) = ", line):
                places["1 answers taken apart where ? would do"].append(at)
            if re.search(r"\b(wide|wide_byte|word_of|lesser|larger|low)\(", line) and " fn " not in f" {line}":
                places["4 conversions and lesser or larger by a function of our own"].append(at)
            if re.search(r"\[(u8|u16|bool|usize); \w+\]", line) and "type" not in line:
                places["6 arrays by their bare type"].append(at)
            if re.search(r"\bmatch \w+ \{$", line):
                places["7 matches"].append(at)
        every += functions(path, where)
    shapes: dict[str, list[Function]] = defaultdict(list)
    facts: dict[str, list[Function]] = defaultdict(list)
    together: dict[tuple, list[Function]] = defaultdict(list)
    for f in every:
        places["3 loops by hand"] += loops(f)
        if f.body.count(";") + f.body.count("{") > 1:
            shapes[shape(f.body)].append(f)
        for fact in conjuncts(f):
            facts[fact].append(f)
        tables = re.findall(r"(\w+): &(?:mut )?(?:Table|\[bool; TABLE\]|Marks)\b", f.parameters)
        if len(tables) > 2:
            places["6 functions with three tables or more"].append(f"{f.where} {f.name}: {', '.join(tables)}")
        if f.parameters.count(":") > 7:
            places["5 functions with eight parameters or more"].append(f"{f.where} {f.name}")
    for same in shapes.values():
        if len(same) > 1:
            places["2 functions of one shape"].append(", ".join(f"{f.where} {f.name}" for f in same))
    for fact, stated in sorted(facts.items(), key=lambda p: -len(p[1])):
        if len(stated) > 2:
            places["5 facts in three requires or more"].append(f"{len(stated)} times {fact}: {', '.join(f.name for f in stated)}")
    for point in sorted(places):
        print(f"{len(places[point]):4}  {point}")
        if "-v" in sys.argv:
            print("".join(f"        {place}\n" for place in places[point]), end="")


if __name__ == "__main__":
    main()
