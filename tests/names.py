"""Every name in backquotes in docs/PROMISES.md exists here (a definition, law, function, crate, file or must-fail edit), and the page names every edit.

python3 tests/names.py    says where that is not so; its status is then 1
"""

import re
import sys
from pathlib import Path

TOP = Path(__file__).resolve().parent.parent
PAGE = "docs/PROMISES.md"
PARTS = ("src", "specs", "proofs")  # of a crate
WORD = r"[^\s(){}\[\].,;:⌜⌝λ·]+"  # a name in the crates
ROOTS = [TOP, TOP / "crates", TOP / "tests" / "second", TOP / "crates" / "replay"]


def known_words() -> set[str]:
    """Every word of the crates' sources, and the crates' names."""
    sources = [path.read_text() for part in PARTS for path in TOP.glob(f"crates/*/{part}/**/*") if path.suffix in {".rt", ".antt"}]
    return set(re.findall(WORD, "\n".join(sources))) | {path.name for path in (TOP / "crates").iterdir()}


def edits() -> set[str]:
    """The must-fail edits, as `crate/edit`."""
    return {f"{path.parent.parent.name}/{path.stem}" for path in TOP.glob("crates/*/must-fail/*.edit")}


def is_file(name: str) -> bool:
    """Whether a name, or a command's last word that is one, is a file or folder, `.antt` left out or not."""
    paths = [word for word in name.split() if "/" in word or "." in word] or [name]
    return all(any((root / (path + end)).exists() for root in ROOTS for end in ("", ".antt")) for path in paths)


def main() -> int:
    """Compares the page with the repository."""
    words, named = known_words(), edits()
    found = [name for name in re.findall(r"`([^`]+)`", (TOP / PAGE).read_text())]
    strange = [name for name in found if name not in named and not is_file(name) and not set(re.findall(WORD, name)) <= words]
    for name in strange:
        print(f"{PAGE}: the repository has no {name}")
    unnamed = sorted(named - set(found))
    for edit in unnamed:
        print(f"{PAGE}: no line names the edit {edit}")
    return 1 if strange or unnamed else 0


if __name__ == "__main__":
    sys.exit(main())
