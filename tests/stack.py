"""Measures the stack that each public call takes (tests/c/stack.c), and holds the bounds that the pages state against it.

python3 tests/stack.py    its last line is 'N passed, M failed'; its status is 0 only if M is 0 and N is not
"""

from __future__ import annotations

import re
import subprocess
import sys

sys.dont_write_bytecode = True

from trials import TOP, Trials, run  # noqa: E402

CALLS = ["open", "add", "withdraw", "report", "judge", "renumber", "compare", "read_newick", "write_newick", "write_newick_supports"]
PERFORMANCE, USING, HEADER = "docs/PERFORMANCE.md", "docs/USING.md", "include/arb.h"
BOUND, MEASURED = "stack at most, bytes", "measured"  # heads of columns
IN_HEADER = r"Stack: ([\d,]+) bytes\. \*/\s*uint64_t arb_(\w+)\("  # the end of a call's comment, and the call
# A bound may lie above what was measured as far as the next multiple of a step. That of judging is exact: the stack moves by 8 bytes.
STEPS = {"judge": 8, "open": 64}
OTHER_STEP = 1024


def rounded_up(call: str, count: int) -> int:
    """The highest bound that a call may have where so many bytes were measured."""
    step = STEPS.get(call, OTHER_STEP)
    return -(-count // step) * step


def number(text: str) -> int:
    """A number of a page, as 1,024."""
    return int(text.replace(",", ""))


def section(page: str, title: str) -> list[str]:
    """The lines of a section."""
    _, _, rest = (TOP / page).read_text().partition(f"\n## {title}\n")
    return rest.partition("\n## ")[0].splitlines()


def column(page: str, title: str, head: str) -> dict[str, int]:
    """What the section's table has for each call in the column with this head."""
    rows = [[cell.strip(" `") for cell in line.split("|")[1:]] for line in section(page, title) if line.startswith("|")]
    at = next((row.index(head) for row in rows if head in row), 0)
    return {row[0]: number(row[at]) for row in rows if row[0] in CALLS and at}


def header() -> dict[str, int]:
    """The bound that the header has with each call."""
    return {call: number(bound) for bound, call in re.findall(IN_HEADER, (TOP / HEADER).read_text())}


def measure(trials: Trials) -> dict[str, int]:
    """The bytes of each call, as the program says."""
    program = TOP / "target" / "c" / "stack"
    built = subprocess.run([TOP / "tests" / "build-c", TOP / "tests" / "c" / "stack.c", program, "-pedantic"], check=False)
    trials.expect("the program is built", 0, built.returncode)
    status, out, err = run(TOP / "tests" / "run-program", program)
    failed = list(dict.fromkeys(re.findall(r"failed: (.*)", out)))
    trials.expect("every call answered as expected", (0, [], ""), (status, failed, err))
    return {name: int(count) for name, count in re.findall(r"^(\w+) (\d+)$", out, re.MULTILINE)}


def test_bound(trials: Trials, call: str, where: str, taken: int, bound: int) -> None:
    """So many bytes are within the call's bound, and the bound is close to them."""
    most = rounded_up(call, taken)
    trials.expect(f"{call}{where}: {taken} bytes are within the bound of {bound}", True, taken <= bound)
    trials.expect(f"{call}{where}: the bound of {bound} is no more than {most}, for {taken} bytes", True, bound <= most)


def test_tables(trials: Trials, taken: dict[str, int]) -> None:
    """The bound of each call, the same in both pages and in the header; and what one page says was measured."""
    bounds, written = column(PERFORMANCE, "Stack", BOUND), column(PERFORMANCE, "Stack", MEASURED)
    for what, known in (("bounds", bounds), ("measured bytes", written), ("bytes that the program says", taken)):
        trials.expect(f"{what} of every call", sorted(CALLS), sorted(known))
    trials.expect(f"the bounds of {USING}", bounds, column(USING, "Sizes and costs", BOUND))
    trials.expect(f"the bounds of {HEADER}", bounds, header())
    for call in CALLS:
        test_bound(trials, call, "", taken.get(call, 0), bounds.get(call, 0))
        test_bound(trials, call, f", as {PERFORMANCE} says", written.get(call, 0), bounds.get(call, 0))


def main() -> int:
    """Runs every test; the status."""
    trials = Trials()
    test_tables(trials, measure(trials))
    return trials.end()


if __name__ == "__main__":
    sys.exit(main())
