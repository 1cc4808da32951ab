"""Runs ./list: what it lists, what it says of a file that is refused, its statuses, and when it builds the program.

python3 tests/list.py    its last line is 'N passed, M failed'; its status is 0 only if M is 0 and N is not

What is refused, with which number, slot and place, follows docs/RULES.md by hand.
"""

from __future__ import annotations

import os
import shutil
import struct
import subprocess
import sys
import tempfile
from pathlib import Path

sys.dont_write_bytecode = True

from trials import TOP, Came, Trials, run  # noqa: E402

LIST = TOP / "list"
NAME = "a file.arb"
ROOT = 65535

# Files


def words(*numbers: int) -> bytes:
    """16-bit numbers, the low byte first."""
    return struct.pack(f"<{len(numbers)}H", *numbers)


def head(n: int, k: int, version: int = 1) -> bytes:
    """What stands before the slots."""
    return b"ARB" + words(version, n, k)


def file_of(n: int, *slots: tuple[int, ...]) -> bytes:
    """The file of these slots."""
    return head(n, len(slots)) + b"".join(words(*slot) for slot in slots)


# The three runs of section 10, and their listing.
CASE = file_of(
    5,
    (1, 8, 7, 7, 6, 5, 5, ROOT, 5, 6, 0),
    (2, 8, 6, 6, 6, 7, 7, ROOT, 5, 5, 0),
    (3, 9, 7, 7, 5, 8, 8, ROOT, 5, 6, 6),
)
LISTING = "ARB 1 5 3\n5 - 3 0 1 2 3 4\n6 5 2 0 1 2\n7 6 2 0 1\n8 5 2 3 4\n"
LISTED = Came(0, LISTING)

# Slots over three samples, the trees ((0,1),2) and ((0,2),1), and ((0),1,2) with a node above one sample; and over two the only tree.
ONE = (7, 5, 4, 4, 3, ROOT, 3)
TWO = (8, 5, 4, 3, 4, ROOT, 3)
SINGLE = (9, 5, 4, 3, 3, ROOT, 3)
PAIRS = [(identifier, 3, 2, 2, ROOT) for identifier in range(1, 6553)]

# Files that are refused: what `refused` says of them, and what is said in words.
REFUSED = [
    ("1 0 0", file_of(1, (1, 2, 1)), "n is 1; it has to be 2 to 512"),
    ("1 0 0", head(513, 0), "n is 513; it has to be 2 to 512"),
    ("4 0 0", file_of(3, (0, *ONE[1:])), "slot 0 (the 1st run): its identifier is 0; it has to be 1 to 65535"),
    ("5 1 0", file_of(3, ONE, (9, 6, 4, 4, 3, ROOT, 3)), "slot 1 (the 2nd run): m, the number of nodes, is 6; for n = 3 it has to be 4 to 5"),
    ("5 0 0", file_of(2, (9, 2, 2, 2, ROOT)), "slot 0 (the 1st run): m, the number of nodes, is 2; for n = 2 it has to be 3"),
    ("6 1 0", file_of(3, ONE, (9, 5, 2, 3, 3, ROOT, 3)), "slot 1 (the 2nd run), node 0: its parent is 2; it has to be an inner node (3 to 4)"),
    ("6 0 2", file_of(3, (9, 4, 3, 3, ROOT, ROOT, 0)), "slot 0 (the 1st run), node 2: its parent is 65535; it has to be an inner node (3)"),
    (
        "6 0 4",
        file_of(3, (9, 5, 4, 4, 3, ROOT, 5)),
        "slot 0 (the 1st run), node 4: its parent is 5; it has to be an inner node (3 to 4), or 65535 for the root",
    ),
    ("7 0 0", file_of(3, (9, 5, 4, 4, 3, ROOT, ROOT)), "slot 0 (the 1st run): 2 inner nodes have the parent 65535; exactly one has to, the root"),
    ("7 0 0", file_of(3, (9, 5, 4, 4, 3, 4, 3)), "slot 0 (the 1st run): no inner node has the parent 65535; exactly one has to, the root"),
    (
        "8 0 5",
        file_of(3, (9, 4, 3, 3, 3, ROOT, 7)),
        "slot 0 (the 1st run), word 5 of its row: it is 7; every word after the last node's has to be 0",
    ),
    ("9 2 4", file_of(3, ONE, TWO, (9, 5, 3, 3, 3, ROOT, 4)), "slot 2 (the 3rd run), node 4: its parents never reach the root"),
    (
        "10 3 4",
        file_of(3, ONE, TWO, SINGLE, (10, 5, 3, 3, 3, ROOT, 3)),
        "slot 3 (the 4th run), node 4: it has no child; an inner node has to have one or more",
    ),
    ("11 2 0", file_of(3, ONE, TWO, ONE), "slot 2 (the 3rd run): its identifier, 7, is already that of slot 0 (the 1st run)"),
    ("11 12 0", file_of(2, *PAIRS[:12], PAIRS[10]), "slot 12 (the 13th run): its identifier, 11, is already that of slot 10 (the 11th run)"),
    ("12 1024 0", file_of(2, *PAIRS[:1025]), "slot 1024 (the 1,025th run): there is no room for it; at most 1,024 runs are in force at once"),
    ("12 1024 0", file_of(2, *PAIRS), "slot 1024 (the 1,025th run): there is no room for it; at most 1,024 runs are in force at once"),
    ("14 0 0", head(5, 0), "k is 0: without runs there is no tree to list"),
    ("15 0 0", b"", "the length is wrong: 0 bytes; mark, version, n and k take 9"),
    ("15 0 0", head(5, 0)[:8], "the length is wrong: 8 bytes; mark, version, n and k take 9"),
    ("15 0 0", b"arb" + CASE[3:], "the mark is wrong: 61 72 62; it has to be 41 52 42 (ARB)"),
    ("15 0 0", head(5, 0, 256), "the version is wrong: 256; it has to be 1"),
    ("15 0 0", file_of(2, *PAIRS) + b"\0", "the length is wrong: 65,530 bytes; at most 65,529 are allowed"),
    ("15 0 0", file_of(2, *PAIRS, *PAIRS), "the length is wrong: 131,049 bytes; at most 65,529 are allowed"),
    ("15 0 0", CASE[:-1], "the length is wrong: 74 bytes; for n = 5 and k = 3 it has to be 75, which is 9 + 2k(2n+1)"),
    ("15 0 0", CASE + b"\n", "the length is wrong: 76 bytes; for n = 5 and k = 3 it has to be 75, which is 9 + 2k(2n+1)"),
    (
        "15 0 0",
        head(65535, 65535),
        "the length is wrong: 9 bytes; for n = 65535 and k = 65535 it has to be 17,179,475,979, which is 9 + 2k(2n+1)",
    ),
]


def test_refusals(trials: Trials, folder: Path) -> None:
    """Every number that a file can give, in figures and in words."""
    for line, data, sentence in REFUSED:
        (folder / NAME).write_bytes(data)
        expected = Came(1, f"refused {line}\n", f"list: {NAME}: {sentence}\n")
        trials.expect(f"refused {line}", expected, run(LIST, NAME, folder=folder))


def test_inputs(trials: Trials, folder: Path) -> None:
    """Files from any folder, standard input, and what cannot be read."""
    inner = folder / "in ner"
    inner.mkdir()
    (folder / NAME).write_bytes(CASE)
    (inner / "list").symlink_to(LIST)
    trials.expect("a file", LISTED, run(LIST, NAME, folder=folder))
    trials.expect("a file of the folder above", LISTED, run(LIST, f"../{NAME}", folder=inner))
    trials.expect("a file by its whole name", LISTED, run(LIST, folder / NAME, folder=inner))
    trials.expect("list by a link", LISTED, run("./list", f"../{NAME}", folder=inner))
    trials.expect("standard input", LISTED, run(LIST, "-", given=CASE))
    trials.expect("a single branch", Came(0, "ARB 1 3 1\n3 - 1 0 1 2\n"), run(LIST, "-", given=file_of(3, SINGLE)))
    too_long = "list: standard input: the length is wrong: more than 65,529 bytes; at most 65,529 are allowed\n"
    trials.expect("standard input without end", Came(1, "refused 15 0 0\n", too_long), run(LIST, "-", given=head(2, 6553) + bytes(999999)))
    for name, reason in (("in ner", "Is a directory"), ("none", "No such file or directory"), ("/proc/self/mem", "Input/output error")):
        trials.expect(f"{name} is not read", Came(2, "", f"list: cannot read {name}: {reason}\n"), run(LIST, name, folder=folder))


def test_arguments(trials: Trials) -> None:
    """Help on standard output, and usage on standard error for wrong arguments."""
    for word in ("-h", "--help"):
        status, out, err = run(LIST, word)
        lines = out.splitlines()
        trials.expect(word, (0, "usage: list FILE", ""), (status, lines[0], err))
        trials.expect(f"{word} has the statuses", list("01234"), [line.split()[0] for line in lines if line[2:3].isdigit()])
    for arguments in ([], ["one", "two"], ["--what"]):
        trials.expect(f"arguments {arguments}", Came(2, "", "usage: list FILE    (list --help says more)\n"), run(LIST, *arguments))


def test_failed_writes(trials: Trials, folder: Path) -> None:
    """A full device, a pipe that nobody reads, and no standard output at all."""
    (folder / NAME).write_bytes(CASE)
    (folder / "refused").write_bytes(b"")
    reader, writer = os.pipe()
    os.close(reader)
    with open("/dev/full", "wb") as full, open(writer, "wb") as closed:
        for out, reason in ((full, "No space left on device"), (closed, "Broken pipe")):
            expected = Came(4, "", f"list: cannot write to standard output: {reason}\n")
            trials.expect(f"a listing: {reason}", expected, run(LIST, NAME, folder=folder, out=out))
            trials.expect(f"a refusal: {reason}", expected, run(LIST, "refused", folder=folder, out=out))
            trials.expect(f"help: {reason}", expected, run(LIST, "--help", out=out))
    expected = Came(4, "", "list: cannot write to standard output: Bad file descriptor\n")
    trials.expect("no standard output", expected, run("sh", "-c", '"$0" "$1" >&-', LIST, NAME, folder=folder))
    trials.expect("no standard error", Came(1, "refused 15 0 0\n"), run("sh", "-c", '"$0" refused 2>&-', LIST, folder=folder))


# Building, in a tree of its own. Stand-ins take the place of `rt`, of the program, and of what runs it.

PROVES = "echo 'rt: chose two jobs'\necho 'a line of the prover'\n"
GOOD_RT = PROVES + "mkdir -p out && cp ../../stand-in out/listing\n"
IDLE_RT = PROVES  # takes the program for built
BAD_RT = "echo 'rt: the library trees did not build' && exit 1\n"
LONG_AGO = 10**9  # seconds since 1970


def write_script(path: Path, body: str) -> None:
    """Writes a shell script that can be run."""
    path.parent.mkdir(parents=True, exist_ok=True)
    path.write_text(f"#!/bin/sh\n{body}")
    path.chmod(0o755)


class Tree:
    """A repository of stand-ins, in a folder of its own."""

    def __init__(self, folder: Path) -> None:
        self.top = folder / "tree"
        self.source = self.top / "crates" / "listing" / "src" / "main.rt"
        self.program = self.top / "crates" / "listing" / "out" / "listing"
        self.log = self.top / "target" / "list.log"
        self.source.parent.mkdir(parents=True)
        self.source.touch()
        (self.top / "crates.txt").touch()
        (self.top / NAME).touch()
        shutil.copy(LIST, self.top / "list")
        write_script(self.top / "stand-in", f"printf '{LISTING}'\n")
        write_script(self.top / "tests" / "run-program", 'exec "$@"\n')

    def path(self, rt: str) -> str:
        """A path on which `rt` is this script, or is not at all."""
        kit = self.top / "kit"
        shutil.rmtree(kit, ignore_errors=True)
        kit.mkdir()
        if not rt:
            return str(kit)
        write_script(kit / "rt", f'echo "${{PWD##*/}}: $*" >>"{self.top}/asked"\n{rt}')
        return f"{kit}{os.pathsep}{os.environ['PATH']}"

    def list(self, rt: str) -> Came:
        """Runs the tree's list with this script for `rt`."""
        return run(sys.executable, self.top / "list", NAME, folder=self.top, environment={**os.environ, "PATH": self.path(rt)})

    def asked(self) -> list[str]:
        """What `rt` was asked for since this was last called, and in which folder."""
        asked = self.top / "asked"
        lines = asked.read_text().splitlines() if asked.exists() else []
        asked.unlink(missing_ok=True)
        return lines

    def age(self) -> None:
        """Makes the sources and the program equally old."""
        crates = self.top / "crates"
        for path in (self.top / "crates.txt", crates, *crates.rglob("*"), self.program):
            os.utime(path, (LONG_AGO, LONG_AGO))

    def edit(self) -> None:
        """Makes a source a second newer than all else."""
        self.age()
        os.utime(self.source, (LONG_AGO + 1, LONG_AGO + 1))

    def building(self) -> str:
        """What is said when a build begins."""
        return f"list: proving and building the listing program, which can take some minutes; the log is {self.log}\n"

    def built(self) -> Came:
        """What comes of a build and a listing."""
        return Came(0, LISTING, f"{self.building()}rt: chose two jobs\n")

    def not_proved(self) -> Came:
        """What comes of a proof that fails."""
        failed = f"rt: the library trees did not build\nlist: the listing program is not proved; {self.log} has the reason\n"
        return Came(3, "", self.building() + failed)


def test_first_build(trials: Trials, tree: Tree) -> None:
    """Without `rt` nothing is built; then a proof that fails; then one that does not."""
    no_rt = "list: cannot build the listing program: there is no `rt` (Rattle's kit) on the path\n"
    trials.expect("no rt", Came(3, "", no_rt), tree.list(""))
    trials.expect("the first proof fails", tree.not_proved(), tree.list(BAD_RT))
    trials.expect("rt was asked", ["listing: run"], tree.asked())
    trials.expect("the first build", tree.built(), tree.list(GOOD_RT))
    trials.expect("rt was asked again", ["listing: run"], tree.asked())
    trials.expect("the log", "rt: chose two jobs\na line of the prover\n", tree.log.read_text())


def test_later_builds(trials: Trials, tree: Tree) -> None:
    """A build follows when a source is newer, is added or is taken away, and after a proof that failed; else none."""
    trials.expect("it is built", LISTED, tree.list(BAD_RT))
    trials.expect("rt was not asked", [], tree.asked())
    trials.expect("it is built, and there is no rt", LISTED, tree.list(""))
    (tree.program.parent / "more").touch()
    trials.expect("what rt makes is no source", LISTED, tree.list(BAD_RT))
    tree.edit()
    trials.expect("a source is newer", tree.built(), tree.list(GOOD_RT))
    trials.expect("then it is built", LISTED, tree.list(BAD_RT))
    tree.edit()
    trials.expect("a source is newer, and rt leaves the program", tree.built(), tree.list(IDLE_RT))
    trials.expect("then it is built too", LISTED, tree.list(BAD_RT))
    tree.age()
    (tree.source.parent / "more.rt").touch()
    trials.expect("a source is added", tree.built(), tree.list(GOOD_RT))
    tree.age()
    (tree.source.parent / "more.rt").unlink()
    trials.expect("a source is taken away", tree.built(), tree.list(GOOD_RT))
    tree.edit()
    trials.expect("a source is newer, and its proof fails", tree.not_proved(), tree.list(BAD_RT))
    os.utime(tree.source, (LONG_AGO, LONG_AGO))
    trials.expect("what was not proved stays so", tree.not_proved(), tree.list(BAD_RT))
    trials.expect("until it is proved", tree.built(), tree.list(IDLE_RT))


def test_failed_programs(trials: Trials, tree: Tree) -> None:
    """A program that is missing, that fails, and that gives a number which has no sentence."""
    tree.program.unlink()
    missing = f"rt: chose two jobs\nlist: `rt` takes the listing program for built, and it is not there: remove {tree.program.parent}\n"
    trials.expect("the program is missing", Came(3, "", tree.building() + missing), tree.list(IDLE_RT))
    write_script(tree.program, "echo half && exit 7\n")
    failed = "list: the listing program failed: it wrote 5 bytes and ended with status 7\n"
    trials.expect("the program fails", Came(3, "", failed), tree.list(""))
    write_script(tree.program, "")
    failed = "list: the listing program failed: it wrote 0 bytes and ended with status 0\n"
    trials.expect("the program writes nothing", Came(3, "", failed), tree.list(""))
    write_script(tree.program, "echo refused 99 1 2\n")
    other = f"list: {NAME}: refusal 99 at slot 1, place 2; docs/USING.md says what it means\n"
    trials.expect("another number", Came(1, "refused 99 1 2\n", other), tree.list(""))
    (tree.top / "tests" / "run-program").unlink()
    came = tree.list("")
    trials.expect("nothing runs the program", (3, ""), (came.status, came.out))


def build_first() -> None:
    """Builds the program if need be, in sight, so that no test has to."""
    subprocess.run([LIST, TOP / "crates" / "listing" / "stdin"], stdout=subprocess.DEVNULL, check=False)


def main() -> int:
    """Runs every test; the status."""
    trials = Trials()
    build_first()
    with tempfile.TemporaryDirectory() as name:
        folder = Path(name).resolve()
        test_inputs(trials, folder)
        test_refusals(trials, folder)
        test_arguments(trials)
        test_failed_writes(trials, folder)
        tree = Tree(folder)
        test_first_build(trials, tree)
        test_later_builds(trials, tree)
        test_failed_programs(trials, tree)
    return trials.end()


if __name__ == "__main__":
    sys.exit(main())
