"""Runs the commands of tests/: usage, what they say when something is missing, and that they work from any folder.

python3 tests/commands.py    its last line is 'N passed, M failed'; its status is 0 only if M is 0 and N is not
"""

from __future__ import annotations

import os
import shutil
import sys
import tempfile
from pathlib import Path

sys.dont_write_bytecode = True

from trials import TOP, Came, Trials, run  # noqa: E402

TESTS = TOP / "tests"
# The arguments with which each command needs the kit, and wrong ones.
NEEDS_KIT = {
    "toolchain": [],
    "run-program": ["a program"],
    "build-c": ["example.c", "example"],
    "soak": [],
}
WRONG = {
    "toolchain": [["what"]],
    "run-program": [[]],
    "build-c": [[], ["example.c"], ["--library"], ["--library", "arb"], ["--library", "arb", "example.c"]],
    "soak": [["--calls"], ["--calls", "many"], ["--what", "1"], ["1"]],
}
EXAMPLE = '#include "arb.h"\n#include <stdio.h>\nint main(void) { printf("%u\\n", ARB_NUMBER(arb_open(1, NULL, 0))); return 0; }\n'
LISTING, REPLAY = (TOP / "crates" / name for name in ("listing", "replay"))  # they have files stdin and stdout
SAME = "pub fn same(x: u16) -> u16 {\n    x\n}\n"  # a crate of one function


def test_usage(trials: Trials) -> None:
    """Help on standard output, and usage on standard error for wrong arguments."""
    for command, wrong in WRONG.items():
        status, out, err = run(TESTS / command, "--help")
        trials.expect(f"{command} --help", (0, f"usage: tests/{command}", ""), (status, " ".join(out.split()[:2]), err))
        trials.expect(f"{command} -h", Came(0, out), run(TESTS / command, "-h"))
        for arguments in wrong:
            trials.expect(f"{command} {arguments}", Came(2, "", out), run(TESTS / command, *arguments))


def without_kit(folder: Path) -> dict[str, str]:
    """An environment with the tools of a shell on its path and no `rt`."""
    folder.mkdir()
    for tool in ("dirname", "readlink"):
        (folder / tool).symlink_to(shutil.which(tool))
    return {**os.environ, "PATH": str(folder)}


def without_tools(folder: Path) -> dict[str, str]:
    """An environment whose `rt` names a page of this folder, which has no tools beside it."""
    folder.mkdir()
    (folder / "rt").write_text(f"#!/bin/sh\necho '{folder}/page.md'\n")
    (folder / "rt").chmod(0o755)
    return {**os.environ, "PATH": f"{folder}{os.pathsep}{os.environ['PATH']}"}


def test_missing(trials: Trials, folder: Path) -> None:
    """Without `rt`, without tools, without a source or a program: one line, and status 2."""
    (folder / "example.c").write_text(EXAMPLE)
    (folder / "a program").touch()
    no_kit, no_tools = without_kit(folder / "no kit"), without_tools(folder / "no tools")
    nowhere = f"toolchain: the kit has no tools: there is no folder {folder}/no tools/toolchain\n"
    for command, arguments in NEEDS_KIT.items():
        said_by = "soak" if command == "soak" else "toolchain"
        expected = Came(2, "", f"{said_by}: there is no rt (Rattle's kit) on the path\n")
        trials.expect(f"{command}: no rt", expected, run(TESTS / command, *arguments, folder=folder, environment=no_kit))
        if command != "soak":
            came = run(TESTS / command, *arguments, folder=folder, environment=no_tools)
            trials.expect(f"{command}: no tools", Came(2, "", nowhere), came)
    trials.expect("build-c: no source", Came(2, "", "build-c: there is no file none.c\n"), run(TESTS / "build-c", "none.c", "none", folder=folder))
    trials.expect("run-program: no program", Came(2, "", "run-program: there is no file none\n"), run(TESTS / "run-program", "none", folder=folder))


def test_from_any_folder(trials: Trials, folder: Path) -> None:
    """Names are those of the caller's folder."""
    (folder / "example.c").write_text(EXAMPLE)
    trials.expect("build-c", 0, run(TESTS / "build-c", "example.c", "in ner/example", folder=folder).status)
    trials.expect("what it built", Came(0, "1\n"), run(TESTS / "run-program", "in ner/example", folder=folder))
    trials.expect("a name alone", Came(0, "1\n"), run(TESTS / "run-program", "example", folder=folder / "in ner"))
    given, listing = (LISTING / "stdin").read_bytes(), (LISTING / "stdout").read_text()
    trials.expect("the listing", Came(0, listing), run(TESTS / "run-program", LISTING / "out" / "listing", folder=folder, given=given))
    trials.expect("toolchain", run(TESTS / "toolchain"), run(TESTS / "toolchain", folder=folder))


def test_soak(trials: Trials, folder: Path) -> None:
    """Its last line says that all agreed, but not where something did not."""
    status, out, _ = run(TESTS / "soak", "--calls", "60", "--files", "5", "--seed", "1", folder=folder)
    last = "all 60 calls and 5 files agree with the second program"
    trials.expect("soak", (0, last), (status, out.splitlines()[-1]))
    soak = [sys.executable, TESTS / "second" / "soak.py", "--calls", "9", "--files", "9"]
    for what, words in (("calls", ["cat"]), ("files", ["--listing", "cat"])):
        status, out, _ = run(*soak, *words)
        trials.expect(f"{what} that differ", (1, False), (status, "agree" in out))


def test_failed_moves(trials: Trials, folder: Path) -> None:
    """Each program ends with status 1 where it cannot write or read, and says why."""
    for crate in (LISTING, REPLAY):
        program = [TESTS / "run-program", crate / "out" / crate.name]
        with open("/dev/full", "wb") as full:
            status, _, err = run(*program, given=(crate / "stdin").read_bytes(), out=full)
        trials.expect(f"{crate.name}: a full device", (1, True), (status, "No space left on device" in err))
        status, out, err = run("sh", "-c", '"$0" "$1" <.', *program, folder=folder)
        trials.expect(f"{crate.name}: a folder to read", (1, "", True), (status, out, "Is a directory" in err))


def write_edit(folder: Path, name: str, old: str) -> None:
    """An edit of the crate `same`, of this text."""
    (folder / "crates" / "same" / "must-fail" / f"{name}.edit").write_text(f"# a comment\nfile: src/lib.rt\nold: {old}\nnew: 0\n")


def test_edits(trials: Trials, folder: Path) -> None:
    """An edit fits if its text stands in its file once. The repository is one of a single crate."""
    for part in ("tests", "crates/same/src", "crates/same/must-fail"):
        (folder / part).mkdir(parents=True)
    shutil.copy(TESTS / "edits.py", folder / "tests")
    (folder / "crates" / "same" / "src" / "lib.rt").write_text(SAME)
    edits = [sys.executable, folder / "tests" / "edits.py"]
    write_edit(folder, "fits", "    x")
    trials.expect("an edit that fits", Came(0), run(*edits))
    write_edit(folder, "lost", "    z")
    write_edit(folder, "twice", "u16")
    said = "crates/same/must-fail/{}.edit: src/lib.rt has this text {} times: {}\n"
    trials.expect("edits that do not fit", Came(1, said.format("lost", 0, "z") + said.format("twice", 2, "u16")), run(*edits))


def main() -> int:
    """Runs every test; the status."""
    trials = Trials()
    test_usage(trials)
    for test in (test_missing, test_soak, test_from_any_folder, test_failed_moves, test_edits):  # test_soak builds the programs
        with tempfile.TemporaryDirectory() as name:
            test(trials, Path(name).resolve())
    return trials.end()


if __name__ == "__main__":
    sys.exit(main())
