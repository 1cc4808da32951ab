"""What the tests of commands share: a command is run, what came of it is compared with what was expected, and all is counted."""

from __future__ import annotations

import subprocess
from pathlib import Path
from typing import IO, NamedTuple, Optional, Union

TOP = Path(__file__).resolve().parent.parent


class Came(NamedTuple):
    """What came of a command: its status, and what it wrote to standard output and standard error."""

    status: int
    out: str = ""
    err: str = ""


def run(
    *command: Union[str, Path],
    folder: Optional[Path] = None,
    given: bytes = b"",
    out: Union[int, IO] = subprocess.PIPE,
    environment: Optional[dict[str, str]] = None,
) -> Came:
    """Runs a command in a folder, gives it these bytes, and says what came."""
    done = subprocess.run(command, cwd=folder, input=given, stdout=out, stderr=subprocess.PIPE, env=environment, check=False)
    return Came(done.returncode, (done.stdout or b"").decode(), done.stderr.decode())


class Trials:
    """Counts what passed and what failed, and shows the latter."""

    def __init__(self) -> None:
        self.passed = self.failed = 0

    def expect(self, name: str, expected: object, came: object) -> None:
        """One trial: what came has to be what was expected."""
        if came == expected:
            self.passed += 1
            return
        self.failed += 1
        print(f"failed: {name}\n  expected  {expected!r}\n  came      {came!r}")

    def end(self) -> int:
        """Prints the counts; the status."""
        print(f"{self.passed} passed, {self.failed} failed")
        return 0 if self.passed and not self.failed else 1
