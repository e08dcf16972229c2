# SPDX-License-Identifier: Apache-2.0 OR MIT
"""Running clockboard on a trace."""

import os
import subprocess
from collections.abc import Iterator
from dataclasses import dataclass
from pathlib import Path
from typing import IO

from .command import TOP, Refused, shown


@dataclass(frozen=True)
class Answer:
    """What the program printed, and its exit status."""

    status: int
    lines: list[str]


def program() -> str:
    """The program: what the environment's CLOCKBOARD names, or bin/clockboard of this repository."""
    return os.environ.get("CLOCKBOARD") or str(TOP / "bin" / "clockboard")


def started(words: list[str], source: IO[bytes] | int) -> subprocess.Popen[bytes]:
    """The program with these words. What it says on standard error goes to ours."""
    try:
        return subprocess.Popen([program(), *words], stdin=source, stdout=subprocess.PIPE)
    except OSError as fault:
        raise Refused(f"the program {shown(program())} can't be run: {fault.strerror}; CLOCKBOARD may name another") from fault


def replay(trace: bytes, *words: str) -> Answer:
    """Replays a trace."""
    with started(["replay", *words], subprocess.PIPE) as process:
        printed, _ = process.communicate(trace)
    return Answer(process.returncode, printed.decode("utf-8", "replace").splitlines())


class Replaying:
    """A replay whose lines are read as they come. Its status is known after the last of them."""

    def __init__(self, trace: Path, *words: str) -> None:
        with trace.open("rb") as source:
            self.process = started(["replay", *words], source)
        self.last = ""

    def lines(self) -> Iterator[str]:
        with self.process as process:
            assert process.stdout
            for line in process.stdout:
                self.last = line.decode("utf-8", "replace").rstrip("\n")
                yield self.last

    @property
    def status(self) -> int | None:
        return self.process.returncode
