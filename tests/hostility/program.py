# SPDX-License-Identifier: Apache-2.0 OR MIT
"""Runs the program with faults of the C library, by the shim faults.c."""

import os
import subprocess
from dataclasses import dataclass
from pathlib import Path

TOP = Path(__file__).resolve().parents[2]
SECONDS = 60
"""Longer than any run here takes."""


@dataclass(frozen=True)
class Outcome:
    """How a run ended: its exit status (below 0: a signal, None: it took too long), what it printed, whether a fault came."""

    status: int | None
    text: bytes
    is_faulted: bool


@dataclass(frozen=True)
class Program:
    """The program and the shim."""

    path: Path
    shim: Path

    def run(self, words: tuple[str, ...], trace: bytes, faults: str = "") -> Outcome:
        """Runs it on a trace with these faults, spelled as the shim wants them."""
        env = {"LD_PRELOAD": str(self.shim), "FAULTS": faults}
        try:
            done = subprocess.run([self.path, *words], input=trace, capture_output=True, check=False, env=env,
                                  timeout=SECONDS)
        except subprocess.TimeoutExpired:
            return Outcome(None, b"", False)
        if done.stderr.strip(b"x"):
            return Outcome(None, done.stderr, True)
        return Outcome(done.returncode, done.stdout, bool(done.stderr))


def program_in(folder: Path) -> Program:
    """The program, with a shim that is compiled into a folder."""
    shim = folder / "faults.so"
    source = Path(__file__).with_name("faults.c")
    subprocess.run(["cc", "-O2", "-shared", "-fPIC", "-o", shim, source, "-ldl"], check=True)
    return Program(path_of_program(), shim)


def path_of_program() -> Path:
    """The program that CLOCKBOARD names, or the one built here: no script, as the shim would stand under its shell too, and
    not the released one, which asks no C library for memory that a shim could take the place of."""
    named = os.environ.get("CLOCKBOARD")
    if named:
        return Path(named)
    if subprocess.run([TOP / "bin/run-crate", "--fresh", "clockboard"], check=False).returncode:
        raise SystemExit("hostile: no program of these sources is built here: bin/build builds it")
    return TOP / "crates/clockboard/out/clockboard"
