# SPDX-License-Identifier: Apache-2.0 OR MIT
"""Saved states that tests begin with, and the tool in this process, as most of the time of a run is Python's start."""

import contextlib
import importlib.machinery
import importlib.util
import io
import subprocess
import sys
from functools import cache
from types import ModuleType
from unittest import mock

import support
from clocktools.command import USAGE, answered

PIT_AND_HPET = """guest 2500000
rtc 50 59 23 07 28 02 26
begin
0 0 wrmsr 4b564d01 1001
0 0 out 43 34
0 0 out 40 56
0 0 out 40 02
0 0 hw {timer} 8 {config}
0 0 hw {comparator} 8 186a0
0 0 hw {comparator} 8 186a0
0 0 hw 10 4 1
0 4499500 step
end
"""
"""Counter 0 of the 8254 and a periodic timer of the HPET run; the page of processor 0 is on."""

EVERYTHING = """cpus 3
policy discard slew delay
begin
1 0 wrmsr 4b564d01 2001
1 0 wrmsr 10 5000
2 0 wrmsr 3b 77
0 0 wrmsr 4b564d00 3000
0 10 out 61 03
0 10 out 43 b6
0 10 out 42 50
0 10 out 42 c3
0 20 out 43 54
0 20 out 41 12
0 30 out 43 e8
0 40 out 70 0b
0 40 out 71 42
0 50 hw 108 8 1000
0 50 hw 100 8 280e
0 60 hw 10 4 3
{apic}0 90000000 out 43 80
0 90000000 in 42
0 90000001 ack 0
0 90000002 step
end
"""
"""Each device in use, a count latched and half read, a wall clock, TSCs moved."""

APIC = """1 0 wrmsr 832 20041
1 0 wrmsr 83e 3
1 0 wrmsr 838 1000000
2 0 wrmsr 832 40042
2 0 wrmsr 6e0 1000000000
"""
HYPERV = "0 61 wrmsr 40000021 4001\n"
MESSAGES = "0 70 hw 110 8 fee0000000000031\n0 71 hw 100 8 680c\n"


def saved(version: int, text: str) -> bytes:
    """The state after a trace of this format."""
    done = subprocess.run([support.program(), "replay", "--state"], input=f"clockboard {version}\n{text}".encode(), capture_output=True,
                          check=False)
    words = done.stdout.decode().splitlines()[-1].split()
    assert words[0] == "state", words
    return bytes.fromhex(words[1])


def running(version: int = 5) -> bytes:
    timer = 3 if version > 1 else 2
    place = 0x100 + 0x20 * timer
    return saved(version, PIT_AND_HPET.format(timer=f"{place:x}", config="284c", comparator=f"{place + 8:x}"))


def everything(version: int) -> bytes:
    more = (APIC if version >= 3 else "") + (HYPERV if version >= 4 else "") + (MESSAGES if version >= 5 else "")
    return saved(version, EVERYTHING.format(apic=more))


@cache
def boards() -> tuple[bytes, ...]:
    """Two states of each format."""
    return tuple(make(version) for version in range(1, 6) for make in (running, everything))


@cache
def tool() -> ModuleType:
    loader = importlib.machinery.SourceFileLoader("state_tool", str(support.TOOLS / "state"))
    module = importlib.util.module_from_spec(importlib.util.spec_from_loader(loader.name, loader))
    loader.exec_module(module)
    return module


def run_tool(*words: str, text: str = "") -> tuple[int, list[str], list[str]]:
    """The status of tools/state, and the lines of its standard output and standard error."""
    out, said = io.StringIO(), io.StringIO()
    stdin = io.TextIOWrapper(io.BufferedReader(io.BytesIO(text.encode())))  # type: ignore[arg-type]
    with mock.patch.object(sys, "argv", ["state", *words]), mock.patch.object(sys, "stdin", stdin), \
            contextlib.redirect_stdout(out), contextlib.redirect_stderr(said):
        status = answered("state", tool().main, USAGE)
    return status, out.getvalue().splitlines(), said.getvalue().splitlines()
