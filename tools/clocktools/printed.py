# SPDX-License-Identifier: Apache-2.0 OR MIT
"""What the program prints for a trace, as the pictures take it: it is looked at before, as a trace is often given instead."""

import re
from pathlib import Path

from .command import Refused
from .files import name_of, read

PRINTED = re.compile(r"edge \d+ \d+ (up|down)|msg \d+ |\d+ \S|final |refused |fault |state |soak |usage: ")
"""How a printed line begins."""


def kind_fault(lines: list[str]) -> str:
    """Why these lines aren't a printed text; nothing, if they are one."""
    said = [line for line in lines if line and not line.startswith("#")]
    if not said:
        return "it is empty; what bin/clockboard replay prints is wanted"
    if re.match(r"clockboard \d+$", said[0]) or "begin" in said[:12]:
        return "this is a trace, and what is printed for it is wanted: bin/clockboard replay < TRACE | .."
    if said[0].startswith("$"):
        return "this is a wave file, and what bin/clockboard replay prints is wanted"
    if not any(PRINTED.match(line) for line in said):
        return f"this is nothing that bin/clockboard replay prints; it begins with: {said[0][:60]}"
    if said[0].startswith("usage: "):
        return "the program printed its usage: its words are no command"
    return ""


def read_printed(path: Path) -> list[str]:
    """The lines of a printed text."""
    lines = read(path).decode("utf-8", "replace").splitlines()
    fault = kind_fault(lines)
    if fault:
        raise Refused(f"{name_of(path)}: {fault}")
    return lines
