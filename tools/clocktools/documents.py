# SPDX-License-Identifier: Apache-2.0 OR MIT
"""What docs/DEFINITIONS.md and docs/FORMATS.md say, so that a tool quotes it and tells nothing a second time."""

import re
from dataclasses import dataclass
from functools import cache

from .command import TOP

DEFINITIONS = TOP / "docs" / "DEFINITIONS.md"
FORMATS = TOP / "docs" / "FORMATS.md"
COMING = TOP / "docs" / "COMING_FROM_QEMU_AND_KVM.md"


@dataclass(frozen=True)
class Definition:
    """A row of docs/DEFINITIONS.md."""

    crate: str
    name: str
    words: str
    standard: str


@dataclass(frozen=True)
class Difference:
    """A row of docs/COMING_FROM_QEMU_AND_KVM.md: its name, its section, what is here and what is there."""

    name: str
    section: str
    here: str
    there: str


def cells(line: str) -> list[str]:
    return [cell.strip() for cell in line.strip().strip("|").split(" | ")]


@cache
def definitions() -> dict[tuple[str, str], Definition]:
    """The definitions by crate and name. A section's heading begins with its crate."""
    found: dict[tuple[str, str], Definition] = {}
    crate = standard = ""
    for line in DEFINITIONS.read_text().splitlines():
        if line.startswith("## "):
            crate = line[3:].split(":")[0].strip()
        elif line.startswith("| ") and "`" in line:
            row = cells(line)
            cited = row[1] if len(row) > 2 else "own"
            standard = cited.replace("same", standard, 1) if cited.startswith("same") else cited
            for name in re.findall(r"`(\w+)`", row[-1]):
                found.setdefault((crate, name), Definition(crate, name, row[0], standard))
    return found


@cache
def table(heading: str) -> dict[str, tuple[str, ...]]:
    """A table of docs/FORMATS.md, the first under a heading: rows by the first word of their first cell."""
    found: dict[str, tuple[str, ...]] = {}
    text = FORMATS.read_text()
    for line in text[text.index(f"\n## {heading}\n") + 1 :].splitlines()[1:]:
        if line.startswith("## "):
            break
        if line.startswith("| ") and not line.startswith("|---"):
            row = cells(line)
            for written in re.findall(r"`([^`]+)`", row[0]) or [row[0]]:
                found.setdefault(written.split(" ")[0], tuple(row))
    return found


@cache
def differences() -> dict[str, Difference]:
    """The rows of docs/COMING_FROM_QEMU_AND_KVM.md that have a name."""
    found: dict[str, Difference] = {}
    section = ""
    for line in COMING.read_text().splitlines():
        if line.startswith("##"):
            section = line.lstrip("# ")
        elif line.startswith("| `"):
            row = cells(line)
            if len(row) == 3 and re.fullmatch(r"`[a-z0-9-]+`", row[0]):
                name = row[0].strip("`")
                found[name] = Difference(name, section, row[1], row[2])
    return found
