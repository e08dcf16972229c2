# SPDX-License-Identifier: Apache-2.0 OR MIT
"""A peer's file: what it answered to the records of a trace. tools/README.md has its lines."""

import hashlib
from collections.abc import Iterator
from dataclasses import dataclass, field
from pathlib import Path
from typing import BinaryIO

from .command import Refused, shown


@dataclass(frozen=True)
class Answer:
    """What a peer answered to the record on a line, if anything, and to how many nanoseconds its time is exact."""

    line: int
    value: tuple[str, ...]
    within: int


NUMBERS_BEHIND = {"stamp": 1, "rises": 2}
PIECE = 1 << 16
NO_ANSWER = Answer(0, (), 0)


@dataclass
class Peer:
    """The head of a peer's file, and its answers in order of the trace's lines."""

    path: Path
    """What its user calls it."""
    file: Path
    """Where its lines are, unpacked."""
    trace: str | None = None
    """The sha256 of the trace that it belongs to, if it names it."""
    stamp_ns: int = 1
    rises: dict[int, int] = field(default_factory=dict)

    def __post_init__(self) -> None:
        for words in self.lines():
            if words[0].isdecimal():
                break
            if words[0] == "trace":
                self.trace = words[1]
            elif words[0] == "stamp":
                self.stamp_ns = int(words[1])
            else:
                self.rises[int(words[1])] = int(words[2])

    def lines(self) -> Iterator[list[str]]:
        """The words of each line, all well formed."""
        with self.file.open(encoding="utf-8", errors="replace") as file:
            for number, text in enumerate(file, 1):
                words = text.rstrip("\n").split(" ")
                if text.startswith("#") or words == [""]:
                    continue
                if not is_line(words):
                    raise Refused(f"{shown(self.path)}: line {number} is malformed: {text[:60].rstrip()}")
                yield words

    def answers(self) -> Iterator[Answer]:
        """The answers. One without a number for its time is as exact as the stamp."""
        last = 0
        for words in self.lines():
            if not words[0].isdecimal():
                continue
            line = int(words[0])
            if line <= last:
                raise Refused(f"{shown(self.path)}: the answer to line {line} doesn't follow that to a line before it")
            last = line
            told = words[-1].startswith("+")
            within = int(words[-1][1:]) if told else self.stamp_ns
            yield Answer(line, tuple(words[1:-1] if told else words[1:]), within)

    def check(self, name: Path, trace: Path) -> None:
        """Refuses the answers of another trace than this one of that name."""
        if self.trace is None:
            return
        with trace.open("rb") as file:
            if sum_of(file) != self.trace.lower():
                raise Refused(f"{shown(self.path)}: it has the answers of another trace than {shown(name)}: import both again")


def sum_of(file: BinaryIO) -> str:
    """The sha256 of a file, in hexadecimal digits."""
    found = hashlib.sha256()
    while piece := file.read(PIECE):
        found.update(piece)
    return found.hexdigest()


def is_line(words: list[str]) -> bool:
    """Whether a line has one of the forms of a peer's file."""
    if words[0] == "trace":
        return len(words) == 2 and len(words[1]) == 64 and is_hex(words[1])
    if words[0] in NUMBERS_BEHIND:
        return len(words) == NUMBERS_BEHIND[words[0]] + 1 and all(word.isdecimal() for word in words[1:])
    if not words[0].isdecimal() or len(words) < 2:
        return False
    value = words[1:-1] if words[-1].startswith("+") else words[1:]
    if words[-1].startswith("+") and not words[-1][1:].isdecimal():
        return False
    return len(value) in (0, 1, 6) and all(is_hex(word.removeprefix("-")) for word in value)


def is_hex(word: str) -> bool:
    return bool(word) and all(letter in "0123456789abcdefABCDEF" for letter in word)
