# SPDX-License-Identifier: Apache-2.0 OR MIT
"""The text of a trace and of what is printed for it, as far as the tools need them. docs/FORMATS.md has both whole."""

from collections.abc import Iterable, Iterator
from dataclasses import dataclass
from typing import TypeGuard

DEFAULT_KHZ = 1_000_000
"""The rate of the host's counter where a header has no `host` line: a count is a nanosecond."""

STATE_ANCHOR = ((12, 8), (20, 8), (28, 8))
"""Place and size of rate, count and time of the anchor in a saved state."""


@dataclass(frozen=True)
class Record:
    """A record of a trace: its line from 1 on, the processor, the host's count, its words, and its nanosecond."""

    line: int
    cpu: int
    count: int
    words: tuple[str, ...]
    time: int


@dataclass
class Anchor:
    """A count of the host's counter and the nanosecond that belongs to it."""

    khz: int = DEFAULT_KHZ
    start: int = 0
    base: int = 0

    def time(self, count: int) -> int:
        return self.base + (count - self.start) * 1_000_000 // self.khz


@dataclass(frozen=True)
class Edge:
    """An edge of a line of interrupt: the nanosecond, the line's number, and whether it goes up."""

    at: int
    line: int
    up: bool


@dataclass(frozen=True)
class Burst:
    """Messages of a timer of the HPET, at even distances: the timer's number, the processor and the vector that they are
    delivered to, and their nanoseconds."""

    timer: int
    cpu: int
    vector: str
    times: range


@dataclass(frozen=True)
class Reply:
    """The reply to a record: the record's line, and its value."""

    line: int
    value: tuple[str, ...]


def anchor_of_state(digits: str) -> Anchor:
    """The anchor that a saved state holds."""
    data = bytes.fromhex(digits)
    khz, start, base = (int.from_bytes(data[at : at + size], "little") for at, size in STATE_ANCHOR)
    return Anchor(khz or DEFAULT_KHZ, start, base)


@dataclass
class Head:
    """What the tools need of a trace's header."""

    guest_khz: int = DEFAULT_KHZ
    policies: tuple[str, ...] = ("delay", "delay", "delay")
    begins_saved: bool = False


def head_of(lines: Iterable[str]) -> Head:
    """The header of a trace that the program takes."""
    head = Head()
    for line in lines:
        words = line.rstrip("\n").split(" ")
        if words[0] == "guest":
            head.guest_khz = int(words[1])
        elif words[0] == "policy":
            head.policies = tuple(words[1:])
        elif words[0] == "state":
            head.begins_saved = True
        elif words[0] == "begin":
            break
    return head


def records(text: str) -> Iterator[Record]:
    """The records of a trace that the program takes, each with its time, which no count moves back."""
    return records_of(text.split("\n"))


def records_of(lines: Iterable[str]) -> Iterator[Record]:
    """The same of a trace's lines."""
    anchor, now, in_body = Anchor(), 0, False
    for number, told in enumerate(lines, 1):
        line = told.rstrip("\n")
        words = tuple(line.split(" "))
        if not line or line.startswith("#"):
            continue
        if line == "end":
            return
        if not in_body:
            in_body = line == "begin"
            if words[0] == "host":
                anchor = Anchor(int(words[1]), int(words[2]))
            elif words[0] == "state":
                anchor = anchor_of_state(words[1])
                now = anchor.base
            continue
        count = int(words[1])
        now = max(now, anchor.time(count))
        yield Record(number, int(words[0]), count, words[2:], now)
        if words[2] == "move":
            now += int(words[5])
            anchor = Anchor(int(words[3]), int(words[4]), now)


def is_edge(event: Reply | Edge) -> TypeGuard[Edge]:
    return isinstance(event, Edge)


def printed(lines: Iterable[str]) -> Iterator[Reply | Edge]:
    """The edges and the replies of a printed text, in order; messages are left out."""
    for line in lines:
        words = line.rstrip("\n").split(" ")
        if words[0] == "edge":
            yield Edge(int(words[1]), int(words[2]), words[3] == "up")
        elif words[0].isdecimal():
            yield Reply(int(words[0]), tuple(words[2:]))


def edges(lines: list[str]) -> Iterator[Edge]:
    """The edges of a printed text, in order."""
    for line in lines:
        words = line.split(" ")
        if words[0] == "edge":
            yield Edge(int(words[1]), int(words[2]), words[3] == "up")


def bursts(lines: list[str]) -> Iterator[Burst]:
    """The bursts of messages of a printed text, in order."""
    for line in lines:
        words = line.split(" ")
        if words[0] == "msg":
            first, timer, cpu, count, every = (int(words[k]) for k in (1, 2, 3, 5, 6))
            yield Burst(timer, cpu, words[4], range(first, first + max(every, 1) * count, max(every, 1)))


def replies(lines: list[str]) -> Iterator[Reply]:
    """The replies of a printed text. Those of pages and clocks have their name in the number's place."""
    for line in lines:
        words = line.split(" ")
        if words[0].isdecimal():
            yield Reply(int(words[0]), tuple(words[2:]))


def final_time(lines: list[str]) -> int | None:
    """The time of the line `final`, if the text has one."""
    for line in lines:
        if line.startswith("final "):
            return int(line.split(" ")[1])
    return None
