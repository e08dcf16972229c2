# SPDX-License-Identifier: Apache-2.0 OR MIT
"""What both importers share: what was seen of a peer, and how it is written as a trace and a file of its answers."""

import hashlib
import tempfile
from collections import Counter, deque
from collections.abc import Iterator
from dataclasses import dataclass, field
from itertools import chain
from pathlib import Path
from shutil import copyfileobj
from typing import IO, NamedTuple

from .power_on import ClockBytes, rtc_line, wall_line

PORTS = {0x40, 0x41, 0x42, 0x43, 0x61, 0x70, 0x71}
HPET_BASE = 0xFED00000
HPET_SIZE = 0x400
HPET_WIDTHS = (1, 2, 4, 8)
FORMAT_1_CPUS = 16
FORMAT_2_CPUS = 64
FORMAT_2_TIMERS = 0x160
"""From this offset on the HPET's registers belong to timers that format 1 hasn't."""
LATE_NS = 3000
"""A log's times are exact to so much, beyond the time to the line before or after of the same processor."""
WAITING = 1 << 14
"""So many answers wait for the line after a write at most."""


class Access(NamedTuple):
    """An access of a processor: at which count, to how many bytes from an address on, and the value; and to how many
    nanoseconds the time of a read is exact. A write is logged before it acts, so it is exact to its processor's next line."""

    cpu: int
    count: int
    address: int
    size: int
    value: int
    is_write: bool
    within: int


@dataclass
class Header:
    """What the header of a trace says."""

    host: tuple[int, int]
    guest: int
    policy: tuple[str, str, str]
    wall: int | None = None
    """The wall clock at time 0, in nanoseconds since 1970, if it is known."""
    rtc: int | None = None
    """The time that the MC146818 shows at time 0, in seconds since 1970, if it is known."""

    def lines(self, version: int, processors: int, source: str) -> list[str]:
        return [
            f"clockboard {version}",
            f"# {source}",
            f"host {self.host[0]} {self.host[1]}",
            f"guest {self.guest}",
            f"cpus {processors}",
            "policy " + " ".join(self.policy),
            *([] if self.wall is None else [wall_line(self.wall)]),
            *([] if self.rtc is None else [rtc_line(self.rtc)]),
            "begin",
        ]


@dataclass
class Answer:
    """A line of the file of answers: the record's line, what the peer answered, and to how many nanoseconds its time is exact.
    Of a write that isn't known before its processor's next line."""

    line: int
    value: str
    within: int | None
    written: int | None = None
    """When the write was logged whose processor's next line is waited for."""

    def text(self) -> str:
        told = [str(self.line), self.value, "" if self.within is None else f"+{self.within}"]
        return " ".join(filter(None, told)) + "\n"


class Answers:
    """The answers in order of their records, on their way into a file without a name."""

    def __init__(self, folder: Path) -> None:
        self.file: IO[bytes] = tempfile.TemporaryFile(dir=folder)
        self.waiting: deque[Answer] = deque()
        self.open: dict[int, Answer] = {}
        """The last write of each processor that has had no line since."""
        self.now = 0

    def put(self, cpu: int, answer: Answer) -> None:
        if answer.written is not None:
            self.open[cpu] = answer
        elif not answer.value and answer.within is None:
            return
        self.waiting.append(answer)
        if len(self.waiting) > WAITING:
            first = self.waiting[0]
            self.close(next((cpu for cpu, own in self.open.items() if own is first), -1))
        self.write()

    def next_line(self, cpu: int, now: int) -> None:
        """The log has a line of this processor, at this nanosecond: what it wrote before has acted."""
        self.now = now
        self.close(cpu)

    def close(self, cpu: int) -> None:
        answer = self.open.pop(cpu, None)
        if answer and answer.written is not None:
            answer.within = self.now - answer.written + LATE_NS

    def write(self) -> None:
        """Writes the answers whose times are known, up to the first that waits."""
        while self.waiting and (self.waiting[0].written is None or self.waiting[0].within is not None):
            self.file.write(self.waiting.popleft().text().encode())

    def end(self) -> IO[bytes]:
        """The file, from its beginning, with all answers."""
        for cpu in list(self.open):
            self.close(cpu)
        self.write()
        self.file.seek(0)
        return self.file


@dataclass
class Import:
    """What is seen of a peer, in order of its counts, on its way into two files; and what was dropped, by its cause.

    The records are written as they come into a file without a name, since the header is only known at the end.
    """

    source: str
    folder: Path
    """Where the files without names are."""
    first_line: int
    """The line of the trace that has the first record."""
    stamp_ns: int = 1
    """How exact the peer's times are at best."""
    dropped: Counter[str] = field(default_factory=Counter)
    rises: dict[int, int] = field(default_factory=dict)
    clock: ClockBytes = field(default_factory=ClockBytes)
    records: int = 0
    processors: int = 1
    version: int = 1

    def __post_init__(self) -> None:
        self.body: IO[bytes] = tempfile.TemporaryFile(dir=self.folder)
        self.answers = Answers(self.folder)

    def drop(self, cause: str) -> None:
        self.dropped[cause] += 1

    def see(self, cpu: int, count: int, words: str, answer: str = "", within: int | None = None, is_write: bool = False) -> None:
        """A record: its processor, its count, its words, what the peer answered, and to how many nanoseconds its time is
        exact; of a write that is logged before it acts the next line of its processor tells."""
        if cpu >= FORMAT_2_CPUS:
            self.drop(f"a processor from {FORMAT_2_CPUS} on")
            return
        self.body.write(f"{cpu} {count} {words}\n".encode())
        self.answers.put(cpu, Answer(self.first_line + self.records, answer, within, self.answers.now if is_write else None))
        self.records += 1
        if cpu >= self.processors:
            self.processors = cpu + 1
        if cpu >= FORMAT_1_CPUS:
            self.needs(2)

    def needs(self, version: int) -> None:
        """The trace has something that no format before this one has."""
        self.version = max(self.version, version)

    def port(self, access: Access) -> None:
        """An access to a port of the 8254 or the MC146818."""
        cpu, count, port, size, value, is_write, within = access
        byte = value & 0xFF
        if port not in PORTS:
            self.drop(f"port {port:x}h, which no record has")
        elif size != 1:
            self.drop(f"an access of {size} bytes to a port")
        elif is_write:
            self.clock.write(port, byte)
            self.see(cpu, count, f"out {port:x} {byte:02x}", is_write=True)
        else:
            self.clock.read(port, byte, count)
            self.see(cpu, count, f"in {port:x}", f"{byte:02x}", within)

    def hpet(self, access: Access) -> None:
        """An access to the HPET."""
        cpu, count, address, size, value, is_write, within = access
        offset = address - HPET_BASE
        if not 0 <= offset < HPET_SIZE:
            self.drop("an access to the HPET above 3ffh")
            return
        if size not in HPET_WIDTHS:
            self.drop(f"an access of {size} bytes to the HPET")
            return
        value &= (1 << 8 * size) - 1
        if is_write:
            self.see(cpu, count, f"hw {offset:x} {size} {value:x}", is_write=True)
        else:
            self.see(cpu, count, f"hr {offset:x} {size}", f"{value:0{2 * size}x}", within)
        if offset >= FORMAT_2_TIMERS:
            self.needs(2)

    def write(self, header: Header, trace: Path, peer: Path) -> None:
        """Writes the trace, and the file of the peer's answers."""
        lines = header.lines(self.version, self.processors, self.source)
        if len(lines) + 1 != self.first_line:
            raise AssertionError("the header has other lines than were counted on")
        sum_of = hashlib.sha256()
        with trace.open("wb") as out:
            for piece in chain([("\n".join(lines) + "\n").encode()], pieces(self.body), [b"end\n"]):
                sum_of.update(piece)
                out.write(piece)
        with peer.open("wb") as out:
            head = [f"# What the peer answered, by the lines of the trace: {self.source}",
                    f"trace {sum_of.hexdigest()}", f"stamp {self.stamp_ns}",
                    *(f"rises {line} {count}" for line, count in sorted(self.rises.items()))]
            out.write(("\n".join(head) + "\n").encode())
            copyfileobj(self.answers.end(), out)


def pieces(file: IO[bytes]) -> Iterator[bytes]:
    """What a file holds, piece by piece."""
    file.seek(0)
    while piece := file.read(1 << 16):
        yield piece
