# SPDX-License-Identifier: Apache-2.0 OR MIT
"""What a guest did with its clocks, in some lines: the sources that it programmed, the ticks that came due and were lost, and how
late it was at worst."""

from collections.abc import Iterable
from dataclasses import dataclass, field

from .decoding import rate_of, timer_config
from .program import replay
from .rules import HPET_NS, PIT_HZ
from .trace import Edge, Record

SOURCES = ("pit", "rtc", *(f"hpet{k}" for k in range(8)))
NAMES = {"pit": "8254", "rtc": "MC146818", **{f"hpet{k}": f"HPET T{k}" for k in range(8)}}
LONGEST_PERIOD = 10**10
"""A greater number in the comparator of a periodic timer is its first match, and no period of a guest's."""
UNITS = ((10**9, "s"), (10**6, "ms"), (10**3, "us"), (1, "ns"))


def shown(ns: int) -> str:
    """A time in the unit that fits it."""
    size, unit = next(((size, unit) for size, unit in UNITS if ns >= size), UNITS[-1])
    return f"{ns / size:.6g} {unit}"


def times(count: int, what: str) -> str:
    return f"{count:,} {what}" + "s" * (count != 1)


def hertz(rate: float) -> str:
    return f"{rate:.4g} Hz"


@dataclass
class Source:
    """A source of interrupts: how often it was programmed, how it was at last, and on which line of the trace."""

    count: int = 0
    last: str = ""
    line: int = 0

    def take(self, told: str, line: int) -> None:
        self.count, self.last, self.line = self.count + 1, told, line


@dataclass
class Follower:
    """Follows the writes by which sources are programmed."""

    sources: dict[str, Source] = field(default_factory=dict)
    controls: list[int] = field(default_factory=lambda: [0x36] * 3)
    lows: dict[int, int] = field(default_factory=dict)
    index: int = 0
    rate: int = 6
    configs: dict[int, int] = field(default_factory=dict)

    def take(self, record: Record) -> None:
        kind, *words = record.words
        if kind == "out":
            self.port(int(words[0], 16), int(words[1], 16), record.line)
        elif kind == "hw" and int(words[1]) >= 4:
            self.hpet(int(words[0], 16), int(words[2], 16), record.line)
        elif kind == "wrmsr" and int(words[0], 16) in (0x838, 0x6E0) and int(words[1], 16):
            what = "initial count" if int(words[0], 16) == 0x838 else "TSC deadline"
            self.of(f"local APIC timer of processor {record.cpu}").take(f"{what} {int(words[1], 16)}", record.line)

    def of(self, name: str) -> Source:
        return self.sources.setdefault(name, Source())

    def port(self, port: int, byte: int, line: int) -> None:
        if port == 0x43 and byte >> 6 < 3 and byte & 0x30:
            self.controls[byte >> 6] = byte
            self.lows.pop(byte >> 6, None)
        elif 0x40 <= port <= 0x42:
            self.count(port - 0x40, byte, line)
        elif port == 0x70:
            self.index = byte & 0x7F
        elif port == 0x71 and self.index == 10:
            self.rate = byte & 15
        elif port == 0x71 and self.index == 11 and byte & 0x70:
            kinds = (f"periodic interrupt at {rate_of(self.rate)}", "alarm interrupt", "update interrupt")
            names = [name for bit, name in zip((6, 5, 4), kinds) if byte >> bit & 1]
            self.of("MC146818").take(", ".join(names), line)

    def count(self, number: int, byte: int, line: int) -> None:
        control = self.controls[number]
        access = control >> 4 & 3
        if access == 3 and number not in self.lows:
            self.lows[number] = byte
            return
        count = byte << 8 if access == 2 else byte if access == 1 else byte << 8 | self.lows.pop(number)
        mode = control >> 1 & 7
        mode = mode - 4 if mode > 5 else mode
        told = f"mode {mode}, count {count or 65536}" + (f", {hertz(PIT_HZ / (count or 65536))}" if mode in (2, 3) else "")
        self.of(f"8254 counter {number}").take(told, line)

    def hpet(self, offset: int, value: int, line: int) -> None:
        timer, place = (offset - 0x100) // 0x20, offset & 0x1F
        if offset < 0x100:
            return
        if place == 0:
            self.configs[timer] = value
            self.of(f"HPET T{timer}").take(timer_config(value), line)
        elif place == 8:
            config = self.configs.get(timer, 0)
            is_period = config & 8 and 0 < value < LONGEST_PERIOD
            told = hertz(10**9 / HPET_NS / value) if is_period else f"comparator {value}"
            self.of(f"HPET T{timer}").take(f"{timer_config(config)}, {told}", line)


@dataclass
class Up:
    """How long a line was up: how often it rose, and the longest time until it went down, from when on."""

    rises: int = 0
    since: int | None = None
    longest: int = 0
    begun: int = 0

    def take(self, edge: Edge) -> None:
        if edge.up:
            self.rises, self.since = self.rises + 1, edge.at
        else:
            self.end(edge.at)

    def end(self, at: int) -> None:
        if self.since is not None and at - self.since > self.longest:
            self.longest, self.begun = at - self.since, self.since
        self.since = None


def ticks_of(trace: bytes) -> dict[str, tuple[int, ...]]:
    """The counts of ticks at the end of a trace, by their source: due, rises, waiting, lost. The board is asked behind the last
    record."""
    lines = trace.split(b"\n")
    ends = [number for number, line in enumerate(lines) if line == b"end"]
    records = [line for line in lines if line[:1].isdigit()]
    if not ends or not records:
        return {}
    version = next((int(line.split(b" ")[1]) for line in lines if line.startswith(b"clockboard ")), 1)
    asked = SOURCES[: 5 if version == 1 else len(SOURCES)]
    end = ends[0]
    cpu, count = last_place(lines[:end])
    body = [*lines[:end], *(f"{cpu} {count} counts {name}".encode() for name in asked), b"end", b""]
    answer = replay(b"\n".join(body))
    told = dict(line.split(" ", 1) for line in answer.lines if line[:1].isdigit())
    found = {name: told.get(str(end + 1 + at), "").split(" ")[1:] for at, name in enumerate(asked)}
    return {name: tuple(map(int, words)) for name, words in found.items() if len(words) == 4 and int(words[0])}


def last_place(lines: list[bytes]) -> tuple[int, int]:
    """A processor and a count at the end of a trace at which the board may be asked: those of its last record, or of the move."""
    words = next(line.split(b" ") for line in reversed(lines) if line[:1].isdigit())
    return int(words[0]), int(words[4]) if words[2] == b"move" else int(words[1])


def summary(records: Iterable[Record], edges: Iterable[Edge], ticks: dict[str, tuple[int, ...]], base: int,
            last: int) -> list[dict[str, object]]:
    """The lines, each with the record or the time to which it leads, if it leads anywhere."""
    follower, ups = Follower(), {}
    count, cpus = 0, set()
    for record in records:
        count += 1
        cpus.add(record.cpu)
        follower.take(record)
    for edge in edges:
        ups.setdefault(edge.line, Up()).take(edge)
    for up in ups.values():
        up.end(last)
    rows: list[dict[str, object]] = [{"text": f"{times(count, 'record')} of {times(len(cpus), 'processor')} in {shown(last - base)}"}]
    rows += [{"text": f"{name}: programmed {times(source.count, 'time')}, at last {source.last}", "line": source.line}
             for name, source in sorted(follower.sources.items())]
    rows += [{"text": f"line {line}: {times(up.rises, 'rise')}; up for {shown(up.longest)} at the longest", "from": str(up.begun),
              "to": str(up.begun + up.longest)} for line, up in sorted(ups.items()) if up.rises]
    rows += [{"text": f"ticks of {NAMES[name]}: {due:,} due, {rises:,} rose, {waiting:,} wait, {lost:,} lost"}
             for name, (due, rises, waiting, lost) in ticks.items()]
    return rows
