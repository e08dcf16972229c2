# SPDX-License-Identifier: Apache-2.0 OR MIT
"""The first place at which a replay prints another text than was expected: its record, what came before it on the same device, and
that device's state."""

from collections import deque
from collections.abc import Iterable, Iterator
from dataclasses import dataclass, field
from itertools import zip_longest
from pathlib import Path

from .program import replay
from .rules import Follower, Rule
from .states import printing
from .trace import Head, Record, head_of, records_of

KEPT = 5
"""So many records of the device are shown."""
NOTHING = "nothing more"
LINES = {"0": ("pit.counter0.", "pit.ticks.", "hpet.timer0."), "8": ("rtc.", "hpet.timer1.")}
"""The parts of a state on which an edge of a line rests, by the beginnings of their names."""
HPET = ("hpet.counter", "hpet.config", "hpet.status")
TIMERS = ("hpet.timer", *HPET)
TICKS = {"pit": "pit.ticks.", "rtc": "rtc.ticks."}
APIC_MSRS = (0x832, 0x838, 0x839, 0x83E, 0x6E0)
HV_MSRS = (0x40000020, 0x40000021)
WALL_MSR = 0x4B564D00
ALWAYS = "= now_ns"


@dataclass(frozen=True)
class Difference:
    """The first line of the printed text that differs, and the record in whose block it is, if it is in one's."""

    expected: str
    got: str
    line: int | None


def first_difference(expected: Iterable[str], got: Iterator[str]) -> Difference | None:
    """The first difference. It is in the block of the next reply."""
    for own, other in zip_longest(got, expected):
        if own != other:
            line = next((number for text in (own, other) if (number := line_of(text))), None)
            if line is None:
                line = next((number for text in got if (number := line_of(text))), None)
            return Difference(NOTHING if other is None else other, NOTHING if own is None else own, line)
    return None


def line_of(text: str | None) -> int | None:
    """The line of the record of which a text is the reply."""
    word = (text or "").split(" ")[0]
    return int(word) if word.isdecimal() else None


@dataclass
class Place:
    """The record at a difference, with what is known of its device."""

    record: Record
    rule: Rule | None
    device: tuple[str, ...]
    before: list[Record] = field(default_factory=list)


def place_of(trace: Path, line: int) -> Place | None:
    """The record on a line of a trace, and the last ones before it that reached the same device."""
    with trace.open(encoding="utf-8", errors="replace") as lines:
        head: Head = head_of(lines)
    follower, recent = Follower(head.guest_khz), {}
    with trace.open(encoding="utf-8", errors="replace") as lines:
        for record in records_of(lines):
            rule = follower.rule(record.words)
            device = device_of(record)
            seen = recent.setdefault(device, deque(maxlen=KEPT))
            if record.line == line:
                return Place(record, rule, device, list(seen))
            seen.append(record)
    return None


def device_of(record: Record) -> tuple[str, ...]:
    """How the names of the fields of a state begin that a record is about."""
    kind, *words = record.words
    if kind in ("in", "out"):
        return of_port(int(words[0], 16), int(words[1], 16) if kind == "out" else 0)
    if kind in ("hr", "hw"):
        offset = int(words[0], 16)
        return (f"hpet.timer{(offset - 0x100) // 0x20}.",) if offset >= 0x100 else HPET
    if kind in ("rdmsr", "wrmsr"):
        return of_msr(int(words[0], 16), record.cpu)
    if kind == "eoi":
        return (f"cpu{record.cpu}.apic_timer.",)
    if kind in ("page", "clock", "refresh"):
        return of_processor(int(words[0]))
    if kind == "counts":
        timer = words[0].replace("hpet", "hpet.timer") if words[0].startswith("hpet") else f"cpu{words[0][4:]}.apic_timer"
        return (TICKS.get(words[0], f"{timer}."),)
    if kind in ("ack", "rose"):
        return LINES.get(words[0], TIMERS)
    return {"hv": ("hv.",), "wall": ("wall.",)}.get(kind, ())


def of_port(port: int, byte: int) -> tuple[str, ...]:
    if port in (0x70, 0x71):
        return ("rtc.",)
    if port == 0x61:
        return ("pit.counter2.", "pit.speaker")
    if port == 0x43 and byte >> 6 == 3:
        return ("pit.",)
    number = byte >> 6 if port == 0x43 else port - 0x40
    return (f"pit.counter{number}.",)


def of_processor(cpu: int) -> tuple[str, ...]:
    return f"cpu{cpu}.tsc", f"cpu{cpu}.page.", f"= cpu{cpu}."


def of_msr(number: int, cpu: int) -> tuple[str, ...]:
    if number in APIC_MSRS:
        return (f"cpu{cpu}.apic_timer.",)
    if number in HV_MSRS:
        return ("hv.",)
    return ("wall.",) if number == WALL_MSR else of_processor(cpu)


def state_before(trace: Path, place: Place) -> bytes | None:
    """The board at the time of a record, before what it does: in its place the board steps to the same count."""
    kept = trace.read_bytes().split(b"\n")[: place.record.line - 1]
    step = f"{place.record.cpu} {place.record.count} step".encode()
    answer = replay(b"\n".join([*kept, step, b"end", b""]), "--state")
    words = answer.lines[-1].split(" ") if answer.lines else []
    return bytes.fromhex(words[1]) if words[:1] == ["state"] else None


def state_lines(data: bytes, parts: tuple[str, ...]) -> list[str]:
    """The fields of a state whose names begin so, and its time."""
    return [line for line in printing.state_lines(data, False) if line.startswith((*parts, ALWAYS))]


def told(name: str, trace: Path, found: Difference) -> list[str]:
    """What is said of a difference; its first line says all that fits there."""
    place = None if found.line is None else place_of(trace, found.line)
    versus = f"expected {found.expected}, got {found.got}"
    if place is None:
        return [f"{name}: at its end: {versus}"]
    record = place.record
    shown = f"{record.cpu} {record.count} {' '.join(record.words)}"
    rows = [f"{name}: line {record.line}: {shown}: {versus}"]
    event = next((text.split(" ") for text in (found.got, found.expected) if text.startswith(("edge ", "msg "))), None)
    device = place.device
    if event:
        device = LINES.get(event[2], TIMERS) if event[0] == "edge" else (f"hpet.timer{event[2]}.", *HPET)
    elif place.rule:
        definition = place.rule.definition
        rows.append(f"  {place.rule.register}: by {definition.crate}, {definition.name}: {definition.words}")
    for before in place.before:
        rows.append(f"  before: line {before.line}: {before.cpu} {before.count} {' '.join(before.words)}")
    data = state_before(trace, place)
    return rows + [f"  state: {line}" for line in (state_lines(data, device) if data else [])]
