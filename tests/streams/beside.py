# SPDX-License-Identifier: Apache-2.0 OR MIT
"""A board that goes on from a recorded stream, beside what QEMU showed."""

import gzip
import json
from dataclasses import dataclass, field
from functools import cache
from pathlib import Path

from clocktools.states.qemu import Source, from_qemu
from clocktools.states.qemu_stream import Stream
from clocktools.states.saved import Fields, Losses, ask, at_power_on, replayed

from .scenes import ACKNOWLEDGED_NS, HPET_REGISTERS, TIME_BYTES

HERE = Path(__file__).resolve().parent
POLICY = "policy discard discard discard"
HEAD = 3
"""Lines of a trace before its first record."""
PIT_ACKNOWLEDGED_NS = 5000


@dataclass(eq=False)
class Recording:
    """A stream, the virtual clock at its save, and what QEMU went on to show until `end_ns`: readings by time, and rises."""

    name: str
    virtual_ns: int
    end_ns: int
    stream: str
    readings: list[tuple[int, list[tuple[str, str]]]]
    rises: list[tuple[int, int]]
    lines: list[int]
    messages: list[int] = field(default_factory=list)
    again: list[tuple[int, int]] = field(default_factory=list)
    """Rises with which QEMU pulsed a second time for one tick, which aren't among `rises`."""

    def source(self) -> Stream:
        return Stream(bytes.fromhex(self.stream))

    def expected(self) -> list[tuple[int, str, str]]:
        return [(time, what, told) for time, row in self.readings for what, told in row]


@cache
def recordings() -> tuple[Recording, ...]:
    return tuple(Recording(path.name.split(".")[0], **json.loads(gzip.decompress(path.read_bytes())))
                 for path in sorted(HERE.glob("*.json.gz")))


@dataclass
class Converted:
    """The state of a recording, and what was told of its conversion."""

    values: Fields
    losses: Losses = field(default_factory=Losses)


@cache
def converted(one: Recording, keeps_time: bool = False, keeps_second: bool = True, version: int = 2) -> Converted:
    """The board's counter is the virtual clock."""
    losses = Losses()
    values = at_power_on(["cpus 1", POLICY], version)
    source = Source(version=version, count=one.virtual_ns, virtual_ns=one.virtual_ns, guest_khz=1_000_000, keeps_time=keeps_time,
                    keeps_second=keeps_second)
    return Converted(from_qemu(values, one.source(), source, losses), losses)


def records_of(time: int, what: str) -> list[str]:
    """The records by which a guest reads a clock."""
    if what in HPET_REGISTERS:
        words = [f"hr {HPET_REGISTERS[what]:x} 4"]
    elif what == "rtc":
        words = [word for place in TIME_BYTES for word in (f"out 70 {place:02x}", "in 71")]
    elif what.startswith("low"):
        words = [f"in {0x40 + int(what[3]):x}"]
    else:
        words = [f"out 43 {int(what[3]) << 6:02x}", *[f"in {0x40 + int(what[3]):x}"] * 2]
    return [f"0 {time} {word}" for word in words]


def readings_of(state: bytes, one: Recording) -> list[str]:
    """What the board shows at the times of QEMU's readings, in the same digits."""
    asked = [records_of(time, what) for time, what, _ in one.expected()]
    said = replayed(["clockboard 2", f"state {state.hex()}", "begin", *(record for records in asked for record in records), "end"])
    values = {int(words[0]): words[2] for words in map(str.split, said) if words[0].isdecimal() and len(words) > 2}
    found, line = [], HEAD + 1
    for records, (_, what, _) in zip(asked, one.expected()):
        told = [values[line + place] for place in range(len(records)) if line + place in values]
        found.append("".join(reversed(told)) if what.startswith("pit") else "".join(told))
        line += len(records)
    return found


def rises_of(state: bytes, values: Fields, one: Recording) -> list[tuple[int, int]]:
    """The board's rises after the save, by a guest that acknowledges each of QEMU's a while later."""
    records = [(one.virtual_ns, f"ack {line}") for line in one.lines if line != 8]
    for time, line in one.rises:
        records += [(time + ACKNOWLEDGED_NS, "out 70 0c"), (time + ACKNOWLEDGED_NS, "in 71")] if line == 8 and not values["hpet.config"] & 2 \
            else [(time + PIT_ACKNOWLEDGED_NS, f"ack {line}")]
    trace = [f"0 {time} {words}" for time, words in sorted(records, key=lambda record: record[0]) if time <= one.end_ns]
    said = replayed(["clockboard 2", f"state {state.hex()}", "begin", *trace, f"0 {one.end_ns} step", "end"])
    edges = [(int(words[1]) - values["host.anchor_ns"] + one.virtual_ns, int(words[2])) for words in map(str.split, said)
             if words[0] == "edge" and words[3] == "up"]
    return [(time, line) for time, line in edges if time > one.virtual_ns and line in one.lines]


def replies(state: bytes, records: list[str]) -> list[list[str]]:
    """What the program replies to each record on the board of a state, without line and number."""
    return [block.reply for block in ask(state, records).blocks]


def page_clock(page: bytes, tsc: int) -> int:
    """The clock that a guest works out of a page."""
    begin, base = (int.from_bytes(page[at : at + 8], "little") for at in (8, 16))
    mul, shift = int.from_bytes(page[24:28], "little"), int.from_bytes(page[28:29], "little", signed=True)
    passed = (tsc - begin) << shift if shift >= 0 else tsc - begin >> -shift
    return base + (passed * mul >> 32)
