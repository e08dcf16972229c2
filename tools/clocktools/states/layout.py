# SPDX-License-Identifier: Apache-2.0 OR MIT
"""The fields of a saved state in the order of its bytes, with the names of docs/STATES.md. docs/FORMATS.md has the bytes;
tests/test_state_layout.py compares the two."""

from collections.abc import Iterator
from dataclasses import dataclass
from enum import Enum
from functools import lru_cache

MAGIC = b"CLKBOARD"
FORMATS = range(1, 6)
MOST_CPUS = 64
POLICIES = ("discard", "delay", "slew")
FLAGS = ("null", "out", "gate", "written", "loaded", "armed", "triggered", "odd")
"""The bits of the flags of a counter of the 8254."""
RTC_NAMES = ("sec", "sec_alarm", "min", "min_alarm", "hour", "hour_alarm", "wday", "date", "month", "year", "a", "b", "c", "d")
RTC_BYTES = 128
LINES = (0, 8, 20, 21, 22, 23)
TICK_COUNTS = ("due", "rose", "waiting", "lost")
LAST_VERSION = 4_294_967_294
"""Of a page, of the wall clock's words."""


class Kind(Enum):
    """How a field is written in text."""

    NUMBER = "decimal"
    HEX = "hexadecimal"
    POLICY = "policy"
    FLAGS = "flags"
    FLAG = "flag"
    SIGNED = "two's complement"


@dataclass(frozen=True)
class Field:
    """A field: its name, its bytes, how it is written, and whether one row of the grammar has it with the field before."""

    name: str
    size: int
    kind: Kind = Kind.NUMBER
    joined: bool = False


def timers_of(version: int) -> int:
    """The HPET's timers."""
    return 3 if version == 1 else 8


def tick_lines(version: int, cpus: int) -> list[str]:
    """The owners of tick counts, by the names before `.ticks.`."""
    apics = [f"cpu{cpu}.apic_timer" for cpu in range(cpus)] if version >= 3 else []
    return ["pit", "rtc", *(f"hpet.timer{number}" for number in range(timers_of(version))), *apics]


def rtc_name(place: int) -> str:
    """The name of a byte of the MC146818."""
    return f"rtc.{RTC_NAMES[place]}" if place < len(RTC_NAMES) else f"rtc.ram{place:02x}"


def _head() -> Iterator[Field]:
    yield Field("format", 2)
    yield Field("cpus", 2)
    for name in ("host.khz", "host.anchor_count", "host.anchor_ns", "host.greatest_count", "guest.khz", "accesses",
                 "clock.greatest_ns", "slew_ns"):
        yield Field(name, 8)
    for device in ("pit", "rtc", "hpet"):
        yield Field(f"{device}.policy", 1, Kind.POLICY)


def _counter(at: str) -> Iterator[Field]:
    yield Field(at + "control", 1, Kind.HEX)
    yield Field(at + "flags", 1, Kind.FLAGS)
    yield Field(at + "count_register", 2)
    yield Field(at + "count", 2)
    yield Field(at + "first_byte_waits", 1, Kind.FLAG)
    yield Field(at + "first_byte", 1, Kind.HEX, joined=True)
    yield Field(at + "read_high_next", 1, Kind.FLAG)
    yield Field(at + "count_latched", 1, Kind.FLAG)
    yield Field(at + "latched_count", 2, joined=True)
    yield Field(at + "status_latched", 1, Kind.FLAG)
    yield Field(at + "latched_status", 1, Kind.HEX, joined=True)


def _rtc() -> Iterator[Field]:
    yield Field("rtc.index", 1, Kind.HEX)
    for place in range(RTC_BYTES):
        yield Field(rtc_name(place), 1, Kind.HEX, joined=place > 0)
    yield Field("rtc.divider", 2)
    yield Field("rtc.updating", 1, Kind.FLAG)


def _hpet(timers: int) -> Iterator[Field]:
    yield Field("hpet.config", 1, Kind.HEX)
    yield Field("hpet.status", 1, Kind.HEX)
    yield Field("hpet.counter", 8)
    for number in range(timers):
        yield Field(f"hpet.timer{number}.config", 2, Kind.HEX)
        yield Field(f"hpet.timer{number}.comparator", 8)
        yield Field(f"hpet.timer{number}.period", 8)


def _ticks(owner: str) -> Iterator[Field]:
    yield Field(f"{owner}.ticks.up", 1, Kind.FLAG)
    for name in TICK_COUNTS:
        yield Field(f"{owner}.ticks.{name}", 8)


def _rises() -> Iterator[Field]:
    for line in LINES:
        yield Field(f"line{line}.rises", 8, joined=line != LINES[0])


def _wall() -> Iterator[Field]:
    yield Field("wall.msr", 8, Kind.HEX)
    for name in ("version", "sec", "nsec"):
        yield Field(f"wall.{name}", 4)


def _processor(at: str) -> Iterator[Field]:
    yield Field(at + "tsc_offset", 8, Kind.HEX)
    yield Field(at + "tsc_adjust", 8, Kind.HEX)
    yield Field(at + "page.msr", 8, Kind.HEX)
    yield Field(at + "page.version", 4)
    yield Field(at + "page.tsc", 8)
    yield Field(at + "page.ns", 8)
    yield Field(at + "page.mul", 4, Kind.HEX)
    yield Field(at + "page.shift", 1, Kind.SIGNED)
    yield Field(at + "page.flags", 1, Kind.HEX)


def _apic_timer(owner: str) -> Iterator[Field]:
    yield Field(f"{owner}.lvt", 4, Kind.HEX)
    yield Field(f"{owner}.divide", 1, Kind.HEX)
    yield Field(f"{owner}.initial", 4)
    yield Field(f"{owner}.current", 4)
    yield Field(f"{owner}.phase_ns", 1)
    yield Field(f"{owner}.deadline", 8)
    yield from _ticks(owner)


def _hyperv() -> Iterator[Field]:
    yield Field("hv.msr", 8, Kind.HEX)
    yield Field("hv.version", 4)
    yield Field("hv.cpu", 1)
    yield Field("hv.scale", 8, Kind.HEX)
    yield Field("hv.offset", 8, Kind.HEX)
    yield Field("hv.tsc_offset", 8, Kind.HEX)


def _messages() -> Iterator[Field]:
    for number in range(8):
        yield Field(f"hpet.timer{number}.message_enable", 1, Kind.FLAG)
        yield Field(f"hpet.timer{number}.message", 8, Kind.HEX)


def _all(version: int, cpus: int) -> Iterator[Field]:
    yield from _head()
    for number in range(3):
        yield from _counter(f"pit.counter{number}.")
    yield Field("pit.speaker", 1, Kind.FLAG)
    yield from _rtc()
    yield from _hpet(timers_of(version))
    for owner in tick_lines(version, 0):
        yield from _ticks(owner)
    if version >= 2:
        yield from _rises()
    yield from _wall()
    for cpu in range(cpus):
        yield from _processor(f"cpu{cpu}.")
    if version >= 3:
        for owner in tick_lines(version, cpus)[2 + timers_of(version):]:
            yield from _apic_timer(owner)
    if version >= 4:
        yield from _hyperv()
    if version >= 5:
        yield from _messages()


@lru_cache
def fields(version: int, cpus: int) -> tuple[Field, ...]:
    """The fields of a state of this format after the magic, in the order of the bytes."""
    return tuple(_all(version, cpus))


@lru_cache
def by_name(version: int, cpus: int) -> dict[str, Field]:
    return {field.name: field for field in fields(version, cpus)}


@lru_cache
def rows(version: int, cpus: int) -> dict[int, tuple[str, ...]]:
    """The names of each row of the grammar by the place of its first byte, which a refusal tells."""
    found: dict[int, tuple[str, ...]] = {}
    place, row = len(MAGIC), len(MAGIC)
    for field in fields(version, cpus):
        row = row if field.joined else place
        found[row] = (*found.get(row, ()), field.name)
        place += field.size
    return found


def length(version: int, cpus: int) -> int:
    return len(MAGIC) + sum(field.size for field in fields(version, cpus))
