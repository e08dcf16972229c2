# SPDX-License-Identifier: Apache-2.0 OR MIT
"""Judges what a peer answered at the ports of the 8254."""

from dataclasses import dataclass, field

from .judging import Cause, Part, Read, apart, bits_named, by_bits, counts_in, known, near, unexplained
from .rules import PIT_HZ, Rule

PULSE = Cause("load", "pit_counter", "effect_in")
RELOAD = Cause("reload", "pit_counter", "effect_in")
OUT = Cause("out", "pit_counter", "effect_in")
BCD = Cause("bcd", "pit_counter", "read_as")
NULL = Cause("null-count", "pit_counter", "status_of")
GATE = Cause("gate", "pit_counter", "effect_in")
UNWRITTEN = Cause("no-count", "pit_counter", "counter_at_power_on")
TRIGGER = Cause("trigger", "pit_counter", "gated")
READ_BACK = Cause("read-back-d0", "pit_readback", "is_chosen")
LATCH_ORDER = Cause("latch-order", "pit_counter", "reads_high")
PORT_43 = Cause("port-43", "pit_readback", "port_read")
REFRESH = Cause("refresh", "pit_readback", "read_of_61")
REFRESH_BIT, OUT_BIT = 1 << 4, 1 << 5
STATUS_OUT, STATUS_NULL = 1 << 7, 1 << 6
SQUARE, PERIODIC, TRIGGERED, TURNED = (3, 7), (2, 3, 6, 7), (1, 5), (1, 2, 4, 5, 6)
"""The modes of a square wave, those that load again by themselves, those that a gate triggers, and those of which QEMU
shows OUT turned round."""
PULSE_NS, SAVED_NS = 839, 1_000_000_000
KEPT_WRITES = 64


@dataclass(frozen=True)
class Write:
    """A write that reaches counter 2: its time, its port and its byte."""

    time: int
    port: int
    byte: int


@dataclass(frozen=True)
class Probe:
    """A read of OUT 2 that differs. It is near where the counter, after the same writes, shows the peer's bit within
    the time to which those and the read are exact."""

    writes: tuple[Write, ...]
    time: int
    within: int
    bit: bool


@dataclass
class Counter:
    """What is known of a counter by the writes of a trace."""

    control: int | None = None
    started: int = 0
    """To how many nanoseconds it is known when the count began to run."""
    is_loaded: bool = False
    written: int = 0
    """When the count was written."""
    has_first_byte: bool = False
    was_reloaded: bool = False
    """Another count was written while one counted, in a mode that loads it at the end of a period."""
    was_stopped: bool = False
    was_triggered: bool = False
    """GATE has risen since a count was written."""
    was_read_back: bool = False
    """A read-back with D0 = 1 chose it, which latches nothing here."""
    was_latched_between: bool = False
    """Its count was latched between the reads of its two bytes."""
    latched: int | None = None
    """To how many nanoseconds it is known when a count was latched, where one waits."""
    reads_high: bool = False
    low: int = 0
    low_read: int = 0
    """The board's low byte that was read last, and when."""

    @property
    def mode(self) -> int:
        return (self.control or 6) >> 1 & 7

    @property
    def takes_two(self) -> bool:
        return self.control is None or self.control & 0x30 == 0x30

    def write(self, time: int, within: int) -> None:
        """A byte of a count is written. Of two the second makes it whole."""
        self.has_first_byte = self.takes_two and not self.has_first_byte
        if not self.has_first_byte:
            self.was_reloaded |= self.is_loaded and self.mode in PERIODIC
            self.is_loaded, self.written, self.started = True, time, within

    def latch(self, within: int) -> None:
        if self.latched is None:
            self.was_latched_between |= self.takes_two and self.reads_high
            self.latched = within

    def to_end(self, step: int, read: Read) -> int:
        """Of a high byte, how many counts the low one is from an end, towards the peer's. Since it was read it went on,
        by a count more or less than the time between the two reads says."""
        since = 0 if self.latched is not None else read.time - self.low_read
        passed = since * step * PIT_HZ // 10**9
        lows = [(self.low - passed + off) % 256 for off in ((-1, 0, 1) if since else (0,))]
        return min(256 - low if (read.peer - read.own) % 256 < 128 else low + 1 for low in lows)

    def causes(self) -> list[Cause]:
        """Why its counts or its output may differ from then on, whatever they are."""
        return [cause for cause, holds in (
            (UNWRITTEN, not self.is_loaded), (BCD, bool(self.control and self.control & 1)),
            (GATE, self.was_stopped and self.mode not in TRIGGERED), (RELOAD, self.was_reloaded)) if holds]

    def count_causes(self) -> list[Cause]:
        """Why the bytes of its count may differ from then on, whatever they are."""
        return [*self.causes(), *(cause for cause, holds in (
            (TRIGGER, self.is_loaded and self.mode in TRIGGERED and not self.was_triggered),
            (READ_BACK, self.was_read_back), (LATCH_ORDER, self.was_latched_between)) if holds)]


@dataclass
class PitJudge:
    """Follows the writes of a trace to the 8254, and says of each read that differs why it may."""

    counters: list[Counter] = field(default_factory=lambda: [Counter(), Counter(), Counter()])
    port_61: int = 0
    writes: list[Write] = field(default_factory=list)

    def begin_saved(self) -> None:
        """The trace begins with a saved state, so each counter may run, and no row about power on applies."""
        for counter in self.counters:
            counter.is_loaded, counter.written = True, -SAVED_NS

    def write(self, port: int, byte: int, time: int, within: int) -> None:
        if port == 0x61:
            self.write_61(byte, time, within)
        elif port == 0x43:
            self.command(byte, time, within)
        else:
            counter = self.counters[port - 0x40]
            counter.write(time, within)
            counter.was_stopped = port == 0x42 and not self.port_61 & 1
            self.keep(port - 0x40, Write(time, port, byte))

    def write_61(self, byte: int, time: int, within: int) -> None:
        if (byte ^ self.port_61) & 1:
            self.counters[2].started += within
            self.counters[2].was_stopped |= not byte & 1
            self.counters[2].was_triggered |= self.counters[2].is_loaded and bool(byte & 1)
            self.keep(2, Write(time, 0x61, byte & 3))
        self.port_61 = byte & 3

    def command(self, byte: int, time: int, within: int) -> None:
        number = byte >> 6
        if number == 3:
            for k, counter in enumerate(self.counters):
                if byte >> k + 1 & 1:
                    counter.was_read_back |= bool(byte & 1) and byte & 0x30 != 0x30
                    if not byte & 0x21:
                        counter.latch(within)
        elif not byte & 0x30:
            self.counters[number].latch(within)
        else:
            self.counters[number] = Counter(byte & 0x3F, was_stopped=number == 2 and not self.port_61 & 1)
            if number == 2:
                self.writes = [Write(time, 0x61, self.port_61)]
            self.keep(number, Write(time, 0x43, byte))

    def keep(self, number: int, write: Write) -> None:
        if number == 2 and len(self.writes) < KEPT_WRITES:
            self.writes.append(write)

    def status(self, number: int, rule: Rule, read: Read) -> list[Part]:
        counter = self.counters[number]
        out = next(iter(counter.causes()), OUT if counter.mode in TURNED else None)
        explained = [(STATUS_OUT, out)] if out else []
        if read.own & STATUS_NULL:
            explained.append((STATUS_NULL, NULL))
        return by_bits(rule, read.mask, list(explained))

    def count(self, number: int, rule: Rule, read: Read) -> list[Part]:
        """A byte of a count. Of a high one the peer's may be that beside it, where the board's count is by an end of
        its low byte."""
        counter = self.counters[number]
        step = 2 if counter.mode in SQUARE else 1
        within = read.within if counter.latched is None else counter.latched
        counts = counts_in(within + counter.started, step * PIT_HZ / 1e9)
        distance = apart(read.own, read.peer, 1 << 8)
        if counter.takes_two and counter.reads_high and distance:
            distance = 256 * (distance - 1) + counter.to_end(step, read)
        self.follow(counter, read)
        if not read.mask:
            return []
        cause = next(iter(counter.count_causes()), None)
        if cause:
            return [known(rule, "count", cause)]
        if distance <= counts:
            return [near(rule, "count")]
        if distance <= counts + step or read.time - counter.written <= PULSE_NS + within + counter.started:
            return [known(rule, "count", PULSE)]
        return [unexplained(rule, "count")]

    def follow(self, counter: Counter, read: Read) -> None:
        """A byte of a count is read: which comes next, and whether a latched one is done."""
        if not counter.takes_two or counter.reads_high:
            counter.latched, counter.reads_high = None, False
        else:
            counter.reads_high, counter.low, counter.low_read = True, read.own, read.time

    def port_43_read(self, rule: Rule, read: Read) -> list[Part]:
        """A read of port 43h, which QEMU answers by 0."""
        return by_bits(rule, read.mask, [] if read.peer else [(read.own, PORT_43)])

    def port_61_read(self, rule: Rule, read: Read) -> tuple[list[Part], Probe | None]:
        """A read of port 61h. A probe may have to show whether OUT 2 is near."""
        counter = self.counters[2]
        cause = next(iter(counter.causes()), OUT if counter.mode in TURNED else None)
        explained: list[tuple[int, Cause | None]] = [(REFRESH_BIT, REFRESH)]
        if cause:
            explained.append((OUT_BIT, cause))
        elif read.mask & OUT_BIT and self.writes:
            probe = Probe(tuple(self.writes), read.time, read.within + counter.started, bool(read.peer & OUT_BIT))
            rest = Read(read.time, read.within, read.own & ~OUT_BIT, read.peer & ~OUT_BIT)
            return by_bits(rule, rest.mask, explained), probe
        return by_bits(rule, read.mask, explained), None


def out_2(rule: Rule, is_near: bool) -> Part:
    """The part of a read of OUT 2 whose probe was answered."""
    what = bits_named(OUT_BIT)
    return near(rule, what) if is_near else unexplained(rule, what)
