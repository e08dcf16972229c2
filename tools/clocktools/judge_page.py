# SPDX-License-Identifier: Apache-2.0 OR MIT
"""Judges the pvclock pages that a peer published, by the time that they give, and what it read of MSRs."""

from dataclasses import dataclass

from .judging import Cause, Part, Read, apart, by_bits, counts_in, known, near, unexplained
from .rules import Rule
from .trace import Record

ZERO = Cause("page-zero", "board_core", "published")
STOPPED = Cause("stopped", "board_core", "published")
STABLE = Cause("stable", "board_core", "published")
STABLE_BIT, STOPPED_BIT = 1, 2
DRIFT = 1_000_000
"""Two rates that are apart by no more than one in so many are near: they are written in whole kilohertz."""
ROUNDING_NS = 1000


@dataclass(frozen=True)
class Page:
    """A page's fields."""

    stamp: int
    system: int
    mul: int
    shift: int
    flags: int

    @classmethod
    def of(cls, words: tuple[str, ...]) -> "Page":
        _version, stamp, system, mul, shift, flags = words[:6]
        return cls(int(stamp), int(system), int(mul, 16), int(shift), int(flags, 16))

    def time(self, tsc: int) -> int:
        """The time that the page gives at a count of the TSC."""
        ticks = tsc - self.stamp
        ticks = ticks << self.shift if self.shift >= 0 else ticks >> -self.shift
        return self.system + (ticks * self.mul >> 32)

    def tsc(self, reading: int) -> int:
        """About the count of the TSC at which the page gives this time."""
        return self.stamp + round((reading - self.system) * 2**32 / self.mul / 2.0**self.shift)

    def ns_per_tick(self) -> float:
        return self.mul * 2.0**self.shift / 2**32


@dataclass
class PageJudge:
    """Compares pages by the time that both give at the record's own count. A peer's time may begin elsewhere, by a
    stretch that the first page shows and all others must have. Where the host doesn't offset the guest's TSC, a peer's
    page counts by the host's."""

    zero: int | None = None
    first: int = 0

    def read(self, rule: Rule, record: Record, own: tuple[str, ...], peer: tuple[str, ...], within: int) -> list[Part]:
        if len(own) < 7 or len(peer) < 6:
            return [] if own == peer else [unexplained(rule, "page")]
        here, there, reading = Page.of(own), Page.of(peer), int(own[6])
        explained = []
        if here.flags & STABLE_BIT:
            explained.append((STABLE_BIT, STABLE))
        if there.flags & STOPPED_BIT:
            explained.append((STOPPED_BIT, STOPPED))
        flags = Rule(f"{rule.register} flags", rule.crate, rule.name)
        parts = by_bits(flags, here.flags ^ there.flags, list(explained))
        if (here.mul, here.shift) != (there.mul, there.shift):
            rate = Rule(f"{rule.register} rate", "pvclock_page", "IsScale")
            is_near = abs(here.ns_per_tick() - there.ns_per_tick()) * DRIFT <= here.ns_per_tick()
            parts.append(near(rate, "rate") if is_near else unexplained(rate, "rate"))
        tsc = min(here.tsc(reading), record.count, key=lambda count: abs(count - there.stamp))
        return parts + self.times(rule, there.time(tsc) - reading, record.time, within)

    def times(self, rule: Rule, ahead: int, time: int, within: int) -> list[Part]:
        if self.zero is None:
            self.zero, self.first = ahead, time
        allowed = within + ROUNDING_NS + (time - self.first) // DRIFT
        if abs(ahead - self.zero) > allowed:
            return [unexplained(rule, "time")]
        if ahead == 0:
            return []
        return [near(rule, "time") if abs(ahead) <= allowed else known(rule, "time", ZERO)]


def msr(rule: Rule, read: Read) -> list[Part]:
    """A read of an MSR. The TSC counts."""
    if not rule.counts_per_ns:
        return by_bits(rule, read.mask, [])
    is_near = apart(read.own, read.peer, 1 << 64) <= counts_in(read.within, rule.counts_per_ns)
    return [near(rule, "count") if is_near else unexplained(rule, "count")]
