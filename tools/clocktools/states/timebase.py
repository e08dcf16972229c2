# SPDX-License-Identifier: Apache-2.0 OR MIT
"""The time of a board and its pulses: those of the 8254 fall at n * 10^9 / 1193182 ns, rounded up, those of the MC146818 at
n * 10^9 / 32768, those of the HPET each 10 ns, all from time 0. A source of a conversion has a phase of its own for each; the time that
the board gets is chosen so that they fall alike, unless the guest has a page of the clock."""

from collections.abc import Iterable
from dataclasses import dataclass, field

from .meaning import HPET_NS, PIT_HZ, RTC_HZ, SECOND
from .saved import Fields, Losses

COMMON_NS = SECOND // 2
"""All three pulses repeat together."""
COMMON_RTC_PULSES = RTC_HZ // 2
NUDGES = (0, 1, -1, 2, -2, 3, -3, 4, -4, 5)
"""By which a time is moved to meet the HPET's pulses."""


def pulses_by(time_ns: int, rate: int = PIT_HZ) -> int:
    """How many pulses have come by a time, the one at 0 left out."""
    return time_ns * rate // SECOND


def time_of(pulse: int, rate: int = PIT_HZ) -> int:
    """The nanosecond of a pulse."""
    return -(-pulse * SECOND // rate)


def since_pulse(time_ns: int, rate: int) -> int:
    return time_ns - time_of(pulses_by(time_ns, rate), rate)


def board_now(values: Fields) -> int:
    """The board's time: that at the greatest count."""
    passed = values["host.greatest_count"] - values["host.anchor_count"]
    return values["host.anchor_ns"] + passed * 1_000_000 // values["host.khz"]


def ratio_of(values: Fields) -> int:
    """The guest's rate by the host's, with 48 bits after the binary point."""
    return values["guest.khz"] * 2**48 // values["host.khz"]


def scaled(values: Fields, count: int) -> int:
    """The TSC at a count, without an offset."""
    return count * ratio_of(values) // 2**48


def tsc_at(values: Fields, cpu: int, count: int) -> int:
    return (scaled(values, count) + values[f"cpu{cpu}.tsc_offset"]) % 2**64


@dataclass
class Phases:
    """How long ago each device's last pulse was in the source, or None where nothing hangs on it."""

    pit_ns: int | None = None
    rtc_ns: int | None = None
    hpet_ns: int | None = None

    def errors(self, time_ns: int) -> dict[str, int]:
        """By how much the board's pulses come earlier at this time."""
        rates = (("pit.phase", self.pit_ns, PIT_HZ), ("rtc.phase", self.rtc_ns, RTC_HZ))
        found = {name: since_pulse(time_ns, rate) - phase for name, phase, rate in rates if phase is not None}
        return found | ({} if self.hpet_ns is None else {"hpet.phase": time_ns % HPET_NS - self.hpet_ns})


@dataclass
class Aligned:
    """The time that a board gets, and what is left of each phase."""

    time_ns: int
    errors: dict[str, int] = field(default_factory=dict)

    def tell(self, losses: Losses, why: str) -> None:
        for name, error in self.errors.items():
            if error:
                losses.say(name, f"the board's pulse comes {error:+d} ns early: {why}")


def candidates(earliest_ns: int, phases: Phases) -> Iterable[int]:
    """The times at which the slowest pulse falls as in the source."""
    if phases.rtc_ns is None:
        return range(earliest_ns, earliest_ns + HPET_NS * (SECOND // PIT_HZ + 1))
    base, last = earliest_ns - earliest_ns % COMMON_NS, earliest_ns + COMMON_NS
    nudges = (0,) if phases.hpet_ns is None else NUDGES
    times = (base + time_of(pulse, RTC_HZ) + phases.rtc_ns + nudge for pulse in range(2 * COMMON_RTC_PULSES) for nudge in nudges)
    return (time for time in times if earliest_ns <= time < last)


def aligned(earliest_ns: int, phases: Phases) -> Aligned:
    """The first time from here on, within half a second, at which the errors are least."""
    best, least = earliest_ns, None
    for time in candidates(earliest_ns, phases):
        if phases.hpet_ns is not None and time % HPET_NS != phases.hpet_ns:
            continue
        error = sum(map(abs, phases.errors(time).values()))
        if least is None or error < least:
            best, least = time, error
        if not error:
            break
    return Aligned(best, phases.errors(best))
