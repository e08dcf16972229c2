# SPDX-License-Identifier: Apache-2.0 OR MIT
"""A run, what it gives, and the numbers of all runs."""

import re
from dataclasses import dataclass, field
from pathlib import Path

HERE = Path(__file__).resolve().parent
TOP = HERE.parent.parent
BASE, START = "2026-11-29T12:00:00", 1795953600
"""What the MC146818 shows at the start of a run; the same in seconds since 1970."""
LIMIT = 600
"""The seconds that a run may take."""
KERNEL = "console=ttyS0 panic=-1"
PERIODIC = "nohz=off highres=off"
HZ = 250
"""Of the guest's ticks, where they are periodic."""
ON_THE_BOARD = 2
"""The seconds for which a guest that is taken over is on the board, at least: most of a sleep of 4."""
TRIES = 3
"""How often a run is made whose guest is late, while the host has more to do than processors."""
ACCEPTED = ("guest.khz", "hpet.timer0.ticks.up", "hpet.timers", "pit.counter1.control", "pit.counter2.count", "pit.ticks.up", "rtc.phase")
"""What tools/state may lose of a guest that is taken over: the rate of a TSC that stays QEMU's, a line whose request the controllers have,
an HPET that the device shows to no guest of a machine without one, a counter that was never programmed, the phase of one that nothing
ticks by, a nanosecond of the MC146818's."""
MARGIN = 8
"""In ticks: the guest tells its time in hundredths of a second, and counts the ticks before and after that."""
SLEEPS_IN_S3, S3, S3_MARGIN = 2, 5, 4
"""How often the guest sleeps in S3 in a run for it; for how many seconds; how many more may pass by the MC146818 until it looks again."""
SECOND, PIT_HZ, RTC_HZ, HPET_NS = 10**9, 1193182, 32768, 10
BAD = re.compile(r"Kernel panic|timer doesn't work|nobody cared")
LATE = re.compile(r"Marking clocksource|clocksource watchdog|rcu.*stall|soft lockup")


COLUMNS = ("TSC in MHz, at first and refined", "clock, events", "sleeps late", "interrupts 0, 8", "rises 0, 8", "accesses",
           "values", "edges")
"""Of the table."""


class Skipped(Exception):
    """Why a run isn't made."""


class Failed(Exception):
    """What a check found."""


class Late(Failed):
    """The same of the guest's time, which a host with too few processors spoils with QEMU's own devices too."""


@dataclass
class Run:
    """A guest and how QEMU is started for it."""
    name: str
    words: tuple[str, ...] = ()
    device: str | None = "clockboard"
    kernel: str = ""
    check: str = "linux"
    meanwhile: str = ""
    is_slow: bool = False
    """Whether the speed of the guest's processor follows the host's load, so that a sleep may end late."""


@dataclass
class Seen:
    """What a run gave."""
    run: Run
    log: str = ""
    traces: list[Path] = field(default_factory=list)
    place: Path = Path()
    logs: list[str] = field(default_factory=list)
    """What the guest said in each QEMU in which it was."""
    cells: dict[str, str] = field(default_factory=dict)
    mhz: float = 0.0
    interrupts: list[int] = field(default_factory=lambda: [0, 0])
    """Of lines 0 and 8, as the guest counts them."""
    rises: list[int] = field(default_factory=lambda: [0, 0])
    """Of lines 0 and 8, as the replay prints them."""


def need(holds: bool, what: str, kind: type[Failed] = Failed) -> None:
    if not holds:
        raise kind(what)
