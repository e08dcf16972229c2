# SPDX-License-Identifier: Apache-2.0 OR MIT
"""Judges what a peer answered for the registers of the HPET."""

from dataclasses import dataclass, field

from .judging import Cause, Part, Read, apart, by_bits, counts_in, known, near, unexplained
from .rules import HPET_NS, Rule

ROUTE = Cause("route", "hpet_comparator", "timer_at_power_on")
CHOSEN_ROUTE = Cause("route", "hpet_comparator", "chosen_route")
ROUTES = Cause("routes", "hpet_comparator", "config_register")
COMPARATOR = Cause("comparator", "hpet_comparator", "timer_at_power_on")
CONFIGURATION, MAIN_COUNTER, FIRST_TIMER = 0x10, 0xF0, 0x100
ROUTE_BITS, LINES_OF_BOARD = 0x3E00, range(20, 24)
PEER_ROUTES = (0x00000004, 0x00FF0104)
"""The lines that a timer of QEMU's can have, on its pc and on its q35."""
HALF = 1 << 32


@dataclass
class HpetJudge:
    """Follows the writes of a trace to the HPET, and says of each read that differs why it may."""

    is_running: bool = False
    started: int = 0
    """To how many nanoseconds it is known for how long the main counter has run since it was written."""
    written: dict[int, int] = field(default_factory=dict)
    """By its place what was written to a register last; of a timer's configuration the low half."""

    def write(self, offset: int, width: int, value: int, within: int) -> None:
        if width < 4 or offset % width:
            return
        place = offset & ~7
        if place == MAIN_COUNTER:
            self.started = within if self.is_running else 0
        elif offset == CONFIGURATION and bool(value & 1) != self.is_running:
            self.is_running = not self.is_running
            self.started += within
        if offset == place or place not in self.written:
            self.written[place] = value % HALF

    def read(self, rule: Rule, offset: int, width: int, read: Read) -> list[Part]:
        place, is_register = offset & ~7, width >= 4 and offset % width == 0
        if place == MAIN_COUNTER and is_register:
            return self.counter(rule, width, offset != place, read)
        if place >= FIRST_TIMER and is_register and place & 0x18 == 0:
            return self.configuration(rule, width, offset != place, place, read)
        if place >= FIRST_TIMER and is_register and place & 0x18 == 8 and place not in self.written:
            ones = (1 << 8 * width) - 1
            if (read.own, read.peer) == (0, ones):
                return [known(rule, "all bits", COMPARATOR)]
        return by_bits(rule, read.mask, [])

    def counter(self, rule: Rule, width: int, is_high: bool, read: Read) -> list[Part]:
        counts = counts_in(read.within + self.started, 1 / HPET_NS)
        is_near = not is_high and apart(read.own, read.peer, 1 << 8 * width) <= counts
        return [near(rule, "count") if is_near else unexplained(rule, "count")]

    def configuration(self, rule: Rule, width: int, is_high: bool, place: int, read: Read) -> list[Part]:
        """A timer's configuration: its route in the low half, and in the high half the routes that it can have."""
        explained: list[tuple[int, Cause | None]] = []
        route = (read.peer & ROUTE_BITS) >> 9
        asked = (self.written.get(place, 0) & ROUTE_BITS) >> 9
        if not is_high and route == asked and asked not in LINES_OF_BOARD:
            explained.append((ROUTE_BITS, CHOSEN_ROUTE if place in self.written else ROUTE))
        high = read.peer if is_high else read.peer >> 32
        if (is_high or width == 8) and high in PEER_ROUTES:
            explained.append((HALF - 1 if is_high else (HALF - 1) << 32, ROUTES))
        return by_bits(rule, read.mask, explained)
