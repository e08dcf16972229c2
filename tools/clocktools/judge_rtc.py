# SPDX-License-Identifier: Apache-2.0 OR MIT
"""Judges what a peer answered for the bytes of the MC146818."""

from dataclasses import dataclass, field

from .judging import Cause, Part, Read, by_bits, known, near, unexplained
from .power_on import (
    B_AT_POWER_ON, CENTURY, DATE, HOUR, MINUTE, MONTH, SECOND, WEEKDAY, YEAR, hour_of, number_of)
from .rules import TIMES, Rule

DIVIDER = Cause("divider", "rtc_cycle", "divider_at_power_on")
UIP = Cause("uip", "rtc_cycle", "uip_of")
FORM = Cause("form", "rtc_registers", "form_of")
PERIODIC = Cause("periodic-flag", "rtc_registers", "flags_next")
FIRMWARE = Cause("firmware", "rtc_registers", "rtc_at_power_on")
CENTURY_BYTE = Cause("century", "rtc_registers", "rtc_at_power_on")
ALARM, A, B, C = 0x01, 0x0A, 0x0B, 0x0C
UIP_BIT = SET = 1 << 7
IRQF, PF, AF, UF = 1 << 7, 1 << 6, 1 << 5, 1 << 4
DONT_CARE = 0xC0
"""Alarm bytes from here on match each time."""
ENDS = {SECOND: {0, 59}, MINUTE: {0, 59}, HOUR: {0, 23}, WEEKDAY: {1, 7}, DATE: {1, 28, 29, 30, 31}, MONTH: {1, 12},
        YEAR: {0, 99}}
"""Where a byte's range ends and begins."""
DM_AND_24 = 0x06
CENTURIES = (0x19, 0x20, 0x21)
SECOND_NS, HERTZ = 1_000_000_000, 32_768
TURN_NS = SECOND_NS // 2 + 1_984_000
"""How long after the divider stood at 16,384 the time bytes change: half a second, and a cycle."""
UIP_NS, PEER_UIP_NS = 1_984_000 + 244_141, 244_141
"""How long before the time bytes change UIP is set, here and there."""


@dataclass
class Phase:
    """How much later than the board's the peer's second turns, as far as the reads of a trace show: a second at most,
    earlier or later. A read that fits no such clock leaves it as it is."""

    least: int = -SECOND_NS
    greatest: int = SECOND_NS

    def takes(self, least: int, greatest: int) -> bool:
        least, greatest = max(least, self.least), min(greatest, self.greatest)
        if least > greatest:
            return False
        self.least, self.greatest = least, greatest
        return True


NO_PHASE = Phase(1, 0)
"""Of a board that isn't at power on, and whose second turns at a time that isn't known."""


@dataclass
class RtcJudge:
    """Follows the writes of a trace to the MC146818, and says of each read that differs why it may."""

    index: int = 0
    a: int = 0x26
    b: int = B_AT_POWER_ON
    turned: int = TURN_NS
    """A time at which a second of the board's turns; the others are whole seconds from it."""
    phase: Phase = field(default_factory=Phase)
    is_reformed: bool = False
    """DM or 24/12 were changed since the time bytes were written."""
    alarm: int = 0
    """The alarm's second."""
    flags_read: int = 0
    alarm_written: int = 0
    was_silent: bool = True
    """PIE was 0 at some time since register C was read."""
    own_time: dict[int, tuple[int, int]] = field(default_factory=dict)
    """By its byte's index what the board showed last, and when."""

    def write(self, byte: int, time: int) -> None:
        if self.index == A:
            if byte & 0x70 != 0x20 or self.a & 0x70 != 0x20:
                self.turned, self.phase = time + TURN_NS, Phase()
            self.a = byte & 0x7F
        elif self.index == B:
            self.is_reformed |= bool((byte ^ self.b) & DM_AND_24)
            if (byte ^ self.b) & SET:
                self.phase = Phase()
            self.was_silent |= not byte & PF
            self.b = byte
        elif self.index == ALARM:
            self.alarm, self.alarm_written = byte, time
        elif self.index in TIMES:
            self.phase, self.is_reformed = Phase(), False
            self.own_time.clear()

    def read(self, rule: Rule, read: Read, is_written: bool) -> list[Part]:
        """The parts of a read's difference, none where there is none. Equal ones are followed too."""
        if self.index in TIMES:
            return self.time_byte(rule, read)
        if self.index == C:
            return self.flags(rule, read)
        if not read.mask:
            return []
        if self.index == A:
            return self.update_in_progress(rule, read)
        if self.index == CENTURY and not is_written:
            return by_bits(rule, read.mask, [(0xFF, CENTURY_BYTE)] if read.peer in CENTURIES and not read.own else [])
        if self.index > 0x0D and not is_written and not read.own:
            return by_bits(rule, read.mask, [(0xFF, FIRMWARE)])
        if self.index in (1, 3, 5) and self.is_reformed:
            return [known(rule, "alarm", FORM)]
        return by_bits(rule, read.mask, [])

    def since_turn(self, time: int) -> int:
        """How long before a time the board's second turned."""
        return (time - self.turned) % SECOND_NS

    def is_at_turn(self, read: Read) -> bool:
        since = self.since_turn(read.time)
        return min(since, SECOND_NS - since) <= read.within

    def time_byte(self, rule: Rule, read: Read) -> list[Part]:
        number = hour_of if self.index == HOUR else number_of
        own, peer = number(read.own, self.b), number(read.peer, self.b)
        self.own_time[self.index] = own, read.time
        ahead = peer - own
        if self.index == SECOND:
            ahead = (ahead + 30) % 60 - 30
            if abs(ahead) <= 1 and not self.is_reformed and read.is_answered:
                return self.second(rule, read, ahead)
        if not read.mask:
            return []
        if self.is_reformed:
            return [known(rule, "time", FORM)]
        is_beside = abs(ahead) == 1 or {own, peer} <= ENDS[self.index]
        if self.index != SECOND and is_beside and self.carries(read.time):
            return [near(rule, "time") if self.is_at_turn(read) else known(rule, "time", DIVIDER)]
        return [unexplained(rule, "time")]

    def second(self, rule: Rule, read: Read, ahead: int) -> list[Part]:
        """A second that is the board's, or one beside it: it must be that of a clock whose second turns a while later."""
        since = self.since_turn(read.time)
        fits = self.phase.takes(since - (ahead + 1) * SECOND_NS - read.within, since - ahead * SECOND_NS + read.within)
        if not read.mask:
            return []
        if self.is_at_turn(read):
            return [near(rule, "time")]
        return [known(rule, "time", DIVIDER)] if fits else [unexplained(rule, "time")]

    def carries(self, time: int) -> bool:
        """Whether the byte read now may just have been carried into: those below it are at an end of their range."""
        second = self.second_at(time)
        below = [index for index in (MINUTE, HOUR) if index < self.index]
        return second in (58, 59, 0, 1) and all(self.own_time.get(index, (None,))[0] in ENDS[index] for index in below)

    def second_at(self, time: int) -> int | None:
        """The board's second, if a read has shown one."""
        if SECOND not in self.own_time:
            return None
        value, read_at = self.own_time[SECOND]
        return (value + (time - self.turned) // SECOND_NS - (read_at - self.turned) // SECOND_NS) % 60

    def has_turned(self, read: Read, since: int) -> bool:
        """Whether the peer's second may have turned in so long a time before a read."""
        end = self.since_turn(read.time) + read.within
        begin = end - since - 2 * read.within
        return any(self.phase.least + turn <= end and begin <= self.phase.greatest + turn
                   for turn in range(-SECOND_NS, 3 * SECOND_NS, SECOND_NS))

    def update_flag(self, read: Read, since: int) -> int:
        """UF, if it may differ since the second turns at another time there: only where one turned since the last read."""
        if since >= SECOND_NS + read.within or not read.own & UF and not self.has_turned(read, since):
            return 0
        return UF

    def may_miss_alarm(self, read: Read, since: int) -> bool:
        """Whether AF may differ, since the alarm's second begins at another time there: only where it began here or there
        around one of the two reads and not the other."""
        second, alarm = self.second_at(read.time), number_of(self.alarm, self.b)
        if self.alarm >= DONT_CARE or second is None:
            return bool(self.update_flag(read, since))
        begin, end = max(read.time - since, self.alarm_written), read.time
        turned = end - self.since_turn(end) - (second - alarm) % 60 * SECOND_NS
        for turn in (turned, turned + 60 * SECOND_NS):
            least, greatest = turn + self.phase.least - read.within, turn + self.phase.greatest + read.within
            if read.own & AF:
                differs = begin < turn <= end and (greatest > end or least <= begin)
            else:
                differs = least <= end and greatest > begin
            if differs:
                return True
        return False

    def update_in_progress(self, rule: Rule, read: Read) -> list[Part]:
        before_turn = SECOND_NS - self.since_turn(read.time)
        edge = min(abs(before_turn - UIP_NS), before_turn, SECOND_NS - before_turn)
        if not read.mask & UIP_BIT:
            explained: list[tuple[int, Cause | None]] = []
        elif edge <= read.within:
            explained = [(UIP_BIT, None)]
        elif read.own & UIP_BIT:
            explained = [(UIP_BIT, UIP)]
        else:
            soon = -before_turn
            fits = any(self.phase.takes(later - read.within, later + PEER_UIP_NS + read.within)
                       for later in (soon, soon + SECOND_NS))
            explained = [(UIP_BIT, DIVIDER)] if fits else []
        return by_bits(rule, read.mask, explained)

    def flags(self, rule: Rule, read: Read) -> list[Part]:
        """Register C, whose read clears it. Its bit 7 says whether a flag may interrupt, so it goes with the others."""
        since, was_silent = read.time - self.flags_read, self.was_silent
        self.flags_read, self.was_silent = read.time, not self.b & PF
        mask = read.mask
        if not mask:
            return []
        rate = self.a & 0x0F
        period = SECOND_NS * (1 << (rate + 6 if rate < 3 else rate - 1)) // HERTZ
        explained: list[tuple[int, Cause | None]] = []
        if was_silent and read.own & PF:
            explained.append((PF, PERIODIC))
        elif rate and since < period + read.within:
            explained.append((PF, DIVIDER))
        explained.append((self.update_flag(read, since), DIVIDER))
        if self.may_miss_alarm(read, since):
            explained.append((AF, DIVIDER))
        if bool(read.peer & IRQF) == bool(read.peer & self.b & 0x70):
            mask &= ~IRQF
        return by_bits(rule, mask, explained)
