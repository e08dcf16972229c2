# SPDX-License-Identifier: Apache-2.0 OR MIT
"""What the clocks of a peer showed at the first record of its log."""

from calendar import monthrange
from dataclasses import dataclass, field
from datetime import date, datetime, timezone

SECOND, MINUTE, HOUR, DATE, MONTH, YEAR, CENTURY = 0x00, 0x02, 0x04, 0x07, 0x08, 0x09, 0x32
TIME_OF_DAY, DAY = (SECOND, MINUTE, HOUR), (DATE, MONTH, YEAR)
WEEKDAY = 0x06
TIME_BYTES = {*TIME_OF_DAY, *DAY, WEEKDAY}
B_AT_POWER_ON = 0x02
NS = 1_000_000_000
DAY_SECONDS = 86_400


def bcd(number: int) -> str:
    return f"{number // 10}{number % 10}"


def rtc_line(seconds: int) -> str:
    """The header's line of the MC146818's bytes, of a time in seconds since 1970."""
    moment = datetime.fromtimestamp(seconds, timezone.utc)
    numbers = (moment.second, moment.minute, moment.hour, moment.isoweekday() % 7 + 1,
               moment.day, moment.month, moment.year % 100)
    return "rtc " + " ".join(map(bcd, numbers))


def wall_line(ns: int) -> str:
    return f"wall {ns // NS} {ns % NS}"


def number_of(byte: int, form: int) -> int:
    """What a byte of the time spells, by register B: binary with DM, else two decimal digits."""
    return byte if form & 4 else 10 * (byte >> 4) + (byte & 0xF)


def hour_of(byte: int, form: int) -> int:
    """The hour of the day, by register B: of 24, or of 12 with bit 7 for the afternoon."""
    hour = number_of(byte & 0x7F, form)
    return hour if form & 2 else hour % 12 + 12 * (byte >> 7)


@dataclass
class ClockBytes:
    """The first reads of the MC146818's time that a guest made, while what they show runs on from power on."""

    index: int = 0
    form: int = B_AT_POWER_ON
    is_changed: bool = False
    """The guest has set the time, or held it."""
    first: dict[int, tuple[int, int, int]] = field(default_factory=dict)
    """By the byte's index the count of its first read, the byte, and register B."""

    def write(self, port: int, byte: int) -> None:
        if port == 0x70:
            self.index = byte & 0x7F
        elif port == 0x71:
            if self.index == 0x0B:
                self.form = byte
            is_held = self.index == 0x0B and byte & 0x80 or self.index == 0x0A and byte & 0x70 != 0x20
            self.is_changed |= bool(is_held) or self.index in TIME_BYTES

    def read(self, port: int, byte: int, count: int) -> None:
        if port == 0x71 and not self.is_changed and (self.index in TIME_BYTES or self.index == CENTURY):
            self.first.setdefault(self.index, (count, byte, self.form))

    def at_power_on(self, khz: int, start: int, guess: int | None) -> int | None:
        """The time at the count `start`, in seconds since 1970, where the guest read a time of the day that can be one.
        A peer's second ends a whole second after it was turned on. What of the day wasn't read is that of the guess."""
        if not all(index in self.first for index in TIME_OF_DAY):
            return None
        since = (self.first[SECOND][0] - start) / (khz * 1000)
        second, minute = (number_of(*self.first[index][1:]) for index in (SECOND, MINUTE))
        hour = hour_of(*self.first[HOUR][1:])
        if second > 59 or minute > 59 or hour > 23:
            return None
        seconds = 3600 * hour + 60 * minute + second
        about = None if guess is None else guess + int(since)
        at = about if about is None else about + (seconds - about + DAY_SECONDS // 2) % DAY_SECONDS - DAY_SECONDS // 2
        if any(index in self.first for index in DAY):
            at = self.on_day_read(khz, start, since, seconds, at)
        return None if at is None else at - int(since)

    def on_day_read(self, khz: int, start: int, since: float, seconds: int, guess: int | None) -> int | None:
        """The moment at which that time of the day was read, on the day that was read; its date may be the next."""
        if guess is None and not all(index in self.first for index in DAY):
            return guess
        about = datetime.fromtimestamp(guess or 0, timezone.utc)
        told = {index: number_of(*self.first[index][1:]) for index in (*DAY, CENTURY) if index in self.first}
        year = 100 * told.get(CENTURY, 20) + told[YEAR] if YEAR in told else about.year
        month = told.get(MONTH, about.month)
        if not 1 <= month <= 12 or not 1900 <= year <= 2199:
            return guess
        day = told.get(DATE, min(about.day, monthrange(year, month)[1]))
        if not 1 <= day <= monthrange(year, month)[1]:
            return guess
        later = (self.first[DATE][0] - start) / (khz * 1000) - since if DATE in told else 0.0
        days = (date(year, month, day) - date(1970, 1, 1)).days - int((seconds + later) // DAY_SECONDS)
        return DAY_SECONDS * days + seconds
