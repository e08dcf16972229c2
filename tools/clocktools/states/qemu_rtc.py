# SPDX-License-Identifier: Apache-2.0 OR MIT
"""The MC146818 of a QEMU stream. QEMU keeps the time bytes, the second in base_rtc, and the part of the second by its clock; a board
keeps a divider, after whose turn the bytes change 65 pulses later."""

import calendar

from .layout import RTC_BYTES, rtc_name
from .meaning import RTC_HZ, SECOND, digits, hour_of
from .qemu_stream import Stream
from .saved import Fields, Losses
from .timebase import board_now, pulses_by, since_pulse, time_of

SECTION = "mc146818rtc"
UPDATE_PULSES = 65
"""From the divider's turn to the change of the bytes."""
STOPPED_DIVIDER = 16384
RUNNING = 2
"""The divider control at which the oscillator counts."""
A, B, C, D, CENTURY = 10, 11, 12, 13, 0x32
SET, PERIODIC_ENABLED, FLAGS, REQUEST = 0x80, 0x40, 0x70, 0x80
DAY = 86_400


def period_of(register_a: int) -> int:
    """Pulses from one periodic event to the next, 0 where there are none."""
    rate = register_a & 15
    return 0 if not rate else 1 << (rate - 1) if rate > 2 else 128 << (rate - 1)


def set_divider(values: Fields, divider: int) -> None:
    values["rtc.divider"] = divider
    values["rtc.updating"] = int(divider < UPDATE_PULSES and not values["rtc.b"] & SET)


def keep_periodic(values: Fields, stream: Stream, clock_ns: int, keeps_second: bool, phase_ns: int, losses: Losses) -> int:
    """One divider gives the second and the periodic events, which are apart in QEMU: one is kept. Gives how long ago the last pulse was."""
    period, divider = period_of(values["rtc.a"]), values["rtc.divider"]
    theirs = stream.get(SECTION, "next_periodic_time") - clock_ns
    ours = time_of(period - divider % period, RTC_HZ) - phase_ns
    if keeps_second:
        losses.say("rtc.divider", f"the second is kept: the next periodic event comes {ours - theirs:+d} ns from the source's")
        return phase_ns
    left = pulses_by(theirs, RTC_HZ) + 1
    shift = (-left - divider + period // 2) % period - period // 2
    set_divider(values, (divider + shift) % RTC_HZ)
    losses.say("rtc.divider", f"periodic events are kept: the second turns {shift * SECOND / RTC_HZ / 1000:+.0f} us from the source's")
    return time_of(left, RTC_HZ) - theirs


def rtc_from(values: Fields, stream: Stream, clock_ns: int | None, keeps_second: bool, losses: Losses) -> int | None:
    """Fills the MC146818; `clock_ns` is the clock of -rtc at the save, where known. Gives how long ago its last pulse was."""
    data = bytearray(stream.bytes_of(SECTION, "cmos_data")[:RTC_BYTES])
    data[A] &= 0x7F
    data[C] &= FLAGS
    data[D] = 0x80
    values |= {rtc_name(place): byte for place, byte in enumerate(data)}
    values["rtc.index"] = stream.get(SECTION, "cmos_index") & 0x7F
    phase = None
    if data[A] >> 4 & 7 != RUNNING:
        values |= {"rtc.divider": STOPPED_DIVIDER, "rtc.updating": 0}
        if data[A] >> 4 & 7 < RUNNING:
            losses.say("rtc.a", f"divider control {data[A] >> 4 & 7:03b}: the source counts on, the board stands")
    else:
        passed = 0
        if clock_ns is None:
            losses.say("rtc.divider", "the part of the second isn't in the stream (-rtc clock=host): taken as its beginning")
        else:
            base, last = stream.get(SECTION, "base_rtc"), stream.get(SECTION, "last_update")
            passed = (base * SECOND + clock_ns - last + stream.get(SECTION, "offset")) % SECOND
        pulses = pulses_by(passed, RTC_HZ)
        phase = passed - time_of(pulses, RTC_HZ)
        set_divider(values, (UPDATE_PULSES + pulses) % RTC_HZ)
        if data[B] & PERIODIC_ENABLED and period_of(data[A]) and clock_ns is not None:
            phase = keep_periodic(values, stream, clock_ns, keeps_second, phase, losses)
    coalesced = stream.get(SECTION, "irq_coalesced", 0)
    if coalesced:
        values["rtc.ticks.due"] = coalesced
        values["rtc.ticks.waiting" if values["rtc.policy"] else "rtc.ticks.lost"] = coalesced
        if not values["rtc.policy"]:
            losses.say("rtc.ticks.waiting", f"{coalesced} that were coalesced are lost under discard")
    values["rtc.ticks.up"] = int(bool(data[C] & data[B] & 0x40 and not values["hpet.config"] & 2))
    if data[CENTURY]:
        losses.note("rtc.ram32", "the century is memory: it doesn't follow a turn of the century")
    return phase


def silence_rtc(stream: Stream) -> None:
    """Has QEMU's own MC146818 ask for no interrupt."""
    data = bytearray(stream.bytes_of(SECTION, "cmos_data"))
    data[B] &= ~FLAGS
    stream.put(SECTION, "cmos_data", bytes(data))


def seconds_of(values: Fields) -> int:
    """The seconds since 1970 that QEMU makes of the bytes, with byte 32h as the century."""
    form = values["rtc.b"]
    year, month, date, minute, second, century = (digits(values[f"rtc.{name}"], form & 4)
                                                  for name in ("year", "month", "date", "min", "sec", "ram32"))
    return calendar.timegm(((century or 20) * 100 + year, month, date, hour_of(values["rtc.hour"], form), minute, second))


def seconds_to_alarm(values: Fields) -> int:
    """The seconds to the next one that the alarm's bytes fit."""
    form = values["rtc.b"]

    def wanted(name: str) -> int | None:
        byte = values[f"rtc.{name}_alarm"]
        if byte & 0xC0 == 0xC0:
            return None
        return hour_of(byte, form) if name == "hour" else digits(byte, form & 4)

    alarm = [wanted(name) for name in ("hour", "min", "sec")]
    now = hour_of(values["rtc.hour"], form) * 3600 + digits(values["rtc.min"], form & 4) * 60 + digits(values["rtc.sec"], form & 4)
    for passed in range(1, DAY + 1):
        second = (now + passed) % DAY
        if all(part in (None, told) for part, told in zip(alarm, (second // 3600, second // 60 % 60, second % 60))):
            return passed
    return DAY


def rtc_to(values: Fields, stream: Stream, clock_ns: int, losses: Losses) -> None:
    """Writes the section; `clock_ns` is the clock of -rtc at the load."""
    data = bytearray(values[rtc_name(place)] for place in range(RTC_BYTES))
    data[C] |= REQUEST if data[B] & data[C] & FLAGS else 0
    stream.put(SECTION, "cmos_data", bytes(data))
    stream.put(SECTION, "cmos_index", values["rtc.index"])
    stream.put(SECTION, "irq_coalesced", values["rtc.ticks.waiting"])
    if data[A] >> 4 & 7 != RUNNING:
        return
    now = board_now(values)
    passed = (time_of((values["rtc.divider"] - UPDATE_PULSES) % RTC_HZ, RTC_HZ) + since_pulse(now, RTC_HZ)) % SECOND
    turn = clock_ns + SECOND - passed
    for name, number in (("base_rtc", seconds_of(values)), ("last_update", clock_ns), ("offset", passed), ("update_timer", turn),
                         ("next_alarm_time", turn + (seconds_to_alarm(values) - 1) * SECOND)):
        stream.put(SECTION, name, number)
    period = period_of(data[A])
    if data[B] & PERIODIC_ENABLED and period:
        left = time_of(pulses_by(now, RTC_HZ) + period - values["rtc.divider"] % period, RTC_HZ) - now
        for name, number in (("next_periodic_time", clock_ns + left), ("periodic_timer", clock_ns + left), ("period", period)):
            stream.put(SECTION, name, number)
        losses.say("rtc.divider", "QEMU begins the periodic events anew at each load")
