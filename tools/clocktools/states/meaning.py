# SPDX-License-Identifier: Apache-2.0 OR MIT
"""Fields in words: how a number is written, what it means, and what a difference of two comes to."""

from .layout import FLAGS, POLICIES, Field, Kind
from .saved import Fields

PIT_HZ, RTC_HZ, HPET_NS = 1_193_182, 32_768, 10
SECOND = 10**9
UNITS = (("_ns", "ns"), (".ns", "ns"), (".nsec", "ns"), (".khz", "kHz"), (".period", "of 10 ns"), (".comparator", "of 10 ns"),
         ("hpet.counter", "of 10 ns"), (".deadline", "of the TSC"), (".divider", "of 32768 a second"))
ACCESS = ("", "low byte", "high byte", "low then high byte")
HPET_BITS = ((4, "on", "off"), (8, "periodic", "one-shot"), (2, "level", "edge"), (0x100, "32 bits", "64 bits"))
APIC_MODES = ("one-shot", "periodic", "deadline", "reserved mode")


def signed(difference: int) -> int:
    """A difference of two numbers of 64 bits, the nearer way round."""
    return (difference + 2**63) % 2**64 - 2**63


def mode_of(control: int) -> int:
    """The mode of a control word of the 8254: 6 and 7 are 2 and 3."""
    mode = control >> 1 & 7
    return mode if mode < 6 else mode - 4


def shown(one: Field, number: int) -> str:
    """A field's number as text."""
    if one.kind is Kind.POLICY:
        return POLICIES[number]
    if one.kind is Kind.FLAGS:
        return "+".join(name for bit, name in enumerate(FLAGS) if number >> bit & 1) or "-"
    return f"{number:x}h" if one.kind is Kind.HEX else str(number)


def meaning(name: str, number: int) -> str:
    """What a number says, in a few words, or nothing."""
    last = name.rsplit(".", 1)[-1]
    if last == "control":
        return f"mode {mode_of(number)}, {ACCESS[number >> 4 & 3]}, {'BCD' if number & 1 else 'binary'}"
    if last == "lvt":
        return f"{APIC_MODES[number >> 17 & 3]}, {'masked' if number >> 16 & 1 else 'open'}, vector {number & 255:02x}h"
    if name == "hpet.config":
        return ("runs" if number & 1 else "stands") + (", legacy replacement" if number & 2 else "")
    if last == "config":
        return ", ".join(yes if number & bit else no for bit, yes, no in HPET_BITS) + f", line {number >> 9 & 31}"
    return next((unit for end, unit in UNITS if name.endswith(end)), "")


def difference(name: str, before: int, after: int, guest_khz: int) -> str:
    """What lies between two numbers of a field, with the time that it comes to where a clock is counted."""
    change = after - before
    if name.endswith(("_offset", ".tsc", ".tsc_adjust", ".deadline")):
        change = signed(change)
        return f"{change:+d} ticks, {change * 1_000_000 / guest_khz:+.0f} ns"
    if name == "hpet.counter" or name.endswith((".comparator", ".period")):
        change = signed(change)
        return f"{change:+d}, {change * HPET_NS:+d} ns"
    if name == "rtc.divider":
        return f"{change:+d}, {change * SECOND / RTC_HZ:+.0f} ns"
    if name.startswith("pit.") and name.endswith(".count"):
        return f"{change:+d}, {-change * SECOND / PIT_HZ:+.0f} ns"
    return f"{change:+d}"


def digits(byte: int, binary: int) -> int:
    """A byte of the MC146818's time, in binary or BCD by bit 2 of register B."""
    return byte if binary else (byte >> 4) * 10 + (byte & 15)


def hour_of(byte: int, register_b: int) -> int:
    """The hour from 0 to 23 of a byte in the form of register B."""
    if register_b & 2:
        return digits(byte, register_b & 4)
    return digits(byte & 0x7F, register_b & 4) % 12 + (12 if byte & 0x80 else 0)


def datetime_of(values: Fields) -> str:
    """The MC146818's date and time, by the form that its register B says."""
    form = values["rtc.b"]
    year, month, date, minute, second = (digits(values[f"rtc.{name}"], form & 4) for name in ("year", "month", "date", "min", "sec"))
    return f"20{year:02d}-{month:02d}-{date:02d} {hour_of(values['rtc.hour'], form):02d}:{minute:02d}:{second:02d}"
