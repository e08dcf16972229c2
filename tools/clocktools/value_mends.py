# SPDX-License-Identifier: Apache-2.0 OR MIT
"""How to mend a value or a number that its place doesn't take."""

import re
from collections.abc import Callable, Iterator
from dataclasses import dataclass
from datetime import datetime, timezone

from .grammar import CPUS_MAX, FORMATS, LINES, MSRS, PORTS, Before, Fault, msrs

OLD_MSRS = {0x11: 0x4B564D00, 0x12: 0x4B564D01}
"""KVM's first numbers of its clock's MSRs, and those that the board has."""
UNITS_OF_1970 = (("milliseconds", 10**3), ("microseconds", 10**6))
UNITS = {"ns": 1, "us": 10**3, "µs": 10**3, "ms": 10**6, "s": 10**9}
RATES = {"khz": 1, "mhz": 10**3, "ghz": 10**6}
HPET_BASE = 0xFED00000
HPET_SIZE = 0x400


@dataclass(frozen=True)
class Case:
    """A line that is refused: its number and the lines of the trace, what comes before it, and where it leaves its form."""

    number: int
    lines: list[str]
    known: Before
    fault: Fault | None

    @property
    def line(self) -> str:
        return self.lines[self.number - 1]

    @property
    def words(self) -> list[str]:
        return self.line.rstrip("\r").split(" ")

    @property
    def word(self) -> str:
        """The word at the fault."""
        return self.fault.word.rstrip("\r") if self.fault else ""

    @property
    def place(self) -> str:
        """What was expected at the fault."""
        return self.fault.expected if self.fault else ""

    @property
    def name(self) -> str:
        """The line's name, as far as it has one."""
        at = 2 if self.known.in_body else 0
        return self.words[at] if at < len(self.words) else ""


def value_mends(case: Case) -> Iterator[str]:
    """A value that its place doesn't take."""
    if case.fault and case.word and case.word == case.fault.word:
        said = BY_NAME.get(case.name) or VALUES.get(case.place)
        if said:
            yield from said(case)


def of_format(case: Case) -> Iterator[str]:
    if re.fullmatch(r"v?[0-9][0-9.]*", case.word) and case.word.strip("v").split(".")[0] in FORMATS:
        yield f"the format is a number alone: {case.word.strip('v').split('.')[0]} in place of {case.word}"
    else:
        yield f"the formats are {FORMATS[0]} to {FORMATS[-1]}"


def of_khz(case: Case) -> Iterator[str]:
    unit = re.fullmatch(r"([0-9]+(?:\.[0-9]+)?)(khz|mhz|ghz)", case.word.lower())
    if unit:
        yield f"a rate is in kilohertz, digits alone: {round(float(unit[1]) * RATES[unit[2]])} in place of {case.word}"
    elif re.fullmatch(r"[0-9]+\.[0-9]+", case.word):
        yield f"a rate is a whole number of kilohertz: {round(float(case.word))} in place of {case.word}"
    elif case.word.isdecimal() and int(case.word) > 10_000_000:
        yield f"a rate is in kilohertz, up to 10000000: {int(case.word) // 1000} in place of {case.word}, if that is hertz"
    elif case.word.isdecimal() and case.word[0] != "0":
        yield f"a rate is in kilohertz, from 100000 on: {int(case.word) * 1000} in place of {case.word}, if that is megahertz"


def of_cpus(case: Case) -> Iterator[str]:
    if not case.word.isdecimal():
        yield "a number of processors is digits"
        return
    later = next((k for k, most in CPUS_MAX.items() if k > case.known.version and int(case.word) <= most), None)
    if int(case.word) and later:
        yield f"format {later} has up to {CPUS_MAX[later]} processors: clockboard {later} in the first line"
    else:
        yield f"there are 1 to {CPUS_MAX[1]} processors in format 1, and 1 to {CPUS_MAX[2]} from format 2 on"


OTHER_POLICIES = {"drop": "discard", "none": "discard", "skip": "discard", "lose": "discard", "ignore": "discard",
                  "reinject": "delay", "catchup": "slew", "queue": "delay", "late": "delay", "merge": "discard"}
"""What others call a policy, and the nearest one here."""


def of_policy(case: Case) -> Iterator[str]:
    near = OTHER_POLICIES.get(case.word.lower())
    if near:
        yield f"the policy `{case.word}` is nearest to `{near}` here"
    yield "a policy is discard, delay or slew, one each for the 8254, the MC146818 and the HPET"


def date_of(case: Case) -> datetime | None:
    """The date and time in the line's words, if that is what they are."""
    found = re.match(r"([0-9]{4}-[0-9]{2}-[0-9]{2})[T ]([0-9]{2}:[0-9]{2}:[0-9]{2})", " ".join(case.words[1:]))
    try:
        return datetime.fromisoformat(f"{found[1]}T{found[2]}").replace(tzinfo=timezone.utc) if found else None
    except ValueError:
        return None


def of_seconds(case: Case) -> Iterator[str]:
    at = date_of(case)
    if at:
        yield f"the wall clock is in seconds since 1970, UTC, and nanoseconds: wall {int(at.timestamp())} 0"
    elif re.fullmatch(r"[0-9]+\.[0-9]+", case.word):
        seconds, part = case.word.split(".")
        yield f"seconds and nanoseconds are two words: {seconds} {int(part.ljust(9, '0')[:9])}"
    elif case.word.isdecimal() and case.place == "SEC" and int(case.word) >= 2**32:
        unit, scale = next(((unit, scale) for unit, scale in UNITS_OF_1970 if int(case.word) // scale < 2**32), ("nanoseconds", 10**9))
        yield f"the wall clock is in seconds since 1970: {int(case.word) // scale} in place of {case.word}, if that is {unit}"
    elif re.fullmatch(r"-[0-9]+", case.word):
        yield "the wall clock begins with 1970, and has no sign"
    elif case.word.isdecimal():
        yield "the wall clock is in seconds since 1970, below 2^32, and nanoseconds below 1000000000"


def of_time_byte(case: Case) -> Iterator[str]:
    at = date_of(case)
    if at:
        digits = f"{at:%S %M %H} {at.isoweekday() % 7 + 1:02} {at:%d %m %y}"
        yield f"seconds, minutes, hours, day of the week, date, month, year, in BCD: rtc {digits}"
        return
    clock = re.fullmatch(r"([0-9]{2}):([0-9]{2}):([0-9]{2})", case.word)
    if clock:
        yield f"bytes are parted by spaces, seconds first: {clock[3]} {clock[2]} {clock[1]} in place of {case.word}"
    elif re.fullmatch(r"(19|20)[0-9]{2}", case.word):
        yield f"a year is its last two digits: {case.word[2:]} in place of {case.word}"
    else:
        yield "seven bytes in two digits: seconds, minutes, hours, day of the week (1 is Sunday), date, month, year"


def of_line(case: Case) -> Iterator[str]:
    number = re.fullmatch(r"(?i)(?:irq|line|gsi|pin|int)[-_#:]?([0-9]+)", case.word)
    if number:
        yield f"a line is its number alone: {number[1]} in place of {case.word}"
        return
    if case.known.in_body and re.fullmatch(r"[0-9a-fA-F]{2}", case.word):
        yield f"an acknowledgement names the line, and not its vector, if {case.word} is one"
    yield f"the lines are {', '.join(LINES)}: 0 of the 8254, 8 of the MC146818, and those of the HPET's timers"


def of_vector(case: Case) -> Iterator[str]:
    yield "a vector is two hexadecimal digits, from 10 on, without a prefix"


def of_port(case: Case) -> Iterator[str]:
    ports = [f"{port:x}" for port in PORTS]
    if case.name == "out" and len(case.words) == 4:
        yield "`out` has a port and then a byte, and here is one of the two: 0 0 out 43 34"
        return
    if case.word.isdecimal() and int(case.word) in PORTS:
        yield f"a port is hexadecimal: {int(case.word):x} in place of {case.word}, if that is decimal"
    if re.fullmatch(r"[0-9a-fA-F]+", case.word):
        yield f"the ports are {', '.join(ports)}; an access to another one is left out"


def of_byte(case: Case) -> Iterator[str]:
    digits = case.word
    if digits.isdecimal() and len(digits) == 3 and int(digits) > 255:
        yield f"a byte is at most ff, that is 255: {digits} is above it, as a decimal number and as a hexadecimal one"
    elif re.fullmatch(r"[0-9a-fA-F]{3,4}", digits):
        low, high = int(digits, 16) & 0xFF, int(digits, 16) >> 8
        yield f"a byte is one or two hexadecimal digits; two bytes are two records, the low one first: {low:02x}, then {high:02x}"
        if digits.isdecimal() and int(digits) < 256:
            yield f"{int(digits):02x} in place of {digits}, if that is decimal"


def of_msr(case: Case) -> Iterator[str]:
    if not re.fullmatch(r"[0-9a-fA-F]{1,16}", case.word):
        return
    number = int(case.word, 16)
    if number in OLD_MSRS:
        yield f"the clock's MSRs have KVM's new numbers: {OLD_MSRS[number]:x} in place of {case.word}"
    if MSRS.get(number, 0) > case.known.version:
        yield f"format {MSRS[number]} has this MSR: clockboard {MSRS[number]} in the first line"
    elif case.word.isdecimal() and int(case.word) in MSRS:
        yield f"an MSR is hexadecimal: {int(case.word):x} in place of {case.word}, if that is decimal"
    here = ", ".join(f"{msr:x}" for msr in msrs(case.known.version))
    yield f"the MSRs are {here}; an access to another one is left out"


def of_offset(case: Case) -> Iterator[str]:
    if not re.fullmatch(r"[0-9a-fA-F]{1,16}", case.word):
        return
    inside = int(case.word, 16) - HPET_BASE
    if 0 <= inside < HPET_SIZE:
        yield f"an offset is counted from the HPET's address: {inside:x} in place of {case.word}"
    else:
        yield "an offset of the HPET is below 400; an access to another device is left out"


def of_width(case: Case) -> Iterator[str]:
    if case.word in ("16", "32", "64"):
        yield f"a width is in bytes: {int(case.word) // 8} in place of {case.word}"
    else:
        yield "a width is 1, 2, 4 or 8 bytes, and comes between the offset and the value"


def of_who(case: Case) -> Iterator[str]:
    if case.word in ("hpet", "timer"):
        yield "a timer of the HPET has its number: hpet0, hpet1 or hpet2, and from format 2 on to hpet7"
    elif re.fullmatch(r"hpet[0-7]", case.word) and case.known.version == 1:
        yield "format 2 has eight timers of the HPET: clockboard 2 in the first line"
    elif re.fullmatch(r"apic[0-9]+", case.word) and case.known.version < 3:
        yield "format 3 has timers of local APICs: clockboard 3 in the first line"
    elif re.fullmatch(r"l?apic", case.word):
        yield "the timer of a local APIC has its processor's number, as in apic0"
    else:
        yield ("ticks are counted of pit, rtc, hpet0, hpet1 and hpet2, from format 2 on to hpet7, and from format 3 on of "
               "apic0, apic1 and so on")


def of_size(case: Case) -> Iterator[str]:
    yield "a value has no more digits than its width: two a byte"


def of_state(case: Case) -> Iterator[str]:
    word = case.word
    other = re.search("[^0-9a-fA-F]", word)
    if word[:2].lower() == "0x":
        yield "a state has no prefix: leave 0x out"
    elif not other:
        yield (f"a byte is two hexadecimal digits, and the state has {len(word)}, which is odd: its last digit is missing, or more of its "
               "end")
    else:
        yield f"a state is one word, two hexadecimal digits a byte, as `save` or --state print it, and has no '{other[0]}'"


def of_slew(case: Case) -> Iterator[str]:
    if case.word.isdecimal():
        yield "catch-up points are 1 to 1000000000 ns apart"


VALUES: dict[str, Callable[[Case], Iterator[str]]] = {
    "the format": of_format, "KHZ": of_khz, "N": of_cpus, "SEC": of_seconds, "NSEC": of_seconds, "LINE": of_line,
    "VECTOR": of_vector, "PORT": of_port, "BYTE": of_byte, "M": of_msr, "OFFSET": of_offset, "W": of_width, "WHO": of_who,
    "HEXES": of_state, "NS": of_slew,
    **{f"a value of {size} bytes": of_size for size in (1, 2, 4, 8)},
}
"""What is said of a value, by what its place is called."""
BY_NAME: dict[str, Callable[[Case], Iterator[str]]] = {"rtc": of_time_byte, "policy": of_policy}
"""The same of each value of a line."""


LOOKS_LIKE = str.maketrans("OolI", "0011")


def number_mends(case: Case) -> Iterator[str]:
    """How a number is spelled."""
    word, token = case.word, case.fault.token if case.fault else ""
    is_hex = token in ("HEX", "BYTE") or case.place in ("VECTOR",)
    digits = "0-9a-fA-F" if is_hex else "0-9"
    if not token and not is_hex:
        return
    if re.fullmatch(f"(?=.*[OolI])[{digits}OolI]+", word) and (word.translate(LOOKS_LIKE).isdigit() or len(word) < 3):
        letter = next(letter for letter in word if letter in "OolI")
        yield f"the letter {letter} stands where the digit {letter.translate(LOOKS_LIKE)} is meant: {word.translate(LOOKS_LIKE)}"
    elif re.fullmatch(f"[{digits}]+", word) and is_too_great(word, is_hex):
        yield ("a value has at most 16 hexadecimal digits, that is 64 bits" if is_hex
               else f"a number is below 2^64: {2**64 - 1} is the greatest")
    elif re.fullmatch(r"0b[01]+", word) and len(word) > 4:
        yield f"{word} is binary; " + (f"in hexadecimal it is {int(word, 2):02x}" if is_hex else f"in decimal it is {int(word, 2)}")
    elif is_hex and re.fullmatch(r"(?!0[xX])[0-9a-zA-Z]+", word) and (other := re.search("[g-zG-Z]", word.rstrip("hH"))):
        yield f"{other[0]} is no hexadecimal digit; these are 0 to 9 and a to f"
    elif re.fullmatch(r"0[xX][0-9a-fA-F]+", word):
        yield (f"numbers have no prefix: {word[2:]} in place of {word}" if is_hex
               else f"this number is decimal: {int(word, 16)} in place of {word}")
    elif is_hex and re.fullmatch(r"[0-9a-fA-F]+[hH]|\$[0-9a-fA-F]+", word):
        yield f"numbers have no mark of their base: {word.strip('hH$')} in place of {word}"
    elif re.fullmatch(r"0+[0-9]+", word) and token in ("DEC", "KHZ"):
        yield f"a decimal number has no leading zeros: {int(word)} in place of {word}"
    elif re.fullmatch(r"\+?[0-9][0-9_,']*", word) and not word.isdecimal():
        yield f"a number is digits alone: {re.sub('[^0-9]', '', word)} in place of {word}"
    elif token == "DEC" and case.place != "SEC":
        yield from decimal_mends(word, case.place)


def is_too_great(word: str, is_hex: bool) -> bool:
    return len(word) > 16 if is_hex else word[0] != "0" and int(word) >= 2**64


def decimal_mends(word: str, place: str) -> Iterator[str]:
    unit = re.fullmatch(r"([0-9]+(?:\.[0-9]+)?)(ns|us|µs|ms|s)", word)
    if unit:
        yield f"a count has no unit; in nanoseconds it is {round(float(unit[1]) * UNITS[unit[2]])}"
    elif re.fullmatch(r"-[0-9]+", word):
        yield ("a processor is a number from 0 on, without a sign" if place == "CPU"
               else "counts and numbers have no sign: the first count is START of `host`, or 0")
    elif clock := re.fullmatch(r"([0-9]+):([0-9]{2})(?::([0-9]{2}))?(?:\.([0-9]+))?", word):
        hours, minutes, seconds = (int(clock[1]), int(clock[2]), int(clock[3])) if clock[3] else (0, int(clock[1]), int(clock[2]))
        yield f"a count is a number, and no time of day; in nanoseconds it is {(3600 * hours + 60 * minutes + seconds) * 10**9}"
    elif re.fullmatch(r"[0-9]+\.[0-9]+|[0-9]+(\.[0-9]+)?[eE]\+?[0-9]{1,2}", word):
        yield f"a number is whole: {round(float(word))} in place of {word}"
    elif re.fullmatch(r"[0-9]*[a-fA-F][0-9a-fA-F]*", word):
        yield f"this number is decimal; if {word} is hexadecimal, it is {int(word, 16)}"
