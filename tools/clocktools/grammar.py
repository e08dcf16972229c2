# SPDX-License-Identifier: Apache-2.0 OR MIT
"""At which word of a refused line its form ends. docs/FORMATS.md has the forms; the program alone decides."""

import re
from collections.abc import Callable
from dataclasses import dataclass

HEADER = ("clockboard", "host", "guest", "cpus", "policy", "slew", "wall", "rtc", "state", "route", "begin")
"""The names of the header's lines, in their order."""
AFTER_STATE = ("route", "begin")
FORMATS = ("1", "2", "3", "4", "5")
CPUS_MAX = {1: 16, 2: 64}
"""The most processors, by the first format that has so many."""
LINES = ("0", "8", "20", "21", "22", "23")
PORTS = (0x40, 0x41, 0x42, 0x43, 0x61, 0x70, 0x71)
MSRS = {
    0x10: 1, 0x3B: 1, 0x4B564D00: 1, 0x4B564D01: 1,
    0x832: 3, 0x838: 3, 0x839: 3, 0x83E: 3, 0x6E0: 3,
    0x40000020: 4, 0x40000021: 4,
}
"""The first format that has each MSR."""
RECORDS_SINCE = {"rose": 2, "eoi": 3, "hv": 4}
"""The first format that has a record, of those that format 1 lacks."""
Check = Callable[[str], bool]


@dataclass(frozen=True)
class Place:
    """A place of a form: what it is called, the token that stands there, if one of the table, and its test."""

    name: str
    token: str
    takes: Check


@dataclass(frozen=True)
class Fault:
    """Where a line leaves its form: the columns from 0 on, what was expected, and the word that stands there."""

    begin: int
    end: int
    expected: str
    token: str
    word: str


def is_dec(word: str, low: int = 0, high: int = 2**64 - 1) -> bool:
    return re.fullmatch(r"0|[1-9][0-9]*", word) is not None and low <= int(word) <= high


def is_hex(word: str, high: int = 2**64 - 1) -> bool:
    return re.fullmatch(r"[0-9a-fA-F]{1,16}", word) is not None and int(word, 16) <= high


def dec(name: str, low: int = 0, high: int = 2**64 - 1) -> Place:
    return Place(name, "DEC", lambda word: is_dec(word, low, high))


def hexes(name: str, *allowed: int, high: int = 2**64 - 1) -> Place:
    return Place(name, "HEX", lambda word: is_hex(word, high) and (not allowed or int(word, 16) in allowed))


def one_of(name: str, *words: str) -> Place:
    return Place(name, "", lambda word: word in words)


def byte(name: str) -> Place:
    return Place(name, "BYTE", lambda word: re.fullmatch(r"[0-9a-fA-F]{1,2}", word) is not None)


KHZ = Place("KHZ", "KHZ", lambda word: is_dec(word, 100_000, 10_000_000))
PORT = hexes("PORT", *PORTS)
OFFSET = hexes("OFFSET", high=0x3FF)
WIDTH = one_of("W", "1", "2", "4", "8")
POLICY = [one_of(name, "discard", "delay", "slew") for name in "PQR"]


def cpus_most(version: int) -> int:
    return max(most for first, most in CPUS_MAX.items() if first <= version)


def msrs(version: int) -> tuple[int, ...]:
    """The MSRs that a format has."""
    return tuple(msr for msr, first in MSRS.items() if first <= version)


def is_source(word: str, version: int) -> bool:
    """Whether ticks are counted of it: the 8254, the MC146818, a timer of the HPET or, from format 3 on, of a local APIC."""
    timers = [f"hpet{k}" for k in range(3 if version == 1 else 8)]
    is_apic = version >= 3 and word.startswith("apic") and is_dec(word.removeprefix("apic"))
    return word in ("pit", "rtc", *timers) or is_apic


def header_forms(version: int) -> dict[str, list[Place]]:
    return {
        "clockboard": [one_of("the format", *FORMATS)],
        "host": [KHZ, dec("START")],
        "guest": [KHZ],
        "cpus": [dec("N", 1, cpus_most(version))],
        "policy": POLICY,
        "slew": [dec("NS", 1, 10**9)],
        "wall": [dec("SEC", 0, 2**32 - 1), dec("NSEC", 0, 10**9 - 1)],
        "rtc": [byte(name) for name in "SMHWDOY"],
        "state": [Place("HEXES", "", lambda word: re.fullmatch(r"([0-9a-fA-F]{2})+", word) is not None)],
        "route": [one_of("LINE", *LINES), dec("CPU"), Place("VECTOR", "BYTE", lambda word: is_hex(word, 0xFF)
                                                            and int(word, 16) >= 0x10 and len(word) <= 2)],
        "begin": [],
    }


def record_forms(version: int) -> dict[str, list[Place]]:
    msr = hexes("M", *msrs(version))
    line = one_of("LINE", *LINES)
    forms = {
        "in": [PORT],
        "out": [PORT, byte("BYTE")],
        "hr": [OFFSET, WIDTH],
        "hw": [OFFSET, WIDTH, hexes("HEX")],
        "rdmsr": [msr],
        "wrmsr": [msr, hexes("HEX")],
        "ack": [line],
        "step": [],
        "refresh": [dec("P")],
        "wall": [],
        "counts": [Place("WHO", "", lambda word: is_source(word, version))],
        "next": [],
        "page": [dec("P")],
        "clock": [dec("P")],
        "save": [],
        "move": [KHZ, dec("START"), dec("GAP")],
        "rose": [line],
        "eoi": [],
        "hv": [],
    }
    return {name: places for name, places in forms.items() if RECORDS_SINCE.get(name, 1) <= version}


@dataclass
class Before:
    """What comes before a line: the format, the header's names so far, the processors and the host's first count, and
    whether the header has ended."""

    version: int = 1
    names: tuple[str, ...] = ()
    cpus: int = 1
    start: int = 0
    in_body: bool = False

    def next_names(self) -> tuple[str, ...]:
        """The names that may come next in the header."""
        if not self.names:
            return HEADER[:1]
        last = self.names[-1]
        if last == "state":
            return AFTER_STATE
        names = HEADER[HEADER.index(last) + (last != "route") :]
        return tuple(name for name in names if name != "state" or len(self.names) == 1)


def before(lines: list[str], number: int) -> Before:
    """What comes before line `number`, where all lines there are in form."""
    found = Before()
    for line in lines[: number - 1]:
        words = line.split(" ")
        if not line or line.startswith("#") or found.in_body:
            continue
        found.in_body = line == "begin"
        found.names += (words[0],)
        if words[0] == "clockboard":
            found.version = int(words[1])
        elif words[0] == "cpus":
            found.cpus = int(words[1])
        elif words[0] == "host":
            found.start = int(words[2])
        elif words[0] == "state":
            found.cpus = int.from_bytes(bytes.fromhex(words[1][20:24]), "little")
    return found


def spans(line: str) -> list[tuple[int, str]]:
    """The words of a line with the column of each."""
    found, column = [], 0
    for word in line.split(" "):
        found.append((column, word))
        column += len(word) + 1
    return found


def form_fault(line: str, known: Before) -> Fault | None:
    """Where a line leaves the form of its place, if these tests find it."""
    words = spans(line)
    if not known.in_body:
        return walk(words, [one_of(" or ".join(f"`{name}`" for name in known.next_names()), *known.next_names())],
                    header_forms(known.version), line)
    if line == "end":
        return None
    return walk(words, [dec("CPU"), dec("H"), one_of("a record's name", *record_forms(known.version))],
                record_forms(known.version), line)


def walk(words: list[tuple[int, str]], first: list[Place], forms: dict[str, list[Place]], line: str) -> Fault | None:
    """Tests the first words, of which the last names the form, and then those of that form."""
    places = list(first)
    for index, (column, word) in enumerate(words):
        if index == len(first):
            places += forms[words[index - 1][1]]
        if index >= len(places):
            return Fault(column, max(len(line), column + 1), "the end of the line", "", word)
        if not places[index].takes(word):
            return Fault(column, column + max(len(word), 1), places[index].name, places[index].token, word)
    if len(words) == len(first):
        places += forms[words[-1][1]]
    if len(words) < len(places):
        missing = places[len(words)]
        return Fault(len(line), len(line) + 1, missing.name, missing.token, "")
    return value_fault(words)


def value_fault(words: list[tuple[int, str]]) -> Fault | None:
    """A value that doesn't fit the bytes of an `hw`."""
    names = [word for _, word in words]
    if len(names) == 6 and names[2] == "hw" and int(names[5], 16) >> 8 * int(names[4]):
        column, word = words[5]
        return Fault(column, column + len(word), f"a value of {names[4]} bytes", "HEX", word)
    return None
