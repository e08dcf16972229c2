# SPDX-License-Identifier: Apache-2.0 OR MIT
"""How to mend a line that is refused: what people often write, and what the format has in its place."""

import difflib
import re
from collections.abc import Iterator
from dataclasses import replace

from .characters import BOM, mended, text_mends
from .grammar import CPUS_MAX, FORMATS, HEADER, form_fault, record_forms
from .states import layout
from .value_mends import Case, number_mends, value_mends

EXAMPLES = {
    "clockboard": "clockboard 1", "host": "host 1000000 0", "guest": "guest 2400000", "cpus": "cpus 2",
    "policy": "policy delay delay delay", "slew": "slew 1000000", "wall": "wall 1700000000 0",
    "rtc": "rtc 58 59 11 03 14 11 23", "state": "state 434c4b42..", "route": "route 0 0 30", "begin": "begin",
    "in": "0 5000 in 40", "out": "0 0 out 43 34", "hr": "0 5000 hr f0 8", "hw": "0 0 hw 10 4 1",
    "rdmsr": "0 5000 rdmsr 10", "wrmsr": "0 0 wrmsr 4b564d01 1", "ack": "0 5000 ack 0", "step": "0 5000 step",
    "refresh": "0 5000 refresh 0", "counts": "0 5000 counts pit", "next": "0 5000 next", "page": "0 5000 page 0",
    "clock": "0 5000 clock 0", "save": "0 5000 save", "move": "0 5000 move 3000000 500 1000000", "rose": "0 5000 rose 0",
    "eoi": "0 5000 eoi", "hv": "0 5000 hv",
}
"""A line of each name."""
OTHER_NAMES = {
    "inb": "in", "inw": "in", "inl": "in", "pio_read": "in", "outb": "out", "outw": "out", "outl": "out",
    "pio_write": "out", "read": "in", "write": "out", "mmio_read": "hr", "mmio_write": "hw", "readl": "hr", "readq": "hr",
    "writel": "hw", "writeq": "hw", "hpet": "hr", "rdtsc": "rdmsr", "msr": "rdmsr", "eoi": "ack", "irq": "ack", "hyperv": "hv",
    "tick": "step", "wait": "step", "sleep": "step", "advance": "step", "pvclock": "page", "snapshot": "save",
    "migrate": "move", "time": "clock", "irqs": "counts",
}
"""What others call a record."""
ENDINGS = ("end", "stop", "quit", "exit", "eof", "finish", "done")


def header_mends(case: Case) -> Iterator[str]:
    """The names of the header's lines, and their order."""
    if case.known.in_body or not case.fault or "`" not in case.place or case.line.startswith(BOM):
        return
    word = case.word
    if not case.known.names:
        if re.fullmatch(r"(?i)clockboard.+", word):
            yield "the first line is two words: clockboard 1"
        elif word.lower() != "clockboard":
            yield "the first line says the format: clockboard 1"
    elif word.isdecimal():
        yield "the header ends with the line begin, and records come after it"
    elif word in HEADER:
        if "state" in case.known.names or word == "state":
            yield "a saved state comes in place of host, guest, cpus, policy, slew, wall and rtc: leave these out"
        elif word in case.known.names:
            yield f"the line `{word}` comes once"
        else:
            yield f"the header's lines have this order, and only `route` comes twice: {', '.join(HEADER)}"
    elif word.lower() in record_forms(case.known.version):
        yield "the header ends with the line begin; a record after it has its processor and its count first: 0 5000 step"
    elif word.lower() not in HEADER and re.match(r"\w", word):
        near = difflib.get_close_matches(word.lower(), case.known.next_names(), 1)
        yield f"the header has no line `{word}`" + (f"; is it `{near[0]}`?" if near else "")


def record_mends(case: Case) -> Iterator[str]:
    """The processor, the count and the name of a record."""
    if not case.known.in_body or not case.fault:
        return
    word, words = case.word, case.words
    names = record_forms(case.known.version)
    if case.place == "CPU" and word.lower() in ENDINGS:
        yield f"the last line is `end`, in small letters, and alone: end in place of {case.line.strip()}"
    elif case.place == "CPU" and word == "clockboard":
        yield ("a second trace begins here; a file has one, which its line `end` ends: put each into a file of its own, and `end` behind "
               "the first")
    elif case.place == "CPU" and word == "begin":
        yield f"`begin` stands once, and line {case.lines.index('begin') + 1} is it already"
    elif case.place == "CPU" and word in HEADER and word not in names:
        yield f"`{word}` is a line of the header, before begin"
    elif case.place == "CPU" and (word.lower() in names or word.lower() in OTHER_NAMES):
        yield f"a record has its processor and its count first: 0 5000 {case.line.strip()}"
    elif case.place == "H" and word in names:
        yield f"a record has its processor and then its count: 0 {case.line.strip()}"
    elif case.place == "CPU" and re.fullmatch(r"(?i)(cpu|vcpu|p)[#:]?\d+:?", word):
        yield f"a processor is a number alone: {re.sub('[^0-9]', '', word)} in place of {word}"
    elif case.place == "a record's name":
        yield from name_mends(case, names)


def name_mends(case: Case, names: dict[str, list]) -> Iterator[str]:
    word = case.word.lower()
    later = next((int(k) for k in FORMATS if int(k) > case.known.version and word in record_forms(int(k))), None)
    if later and word not in names:
        yield f"format {later} has `{word}`: clockboard {later} in the first line"
    if word in ENDINGS:
        yield "the last line is `end` alone, without a processor and a count"
    elif word in HEADER:
        yield f"`{word}` is a line of the header, before begin"
    elif word in OTHER_NAMES and word not in names:
        yield f"its name is `{OTHER_NAMES[word]}` here: {EXAMPLES[OTHER_NAMES[word]]}"
    elif word not in names:
        near = difflib.get_close_matches(word, names, 1)
        if near:
            yield f"is it `{near[0]}`? As in: {EXAMPLES[near[0]]}"


def length_mends(case: Case) -> Iterator[str]:
    """A word that is missing, or one too many."""
    if not case.fault or case.name not in EXAMPLES:
        return
    extra = case.words[len(EXAMPLES[case.name].split(" ")) :]
    if case.place == "the end of the line" and case.name == "state":
        yield "a state is one word: leave the spaces out"
    elif case.place == "the end of the line" and re.match(r"\d+ \d+ [a-z]", " ".join(extra)):
        yield f"each record has a line of its own, and here a second one begins: {' '.join(extra)}"
    elif case.place == "the end of the line" and case.name in ("in", "hr", "rdmsr"):
        yield f"a trace has no value of a read, which the program prints, and of a port no width: {EXAMPLES[case.name]}"
    elif not case.word and case.place != "the end of the line" and case.fault.begin >= len(case.line.rstrip("\r")):
        yield f"{case.place} is missing; a line of this name: {EXAMPLES[case.name]}"
    elif case.place == "the end of the line" and not re.search("#|;|//|  ", case.line):
        yield f"nothing more comes here; a line of this name: {EXAMPLES[case.name]}"


def letter_mends(case: Case) -> Iterator[str]:
    word, token = case.word, case.fault.token if case.fault else ""
    if not token and word.isalpha() and word != word.lower() and word.lower() not in ENDINGS:
        yield f"words are written in small letters: {word.lower()} in place of {word}"


def route_mends(case: Case) -> Iterator[str]:
    """The order of routes, which no one word shows."""
    if case.fault or case.known.in_body or case.name != "route":
        return
    before = [line.split(" ")[1] for line in case.lines[: case.number - 1] if line.startswith("route ")]
    if case.words[1] in before:
        yield f"line {case.words[1]} has a route already; each has one at most"
    else:
        yield f"routes stand in rising order of their lines, and line {before[-1] if before else '?'} comes before {case.words[1]} here"


def form_mends(case: Case) -> list[str]:
    """How to mend a line that is out of form. What is said first matters most. Where its characters alone are at fault,
    nothing else is said of it."""
    said = list(dict.fromkeys(text_mends(case.line)))
    if said:
        line = mended(case.line)
        fault = form_fault(line, case.known) if line and not line.startswith("#") else None
        if fault is None:
            return said
        lines = [*case.lines[: case.number - 1], line, *case.lines[case.number :]]
        case = replace(case, lines=lines, fault=fault)
    rules = (letter_mends, header_mends, record_mends, number_mends, value_mends, length_mends, route_mends)
    return list(dict.fromkeys([*said, *(mend for rule in rules for mend in rule(case))]))


def reason_mends(case: Case, reason: list[str]) -> list[str]:
    """How to mend a line that is in form and refused for another reason."""
    words, known = case.words, case.known
    cpu = words[0]
    if reason[0] == "fell":
        if int(words[1]) < known.start and int(reason[1]) == known.start:
            return [f"the first count is START of `host`, {known.start}, or above"]
        return [f"counts of one processor never fall: processor {cpu} was at {reason[1]}; put the records in the order "
                "of their counts"]
    if reason[0] == "cpu":
        swapped = cpu.isdecimal() and int(words[1]) < known.cpus and int(cpu) >= max(CPUS_MAX.values())
        said = [f"the processor comes first, and then the count: {words[1]} {cpu} {' '.join(words[2:])}"] if swapped else []
        return said + [f"there are processors 0 to {known.cpus - 1}; the line `cpus N` of the header says how many"]
    if reason[0] == "steal":
        return ["steal time is no part of the board: leave the record out"]
    if reason[0] == "range":
        return ["2^59 ns are 18 years: START of `host` is the counter at power on, and KHZ its rate"]
    if reason[0] == "long":
        length = len(case.line.encode("utf-8", "surrogateescape"))
        return [f"a line has at most 128 bytes, a comment too, and this one has {length}; `state` lines have 200000"]
    if reason[0] == "state":
        return list(state_mends(case, int(reason[1])))
    return []


def state_mends(case: Case, place: int) -> Iterator[str]:
    """A state of a later version, or one that lacks bytes or has too many."""
    data = bytes.fromhex(case.words[-1])
    version, cpus = (int.from_bytes(data[at : at + 2], "little") for at in (8, 10))
    length = layout.length(version, cpus) if len(data) >= 12 and 1 <= version <= len(FORMATS) else 0
    rest = case.lines[case.number] if case.number < len(case.lines) else ""
    if place == 8 and len(data) >= 10 and case.known.version < version <= len(FORMATS):
        yield f"a state of version {version} is taken in format {version}: clockboard {version} in the first line"
    elif place == len(data) and re.fullmatch("[0-9a-fA-F]{16,}", rest):
        yield "the state goes on in the next line; it is one line, whatever its length"
    elif place == len(data) and length:
        yield (f"the state has {len(data)} bytes, and one of version {version} with so many processors has {length}: its end is missing; a "
               "terminal may cut a line, so take it from a file")
    elif place == len(data):
        yield f"the state has {len(data)} bytes, which isn't even its head: its end is missing"
    elif place == length < len(data):
        yield f"the state has {len(data)} bytes, and one of version {version} with so many processors has {length}: more stands at its end"
