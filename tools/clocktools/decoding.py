# SPDX-License-Identifier: Apache-2.0 OR MIT
"""What a record does, in words: which register of which device, and what the bits of what is written mean."""

from dataclasses import dataclass, field

PIT, RTC, HPET, PROCESSOR, APIC, HYPER_V, LINES, BOARD = ("8254", "MC146818", "HPET", "TSC and kvmclock", "local APIC", "Hyper-V", "lines",
                                                          "board")
DEVICES = (PIT, RTC, HPET, PROCESSOR, APIC, HYPER_V, LINES, BOARD)
DRIVES = {0: (PIT, HPET), 8: (RTC, HPET)}
"""The devices that drive lines 0 and 8; the HPET drives the others."""
ACCESSES = ("latch", "low byte", "high byte", "low then high byte")
TIMES = {0: "seconds", 1: "alarm seconds", 2: "minutes", 3: "alarm minutes", 4: "hours", 5: "alarm hours", 6: "day of the week", 7: "date",
         8: "month", 9: "year", 10: "register A", 11: "register B", 12: "register C", 13: "register D", 0x32: "century"}
B_BITS = ((7, "SET"), (6, "periodic interrupt"), (5, "alarm interrupt"), (4, "update interrupt"), (3, "square wave"), (2, "binary"),
          (1, "24 hours"), (0, "daylight saving"))
MSRS = {0x10: (PROCESSOR, "TSC"), 0x3B: (PROCESSOR, "TSC_ADJUST"), 0x4B564D00: (PROCESSOR, "wall clock"),
        0x4B564D01: (PROCESSOR, "system time"), 0x832: (APIC, "LVT timer"), 0x838: (APIC, "initial count"), 0x839: (APIC, "current count"),
        0x83E: (APIC, "divide configuration"), 0x6E0: (APIC, "TSC deadline"), 0x40000020: (HYPER_V, "reference counter"),
        0x40000021: (HYPER_V, "reference TSC page")}
APIC_MODES = ("one-shot", "periodic", "TSC deadline", "mode 3")
HPET_PLACES = {0x00: "capabilities", 0x10: "configuration", 0x20: "status", 0xF0: "main counter"}
TIMER_PLACES = ("config", "comparator", "message", "message address")
PLAIN = {"step": "time passes", "save": "the board is saved", "next": "when the next edge comes", "hv": "the reference TSC page is read",
         "wall": "the wall clock is read", "eoi": "end of the local APIC timer's interrupt"}


def rate_of(rate: int) -> str:
    """The periodic rate that register A selects."""
    if not rate:
        return "no periodic rate"
    return f"{32768 >> (rate + 6 if rate < 3 else rate - 1)} Hz"


def control_word(byte: int) -> str:
    number, access, mode = byte >> 6, byte >> 4 & 3, byte >> 1 & 7
    if number == 3:
        counters = ", ".join(str(k) for k in range(3) if byte >> k + 1 & 1) or "none"
        what = " and ".join(name for name, bit in (("count", 0x20), ("status", 0x10)) if not byte & bit) or "nothing"
        return f"read-back: latch {what} of counter {counters}"
    if not access:
        return f"counter {number}: latch the count"
    mode = mode - 4 if mode > 5 else mode
    return f"counter {number}: mode {mode}, {ACCESSES[access]}, {'BCD' if byte & 1 else 'binary'}"


def rtc_byte(index: int, byte: int | None) -> str:
    """A byte of the MC146818 that is read, or written with a value."""
    name = TIMES.get(index, f"byte {index:02x}h")
    if byte is None:
        return name
    if index == 10:
        return f"{name}: divider {'runs' if byte & 0x70 == 0x20 else 'is held'}, {rate_of(byte & 15)}"
    if index == 11:
        return f"{name}: {', '.join(told for bit, told in B_BITS if byte >> bit & 1) or 'nothing set'}"
    return f"{name} {byte:02x}"


def timer_config(value: int) -> str:
    words = ["periodic" if value & 8 else "one-shot", "level" if value & 2 else "edge", "32-bit" if value & 0x100 else "64-bit",
             "interrupt on" if value & 4 else "interrupt off", f"line {value >> 9 & 31}"]
    if value & 0x40:
        words.append("sets the comparator")
    if value & 0x4000:
        words.append("messages")
    return ", ".join(words)


def hpet_place(offset: int, value: int | None) -> str:
    place = offset & ~7
    half = ", high half" if offset & 4 else ""
    if place >= 0x100:
        timer, what = (place - 0x100) // 0x20, TIMER_PLACES[place >> 3 & 3]
        if value is not None and what == "config" and not half:
            return f"T{timer} config: {timer_config(value)}"
        told = "" if value is None else f" {value}" if what == "comparator" else f" {value:x}"
        return f"T{timer} {what}{half}{told}"
    name = HPET_PLACES.get(place, f"place {offset:x}h")
    if value is None:
        return name + half
    if place == 0x10 and not half:
        return f"{name}: {'on' if value & 1 else 'off'}{', legacy replacement' if value & 2 else ''}"
    if place == 0x20:
        return f"{name}: clear {', '.join(f'T{k}' for k in range(32) if value >> k & 1) or 'nothing'}"
    return f"{name}{half} {value}"


def msr_told(number: int, value: int | None) -> tuple[str, str]:
    device, name = MSRS.get(number, (BOARD, f"MSR {number:x}h"))
    if value is None:
        return device, name
    if number == 0x832:
        return device, f"{name}: {APIC_MODES[value >> 17 & 3]}, {'masked' if value >> 16 & 1 else 'open'}, vector {value & 255:02x}"
    if number in (0x4B564D01, 0x40000021):
        return device, f"{name}: page at {value & ~1:x}h, {'on' if value & 1 else 'off'}"
    return device, f"{name} {value}"


@dataclass
class Decoder:
    """Follows the index of the MC146818, which says what port 71h is, and port 61h."""

    index: int = 0
    known: dict[tuple[tuple[str, ...], int], tuple[str, str]] = field(default_factory=dict)

    def told(self, words: tuple[str, ...]) -> tuple[str, str]:
        """The device of a record, and what it does there."""
        key = words, self.index if words[1:2] == ("71",) else -1
        if key not in self.known:
            self.known[key] = self.first_told(words)
        if words[0] == "out" and words[1] == "70":
            self.index = int(words[2], 16) & 0x7F
        return self.known[key]

    def first_told(self, words: tuple[str, ...]) -> tuple[str, str]:
        kind = words[0]
        if kind in ("in", "out"):
            return self.port(int(words[1], 16), int(words[2], 16) if kind == "out" else None)
        if kind in ("hr", "hw"):
            return HPET, hpet_place(int(words[1], 16), int(words[3], 16) if kind == "hw" else None)
        if kind in ("rdmsr", "wrmsr"):
            return msr_told(int(words[1], 16), int(words[2], 16) if kind == "wrmsr" else None)
        if kind in ("ack", "rose"):
            return LINES, f"line {words[1]} is acknowledged" if kind == "ack" else f"rises of line {words[1]}"
        if kind in ("page", "clock", "refresh"):
            return PROCESSOR, f"{kind} of processor {words[1]}"
        if kind == "counts":
            return LINES, f"ticks of {words[1]}"
        if kind == "move":
            return BOARD, f"move to a host of {words[1]} kHz, after {words[3]} ns"
        return {"hv": HYPER_V, "eoi": APIC, "wall": PROCESSOR}.get(kind, BOARD), PLAIN.get(kind, kind)

    def port(self, port: int, byte: int | None) -> tuple[str, str]:
        if port == 0x43:
            return PIT, "control word" if byte is None else control_word(byte)
        if port == 0x61:
            if byte is None:
                return PIT, "port 61h: OUT 2, gate, speaker"
            return PIT, f"port 61h: gate 2 {'on' if byte & 1 else 'off'}, speaker {'on' if byte & 2 else 'off'}"
        if port == 0x70:
            return RTC, "index" if byte is None else f"index {byte & 0x7F:02x}: {TIMES.get(byte & 0x7F, 'memory')}"
        if port == 0x71:
            return RTC, rtc_byte(self.index, byte)
        return PIT, f"counter {port - 0x40}: " + ("a byte of the count or status" if byte is None else f"a byte of the count, {byte:02x}")
