# SPDX-License-Identifier: Apache-2.0 OR MIT
"""Which register a record reads, and which definition decides what it answers."""

from dataclasses import dataclass, field

from .documents import Definition, definitions

TIMES = {0x0: "seconds", 0x2: "minutes", 0x4: "hours", 0x6: "day of the week", 0x7: "date", 0x8: "month", 0x9: "year"}
ALARMS = {0x1: "seconds", 0x3: "minutes", 0x5: "hours"}
RTC_RULES = {
    0xA: ("register A", "rtc_cycle", "uip_of"),
    0xB: ("register B", "rtc_registers", "b_stored"),
    0xC: ("register C", "rtc_registers", "flags_next"),
    0xD: ("register D", "rtc_registers", "IsRtc"),
}
HPET_RULES = {
    0x00: ("capabilities", "hpet_registers", "register_value"),
    0x10: ("configuration", "hpet_registers", "register_value"),
    0x20: ("status", "hpet_registers", "hpet_pulsed"),
    0xF0: ("main counter", "hpet_comparator", "counter_after"),
}
TIMER_RULES = (
    ("configuration", "hpet_comparator", "config_register"),
    ("comparator", "hpet_comparator", "pulsed"),
    ("message", "hpet_registers", "register_at"),
    ("message", "hpet_registers", "register_at"),
)
MSR_RULES = {
    0x10: ("TSC", "tsc_scale", "tsc_by"),
    0x3B: ("TSC_ADJUST", "tsc_scale", "moved_by"),
    0x4B564D00: ("MSR 4B564D00h", "board_core", "msr_read"),
    0x4B564D01: ("MSR 4B564D01h", "board_core", "msr_read"),
    0x832: ("local APIC timer, LVT", "lapic_timer", "register_read"),
    0x838: ("local APIC timer, initial count", "lapic_timer", "register_read"),
    0x839: ("local APIC timer, current count", "lapic_timer", "register_read"),
    0x83E: ("local APIC timer, divide configuration", "lapic_timer", "register_read"),
    0x6E0: ("local APIC timer, deadline", "lapic_timer", "register_read"),
    0x40000020: ("reference counter", "board_core", "msr_read"),
    0x40000021: ("MSR 40000021h", "board_core", "msr_read"),
}
PIT_HZ = 1_193_182
HPET_NS = 10
REFERENCE_NS = 100
"""The unit of Hyper-V's reference counter."""


@dataclass(frozen=True)
class Rule:
    """A register's name, the definition that decides, and how many counts of it a nanosecond has, if it counts."""

    register: str
    crate: str
    name: str
    counts_per_ns: float = 0.0

    @property
    def definition(self) -> Definition:
        return definitions()[self.crate, self.name]


@dataclass
class Follower:
    """Follows a trace's writes as far as they say what a read reads: latches of the 8254, the MC146818's index."""

    guest_khz: int
    index: int = 0
    status_waits: set[int] = field(default_factory=set)
    rtc_written: set[int] = field(default_factory=set)
    hpet_written: set[int] = field(default_factory=set)

    def rule(self, words: tuple[str, ...]) -> Rule | None:
        """The rule of a record that reads; and the record is followed."""
        kind = words[0]
        if kind == "out":
            self.write(int(words[1], 16), int(words[2], 16))
        elif kind == "hw":
            self.hpet_written.add(int(words[1], 16) & ~7)
        elif kind == "in":
            return self.port(int(words[1], 16))
        elif kind == "hr":
            offset = int(words[1], 16)
            return hpet_rule(offset, int(words[2]), offset & ~7 in self.hpet_written)
        elif kind == "rdmsr":
            number = int(words[1], 16)
            row = MSR_RULES.get(number, (f"MSR {number:X}h", "board_core", "msr_read"))
            return Rule(*row, self.msr_counts().get(number, 0.0))
        elif kind == "page":
            return Rule("pvclock page", "board_core", "published")
        return None

    def msr_counts(self) -> dict[int, float]:
        """How many counts a nanosecond has, by the MSR; a local APIC's timer has one at most."""
        return {0x10: self.guest_khz / 1e6, 0x839: 1.0, 0x40000020: 1 / REFERENCE_NS}

    def write(self, port: int, value: int) -> None:
        if port == 0x70:
            self.index = value & 0x7F
        elif port == 0x71:
            self.rtc_written.add(self.index)
        elif port == 0x43 and value >> 6 < 3:
            if value & 0x30:
                self.status_waits.discard(value >> 6)
        elif port == 0x43 and not value & 0x11:
            self.status_waits |= {k for k in range(3) if value >> k + 1 & 1}

    def port(self, port: int) -> Rule:
        if port == 0x61:
            return Rule("port 61h", "pit_readback", "read_of_61")
        if port == 0x43:
            return Rule("port 43h", "pit_readback", "port_read")
        if port == 0x70:
            return Rule("port 70h", "board_devices", "value_of")
        if port == 0x71:
            return rtc_rule(self.index, self.index in self.rtc_written)
        counter = port - 0x40
        if counter in self.status_waits:
            self.status_waits.discard(counter)
            return Rule(f"8254 status of counter {counter}", "pit_counter", "status_of")
        return Rule(f"8254 counter {counter}", "pit_counter", "effect_in", PIT_HZ / 1e9)


def rtc_rule(index: int, is_written: bool) -> Rule:
    """The rule of a byte of the MC146818; one that wasn't written is as at power on."""
    if index in RTC_RULES:
        name, crate, definition = RTC_RULES[index]
        return Rule(f"MC146818 {name}", crate, definition)
    if index in TIMES:
        return Rule(f"MC146818 {TIMES[index]}", "rtc_calendar", "updated")
    name = f"MC146818 alarm {ALARMS[index]}" if index in ALARMS else f"MC146818 byte {index:02X}h"
    return Rule(name, "rtc_registers", "rtc_written" if is_written else "rtc_at_power_on")


def hpet_rule(offset: int, width: int, is_written: bool) -> Rule:
    """The rule of a register of the HPET; one of a timer that wasn't written is as at power on."""
    if width < 4 or offset % width:
        return Rule("HPET access", "hpet_registers", "hpet_read")
    place = offset & ~7
    if place >= 0x100:
        name, crate, definition = TIMER_RULES[place >> 3 & 3]
        if crate == "hpet_comparator" and not is_written:
            definition = "timer_at_power_on"
        return Rule(f"HPET timer {(place - 0x100) // 0x20} {name}", crate, definition)
    name, crate, definition = HPET_RULES.get(place, ("place without register", "hpet_registers", "register_at"))
    return Rule(f"HPET {name}", crate, definition, 1 / HPET_NS if place == 0xF0 else 0.0)
