# SPDX-License-Identifier: Apache-2.0 OR MIT
"""KVM's structures, as a monitor writes them to files of a folder, from and to a state's fields.

    pit2             struct kvm_pit_state2
    clock            struct kvm_clock_data
    cpuN.lapic       struct kvm_lapic_state
    cpuN.msrs        struct kvm_msr_entry of each MSR, one after the other
    cpuN.tsc_offset  KVM_VCPU_TSC_OFFSET, eight bytes; may be missing
    host.json        tsc_khz: KVM_GET_TSC_KHZ; host_khz: of the host's TSC, where KVM scales; monotonic_ns: CLOCK_MONOTONIC right
                     after KVM_GET_PIT2; count: the host's TSC beside KVM_GET_CLOCK, where the clock has none
"""

import json
import struct
from dataclasses import dataclass, field
from pathlib import Path
from typing import Any

from .counters import CHANNEL_NAMES, Channel, counter_from, counter_to, pulses_since_load
from .layout import timers_of
from .meaning import mode_of
from .pages import fill_hyperv, fill_processor, fill_wall
from .saved import Fields, Losses, Unreadable
from .timebase import Phases, aligned, board_now, pulses_by, scaled, time_of, tsc_at

CHANNEL = struct.Struct("<IH10Bq")
PIT2 = 112
PIT_FLAGS = struct.Struct("<10I")
CLOCK = struct.Struct("<QIIQQ16x")
MSR = struct.Struct("<IIQ")
HPET_LEGACY, SPEAKER_ON = 1, 2
"""Flags of kvm_pit_state2."""
REALTIME, HOST_TSC = 4, 8
"""Flags of kvm_clock_data."""
LAPIC = 1024
LVT, INITIAL, CURRENT, DIVIDE = 0x320, 0x380, 0x390, 0x3E0
LVT_BITS, DIVIDE_BITS, MODE_BITS = 0x700FF, 0xB, 3 << 17
MSR_TSC, MSR_ADJUST, MSR_DEADLINE = 0x10, 0x3B, 0x6E0
MSR_CLOCK, MSR_WALL = (0x4B564D01, 0x12), (0x4B564D00, 0x11)
MSR_HV_COUNT, MSR_HV_PAGE = 0x40000020, 0x40000021


@dataclass
class Processor:
    """What KVM keeps of a processor: the registers of its local APIC, or none, its MSRs, and the offset of its TSC, where known."""

    lapic: bytes
    msrs: dict[int, int]
    tsc_offset: int | None = None

    def msr(self, *numbers: int) -> int:
        return next((self.msrs[number] for number in numbers if self.msrs.get(number)), 0)


@dataclass
class Kvm:
    """What KVM keeps of a virtual machine's clocks."""

    channels: list[Channel]
    pit_flags: int
    clock_ns: int
    clock_flags: int
    realtime_ns: int
    host_tsc: int
    host: dict[str, int]
    processors: list[Processor] = field(default_factory=list)


@dataclass
class Choices:
    """What a user says of a conversion."""

    version: int = 5
    policies: tuple[str, ...] = ("delay", "delay", "delay")
    pit0_loaded_ns: int | None = None
    page_versions: list[int] = field(default_factory=list)
    realtime_ns: int | None = None


def part(path: Path, size: int | None = None) -> bytes:
    """A file's bytes, of which there are this many."""
    data = path.read_bytes()
    if size is not None and len(data) != size:
        raise Unreadable(f"{path}: {len(data)} bytes, and {size} are wanted")
    return data


def pit_unpacked(data: bytes) -> tuple[list[Channel], int]:
    channels = [Channel(**dict(zip(CHANNEL_NAMES, CHANNEL.unpack_from(data, CHANNEL.size * number)))) for number in range(3)]
    return channels, PIT_FLAGS.unpack_from(data, 3 * CHANNEL.size)[0]


def pit_packed(channels: list[Channel], flags: int) -> bytes:
    return b"".join(CHANNEL.pack(*channel.numbers().values()) for channel in channels) + PIT_FLAGS.pack(flags, *(0,) * 9)


def processors_in(folder: Path) -> list[Processor]:
    found = []
    while (msrs := folder / f"cpu{len(found)}.msrs").exists():
        at = f"cpu{len(found)}"
        data, lapic, offset = part(msrs), folder / f"{at}.lapic", folder / f"{at}.tsc_offset"
        if len(data) % MSR.size:
            raise Unreadable(f"{msrs}: {len(data)} bytes, and a multiple of {MSR.size} is wanted")
        found.append(Processor(part(lapic, LAPIC) if lapic.exists() else b"",
                               {number: value for number, _, value in MSR.iter_unpack(data)},
                               int.from_bytes(part(offset, 8), "little") if offset.exists() else None))
    if not found:
        raise Unreadable(f"{folder}: no cpu0.msrs")
    return found


def read_folder(folder: Path) -> Kvm:
    channels, flags = pit_unpacked(part(folder / "pit2", PIT2))
    clock, clock_flags, _, realtime, host_tsc = CLOCK.unpack(part(folder / "clock", CLOCK.size))
    try:
        host: dict[str, Any] = json.loads(part(folder / "host.json"))
        numbers = {name: int(told) for name, told in host.items() if not isinstance(told, dict)}
    except (ValueError, AttributeError, TypeError) as fault:
        raise Unreadable(f"{folder / 'host.json'}: {fault}") from fault
    if "tsc_khz" not in numbers:
        raise Unreadable(f"{folder / 'host.json'}: no tsc_khz")
    return Kvm(channels, flags, clock, clock_flags, realtime, host_tsc, numbers, processors_in(folder))


def pit_from(values: Fields, kvm: Kvm, choices: Choices, losses: Losses) -> int | None:
    """Fills the 8254. Gives the nanoseconds since the last pulse of the counter that leads."""
    now_ns = kvm.host.get("monotonic_ns")
    if now_ns is None:
        now_ns = max(channel.count_load_time for channel in kvm.channels)
        losses.say("pit.counter2.count", "no monotonic_ns beside the structure: as at the last load")
    first = kvm.channels[0]
    first.count_load_time = now_ns if choices.pit0_loaded_ns is None else choices.pit0_loaded_ns
    if choices.pit0_loaded_ns is None:
        losses.say("pit.counter0.count", "KVM's structure has no load time of counter 0: its period begins now")
    phases = [counter_from(values, number, channel, now_ns, losses) for number, channel in enumerate(kvm.channels)]
    values["pit.speaker"] = int(bool(kvm.pit_flags & SPEAKER_ON))
    if kvm.pit_flags & HPET_LEGACY and not values["hpet.config"] & 2:
        losses.say("pit.ticks.due", "the monitor's HPET has line 0: set bit 1 of hpet.config")
    losses.note("pit.ticks.waiting", "0: ticks that KVM still reinjects are in no structure")
    is_second_used = bool(kvm.channels[2].rw_mode & 3)
    if choices.pit0_loaded_ns is None:
        return phases[2] if is_second_used else None
    if is_second_used:
        losses.say("pit.counter2.count", f"one pulse clock has all counters: its pulses come {phases[0] - phases[2]:+d} ns from the source's")
    return phases[0]


def apic_from(values: Fields, cpu: int, processor: Processor, losses: Losses) -> None:
    """Fills the local APIC's timer of a processor."""
    if values["format"] < 3 or not processor.lapic:
        if processor.lapic and not int.from_bytes(processor.lapic[LVT : LVT + 4], "little") >> 16 & 1:
            losses.say(f"cpu{cpu}.apic_timer.lvt", "local APIC timers need format 3")
        return
    at = f"cpu{cpu}.apic_timer."
    lvt, initial, current, divide = (int.from_bytes(processor.lapic[place : place + 4], "little")
                                     for place in (LVT, INITIAL, CURRENT, DIVIDE))
    lvt, divide = lvt & LVT_BITS, divide & DIVIDE_BITS
    if lvt & MODE_BITS == MODE_BITS:
        lvt &= ~MODE_BITS
        losses.say(at + "lvt", "the reserved mode: taken as one-shot")
    is_deadline, is_periodic = bool(lvt >> 18 & 1), bool(lvt >> 17 & 1)
    if is_deadline:
        initial = current = 0
    if is_periodic and initial and not current:
        current = initial
        losses.say(at + "current", "0 in periodic mode: the period begins now")
    current = min(current, initial)
    if current and divisor(divide) > 1:
        losses.say(at + "phase_ns", f"0: the board's tick comes up to {divisor(divide) - 1} ns early")
    values |= {at + "lvt": lvt, at + "divide": divide, at + "initial": initial, at + "current": current, at + "phase_ns": 0,
               at + "deadline": processor.msr(MSR_DEADLINE) if is_deadline else 0}


def divisor(divide: int) -> int:
    """Of a divide configuration: bits 3, 1 and 0 count from 2 on, and all three set are 1."""
    return 2 ** (((divide & 3 | divide >> 1 & 4) + 1) % 8)


def from_kvm(values: Fields, kvm: Kvm, choices: Choices, losses: Losses) -> Fields:
    """Fills what KVM keeps into the fields of a board of as many processors; the other fields stay."""
    values = dict(values)
    phase = pit_from(values, kvm, choices, losses)
    enabled = any(processor.msr(*MSR_CLOCK) & 1 for processor in kvm.processors)
    time = kvm.clock_ns if enabled else aligned(kvm.clock_ns, Phases(pit_ns=phase)).time_ns
    if enabled and phase is not None:
        errors = Phases(pit_ns=phase).errors(time)["pit.phase"]
        if errors:
            losses.say("pit.phase", f"the board's pulse comes {errors:+d} ns early: the page's time is kept")
    elif time != kvm.clock_ns:
        losses.note("host.anchor_ns", f"{time - kvm.clock_ns:+d} ns from KVM's clock, as the pulses of the 8254 ask")
    has_tsc = bool(kvm.clock_flags & HOST_TSC)
    count = kvm.host_tsc if has_tsc else kvm.host.get("count", 0)
    if not has_tsc:
        losses.say("host.anchor_count", "KVM's clock has no host_tsc: a count beside it, off by the length of the call" if count
                   else "KVM's clock has no host_tsc, and host.json no count: 0")
    values |= {"host.khz": kvm.host.get("host_khz", kvm.host["tsc_khz"]), "guest.khz": kvm.host["tsc_khz"], "host.anchor_count": count,
               "host.greatest_count": count, "host.anchor_ns": time, "clock.greatest_ns": kvm.clock_ns if enabled else 0}
    for cpu, processor in enumerate(kvm.processors):
        if processor.tsc_offset is None:
            losses.say(f"cpu{cpu}.tsc_offset", "of MSR 10h, a reading at another instant: off by the time between")
        offset = processor.msr(MSR_TSC) - scaled(values, count) if processor.tsc_offset is None else processor.tsc_offset
        values |= {f"cpu{cpu}.tsc_offset": offset % 2**64, f"cpu{cpu}.tsc_adjust": processor.msr(MSR_ADJUST)}
        version = choices.page_versions[cpu] if cpu < len(choices.page_versions) else None
        fill_processor(values, cpu, processor.msr(*MSR_CLOCK), version, losses)
        apic_from(values, cpu, processor, losses)
    first = kvm.processors[0]
    fill_wall(values, first.msr(*MSR_WALL), kvm.realtime_ns if kvm.clock_flags & REALTIME else None, losses)
    fill_hyperv(values, first.msr(MSR_HV_PAGE), first.msr(MSR_HV_COUNT) or None, losses)
    return values


def next_period(values: Fields, number: int) -> int | None:
    """The nanoseconds to the next period of a counter in mode 2 or 3, where it counts."""
    at = f"pit.counter{number}."
    mode, period = mode_of(values[at + "control"]), values[at + "count_register"] or 65536
    if mode not in (2, 3) or not values[at + "flags"] >> 4 & 1:
        return None
    now = board_now(values)
    left = period - pulses_since_load(values, number) % period
    return time_of(pulses_by(now) + left) - now


def pit_to(values: Fields, now_ns: int, losses: Losses) -> bytes:
    """struct kvm_pit_state2, with load times by a clock that shows `now_ns`."""
    for name in ("due", "rose", "waiting", "lost"):
        if number := values[f"pit.ticks.{name}"]:
            (losses.say if name == "waiting" else losses.note)(f"pit.ticks.{name}", f"{number}: no field")
    if values["pit.ticks.up"]:
        losses.say("pit.ticks.up", "line 0 is up: it is the interrupt controller's")
    for number in range(3):
        if values[f"pit.counter{number}.flags"] >> 4 & 1:
            losses.say(f"pit.counter{number}.count", "KVM_SET_PIT2 begins the period at the call, whatever the load time says")
    flags = values["pit.speaker"] * SPEAKER_ON | (HPET_LEGACY if values["hpet.config"] & 2 else 0)
    return pit_packed([counter_to(values, number, now_ns, losses) for number in range(3)], flags)


def apic_to(values: Fields, cpu: int, template: bytes, losses: Losses) -> bytes:
    """struct kvm_lapic_state: a template with the timer's registers filled."""
    at = f"cpu{cpu}.apic_timer."
    data = bytearray(template or bytes(LAPIC))
    for place, name in ((LVT, "lvt"), (INITIAL, "initial"), (CURRENT, "current"), (DIVIDE, "divide")):
        data[place : place + 4] = values[at + name].to_bytes(4, "little")
    if values[at + "phase_ns"]:
        losses.say(at + "phase_ns", f"{values[at + 'phase_ns']} ns: no field, so KVM's tick comes so much later")
    if values[at + "ticks.up"]:
        losses.say(at + "ticks.up", "the request is the controller's")
    if not template:
        losses.note(at + "lvt", "no structure is there to fill: the timer's registers alone, for one of KVM_GET_LAPIC")
    return bytes(data)


def msrs_to(values: Fields, cpu: int, hyperv: int | None) -> bytes:
    """The MSRs of a processor in the order in which KVM takes them: the TSC first, the deadline last."""
    at = f"cpu{cpu}."
    entries = [(MSR_TSC, tsc_at(values, cpu, values["host.greatest_count"])), (MSR_ADJUST, values[at + "tsc_adjust"]),
               (MSR_CLOCK[0], values[at + "page.msr"])]
    if cpu == 0:
        entries.append((MSR_WALL[0], values["wall.msr"]))
        if values["format"] >= 4:
            entries += [(MSR_HV_PAGE, values["hv.msr"]), *([(MSR_HV_COUNT, hyperv)] if hyperv is not None else [])]
    if values["format"] >= 3 and values[f"{at}apic_timer.deadline"]:
        entries.append((MSR_DEADLINE, values[f"{at}apic_timer.deadline"]))
    return b"".join(MSR.pack(number, 0, value) for number, value in entries)


def say_what_kvm_lacks(values: Fields, losses: Losses) -> None:
    """The devices of the board that are the monitor's own under KVM, and what KVM derives."""
    losses.note("rtc.sec", "KVM keeps no MC146818: it is the monitor's")
    if values["hpet.config"] or any(values[f"hpet.timer{number}.config"] & 4 for number in range(timers_of(values["format"]))):
        losses.note("hpet.config", "KVM keeps no HPET: it is the monitor's")
    if values["wall.msr"]:
        losses.say("wall.sec", "KVM works the wall clock out of its host's time of day")
    for cpu in range(values["cpus"]):
        if values[f"cpu{cpu}.page.msr"] & 1:
            losses.note(f"cpu{cpu}.page.version", "KVM goes on from the version in the guest's memory")
    if values["format"] >= 4 and values["hv.msr"] & 1:
        losses.say("hv.offset", "KVM works the reference page out of its own clock")


def to_kvm(values: Fields, hyperv: int | None, folder: Path, choices: Choices, losses: Losses) -> None:
    """Writes all structures into a folder; `hyperv` is Hyper-V's time now. A cpuN.lapic that is there is filled."""
    folder.mkdir(parents=True, exist_ok=True)
    now_ns, monotonic_ns = board_now(values), 0
    say_what_kvm_lacks(values, losses)
    realtime = choices.realtime_ns
    (folder / "pit2").write_bytes(pit_to(values, monotonic_ns, losses))
    (folder / "clock").write_bytes(CLOCK.pack(now_ns, 0 if realtime is None else REALTIME, 0, realtime or 0, 0))
    for cpu in range(values["cpus"]):
        at = folder / f"cpu{cpu}"
        if values["format"] >= 3:
            lapic = at.with_suffix(".lapic")
            lapic.write_bytes(apic_to(values, cpu, part(lapic, LAPIC) if lapic.exists() else b"", losses))
        at.with_suffix(".msrs").write_bytes(msrs_to(values, cpu, hyperv))
        at.with_suffix(".tsc_offset").write_bytes(values[f"cpu{cpu}.tsc_offset"].to_bytes(8, "little"))
    periods = {f"pit.counter{number}": period for number in range(3) if (period := next_period(values, number)) is not None}
    host = {"tsc_khz": values["guest.khz"], "host_khz": values["host.khz"], "monotonic_ns": monotonic_ns,
            "count": str(values["host.greatest_count"]), "next_period_ns": periods}
    (folder / "host.json").write_text(json.dumps(host, indent=1) + "\n")
    for name, period in periods.items():
        losses.note(f"{name}.count", f"its next period begins in {period} ns")
