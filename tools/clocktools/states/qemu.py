# SPDX-License-Identifier: Apache-2.0 OR MIT
"""Migration streams of QEMU, from and to a state's fields. The sections of the MC146818 and of the HPET have modules of their own."""

from dataclasses import dataclass, field

from .counters import CHANNEL_NAMES, Channel, counter_from, counter_to
from .kvm import DIVIDE_BITS, LVT_BITS, MODE_BITS
from .layout import TICK_COUNTS, timers_of
from .meaning import PIT_HZ, SECOND
from .pages import fill_hyperv, fill_processor, fill_wall
from .qemu_hpet import hpet_from, hpet_to, silence_hpet
from .qemu_rtc import rtc_from, rtc_to, seconds_of, silence_rtc
from .qemu_stream import Stream
from .saved import Fields, Losses, StateRefused, Unreadable, ask
from .timebase import Aligned, Phases, aligned, board_now, scaled, tsc_at

CLOCK, TICKS = "cpu_clock_offset", "cpu_ticks_offset"
"""Of the section timer: the virtual clock at the save, and TCG's TSC."""
DEVICE = "clockboard"
"""The section of the device of qemu/, whose state it has."""
DEVICE_VERSION = 1
DEVICE_BYTES = 128
"""Of the MC146818's memory, which the device compares at a reset."""
DEFAULT_KHZ = 1_000_000
PERIODIC, DEADLINE = 1, 2
"""Modes of the local APIC's timer."""


@dataclass
class Source:
    """What a user says of a stream that is read."""

    version: int = 5
    policies: tuple[str, ...] = ("delay", "delay", "delay")
    host_khz: int = DEFAULT_KHZ
    count: int = 0
    guest_khz: int | None = None
    virtual_ns: int | None = None
    rtc_clock: str = "vm"
    rtc_now_ns: int | None = None
    keeps_time: bool = False
    keeps_second: bool = True
    is_user_pit: bool = False
    pit0_loaded_ns: int | None = None
    realtime_ns: int | None = None
    page_versions: list[int] = field(default_factory=list)


def cpus_of(stream: Stream) -> list[int]:
    return stream.instances("cpu") or [0]


def cpu_field(stream: Stream, name: str, instance: int) -> str | None:
    """The path of a field of a processor, which may be in a subsection."""
    section = stream.sections.get(("cpu", instance), {})
    return next((path for path in section if path.rsplit(":", 1)[-1] == f"env.{name}"), None)


def cpu_number(stream: Stream, name: str, instance: int) -> int:
    """A field of a processor; subsections are left out where it is 0."""
    path = cpu_field(stream, name, instance)
    return 0 if path is None else stream.get("cpu", path, 0, instance) % 2**64


def rate_of(stream: Stream, source: Source, losses: Losses) -> int:
    """The guest's rate in kHz, which a stream of TCG hasn't."""
    there = cpu_number(stream, "tsc_khz", cpus_of(stream)[0])
    if not source.guest_khz and not there:
        losses.say("guest.khz", f"not in the stream: {DEFAULT_KHZ}; --guest-khz tells it")
    return source.guest_khz or there or DEFAULT_KHZ


def pit_from(values: Fields, stream: Stream, source: Source, virtual_ns: int, losses: Losses) -> int | None:
    """Fills the 8254. Gives the nanoseconds since the last pulse of the counter that leads: 0, or 2 where 0 was never programmed."""
    channels = [Channel(**{name: stream.get("i8254", f"channels[{number}].{name}") for name in CHANNEL_NAMES}) for number in range(3)]
    if source.pit0_loaded_ns is not None:
        channels[0].count_load_time = source.pit0_loaded_ns
    elif stream.has("kvmclock") and not source.is_user_pit:
        channels[0].count_load_time = virtual_ns
        losses.say("pit.counter0.count", "KVM's 8254 tells no load time of counter 0: its period begins now; --user-pit where it was QEMU's")
    phases = [counter_from(values, number, channel, virtual_ns, losses) for number, channel in enumerate(channels)]
    used = [number for number in (0, 2) if channels[number].rw_mode & 3]
    for number in used[1:]:
        losses.say(f"pit.counter{number}.count",
                   f"one pulse clock has all counters: its pulses come {phases[used[0]] - phases[number]:+d} ns from the source's")
    values["pit.speaker"] = stream.get("pcspk", "data_on", 0) & 1
    return phases[used[0]] if used else None


def apic_from(values: Fields, stream: Stream, cpu: int, virtual_ns: int, losses: Losses) -> None:
    """Fills the local APIC's timer of a processor."""
    if values["format"] < 3 or not stream.has("apic"):
        return
    at, instance = f"cpu{cpu}.apic_timer.", stream.instances("apic")[cpu]
    lvt, divide, initial, load_ns, shift = (stream.get("apic", name, None, instance) for name in (
        "lvt[0]", "divide_conf", "initial_count", "initial_count_load_time", "count_shift"))
    lvt, initial = lvt & LVT_BITS, initial & 0xFFFFFFFF
    if lvt & MODE_BITS == MODE_BITS:
        lvt &= ~MODE_BITS
        losses.say(at + "lvt", "the reserved mode: taken as one-shot")
    mode = lvt >> 17 & 3
    values |= {at + "lvt": lvt, at + "divide": divide & DIVIDE_BITS}
    if mode == DEADLINE:
        values[at + "deadline"] = cpu_number(stream, "tsc_deadline", cpus_of(stream)[cpu])
        return
    values[at + "initial"] = initial
    if stream.has("kvmclock"):
        values[at + "current"] = initial
        if initial:
            losses.say(at + "current", "under KVM the stream has no current count: the initial one")
        return
    passed, part = max(virtual_ns - load_ns, 0) >> shift, max(virtual_ns - load_ns, 0) & ((1 << shift) - 1)
    if mode == PERIODIC and initial:
        place = passed % (initial + 1)
        current, part = (initial - place, part) if place < initial else (initial, 0)
        losses.say(at + "initial", "QEMU's period is one count longer")
    else:
        current = max(initial - passed, 0)
        if current:
            losses.say(at + "current", "QEMU's one-shot tick comes one count later")
    values |= {at + "current": current, at + "phase_ns": part if current else 0}


def time_from(stream: Stream, source: Source, virtual_ns: int, phases: Phases, losses: Losses) -> int:
    """The board's time: kvmclock's where a guest has its page, else one at which the pulses fall as in the source."""
    clock = stream.get("kvmclock", "clock", 0)
    has_page = stream.has("kvmclock") and any(cpu_number(stream, "system_time_msr", one) & 1 for one in cpus_of(stream))
    if has_page or source.keeps_time:
        time = clock if stream.has("kvmclock") else virtual_ns
        Aligned(time, phases.errors(time)).tell(losses, "the page's time is kept")
        if has_page:
            losses.note("host.anchor_ns", "QEMU reads its clocks one after the other: the MC146818 and the HPET may be some ms older")
        return time
    found = aligned(virtual_ns, phases)
    found.tell(losses, "no time has all phases")
    losses.note("host.anchor_ns", f"{found.time_ns - virtual_ns:+d} ns from the virtual clock, as the phases ask")
    return found.time_ns


def processors_from(values: Fields, stream: Stream, source: Source, virtual_ns: int, losses: Losses) -> None:
    for cpu, instance in enumerate(cpus_of(stream)):
        tsc = cpu_number(stream, "tsc", instance)
        if not stream.has("kvmclock") and not tsc:
            tsc = stream.get("timer", TICKS, 0)
        values[f"cpu{cpu}.tsc_offset"] = (tsc - scaled(values, source.count)) % 2**64
        values[f"cpu{cpu}.tsc_adjust"] = cpu_number(stream, "tsc_adjust", instance)
        version = source.page_versions[cpu] if cpu < len(source.page_versions) else None
        fill_processor(values, cpu, cpu_number(stream, "system_time_msr", instance), version, losses)
        apic_from(values, stream, cpu, virtual_ns, losses)


def pages_from(values: Fields, stream: Stream, source: Source, losses: Losses) -> None:
    """The wall clock and Hyper-V's page."""
    first, realtime = cpus_of(stream)[0], source.realtime_ns
    wall = cpu_number(stream, "wall_clock_msr", first)
    if wall and realtime is None:
        realtime = seconds_of(values) * SECOND
        losses.say("wall.sec", "no time of day is in the stream: that of the MC146818; --realtime-ns tells it")
    fill_wall(values, wall, realtime, losses)
    msr = cpu_number(stream, "msr_hv_tsc", first)
    if msr & 1 and values["format"] >= 4:
        losses.say("hv.offset", "KVM works it out of its own clock: off by under 2 units of 100 ns")
    fill_hyperv(values, msr, values["host.anchor_ns"] // 100, losses)


def virtual_clock(stream: Stream, given: int | None) -> int:
    return stream.get("timer", CLOCK) if given is None else given


def from_qemu(values: Fields, stream: Stream, source: Source, losses: Losses) -> Fields:
    """Fills a stream's clocks into the fields of a board of as many processors."""
    values, virtual_ns = dict(values), virtual_clock(stream, source.virtual_ns)
    values |= {"host.khz": source.host_khz, "guest.khz": rate_of(stream, source, losses), "host.anchor_count": source.count,
               "host.greatest_count": source.count}
    pit = pit_from(values, stream, source, virtual_ns, losses)
    hpet = None
    if stream.has("hpet"):
        hpet = hpet_from(values, stream, virtual_ns, losses)
    else:
        losses.say("hpet.timers", "the source has no HPET, the board has one")
    clock_ns = virtual_ns if source.rtc_clock == "vm" and source.rtc_now_ns is None else source.rtc_now_ns
    rtc = rtc_from(values, stream, clock_ns, source.keeps_second, losses)
    values["host.anchor_ns"] = time_from(stream, source, virtual_ns, Phases(pit, rtc, hpet), losses)
    processors_from(values, stream, source, virtual_ns, losses)
    pages_from(values, stream, source, losses)
    if any(values[f"cpu{cpu}.page.msr"] & 1 for cpu in range(values["cpus"])):
        values["clock.greatest_ns"] = stream.get("kvmclock", "clock", 0)
    return values


def next_transition(channel: Channel, now_ns: int) -> int:
    """When QEMU's counter 0 next changes its output: -1 where it doesn't."""
    passed, count, begin = channel.pulses(now_ns), channel.count, 0
    begin = passed - passed % count
    if channel.mode in (0, 1):
        pulse = count if passed < count else None
    elif channel.mode == 2:
        pulse = begin + count if passed == begin and passed else begin + count + 1
    elif channel.mode == 3:
        half = (count + 1) // 2
        pulse = begin + half if passed - begin < half else begin + count
    else:
        pulse = count if passed < count else count + 1 if passed == count else None
    return -1 if pulse is None else max(channel.count_load_time + pulse * SECOND // PIT_HZ, now_ns + 1)


def pit_to(values: Fields, stream: Stream, virtual_ns: int, losses: Losses) -> None:
    for number in range(3):
        channel = counter_to(values, number, virtual_ns, losses)
        for name, told in channel.numbers().items():
            stream.put("i8254", f"channels[{number}].{name}", told)
        if number == 0:
            for name in ("channels[0].next_transition_time", "channels[0].next_transition_time+"):
                stream.put("i8254", name, next_transition(channel, virtual_ns))
            stream.put("i8254", "channels[0].irq_disabled", values["hpet.config"] >> 1 & 1)
    stream.put("pcspk", "data_on", values["pit.speaker"])


def apic_to(values: Fields, stream: Stream, cpu: int, virtual_ns: int, losses: Losses) -> None:
    """Writes the timer's fields of a local APIC, with a load time of its own."""
    if values["format"] < 3 or cpu >= len(stream.instances("apic")):
        return
    at, instance = f"cpu{cpu}.apic_timer.", stream.instances("apic")[cpu]
    lvt, divide, initial, current = (values[at + name] for name in ("lvt", "divide", "initial", "current"))
    shift = ((divide & 3 | divide >> 1 & 4) + 1) & 7
    runs = lvt >> 17 & 3 != DEADLINE and current
    load_ns = virtual_ns - ((initial - current if runs else initial + 1) << shift) - values[at + "phase_ns"]
    counts = initial + 1
    expiry = load_ns + (counts << shift) if runs and not lvt >> 16 & 1 else -1
    if runs:
        losses.say(at + "current", "QEMU's tick comes one count later")
    for name, told in (("lvt[0]", lvt), ("divide_conf", divide), ("count_shift", shift), ("initial_count", initial),
                       ("initial_count_load_time", load_ns), ("next_time", max(expiry, 0)), ("timer_expiry", expiry)):
        stream.put("apic", name, told, instance)


def put_cpu(values: Fields, stream: Stream, cpu: int, name: str, told: int, losses: Losses) -> None:
    """Writes a field of a processor. One that is in a subsection needs a template that has it: without it 0 stays."""
    instance = cpus_of(stream)[cpu]
    path = cpu_field(stream, name, instance)
    if path is not None:
        stream.put("cpu", path, told, instance)
    elif told and name == "tsc_deadline":
        raise StateRefused(f"cpu{cpu}.apic_timer.deadline {told}: the template has no place for it")
    elif told and name in ("system_time_msr", "wall_clock_msr", "msr_hv_tsc"):
        raise StateRefused(f"{ {'system_time_msr': f'cpu{cpu}.page.msr', 'wall_clock_msr': 'wall.msr'}.get(name, 'hv.msr') } {told:x}h: "
                      "the template has no place for it")
    elif told:
        losses.say(f"cpu{cpu}.{name}", f"{told:x}h: the template has no place for it")


def processors_to(values: Fields, stream: Stream, virtual_ns: int, losses: Losses) -> None:
    """Writes the sections cpu, kvmclock and apic, and TCG's TSC."""
    if len(cpus_of(stream)) != values["cpus"]:
        raise StateRefused(f"cpus {values['cpus']}, and the template has {len(cpus_of(stream))}")
    count, is_kvm = values["host.greatest_count"], stream.has("kvmclock")
    for cpu in range(values["cpus"]):
        tsc = tsc_at(values, cpu, count)
        if is_kvm:
            put_cpu(values, stream, cpu, "tsc", tsc, losses)
        elif tsc != tsc_at(values, 0, count):
            losses.say(f"cpu{cpu}.tsc_offset", "TCG has one TSC for all processors: that of the first")
        for name, told in (("tsc_adjust", values[f"cpu{cpu}.tsc_adjust"]), ("system_time_msr", values[f"cpu{cpu}.page.msr"]),
                           ("wall_clock_msr", values["wall.msr"]), ("msr_hv_tsc", values.get("hv.msr", 0)),
                           ("tsc_deadline", values.get(f"cpu{cpu}.apic_timer.deadline", 0))):
            put_cpu(values, stream, cpu, name, told, losses)
        apic_to(values, stream, cpu, virtual_ns, losses)
    if is_kvm:
        stream.put("kvmclock", "clock", board_now(values))
    else:
        stream.put("timer", TICKS, tsc_at(values, 0, count))
        if any(values[f"cpu{cpu}.page.msr"] & 1 for cpu in range(values["cpus"])):
            raise StateRefused("cpu0.page.msr is enabled, and the template has no section kvmclock")


def say_accounts(values: Fields, losses: Losses) -> None:
    """QEMU counts no ticks, and its lines are the interrupt controllers'."""
    owners = ["pit", "rtc", *(f"hpet.timer{number}" for number in range(timers_of(values["format"])))]
    for owner in owners:
        for name in TICK_COUNTS:
            number = values[f"{owner}.ticks.{name}"]
            if number and not (owner == "rtc" and name == "waiting"):
                (losses.say if name == "waiting" else losses.note)(f"{owner}.ticks.{name}", f"{number}: no field")
        if values[f"{owner}.ticks.up"] and owner != "rtc":
            losses.say(f"{owner}.ticks.up", "the line is the interrupt controller's")


def lower_lines(stream: Stream) -> None:
    """Has both 8259s take the next rise of lines 0 and 8, whatever the level was that their source showed last."""
    for instance in stream.instances("i8259"):
        stream.put("i8259", "last_irr", stream.get("i8259", "last_irr", 0, instance) & ~1, instance)


def to_qemu(values: Fields, stream: Stream, virtual_ns: int | None, rtc_now_ns: int | None, losses: Losses) -> bytes:
    """A template filled with a board's clocks. That of the device of qemu/ loses the device's section, and keeps its TSC, local APICs and
    pages, which are QEMU's own there."""
    clock = virtual_clock(stream, virtual_ns)
    pit_to(values, stream, clock, losses)
    rtc_to(values, stream, clock if rtc_now_ns is None else rtc_now_ns, losses)
    hpet_to(values, stream, clock, losses)
    stream.put("timer", CLOCK, clock)
    if not stream.has(DEVICE):
        processors_to(values, stream, clock, losses)
    say_accounts(values, losses)
    lower_lines(stream)
    return stream.without(DEVICE)


def state_of_device(stream: Stream) -> bytes:
    """The state that a stream of the device of qemu/ has."""
    data = stream.bytes_of(DEVICE, "state")
    return data[: int.from_bytes(stream.bytes_of(DEVICE, "state_length"), "big")]


def at_save(data: bytes, clock: int, losses: Losses) -> bytes:
    """The state that the device saved, at the virtual clock of its stream: it is that of the board after its last access."""
    answer = ask(data, [f"0 {clock} step"])
    for _, at_ns, line, direction in answer.blocks[0].edges:
        if direction == "up":
            losses.say(f"line{line}.rises", f"it rose at {at_ns} ns, after the device's last access: that interrupt is lost")
    return answer.after


def for_device(data: bytes, stream: Stream) -> bytes:
    """The template as a stream of a machine with the device of qemu/, whose board has this state. The board's counter is the virtual
    clock, in nanoseconds. QEMU's own devices are still there, and move no line: the device has taken the 8254's."""
    if stream.has(DEVICE):
        raise Unreadable("the template has a section of the device already")
    memory = stream.bytes_of("mc146818rtc", "cmos_data")[:DEVICE_BYTES]
    silence_hpet(stream)
    silence_rtc(stream)
    lower_lines(stream)
    parts = [("state_length", len(data).to_bytes(4, "big")), ("state", data), ("firmware", memory)]
    return stream.with_section(DEVICE, DEVICE_VERSION, parts)
