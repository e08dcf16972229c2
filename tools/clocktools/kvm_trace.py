# SPDX-License-Identifier: Apache-2.0 OR MIT
"""KVM's tracepoints, as an ftrace instance, `perf script` and `trace-cmd report` print them. With the clock `x86-tsc` the host's
counter is the TSC itself; a log whose times are seconds has a counter of nanoseconds, and what the guest's TSC depends on is
dropped.

Read are kvm_pio, kvm_mmio, kvm_msr, kvm_ack_irq, kvm_eoi, kvm_pvclock_update, kvm_write_tsc_offset, and the marks that
tools/kvm-record puts at the beginning and the end, from which the TSC's rate is known. A log is read twice: first for
what no one line has, as the rates and which thread is which processor, and then for the records.
"""

import heapq
import re
from collections.abc import Iterable, Iterator
from dataclasses import dataclass, field
from fractions import Fraction
from pathlib import Path

from .grammar import MSRS as FIRST_FORMATS
from .importing import HPET_BASE, HPET_SIZE, LATE_NS, PORTS, Access, Import
from .interrupts import IOAPIC_LINES, PIC_LINES
from .files import Unusable

EVENT = re.compile(r"^\s*(.+?)(?:-|\s+(?:\d+/)?)(\d+)\s+(?:\([^)]*\)\s+)?\[\d+\]\s+(?:[^\s:]+\s+)?"
                   r"(\d+)(?:\.(\d+))?:\s+(?:kvm:)?(\w+):\s+(.*)$")
"""The thread's name and number, the processor, flags, the time, the event and its text. ftrace and trace-cmd print NAME-NUMBER, perf
NAME NUMBER or NAME PROCESS/NUMBER, and the event behind its system."""
NS_DIGITS = 9
MARK = re.compile(r"clockboard real (\d+) raw (\d+)")
PIO = re.compile(r"pio_(read|write) at 0x([0-9a-f]+) size (\d+) count (\d+) val 0x([0-9a-f]+)")
MMIO = re.compile(r"mmio (read|write|unsatisfied-read) len (\d+) gpa 0x([0-9a-f]+) val 0x([0-9a-f]+)")
MSR = re.compile(r"msr_(read|write) ([0-9a-f]+) = 0x([0-9a-f]+)( \(#GP\))?")
ACK = re.compile(r"irqchip (IOAPIC|PIC master|PIC slave) pin (\d+)")
EOI = re.compile(r"apicid ([0-9a-f]+) vector (-?\d+)")
PVCLOCK = re.compile(
    r"vcpu_id (\d+), pvclock \{ version (\d+), tsc_timestamp 0x([0-9a-f]+), system_time 0x([0-9a-f]+), "
    r"tsc_to_system_mul 0x([0-9a-f]+), tsc_shift (-?\d+), flags 0x([0-9a-f]+) \}"
)
OFFSET = re.compile(r"vcpu=(\d+) prev=(\d+) next=(\d+)")
THREAD = re.compile(r"CPU (\d+)/KVM")
TSC, TSC_ADJUST, DEADLINE, STEAL, LVT_TIMER = 0x10, 0x3B, 0x6E0, 0x4B564D03, 0x832
TSC_MSRS = (TSC, TSC_ADJUST, DEADLINE)
NS_KHZ = 1_000_000
MSRS = {0x11: 0x4B564D00, 0x12: 0x4B564D01, **{msr: msr for msr in FIRST_FORMATS}}
"""The MSRs of a trace, and the two old numbers of kvmclock, which mean the same as the new ones."""
VCPU_EVENTS = ("kvm_pio", "kvm_mmio", "kvm_msr", "kvm_pvclock_update")
READ_EVENTS = (*VCPU_EVENTS, "kvm_ack_irq", "kvm_eoi", "kvm_write_tsc_offset")
WINDOW = 1 << 14
"""Within so many events those of the host's processors are put into the order of their counts."""
SOURCE = "imported from tracepoints of KVM"


@dataclass(frozen=True)
class Event:
    """A line of the trace: thread, count of the TSC, the event's name, and its text."""

    name: str
    thread: int
    count: int
    kind: str
    text: str
    stamp_ns: int = 0
    """To how many nanoseconds its time is told, where that is in seconds."""


def events(lines: Iterable[bytes]) -> Iterator[Event]:
    """The events of a log, in its order."""
    for line in lines:
        if b"kvm_" not in line and b"tracing_mark" not in line or line.startswith(b"#"):
            continue
        match = EVENT.match(line.decode("utf-8", "replace").rstrip())
        if match and match[4]:
            part = match[4][:NS_DIGITS]
            count = int(match[3]) * 10**NS_DIGITS + int(part.ljust(NS_DIGITS, "0"))
            yield Event(match[1], int(match[2]), count, match[5], match[6], 10 ** (NS_DIGITS - len(part)))
        elif match:
            yield Event(match[1], int(match[2]), int(match[3]), match[5], match[6])


def in_order(found: Iterable[Event]) -> Iterator[Event]:
    """Events by their counts; those of one count stay in the log's order."""
    waiting: list[tuple[int, int, Event]] = []
    for number, event in enumerate(found):
        heapq.heappush(waiting, (event.count, number, event))
        if len(waiting) > WINDOW:
            yield heapq.heappop(waiting)[2]
    while waiting:
        yield heapq.heappop(waiting)[2]


@dataclass(frozen=True)
class Mark:
    """A count of the TSC, the time since 1970, and that of a clock that isn't adjusted, both in nanoseconds."""

    count: int
    real: int
    raw: int


def khz_between(first: Mark, last: Mark) -> int:
    """The TSC's rate between two marks, to the nearest kHz."""
    return round((last.count - first.count) * 1_000_000 / (last.raw - first.raw))


@dataclass
class Survey:
    """What a log shows as a whole."""

    threads: dict[int, int] = field(default_factory=dict)
    """The processor of each thread: as QEMU names it, or as kvm_pvclock_update does in it, or else in order."""
    marks: list[Mark] = field(default_factory=list)
    page_khz: int | None = None
    """The guest's rate by the first page that was published: a tick takes mul * 2^(shift - 32) nanoseconds."""
    told_offsets: set[tuple[int, int]] = field(default_factory=set)
    """By thread and count the offsets that a write of the TSC or of TSC_ADJUST explains, which follows in the thread."""
    kinds: int = 0
    """How many events were of a kind that is read."""
    stamp_ns: int = 0
    """To how many nanoseconds times are told, where they are seconds; 0 where they are counts of the TSC."""

    def read(self, found: Iterable[Event]) -> "Survey":
        unnamed: dict[int, None] = {}
        offsets: dict[int, Event] = {}
        for event in found:
            if self.kinds and event.kind in READ_EVENTS and event.stamp_ns != self.stamp_ns:
                raise Unusable("its times are of two kinds, seconds and counts of the TSC: give one log at a time")
            self.kinds += event.kind in READ_EVENTS
            self.stamp_ns = event.stamp_ns
            self.name(event, unnamed)
            self.mark(event)
            before = offsets.pop(event.thread, None)
            if before and is_write_of_tsc(event):
                self.told_offsets.add((before.thread, before.count))
            if event.kind == "kvm_write_tsc_offset":
                offsets[event.thread] = event
        for thread in unnamed:
            if thread not in self.threads:
                taken = set(self.threads.values())
                self.threads[thread] = next(number for number in range(len(taken) + 1) if number not in taken)
        return self

    def name(self, event: Event, unnamed: dict[int, None]) -> None:
        named = THREAD.search(event.name) or (event.kind == "kvm_pvclock_update" and PVCLOCK.match(event.text))
        if named:
            self.threads.setdefault(event.thread, int(named[1]))
        elif event.kind in VCPU_EVENTS:
            unnamed.setdefault(event.thread)

    def mark(self, event: Event) -> None:
        """Marks, and the first page."""
        if event.kind == "tracing_mark_write":
            match = MARK.search(event.text)
            if match:
                self.marks.append(Mark(event.count, int(match[1]), int(match[2])))
        elif event.kind == "kvm_pvclock_update" and self.page_khz is None:
            match = PVCLOCK.match(event.text)
            if match:
                self.page_khz = round(Fraction(1_000_000 * 2**32, int(match[5], 16)) / Fraction(2) ** shift_of(match[6]))

    def khz(self) -> int | None:
        """The rate of the host's counter: of its TSC as KVM scales its pages, or else by the marks; of a log in seconds that of
        nanoseconds."""
        if self.stamp_ns:
            return NS_KHZ
        if self.page_khz is None and len(self.marks) > 1:
            return khz_between(self.marks[0], self.marks[-1])
        return self.page_khz


def shift_of(text: str) -> int:
    """A page's shift, a signed byte, which perf prints without its sign."""
    return (int(text) + 128) % 256 - 128


def needs_tsc(event: Event) -> bool:
    """Whether an event's value is one of the guest's TSC."""
    match = MSR.match(event.text) if event.kind == "kvm_msr" else None
    return event.kind in ("kvm_write_tsc_offset", "kvm_pvclock_update") or bool(match and int(match[2], 16) in TSC_MSRS)


def is_write_of_tsc(event: Event) -> bool:
    match = event.kind == "kvm_msr" and MSR.match(event.text)
    return bool(match and match[1] == "write" and int(match[2], 16) in (TSC, TSC_ADJUST))


class Reader:
    """Reads a trace, whose survey and rates are known, into records."""

    def __init__(self, survey: Survey, host_khz: int, guest_khz: int, folder: Path, first_line: int) -> None:
        self.survey = survey
        self.host_khz = host_khz
        self.ratio = guest_khz * 2**48 // host_khz
        self.found = Import(SOURCE, folder, first_line, stamp_ns=max(survey.stamp_ns, 1))
        self.before: dict[int, int] = {}
        """The count of the line before of each thread."""
        self.timer_vectors: dict[int, int] = {}
        """The vector of each local APIC's timer, by the last write of its LVT entry."""
        self.start: int | None = None
        self.within = 0

    def read(self, found: Iterable[Event]) -> Import:
        first: int | None = None
        for event in in_order(found):
            first = event.count if first is None else first
            since = event.count - self.before.get(event.thread, first)
            self.within = since * 1_000_000 // self.host_khz + LATE_NS + self.survey.stamp_ns
            self.before[event.thread] = event.count
            cpu = self.survey.threads.get(event.thread, -1)
            self.found.answers.next_line(cpu, event.count * 1_000_000 // self.host_khz)
            self.event(event)
        return self.found

    def event(self, event: Event) -> None:
        records = self.found.records
        if self.survey.stamp_ns and needs_tsc(event):
            self.found.drop(f"{event.kind} of the guest's TSC, which a log with times in seconds can't place: take trace_clock x86-tsc")
        elif event.kind == "kvm_write_tsc_offset":
            self.offset(event)
        elif event.kind == "kvm_pvclock_update":
            self.pvclock(event)
        elif event.kind in READ_EVENTS:
            cpu = self.survey.threads.get(event.thread)
            if cpu is None:
                self.found.drop(f"{event.kind} by no processor")
            else:
                getattr(self, event.kind.removeprefix("kvm_"))(cpu, event)
        if self.start is None and self.found.records > records:
            self.start = event.count

    def pio(self, cpu: int, event: Event) -> None:
        match = PIO.match(event.text)
        if not match:
            self.found.drop("a line of kvm_pio in another form")
        elif int(match[2], 16) in PORTS:
            if match[4] != "1":
                self.found.drop("a string access to a port")
            else:
                self.found.port(Access(cpu, event.count, int(match[2], 16), int(match[3]), int(match[5], 16),
                                       match[1] == "write", self.within))

    def mmio(self, cpu: int, event: Event) -> None:
        """A read has two lines: as it begins, and with its value as it ends. The second is taken."""
        match = MMIO.match(event.text)
        if not match:
            self.found.drop("a line of kvm_mmio in another form")
        elif match[1] != "unsatisfied-read" and 0 <= int(match[3], 16) - HPET_BASE < HPET_SIZE:
            self.found.hpet(Access(cpu, event.count, int(match[3], 16), int(match[2]), int(match[4], 16),
                                   match[1] == "write", self.within))

    def msr(self, cpu: int, event: Event) -> None:
        match = MSR.match(event.text)
        number = int(match[2], 16) if match else 0
        if not match:
            self.found.drop("a line of kvm_msr in another form")
        elif number == STEAL:
            self.found.drop("an MSR of steal time")
        elif number in MSRS and match[4]:
            self.found.drop("an access to an MSR that faulted")
        elif number in MSRS:
            value = int(match[3], 16)
            if (number, match[1]) == (LVT_TIMER, "write"):
                self.timer_vectors[cpu] = value & 0xFF
            self.found.needs(FIRST_FORMATS[MSRS[number]])
            if match[1] == "write":
                self.see(cpu, event, f"wrmsr {MSRS[number]:x} {value:x}")
            else:
                self.see(cpu, event, f"rdmsr {MSRS[number]:x}", f"{value:016x}")

    def ack_irq(self, cpu: int, event: Event) -> None:
        match = ACK.match(event.text)
        if not match:
            self.found.drop("a line of kvm_ack_irq in another form")
            return
        pin = int(match[2])
        line = IOAPIC_LINES.get(pin) if match[1] == "IOAPIC" else PIC_LINES.get(pin + 8 * (match[1] == "PIC slave"))
        if line is not None:
            self.see(cpu, event, f"ack {line}")

    def eoi(self, cpu: int, event: Event) -> None:
        """The end of an interrupt, where it is that of the local APIC's timer."""
        match = EOI.match(event.text)
        if not match:
            self.found.drop("a line of kvm_eoi in another form")
        elif int(match[2]) == self.timer_vectors.get(cpu):
            self.see(cpu, event, "eoi")

    def pvclock(self, event: Event) -> None:
        """A page is published; what the peer published is kept as its answer to a read of the page."""
        match = PVCLOCK.match(event.text)
        if not match:
            self.found.drop("a line of kvm_pvclock_update in another form")
            return
        cpu = int(match[1])
        stamp, system, mul, flags = (int(match[k], 16) for k in (3, 4, 5, 7))
        self.see(cpu, event, f"refresh {cpu}")
        self.see(cpu, event, f"page {cpu}", f"{match[2]} {stamp} {system} {mul:08x} {shift_of(match[6])} {flags:02x}")

    def offset(self, event: Event) -> None:
        """An offset that no write of the TSC or of TSC_ADJUST explains was set by the host: the guest's TSC is written
        to what it is by the new offset."""
        match = OFFSET.match(event.text)
        if (event.thread, event.count) in self.survey.told_offsets:
            return
        if not match:
            self.found.drop("a line of kvm_write_tsc_offset in another form")
        else:
            value = ((event.count * self.ratio >> 48) + int(match[3])) % 2**64
            self.see(int(match[1]), event, f"wrmsr 10 {value:x}")

    def see(self, cpu: int, event: Event, words: str, answer: str = "") -> None:
        self.found.see(cpu, event.count, words, answer, self.within if answer else None)
