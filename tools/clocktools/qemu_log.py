# SPDX-License-Identifier: Apache-2.0 OR MIT
"""QEMU's log of a guest under TCG, written with

    -msg timestamp=on -d int -trace 'memory_region_ops_*' -D LOG

as QEMU 7.2 writes it, with PID@SECONDS.MICROSECONDS before the event, or with a date before it, as a later one may. The times are
the host's clock in microseconds. A log that lacks `-d int` tells of no vectors, and no end of interrupt in it acknowledges anything.
"""

import re
from collections.abc import Iterable
from datetime import datetime, timezone
from pathlib import Path

from .files import Unusable
from .importing import LATE_NS, Access, Import
from .interrupts import Interrupts
from .logs import QEMU_ACCESS

ACCESS = re.compile(
    rb"^(?:\d+@(\d+)\.(\d{6}):|(\d{4}-\d\d-\d\dT\d\d:\d\d:\d\d)\.(\d{6})\d*Z? .*?)?memory_region_ops_(read|write) cpu (-?\d+) mr \S+ "
    rb"addr 0x([0-9a-f]+) value 0x([0-9a-f]+) size (\d+) name '([^']*)'"
)
SERVICING = b"Servicing hardware"
VECTOR = re.compile(rb"^(?:.*? )?Servicing hardware INT=0x([0-9a-f]{2})")
PORT_REGIONS = (b"pit", b"pcspk", b"rtc", b"rtc-index")
CLOCK_REGIONS = (*PORT_REGIONS, b"hpet")
APIC_LOGICAL = 0xD0
APIC_END = 0xB0
APIC_LINT0 = 0x350
NS_PER_MICROSECOND = 1000
HEADER_LINES = 9
SOURCE = "imported from a log of QEMU under TCG"


class Reader:
    """Reads a log line by line. Counts are nanoseconds after the log's first access."""

    def __init__(self, folder: Path) -> None:
        self.found = Import(SOURCE, folder, HEADER_LINES + 1, stamp_ns=NS_PER_MICROSECOND)
        self.interrupts = Interrupts()
        self.first: int | None = None
        self.now = 0
        self.before: dict[int, int] = {}
        """The time of the line before of each processor."""

    def read(self, lines: Iterable[bytes]) -> Import:
        seen = 0
        for line in lines:
            if QEMU_ACCESS in line:
                seen += 1
                self.access(line)
            elif SERVICING in line:
                self.vector(line)
        if self.first is None:
            raise Unusable(f"none of its {seen} lines of memory_region_ops_* has the form of QEMU 7.2" if seen
                           else "it has no line of memory_region_ops_*")
        self.found.dropped += self.interrupts.lost()
        self.found.rises = dict(self.interrupts.taken_by_line)
        return self.found

    @property
    def started(self) -> int:
        """The first access's time, in nanoseconds since 1970."""
        return (self.first or 0) * NS_PER_MICROSECOND

    def vector(self, line: bytes) -> None:
        match = VECTOR.match(line)
        if match:
            acked = self.interrupts.taken(int(match[1], 16))
            if acked is not None:
                self.acknowledge(0, acked)

    def acknowledge(self, cpu: int, line: int) -> None:
        self.found.see(max(cpu, 0), self.now, f"ack {line}")

    def access(self, line: bytes) -> None:
        match = ACCESS.match(line)
        if not match:
            self.found.drop("a line of the log that is cut or mixed with another")
            return
        seconds, micros, date, part, kind, number, address, value, size, region = match.groups()
        if date:
            moment = datetime.fromisoformat(date.decode()).replace(tzinfo=timezone.utc)
            seconds, micros = str(int(moment.timestamp())).encode(), part
        if seconds is None:
            raise Unusable("its lines have no times: give QEMU the words -msg timestamp=on")
        time = int(seconds) * 1_000_000 + int(micros)
        if self.first is None:
            self.first = time
        cpu = int(number)
        self.now = max(self.now, (time - self.first) * NS_PER_MICROSECOND)
        within = self.now - self.before.get(cpu, 0) + LATE_NS
        self.before[cpu] = self.now
        self.found.answers.next_line(cpu, self.now)
        if cpu >= self.interrupts.processors:
            self.interrupts.processors = cpu + 1
        self.of_region(region, Access(cpu, self.now, int(address, 16), int(size), int(value, 16), kind == b"write",
                                      within))

    def of_region(self, region: bytes, access: Access) -> None:
        if region in CLOCK_REGIONS and access.cpu < 0:
            self.found.drop("an access by no processor")
        elif region in PORT_REGIONS:
            self.found.port(access)
        elif region == b"hpet":
            self.found.hpet(access)
        elif access.is_write:
            self.interrupt_write(region, access.cpu, access.address, access.value)

    def interrupt_write(self, region: bytes, cpu: int, address: int, value: int) -> None:
        """A write that reaches the interrupt hardware, and may be an end of interrupt."""
        acked = None
        if region == b"pic":
            acked = self.interrupts.write_pic(address, value)
        elif region == b"ioapic":
            self.interrupts.ioapic.write(address & 0xFF, value)
        elif region == b"apic-msi":
            acked = self.apic_write(cpu, address, value)
        if acked is not None:
            self.acknowledge(cpu, acked)

    def apic_write(self, cpu: int, address: int, value: int) -> int | None:
        """A write of a local APIC's register, or, at offset 0 and from 1000h on, a message to one."""
        offset = address & 0xFFFFF
        if offset > 0xFFF or offset < 0x10:
            self.interrupts.message(address, value)
        elif offset == APIC_LOGICAL:
            self.interrupts.logical[cpu] = value >> 24
        elif offset == APIC_LINT0:
            self.interrupts.write_lint0(cpu, value)
        elif offset == APIC_END:
            return self.interrupts.end(cpu)
        return None
