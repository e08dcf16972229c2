# SPDX-License-Identifier: Apache-2.0 OR MIT
"""Which line an end of interrupt acknowledges, from the programming of the two 8259s, the IO-APIC and the local APICs.

The lines' numbers are those of a trace: 0 the 8254, 8 the MC146818, 20 to 23 the HPET. On a PC line 0 is input 0 of the
first 8259 and input 2 of the IO-APIC; line 8 is input 0 of the second 8259 and input 8 of the IO-APIC.
"""

from collections import Counter
from dataclasses import dataclass, field

IOAPIC_LINES = {2: 0, 8: 8, 20: 20, 21: 21, 22: 22, 23: 23}
"""The lines of a trace by the IO-APIC's inputs."""

PIC_LINES = {0: 0, 8: 8}
"""The lines of a trace by the 8259s' inputs, those of the second one from 8 on."""

COMMAND_BITS, END_COMMAND = 0x38, 0x20
"""The bits of an 8259's command by which it is an end of interrupt, whatever it rotates."""
MASKED, LOGICAL = 1 << 16, 1 << 11
FIXED_MODE = 0x700
"""The delivery mode of an LVT; all 0 is fixed delivery."""


@dataclass
class Pic:
    """One 8259. Its first input has the number `first`."""

    first: int
    base: int = -8
    mask: int = 0xFF
    in_service: int = 0
    lowest: int = 7
    auto_end: bool = False
    step: int = 0
    wants_fourth: bool = False

    def write_command(self, value: int) -> int | None:
        """A write of the even port. The answer is the input whose interrupt ends, if one does."""
        if value & 0x10:
            self.step, self.wants_fourth = 2, bool(value & 1)
            self.in_service, self.mask, self.lowest, self.auto_end = 0, 0, 7, False
            return None
        if value & 0x08:
            return None
        return self.operate(value >> 5, value & 7)

    def operate(self, operation: int, level: int) -> int | None:
        """Operation command word 2: ends of interrupt, specific or not, and rotations."""
        specific, rotates, ends = operation & 2, operation & 4, operation & 1
        if not ends:
            if specific and rotates:
                self.lowest = level
            return None
        ended = level if specific else self.highest()
        if ended is None or not self.in_service >> ended & 1:
            return None
        self.in_service &= ~(1 << ended)
        if rotates:
            self.lowest = ended
        return self.first + ended

    def highest(self) -> int | None:
        """The input in service that has the highest priority."""
        order = ((self.lowest + 1 + k) % 8 for k in range(8))
        return next((k for k in order if self.in_service >> k & 1), None)

    def write_data(self, value: int) -> None:
        """A write of the odd port: an initialization command word, or the mask."""
        if self.step == 2:
            self.base, self.step = value & 0xF8, 3
        elif self.step == 3:
            self.step = 4 if self.wants_fourth else 0
        elif self.step == 4:
            self.auto_end, self.step = bool(value & 2), 0
        else:
            self.mask = value

    def input_of(self, vector: int) -> int | None:
        """The input, from 0 to 7, whose vector this is, unless it is masked."""
        number = vector - self.base
        if 0 <= number < 8 and self.base >= 0 and not self.mask >> number & 1:
            return number
        return None


@dataclass
class IoApic:
    """The IO-APIC: the register that is selected, and both halves of its table."""

    selected: int = 0
    low: list[int] = field(default_factory=lambda: [MASKED] * 24)
    high: list[int] = field(default_factory=lambda: [0] * 24)

    def write(self, offset: int, value: int) -> None:
        if offset == 0:
            self.selected = value & 0xFF
        elif offset == 0x10 and 0x10 <= self.selected < 0x40:
            half = self.high if self.selected & 1 else self.low
            half[(self.selected - 0x10) // 2] = value

    def pins_of(self, vector: int) -> list[int]:
        """The inputs whose entries have this vector: those that aren't masked, or where there are none the others."""
        pins = [pin for pin, low in enumerate(self.low) if low & 0xFF == vector]
        return [pin for pin in pins if not self.low[pin] & MASKED] or pins

    def pins_for(self, vector: int, number: int, is_logical: bool) -> list[int]:
        """Those of them that send it to this destination."""
        destination = (number, is_logical)
        return [pin for pin in self.pins_of(vector)
                if (self.high[pin] >> 24, bool(self.low[pin] & LOGICAL)) == destination]


@dataclass(frozen=True)
class Message:
    """A vector on its way to a processor, or to one of several, and the line of a trace that sent it, if one did."""

    vector: int
    cpu: int | None
    line: int | None


class Interrupts:
    """All of a PC's interrupt hardware, as it shows in a log: writes of registers, and vectors that are taken."""

    def __init__(self) -> None:
        self.pics = (Pic(0), Pic(8))
        self.ioapic = IoApic()
        self.logical: dict[int, int] = {}
        self.wired: dict[int, int] = {}
        self.sent: dict[int, list[Message]] = {}
        self.in_service: dict[int, list[Message]] = {}
        self.floating: list[Message] = []
        self.processors = 1
        self.local_vectors = 0
        self.unknown_ends = 0
        self.unclear: Counter[str] = Counter()
        self.taken_by_line: dict[int, int] = {}

    def write_pic(self, port: int, value: int) -> int | None:
        """A write of 20h, 21h, A0h or A1h. The answer is the line that it acknowledges, if one of a trace's."""
        pic = self.pics[port >> 7]
        if port & 1:
            pic.write_data(value)
            return None
        ended = pic.write_command(value)
        if ended is None:
            self.unknown_ends += value & COMMAND_BITS == END_COMMAND
            return None
        return PIC_LINES.get(ended)

    def message(self, address: int, value: int) -> None:
        """A message to the local APICs, as the IO-APIC or a device sends it. One that waits already is sent once."""
        vector = value & 0xFF
        waiting = self.sent.setdefault(vector, [])
        cpu = self.destination(address)
        if all(message.cpu != cpu for message in waiting):
            waiting.append(Message(vector, cpu, self.source(vector, address)))

    def source(self, vector: int, address: int) -> int | None:
        """The line that sends a message: that of the one input whose entry has its vector and its destination. With one
        processor the vector is enough."""
        number, is_logical = address >> 12 & 0xFF, bool(address >> 2 & 1)
        pins = self.ioapic.pins_for(vector, number, is_logical)
        if self.processors == 1:
            pins = (pins or self.ioapic.pins_of(vector))[:1]
        if len(pins) > 1:
            names = " and ".join(str(pin) for pin in pins)
            self.unclear[f"a vector that inputs {names} of the IO-APIC send to one processor"] += 1
            return None
        return IOAPIC_LINES.get(pins[0]) if pins else None

    def destination(self, address: int) -> int | None:
        """The one processor that a message's address names, if it names one."""
        number, logical = address >> 12 & 0xFF, address >> 2 & 1
        if not logical:
            return number if number != 0xFF else None
        named = [cpu for cpu, bits in self.logical.items() if bits & number]
        return named[0] if len(named) == 1 else None

    def write_lint0(self, cpu: int, value: int) -> None:
        """LVT LINT0, where the first 8259's output comes in. With fixed delivery it has a vector of the local APIC."""
        self.wired.pop(cpu, None)
        if not value & MASKED and not value & FIXED_MODE:
            self.wired[cpu] = value & 0xFF

    def taken(self, vector: int) -> int | None:
        """A processor takes a vector. The answer is the line of a trace that it came from, acknowledged by itself where
        the 8259 ends interrupts by itself."""
        if self.sent.get(vector):
            message = self.sent[vector].pop(0)
            if message.cpu is None and self.processors > 1:
                self.floating.append(message)
            else:
                self.in_service.setdefault(message.cpu or 0, []).append(message)
            self.count(message.line)
            return None
        wired = next((cpu for cpu, own in self.wired.items() if own == vector), None)
        if wired is not None and not self.pics[0].mask & 1:
            self.in_service.setdefault(wired, []).append(Message(vector, wired, 0))
            self.count(0)
            return None
        for pic in self.pics:
            number = pic.input_of(vector)
            if number is not None:
                return self.taken_from(pic, number)
        self.local_vectors += 1
        if self.processors == 1:
            self.in_service.setdefault(0, []).append(Message(vector, 0, None))
        return None

    def taken_from(self, pic: Pic, number: int) -> int | None:
        """A vector of an 8259; one of the second has input 2 of the first in service too."""
        line = PIC_LINES.get(pic.first + number)
        self.count(line)
        if pic.auto_end:
            return line
        pic.in_service |= 1 << number
        if pic.first:
            self.pics[0].in_service |= 1 << 2
        return None

    def count(self, line: int | None) -> None:
        if line is not None:
            self.taken_by_line[line] = self.taken_by_line.get(line, 0) + 1

    def end(self, cpu: int) -> int | None:
        """A processor writes its local APIC's end of interrupt. The answer is the line that it acknowledges.

        With one processor all its vectors are known, and the highest in service ends. With several, a log doesn't tell
        which of them took a vector of a local source, and the end that follows a vector of the IO-APIC is taken for
        its.
        """
        own = self.in_service.get(cpu) or self.floating
        if not own:
            self.unknown_ends += 1
            return None
        message = max(own, key=lambda message: message.vector)
        own.remove(message)
        return message.line

    def lost(self) -> Counter[str]:
        """What the log doesn't show, by its cause. Of several processors as many ends are those of local sources as
        vectors of these were taken."""
        local = self.local_vectors if self.processors > 1 else 0
        ends = Counter({"an end of interrupt with no vector in service": max(0, self.unknown_ends - local)})
        return +(self.unclear + ends)
