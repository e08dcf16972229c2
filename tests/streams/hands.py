# SPDX-License-Identifier: Apache-2.0 OR MIT
"""A guest of KVM by the program of kvm_hands.c, and the files that a monitor writes of it."""

import subprocess
from dataclasses import dataclass
from pathlib import Path

from clocktools.states.kvm import MSR

HERE = Path(__file__).resolve().parent
KVM = Path("/dev/kvm")
SAVED_MSRS = (0x10, 0x3B, 0x4B564D01, 0x6E0)


@dataclass
class Answer:
    """When something was done, by the host's clocks, and what it gave: a decimal number, or bytes in hexadecimal digits."""

    begin_ns: int
    end_ns: int
    begin_tsc: int
    end_tsc: int
    told: str

    @property
    def number(self) -> int:
        return int(self.told)

    def row(self) -> list[int]:
        """As a recording has a number that was read."""
        return [self.begin_ns, self.end_ns, self.begin_tsc, self.end_tsc, self.number]

    def window(self) -> list[int]:
        return [self.begin_ns, self.end_ns, self.begin_tsc, self.end_tsc]


class Hands:
    """The program. Its numbers are hexadecimal."""

    def __init__(self, folder: Path) -> None:
        program = folder / "hands"
        subprocess.run(["cc", "-O1", "-o", program, HERE / "kvm_hands.c"], check=True)
        self.process = subprocess.Popen([program], stdin=subprocess.PIPE, stdout=subprocess.PIPE, text=True)

    def do(self, word: str, *numbers: int) -> Answer:
        return self.say(" ".join((word, *(f"{number:x}" for number in numbers))))

    def say(self, line: str) -> Answer:
        assert self.process.stdin and self.process.stdout
        self.process.stdin.write(line + "\n")
        self.process.stdin.flush()
        *times, told = self.process.stdout.readline().split()
        begin_ns, end_ns, begin_tsc, end_tsc = map(int, times)
        return Answer(begin_ns, end_ns, begin_tsc, end_tsc, told)

    def get(self, name: str) -> Answer:
        return self.say(f"get {name}")

    def set(self, name: str, data: bytes, due_ns: int = 0) -> Answer:
        """At this time of CLOCK_MONOTONIC, or at once where it has passed."""
        return self.say(f"set {name} {data.hex()} {due_ns:x}")

    def read_msr(self, number: int) -> Answer:
        return self.do("rdmsr", number)

    def write_msr(self, number: int, value: int) -> Answer:
        return self.do("wrmsr", number, value)

    def sleep(self, us: int) -> None:
        self.do("sleep", us)

    def end(self) -> None:
        assert self.process.stdin
        self.process.stdin.close()
        self.process.wait(30)

    def saved(self) -> dict[str, object]:
        """What a monitor asks in one pause: the files by their names, and the times of those that tell none."""
        pit, lapic, clock = self.get("pit2"), self.get("lapic"), self.get("clock")
        entries = [(number, int.from_bytes(bytes.fromhex(self.get(f"msr_{number:x}").told), "little")) for number in SAVED_MSRS]
        files = {"pit2": pit.told, "clock": clock.told, "cpu0.lapic": lapic.told, "cpu0.tsc_offset": self.get("tsc_offset").told,
                 "cpu0.msrs": b"".join(MSR.pack(number, 0, value) for number, value in entries).hex()}
        return {"files": files, "host": {"tsc_khz": self.do("khz").number, "monotonic_ns": pit.end_ns}, "lapic": lapic.window(),
                "pit2": pit.window()}
