# SPDX-License-Identifier: Apache-2.0 OR MIT
"""tools/import on recorded logs: SeaBIOS under QEMU's TCG, and Linux 6.1 under KVM, of each the lines of the board's
ports, registers and interrupts. What must come is read off the logs here by another rule than the importer's: the
accesses to the ports, in the order of the log, and what the guest read."""

import re
import unittest

import support
from test_import import imported

PORTS = {0x40, 0x41, 0x42, 0x43, 0x61, 0x70, 0x71}


def of_qemu(lines: list[str]) -> list[tuple[str, str]]:
    """The accesses to the ports as a trace's words, each with what was read."""
    found = []
    for line in lines:
        at = re.search(r"memory_region_ops_(read|write) cpu 0 .* addr 0x(\w+) value 0x(\w+) size 1 ", line)
        if at and int(at[2], 16) in PORTS:
            found.append(words(at[1] == "read", int(at[2], 16), int(at[3], 16)))
    return found


def of_kvm(lines: list[str]) -> list[tuple[str, str]]:
    """The same of KVM's tracepoints."""
    found = []
    for line in lines:
        at = re.search(r"kvm_pio: pio_(read|write) at 0x(\w+) size 1 count 1 val 0x(\w+)", line)
        if at and int(at[2], 16) in PORTS:
            found.append(words(at[1] == "read", int(at[2], 16), int(at[3], 16)))
    return found


def words(is_read: bool, port: int, byte: int) -> tuple[str, str]:
    return (f"in {port:02x}", f"{byte:02x}") if is_read else (f"out {port:02x} {byte:02x}", "")


class Recorded(unittest.TestCase):
    def check(self, kind: str, name: str, wanted: list[tuple[str, str]]) -> None:
        trace, peer, _said = imported(kind, name + ".log")
        self.assertEqual("\n".join(trace), (support.LOGS / f"{name}.trace").read_text().rstrip("\n"))
        self.assertGreater(len(wanted), 100)
        answers = {words[0]: words[1] for line in peer if len(words := line.split(" ")) > 1 and line[0].isdigit()
                   and not words[1].startswith("+")}
        body = trace.index("begin") + 1
        got = []
        last = 0
        for number, line in enumerate(trace[body:-1], body + 1):
            cpu, count, *rest = line.split(" ")
            self.assertEqual(cpu, "0")
            self.assertGreaterEqual(int(count), last)
            last = int(count)
            if rest[0] in ("in", "out"):
                got.append((" ".join(rest), answers.get(str(number), "")))
        self.assertEqual(got, wanted)

    def test_qemu(self) -> None:
        lines = (support.LOGS / "seabios-tcg.log").read_text().splitlines()
        self.check("qemu", "seabios-tcg", of_qemu(lines))

    def test_kvm(self) -> None:
        lines = (support.LOGS / "linux-kvm.log").read_text().splitlines()
        self.check("kvm", "linux-kvm", of_kvm(lines))


if __name__ == "__main__":
    unittest.main()
