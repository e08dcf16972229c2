# SPDX-License-Identifier: Apache-2.0 OR MIT
"""tools/import on the forms in which others print KVM's tracepoints and QEMU's events: what perf printed of a guest of Linux 6.1 under
the KVM of Linux 6.18, the same as trace-cmd prints it, and times as dates."""

import re
import tempfile
import unittest
from pathlib import Path

import support

PERF = (support.LOGS / "perf-kvm.log").read_text()
LINE = re.compile(r"^ *(CPU \d/KVM) (\d+) (\[\d+\]) +(\d+\.\d+): +kvm:(\w+): (.*)$", re.MULTILINE)
TSC = "of the guest's TSC, which a log with times in seconds can't place: take trace_clock x86-tsc"


class Form(unittest.TestCase):
    def imported(self, log: str, *words: str, kind: str = "kvm") -> tuple[list[str], list[str], list[str], int]:
        """The trace's lines, the peer's, what was said, and the status."""
        with tempfile.TemporaryDirectory() as name:
            folder = Path(name)
            (folder / "log").write_text(log)
            done = support.run("import", kind, str(folder / "log"), str(folder / "out"), *words)
            files = [(folder / file).read_text().splitlines() if (folder / file).exists() else [] for file in ("out", "out.peer")]
        return files[0], files[1], done.stderr.splitlines(), done.returncode


class Perf(Form):
    def test_records(self) -> None:
        # Each access to a port of the clocks, with its nanoseconds, and the end of interrupt of line 0; the MSRs of kvmclock.
        trace, peer, said, _ = self.imported(PERF)
        events = [match.groups() for match in LINE.finditer(PERF)]
        pio = [event for event in events if event[4] == "kvm_pio"]
        body = trace[trace.index("begin") + 1 : -1]
        ports = [line.split(" ") for line in body if line.split(" ")[2] in ("in", "out")]
        self.assertEqual(len(ports), len(pio))
        for words, event in zip(ports, pio, strict=True):
            self.assertEqual(words[1], event[3].replace(".", ""))
            self.assertEqual(words[2] == "in", "pio_read" in event[5])
        self.assertEqual(sum(line.endswith(" ack 0") for line in body), 2)
        self.assertEqual(sum(" wrmsr 4b564d01 " in line for line in body), sum("msr_write 4b564d01 " in event[5] for event in events))
        self.assertIn("stamp 1", peer)
        self.assertEqual(said[1:], [
            "import: the log has no time of day, so the trace has none: --wall and --rtc give it",
            f"import: dropped 4: kvm_pvclock_update {TSC}", f"import: dropped 6: kvm_write_tsc_offset {TSC}"])

    def test_all_is_known(self) -> None:
        with tempfile.TemporaryDirectory() as folder:
            trace = Path(folder) / "t"
            support.run("import", "kvm", str(support.LOGS / "perf-kvm.log"), str(trace), "--wall", "2026-12-01T22:28:00")
            done = support.run("compare", str(trace))
        self.assertEqual((done.returncode, done.stderr), (0, ""))

    def test_microseconds(self) -> None:
        # perf script without --ns: a microsecond is all that is known, so a write and a read are exact to one more.
        text = re.sub(r"(\d+\.\d{6})\d{3}:", r"\1:", PERF)
        trace, peer, _, _ = self.imported(text)
        self.assertIn("stamp 1000", peer)
        first = next(line for line in trace if line.startswith("0 4712"))
        self.assertEqual(first.split(" ")[1], "4712378746000")
        self.assertIn("+32000", next(line for line in peer if line[0].isdigit()))

    def test_process_and_thread(self) -> None:
        text = re.sub(r"(CPU \d/KVM) (\d+) ", r"\1 21956/\2 ", PERF)
        self.assertEqual(self.imported(text)[0], self.imported(PERF)[0])


class TraceCmd(Form):
    def test_the_same(self) -> None:
        for flags in ("", "..... ", "d..1. "):
            text = LINE.sub(lambda it: f"{it[1]:>16}-{it[2]:<6} {it[3]} {flags}{it[4]}: {it[5]:<22} {it[6]}".replace(f"{it[5]} ", f"{it[5]}: ", 1), PERF)
            self.assertEqual(self.imported("cpus=4\n" + text)[0], self.imported(PERF)[0], flags)

    def test_counts_of_the_tsc(self) -> None:
        # trace-cmd record -C x86-tsc: the counts are whole numbers, and the pages are records again.
        text = LINE.sub(lambda it: f"{it[1]}-{it[2]} {it[3]} {it[4].replace('.', '')}: {it[5]}: {it[6]}", PERF)
        trace, _, said, _ = self.imported(text)
        self.assertEqual(sum(" refresh " in line for line in trace), 4)
        self.assertFalse([line for line in said if "TSC" in line])

    def test_both_clocks(self) -> None:
        text = PERF + LINE.sub(lambda it: f"{it[1]}-{it[2]} {it[3]} {it[4].replace('.', '')}: {it[5]}: {it[6]}", PERF)
        _, _, said, status = self.imported(text)
        self.assertEqual(status, 1)
        self.assertIn("its times are of two kinds", said[0])


class Qemu(Form):
    def test_dates(self) -> None:
        # A later QEMU may write the date where 7.2 has its number and the seconds since 1970.
        log = (support.LOGS / "qemu.log").read_text()
        dated = re.sub(r"^\d+@17000000(\d\d)\.(\d{6}):", lambda it: f"2023-11-14T22:{13 + (20 + int(it[1])) // 60:02}:{(20 + int(it[1])) % 60:02}"
                       f".{it[2]}Z qemu-system-x86_64: ", log, flags=re.MULTILINE)
        self.assertNotEqual(dated, log)
        self.assertEqual(self.imported(dated, kind="qemu")[:2], self.imported(log, kind="qemu")[:2])


if __name__ == "__main__":
    unittest.main()
