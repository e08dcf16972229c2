# SPDX-License-Identifier: Apache-2.0 OR MIT
"""tools/import on short logs, against what the 8259's, the IO-APIC's and KVM's documents say."""

import gzip
import hashlib
import subprocess
import sys
import tempfile
import unittest
from pathlib import Path

import support


def imported(kind: str, log: str, *words: str) -> tuple[list[str], list[str], list[str]]:
    """The trace's lines, the peer's, and what was said on standard error."""
    with tempfile.TemporaryDirectory() as folder:
        out = Path(folder) / "out"
        done = support.run("import", kind, str(support.LOGS / log), str(out), *words)
        assert done.returncode == 0, done.stderr
        peer = Path(folder) / "out.peer"
        return out.read_text().splitlines(), peer.read_text().splitlines(), done.stderr.splitlines()


def imported_text(text: str | bytes, *words: str, kind: str = "qemu") -> tuple[list[str], subprocess.CompletedProcess[str]]:
    """The trace of a log with this text, if there is one, and how the import ended."""
    with tempfile.TemporaryDirectory() as folder:
        log, out = Path(folder) / "log", Path(folder) / "out"
        log.write_bytes(text if isinstance(text, bytes) else text.encode())
        done = support.run("import", kind, str(log), str(out), *words)
        return out.read_text().splitlines() if out.exists() else [], done


def access(at: int, kind: str, cpu: int, address: int, value: int, region: str, size: int = 1) -> str:
    """A line of QEMU's log, so many microseconds after Tuesday, 14 November 2023, 22:13:20 UTC."""
    return (f"1@{1700000000 + at // 1000000}.{at % 1000000:06}:memory_region_ops_{kind} cpu {cpu} mr 0x1 "
            f"addr {address:#x} value {value:#x} size {size} name '{region}'\n")


def clock_read(at: int, index: int, byte: int) -> str:
    return access(at, "write", 0, 0x70, index, "rtc-index") + access(at + 1, "read", 0, 0x71, byte, "rtc")


class Qemu(unittest.TestCase):
    def setUp(self) -> None:
        self.trace, self.peer, self.said = imported("qemu", "qemu.log")

    def test_header(self) -> None:
        # 1700000000 is Tuesday, 14 November 2023, 22:13:20 UTC; Tuesday is day 3 of a week that begins on Sunday.
        header = self.trace[: self.trace.index("begin")]
        self.assertEqual(header[0], "clockboard 1")
        self.assertEqual(header[2:], [
            "host 1000000 0", "guest 1000000", "cpus 1", "policy discard discard discard",
            "wall 1700000000 0", "rtc 20 13 22 03 14 11 23"])

    def test_records(self) -> None:
        # The end that is sent to A0h is that of the MC146818's input, in service there alone. 62h ends input 2 of the
        # first 8259, which is the second one. The 8254's vector 08h was taken first, so it ends at last.
        # The vector ECh, of a local source, is above 31h, so the first end of the local APIC is its.
        body = self.trace[self.trace.index("begin") + 1 :]
        self.assertEqual(body, [
            "0 200000 out 43 34", "0 201000 out 40 00", "0 202000 out 40 00",
            "0 60000000 out 70 0c", "0 60001000 in 71", "0 60002000 ack 8", "0 60004000 ack 0",
            "0 70000000 hr 0 4", "0 70007000 ack 0", "end"])

    def test_answers(self) -> None:
        # QEMU logs 8 bytes of the capabilities for a read of 4: the low ones are what the guest got. A read is exact to the
        # time since its processor's line before, and 3 us, and a write to that of the line after it: the line at 60,000 us comes
        # 59,798 us after the write at 202.
        first = self.trace.index("0 60001000 in 71") + 1
        trace = hashlib.sha256(("\n".join(self.trace) + "\n").encode()).hexdigest()
        self.assertEqual(self.peer[1:], [
            f"trace {trace}", "stamp 1000", "rises 0 2", "rises 8 1",
            f"{first - 4} +4000", f"{first - 3} +4000", f"{first - 2} +59801000", f"{first - 1} +4000",
            f"{first} c0 +4000", f"{first + 3} 8086a201 +9999000"])

    def test_dropped(self) -> None:
        self.assertEqual(self.said, [
            "import: 9 records",
            "import: dropped 1: a line of the log that is cut or mixed with another",
            "import: dropped 1: an access by no processor",
            "import: dropped 1: port 73h, which no record has"])

    def test_no_vectors(self) -> None:
        # Without `-d int` no vector is known, so each of the five ends of interrupt is dropped and counted.
        with tempfile.TemporaryDirectory() as folder:
            log = Path(folder) / "log"
            lines = (support.LOGS / "qemu.log").read_text().splitlines(keepends=True)
            log.write_text("".join(line for line in lines if not line.startswith("Servicing")))
            done = support.run("import", "qemu", str(log), str(Path(folder) / "out"))
        self.assertIn("import: dropped 5: an end of interrupt with no vector in service", done.stderr)

    def test_no_times(self) -> None:
        _, done = imported_text("memory_region_ops_write cpu 0 mr 0x1 addr 0x43 value 0x34 size 1 name 'pit'\n")
        self.assertEqual(done.returncode, 1)
        self.assertIn("-msg timestamp=on", done.stderr)

    def test_packed(self) -> None:
        trace, _ = imported_text(gzip.compress((support.LOGS / "qemu.log").read_bytes()))
        self.assertEqual(trace, self.trace)


class Writes(unittest.TestCase):
    """QEMU logs a write before it acts, so its time is known to that of its processor's next line."""

    def answers(self, log: str) -> list[str]:
        with tempfile.TemporaryDirectory() as folder:
            path, out = Path(folder) / "log", Path(folder) / "out"
            path.write_text(log)
            self.assertEqual(support.run("import", "qemu", str(path), str(out)).returncode, 0)
            lines = (Path(folder) / "out.peer").read_text().splitlines()
        return [line.split(" ", 1)[1] for line in lines if line[0].isdigit()]

    def test_of_several_processors(self) -> None:
        # The write of processor 0 at 10 us may act until its line at 500 us, whatever processor 1 does meanwhile. No line
        # follows its last write, which may act to the end of the log.
        log = access(0, "read", 0, 0x61, 0, "pcspk") + access(10, "write", 0, 0x61, 1, "pcspk")
        log += access(20, "write", 1, 0x43, 0xB0, "pit") + access(22, "read", 1, 0x42, 0, "pit")
        log += access(500, "write", 0, 0x61, 0, "pcspk") + access(900, "read", 1, 0x61, 0, "pcspk")
        self.assertEqual(self.answers(log), ["00 +3000", "+493000", "+5000", "00 +5000", "+403000", "00 +881000"])

    def test_of_other_regions(self) -> None:
        # Any line of the processor says that the write before it has acted.
        log = access(10, "write", 0, 0x61, 1, "pcspk") + access(15, "write", 0, 0x80, 1, "elsewhere")
        log += access(900, "read", 0, 0x61, 0, "pcspk")
        self.assertEqual(self.answers(log), ["+8000", "00 +888000"])

    def test_that_wait(self) -> None:
        # 16,384 answers wait at most: then the write is exact to the time until then.
        log = access(0, "write", 1, 0x43, 0xB0, "pit")
        log += "".join(access(at, "read", 0, 0x61, 0, "pcspk") for at in range(1, 20001)) + access(20001, "read", 1, 0x42, 0, "pit")
        found = self.answers(log)
        self.assertEqual((len(found), found[0], found[1]), (20002, "+16387000", "00 +4000"))


class Processors(unittest.TestCase):
    def test_recorded(self) -> None:
        # Linux 6.1 on 4 processors of a q35. After its last interrupt the guest's /proc/interrupts had 100 of line 8 and
        # 194 of line 0 by the IO-APIC; the firmware took 3 more of line 0 before. Inputs 1, 8, 9 and 12 have one vector.
        trace, peer, said = imported("qemu", "linux-4-cpus.log.gz")
        self.assertEqual(sum(line.endswith("ack 8") for line in trace), 100)
        self.assertEqual(sum(line.endswith("ack 0") for line in trace), 197)
        self.assertEqual([line for line in peer if line.startswith("rises")], ["rises 0 197", "rises 8 100"])
        self.assertEqual(said, ["import: 37646 records"])

    def ends(self, *entries: tuple[int, int, int]) -> tuple[list[str], list[str]]:
        """Two processors. These inputs of the IO-APIC have vector 21h, with the low half's other bits and the high half;
        21h is sent to processor 0, taken, and ended."""
        log = access(0, "read", 1, 0x61, 0, "pcspk")
        for pin, low, high in entries:
            for select, value in ((0x10 + 2 * pin, low | 0x21), (0x11 + 2 * pin, high << 24)):
                log += access(1, "write", 0, 0xFEC00000, select, "ioapic", 4)
                log += access(1, "write", 0, 0xFEC00010, value, "ioapic", 4)
        log += access(2, "write", 0, 0xFEE000D0, 1 << 24, "apic-msi", 4)
        log += access(2, "write", 1, 0xFEE000D0, 2 << 24, "apic-msi", 4)
        log += access(3, "write", -1, 0xFEE01004, 0x21, "apic-msi", 4) + "Servicing hardware INT=0x21\n"
        log += access(4, "write", 0, 0xFEE000B0, 0, "apic-msi", 4)
        trace, done = imported_text(log)
        return [line for line in trace if " ack " in line], done.stderr.splitlines()[1:]

    def test_by_destination(self) -> None:
        self.assertEqual(self.ends((1, 0x800, 2), (8, 0x800, 1))[0], ["0 4000 ack 8"])
        self.assertEqual(self.ends((8, 0x800, 2), (1, 0x800, 1))[0], [])

    def test_by_kind_of_destination(self) -> None:
        # Destination 1 is processor 0 by the logical registers, and processor 1 by its number.
        self.assertEqual(self.ends((8, 0x000, 1), (2, 0x800, 1))[0], ["0 4000 ack 0"])

    def test_masked(self) -> None:
        self.assertEqual(self.ends((2, 0x10800, 1), (8, 0x800, 1))[0], ["0 4000 ack 8"])

    def test_unclear(self) -> None:
        acked, said = self.ends((2, 0x800, 1), (8, 0x800, 1))
        self.assertEqual(acked, [])
        self.assertEqual(said, ["import: dropped 1: a vector that inputs 2 and 8 of the IO-APIC send to one processor"])

    def test_ends_without_vectors(self) -> None:
        # Of three ends one is that of the local vector ECh, which was taken; of the others the log shows nothing.
        log = access(0, "read", 1, 0x61, 0, "pcspk") + "Servicing hardware INT=0xec\n"
        log += access(1, "write", 0, 0xFEE000B0, 0, "apic-msi", 4) * 3
        _, done = imported_text(log)
        self.assertIn("import: dropped 2: an end of interrupt with no vector in service", done.stderr)


class Clock(unittest.TestCase):
    """The header's `rtc` and `wall`. The log begins on Tuesday, 14 November 2023, 22:13:20 UTC."""

    def header(self, log: str, *words: str) -> list[str]:
        trace, done = imported_text(log, *words)
        self.assertEqual(done.returncode, 0, done.stderr)
        return [line for line in trace if line.startswith(("rtc", "wall"))]

    def test_first_reads(self) -> None:
        # Read 2.3 s after the start: 58 seconds of 23:59 on 28 February 2020, which was a Friday. At power on it was 56.
        log = access(0, "write", 0, 0x70, 0, "rtc-index")
        for index, byte in ((0, 0x58), (2, 0x59), (4, 0x23), (7, 0x28), (8, 0x02), (9, 0x20)):
            log += clock_read(2300000 + 10 * index, index, byte)
        self.assertEqual(self.header(log), ["wall 1700000000 0", "rtc 56 59 23 06 28 02 20"])

    def test_date_of_the_next_day(self) -> None:
        log = "".join(clock_read(100 + index, index, byte) for index, byte in ((0, 0x58), (2, 0x59), (4, 0x23)))
        log += "".join(clock_read(5000000 + 10 * index, index, byte) for index, byte in ((7, 0x01), (8, 0x03), (9, 0x20)))
        self.assertEqual(self.header(log)[1], "rtc 58 59 23 07 29 02 20")

    def test_twelve_hours_in_binary(self) -> None:
        # Register B 04h: binary, of twelve hours; 8Bh is eleven in the evening.
        log = access(0, "write", 0, 0x70, 0x0B, "rtc-index") + access(1, "write", 0, 0x71, 0x04, "rtc")
        log += "".join(clock_read(100 + index, index, byte) for index, byte in ((0, 30), (2, 59), (4, 0x8B)))
        self.assertEqual(self.header(log)[1], "rtc 30 59 23 03 14 11 23")

    def test_a_second_earlier_than_the_log(self) -> None:
        log = "".join(clock_read(100 + index, index, byte) for index, byte in ((0, 0x19), (2, 0x13), (4, 0x22)))
        self.assertEqual(self.header(log)[1], "rtc 19 13 22 03 14 11 23")

    def test_set_by_the_guest(self) -> None:
        log = access(0, "write", 0, 0x70, 0, "rtc-index") + access(1, "write", 0, 0x71, 0x33, "rtc")
        log += "".join(clock_read(100 + index, index, byte) for index, byte in ((0, 0x33), (2, 0x59), (4, 0x01)))
        self.assertEqual(self.header(log)[1], "rtc 20 13 22 03 14 11 23")

    def test_told(self) -> None:
        log = clock_read(0, 0x0D, 0x80)
        self.assertEqual(self.header(log, "--rtc", "2020-02-29T23:59:58", "--wall", "1.5"),
                         ["wall 1 500000000", "rtc 58 59 23 07 29 02 20"])
        self.assertIn("is neither SEC", imported_text(log, "--rtc", "noon")[1].stderr)


class Unusable(unittest.TestCase):
    def test_what_a_file_looks_like(self) -> None:
        kvm, qemu = ((support.LOGS / name).read_text() for name in ("kvm.log", "qemu.log"))
        vectors = "Servicing hardware INT=0x08\n"
        for kind, text, looks in (
                ("qemu", kvm, "a log of KVM's tracepoints: tools/import kvm"),
                ("kvm", qemu, "a log of QEMU's: tools/import qemu"), ("qemu", vectors, "without trace events"),
                ("qemu", "", "it is empty"), ("kvm", "hello\n", "some other text"),
                ("qemu", "clockboard 1\nbegin\nend\n", "a trace already"), ("qemu", b"\x7fELF\0\0", "no text at all"),
                ("qemu", b"\xfd7zXZ\0", "packed by xz"), ("kvm", gzip.compress(qemu.encode()), "a log of QEMU's")):
            with self.subTest(looks, kind=kind):
                trace, done = imported_text(text, kind=kind)
                self.assertEqual((trace, done.returncode), ([], 1))
                self.assertIn(looks, done.stderr)
                self.assertEqual(len(done.stderr.splitlines()), 1)

    def test_another_form(self) -> None:
        _, done = imported_text("memory_region_ops_read in another form\n")
        self.assertIn("none of its 1 lines of memory_region_ops_* has the form of QEMU 7.2", done.stderr)

    def test_broken_gz(self) -> None:
        _, done = imported_text(gzip.compress(b"a line\n" * 1000)[:-20])
        self.assertEqual(done.returncode, 1)
        self.assertIn("its gzip data are broken", done.stderr)

    def test_no_file(self) -> None:
        for log, out in (("/no/such/log", "/tmp/out"), ("/", "/tmp/out"), (str(support.LOGS / "qemu.log"), "/no/such/out")):
            done = support.run("import", "qemu", log, out)
            self.assertEqual((done.returncode, len(done.stderr.splitlines())), (1, 1))


class Large(unittest.TestCase):
    def test_memory_is_that_of_a_short_log(self) -> None:
        with tempfile.TemporaryDirectory() as folder:
            used = []
            for records in (1000, 150000):
                log = Path(folder) / "log"
                log.write_text("".join(access(2 * at, "read", 0, 0x61, 0x20, "pcspk") for at in range(records)))
                command = [str(support.TOOLS / "import"), "qemu", str(log), str(Path(folder) / "out")]
                used.append(int(subprocess.check_output([sys.executable, "-c", support.MEMORY, *command])))
        self.assertLess(used[1] - used[0], 1536)


class Kvm(unittest.TestCase):
    def setUp(self) -> None:
        self.trace, self.peer, self.said = imported("kvm", "kvm.log")

    def test_header(self) -> None:
        # 2,000,000,000 counts in a second by the marks. The first thing seen is 2,000,000 counts, a millisecond, on.
        header = self.trace[: self.trace.index("begin")]
        self.assertEqual(header[2:], [
            "host 2000000 1002000000", "guest 2000000", "cpus 2", "policy delay discard discard",
            "wall 1700000000 1000000", "rtc 20 13 22 03 14 11 23"])

    def test_records(self) -> None:
        # The first offset is 2^64 - 1002000000, so the guest's TSC is 0 at that count. The second is told by the write
        # of the TSC after it. MSR 12h is the old number of 4B564D01h.
        body = self.trace[self.trace.index("begin") + 1 :]
        self.assertEqual(body, [
            "0 1002000000 wrmsr 10 0", "0 1004000000 out 43 34", "0 1004002000 in 40", "1 1004005000 hr f0 4",
            "1 1004006000 wrmsr 4b564d01 2041", "1 1004007000 refresh 1", "1 1004007000 page 1", "1 1004008000 ack 8",
            "1 1004009000 ack 0", "0 1004010100 wrmsr 10 0", "0 1004011000 rdmsr 3b", "end"])

    def test_answers(self) -> None:
        # Exact to the time since the thread's event before, of a write to that of the one after, at 2 counts a nanosecond, and 3 us.
        values = [line.split(" ", 1)[1] for line in self.peer if line[0].isdigit()]
        self.assertEqual(values, ["+4000", "7f +4000", "00000012 +3500", "2 3921616 2000000 80000000 0 01 +3500",
                                  "0000000000000005 +3450"])

    def test_local_apic_and_hyper_v(self) -> None:
        # Vector ECh of the LVT is 236; the end of another interrupt has no record. The last MSR is one of format 4.
        events = ("kvm_msr: msr_write 832 = 0x400ec", "kvm_msr: msr_write 6e0 = 0x1000", "kvm_eoi: apicid 0 vector 236",
                  "kvm_eoi: apicid 0 vector 48", "kvm_msr: msr_read 839 = 0x0", "kvm_msr: msr_write 40000021 = 0x5001")
        lines = "".join(f"       CPU 0/KVM-101     [001] .....  {1004015000 + k}: {event}\n" for k, event in enumerate(events))
        text = (support.LOGS / "kvm.log").read_text()
        at = text.rindex("       kvm-record-90")
        trace, _ = imported_text(text[:at] + lines + text[at:], kind="kvm")
        self.assertEqual(trace[0], "clockboard 4")
        self.assertEqual(trace[-6:], [
            "0 1004015000 wrmsr 832 400ec", "0 1004015001 wrmsr 6e0 1000", "0 1004015002 eoi", "0 1004015004 rdmsr 839",
            "0 1004015005 wrmsr 40000021 5001", "end"])

    def test_events_out_of_order(self) -> None:
        # The buffers of the host's processors are printed one after the other: 1 before 2, then the marks.
        lines = (support.LOGS / "kvm.log").read_text().splitlines(keepends=True)
        lines.sort(key=lambda line: ("[002]" in line, "[000]" in line))
        self.assertNotEqual("".join(lines), (support.LOGS / "kvm.log").read_text())
        self.assertEqual(imported_text("".join(lines), kind="kvm")[0], self.trace)

    def test_dropped(self) -> None:
        self.assertEqual(self.said[1:], [
            "import: dropped 1: a string access to a port",
            "import: dropped 1: an MSR of steal time",
            "import: dropped 1: an access to an MSR that faulted"])


if __name__ == "__main__":
    unittest.main()
