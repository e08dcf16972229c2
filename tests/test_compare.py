# SPDX-License-Identifier: Apache-2.0 OR MIT
"""tools/compare, with a program that says what the test says, and on a recorded log."""

import hashlib
import json
import subprocess
import tempfile
import unittest
from pathlib import Path
from typing import Any

import support

TRACE = """clockboard 1
begin
0 0 out 43 34
0 0 out 70 0a
0 1000 in 71
0 1000 in 40
0 1000 in 40
0 1000 out 43 e2
0 1000 in 40
0 1000 hr f0 4
0 1000 refresh 0
0 1000 page 0
end
"""
SAID = """3 1
4 2
edge 1000 0 up
5 3 26
6 4 ff
7 5 ff
8 6
9 7 b4
10 8 00000010
11 9
12 page 2 1000 1000 80000000 1 01 1000
final 1000 9 0 0
"""
PEER = """# a peer
stamp 1000
rises 0 2
5 a6
6 01
7 00
9 f4
10 0000005a
12 2 1000 999 80000000 1 03
"""


class Folder(unittest.TestCase):
    """A trace and its peer's file in a folder."""

    def setUp(self) -> None:
        folder = tempfile.TemporaryDirectory()
        self.addCleanup(folder.cleanup)
        self.folder = Path(folder.name)
        self.trace, self.peer = self.folder / "t", self.folder / "t.peer"

    def put(self, trace: str, peer: str) -> None:
        self.trace.write_text(trace)
        self.peer.write_text(peer)

    def found(self, *words: str) -> dict[str, Any]:
        """What the program itself and the tool find, as an object."""
        done = support.run("compare", str(self.trace), "--json", *words)
        self.assertEqual(done.stderr, "")
        found: dict[str, Any] = json.loads(done.stdout)
        self.assertEqual(found["status"], done.returncode)
        return found

    def differences(self, trace: str, peer: str, *words: str) -> list[tuple[str, str, str | None, str]]:
        """By register and what differs the row that explains it and the definition that decides."""
        self.put("clockboard 1\nbegin\n" + trace + "end\n", peer)
        return [(one["register"], one["what"], one["known"] and one["known"]["name"], one["definition"]["name"])
                for one in self.found(*words)["differences"]]


class Compare(Folder):
    def compare(self, *words: str, said: str = SAID, status: int = 0) -> tuple[int, list[str], str]:
        self.put(TRACE, PEER)
        done = support.run("compare", str(self.trace), *words,
                           env=support.program_that_says(str(self.folder), said, status))
        return done.returncode, done.stdout.splitlines(), done.stderr

    def test_differences(self) -> None:
        # The count of the HPET is near: 4Ah are 740 ns. Of the 8254 no count was written. UIP may be set there by a clock
        # whose second turns half a second before ours. Null count is set there and not here, and no row explains that.
        status, printed, said = self.compare()
        self.assertEqual((status, said), (1, ""))
        self.assertEqual([line for line in printed if line.startswith(("known", "unexplained"))], [
            "unexplained: 8254 status of counter 0, bit 6: 1", "known: 8254 counter 0, count: 2",
            "known: MC146818 register A, bit 7: 1", "known: pvclock page flags, bit 1: 1"])
        self.assertEqual(printed[2:6], [
            "  pit_counter, status_of: Status byte: D7 OUT, D6 null count, D5 to D0 the programmed bits.",
            '  by 8254, "Read-Back Command"', "  line 9: 0 1000 in 40", "    clockboard b4, peer f4"])

    def test_counts(self) -> None:
        _, printed, _ = self.compare()
        rows = {line[:-52].strip(): line[-52:].split() for line in printed if not line.startswith(("line", "  "))
                and line[-1:].isdigit() and len(line) > 60}
        self.assertEqual(rows["8254 counter 0"], ["0", "0", "2", "0"])
        self.assertEqual(rows["HPET main counter"], ["0", "1", "0", "0"])
        self.assertEqual(rows["MC146818 register A"], ["0", "0", "1", "0"])
        self.assertEqual(printed[-1].split(": ")[:3], [
            "line 0", "1 rises, 2 vectors taken by the peer's guest", "lost-ticks"])

    def test_exact(self) -> None:
        _, printed, _ = self.compare("--near", "0")
        self.assertIn("unexplained: HPET main counter, count: 1", printed)

    def test_refused(self) -> None:
        status, _, said = self.compare(said="refused 5 form\n", status=3)
        self.assertEqual(status, 3)
        self.assertIn("refused 5 form", said)


class Rows(Folder):
    """Each row of docs/COMING_FROM_QEMU_AND_KVM.md that a read can show: a difference of its kind is known by it, and the
    same bits where it doesn't hold are unexplained."""

    def test_port_61(self) -> None:
        # OUT 2 is high at power on.
        self.assertEqual(self.differences("0 0 in 61\n0 0 in 61\n", "3 30\n4 33\n"), [
            ("port 61h", "bits 0, 1", None, "read_of_61"), ("port 61h", "bit 4", "refresh", "read_of_61")])

    def test_out_2(self) -> None:
        # In mode 0 count 100 ends 100 pulses of 838 ns after the one that loads it: about 84.6 us. At 80 us OUT 2 is low:
        # within 10 us it goes up, within 1 us it doesn't.
        trace = "0 0 out 61 01\n0 0 out 43 b0\n0 0 out 42 64\n0 0 out 42 00\n0 80000 in 61\n"
        self.assertEqual(self.differences(trace, "6 +1\n7 21 +10000\n"), [])
        self.assertEqual(self.differences(trace, "6 +1\n7 21 +1000\n"), [("port 61h", "bit 5", None, "read_of_61")])
        self.assertEqual(self.differences(trace.replace("b0", "b2"), "7 01\n"), [("port 61h", "bit 5", "out", "effect_in")])

    def test_out_2_to_the_pulse(self) -> None:
        # Written at 500 ns, count 4 is loaded at 839 ns and ends at 4,191 ns, as in the first row of examples/.
        trace = "0 500 out 61 01\n0 500 out 43 90\n0 500 out 42 04\n0 {} in 61\n"
        self.assertEqual(self.differences(trace.format(4185), "6 21 +10\n"), [])
        self.assertEqual(self.differences(trace.format(4175), "6 21 +10\n"), [("port 61h", "bit 5", None, "read_of_61")])
        self.assertEqual(self.differences(trace.format(4195), "6 01 +10\n"), [])

    def test_counts(self) -> None:
        # Count 1,000 is loaded at the first pulse, and reads 991, 3DFh, at the tenth. Where the times of the write and the
        # read are exact to 1 ns, a count apart is near, and QEMU's may be one lower.
        written = "0 0 out 43 34\n0 0 out 40 e8\n0 0 out 40 03\n0 8400 in 40\n0 8400 in 40\n"
        row = ("8254 counter 0", "count")
        self.assertEqual(self.differences(written, "5 +1\n6 de +1\n7 03 +1\n"), [])
        self.assertEqual(self.differences(written, "5 +10000\n6 d8 +1\n7 03 +1\n"), [])
        self.assertEqual(self.differences(written, "5 +1\n6 dd +1\n7 03 +1\n"), [(*row, "load", "effect_in")])
        self.assertEqual(self.differences(written, "5 +1\n6 dc +1\n7 03 +1\n"), [(*row, None, "effect_in")])
        self.assertEqual(self.differences(written, "5 +1\n6 df +1\n7 02 +1\n"), [(*row, None, "effect_in")])
        self.assertEqual(self.differences(written.replace("0 8400", "0 400"), "5 +1\n6 e8 +1\n7 03 +1\n"), [
            (*row, "load", "effect_in")])
        self.assertEqual(self.differences(written.replace("0 8400", "0 900"), "5 +1\n6 00 +1\n7 00 +1\n"), [
            (*row, None, "effect_in")])
        again = written.replace("0 8400 in 40\n", "", 1).replace("0 8400", "0 5000 out 40 00\n0 5000 out 40 10\n0 8400")
        self.assertEqual(self.differences(again, "5 +1\n8 fd +1\n"), [(*row, "reload", "effect_in")])
        self.assertEqual(self.differences("0 0 in 40\n", "3 12\n"), [(*row, "no-count", "counter_at_power_on")])
        self.assertEqual(self.differences(written.replace("34", "35"), "6 12\n"), [(*row, "bcd", "read_as")])
        stopped = "0 0 out 43 b4\n0 0 out 42 10\n0 0 out 42 00\n0 9000 in 42\n"
        self.assertEqual(self.differences(stopped, "6 02\n"), [("8254 counter 2", "count", "gate", "effect_in")])

    def test_high_bytes(self) -> None:
        # At 196.2 us, 234 pulses, count 1,000 reads 767, 2FFh; at 208.7 us 752, 2F0h. One above the high byte is a count
        # away from the first, and 16 from the second. A microsecond is 2 counts.
        written = "0 0 out 43 34\n0 0 out 40 e8\n0 0 out 40 03\n0 {0} in 40\n0 {0} in 40\n"
        self.assertEqual(self.differences(written.format(196200), "5 +1\n6 00 +1000\n7 03 +1000\n"), [])
        self.assertEqual(self.differences(written.format(208700), "5 +1\n6 f1 +1000\n7 03 +1000\n"), [
            ("8254 counter 0", "count", None, "effect_in")])
        self.assertEqual(self.differences(written.format(196200), "5 +1\n6 fe +1000\n7 01 +1000\n"), [
            ("8254 counter 0", "count", None, "effect_in")])

    def test_latched_counts(self) -> None:
        # Latched at 8,400 ns, 991 or 3DFh; the latch is exact to 1 ns, and the reads needn't be.
        written = "0 0 out 43 34\n0 0 out 40 e8\n0 0 out 40 03\n0 8400 out 43 {}\n0 900000 in 40\n0 900000 in 40\n"
        for latch in ("00", "d2"):
            self.assertEqual(self.differences(written.format(latch), "5 +1\n6 +1\n7 df +90000\n8 03 +90000\n"), [])
            self.assertEqual(self.differences(written.format(latch), "5 +1\n6 +1\n7 d0 +90000\n8 03 +90000\n"), [
                ("8254 counter 0", "count", None, "effect_in")])
            self.assertEqual(self.differences(written.format(latch), "5 +1\n6 +90000\n7 d0 +1\n8 03 +1\n"), [])

    def test_gate_triggers(self) -> None:
        # In mode 1 the rise of GATE at 5 us lets count 1,000 begin, which reads 983, 3D7h, at 20 us. Seven counts are near
        # where the time of that rise is exact to 10 us, and not where it is to 1 ns.
        trace = "0 0 out 43 b2\n0 0 out 42 e8\n0 0 out 42 03\n0 5000 out 61 01\n0 20000 in 42\n"
        self.assertEqual(self.differences(trace, "5 +1\n6 +10000\n7 d0 +1\n"), [])
        self.assertEqual(self.differences(trace, "5 +1\n6 +1\n7 d0 +1\n"), [
            ("8254 counter 2", "count", None, "effect_in")])

    def test_no_trigger(self) -> None:
        # In mode 1 a rise of GATE before the count is none: at 20 us the counter reads 0, and QEMU's counts. After a rise that
        # comes later it reads 983, 3D7h, and no row explains another.
        trace = "0 0 out 43 b2\n0 0 out 61 01\n0 0 out 42 e8\n0 0 out 42 03\n0 20000 in 42\n"
        row = ("8254 counter 2", "count")
        self.assertEqual(self.differences(trace, "7 d0\n"), [(*row, "trigger", "gated")])
        later = trace.replace("0 20000", "0 5000 out 61 00\n0 5000 out 61 01\n0 20000")
        self.assertEqual(self.differences(later, "9 d0 +1\n"), [(*row, None, "effect_in")])

    def test_read_back_with_d0(self) -> None:
        # Count 1,000 reads 991, 3DFh, at 8.4 us and 879, 36Fh, at 102.4 us. D3h would latch, and F3h nothing, with D0 = 0 too.
        trace = "0 0 out 43 34\n0 0 out 40 e8\n0 0 out 40 03\n0 8400 out 43 {}\n0 102400 in 40\n0 102400 in 40\n"
        row = ("8254 counter 0", "count")
        for command, cause in (("d3", "read-back-d0"), ("e3", "read-back-d0"), ("f3", None), ("d5", None)):
            with self.subTest(command):
                found = self.differences(trace.format(command), "5 +1\n6 +1\n7 df +1\n8 03 +1\n")
                self.assertEqual(found, [(*row, cause, "is_chosen" if cause else "effect_in")])

    def test_latch_between_two_bytes(self) -> None:
        # The low byte of 991, 3DFh, was read when 879, 36Fh, is latched: here its high byte comes next, and QEMU's low one.
        trace = "0 0 out 43 34\n0 0 out 40 e8\n0 0 out 40 03\n0 8400 in 40\n0 102400 out 43 00\n0 102400 in 40\n"
        row = ("8254 counter 0", "count")
        self.assertEqual(self.differences(trace, "5 +1\n6 df +1\n7 +1\n8 6f +1\n"), [(*row, "latch-order", "reads_high")])
        whole = trace.replace("0 102400 out", "0 8400 in 40\n0 102400 out")
        self.assertEqual(self.differences(whole, "5 +1\n6 df +1\n7 03 +1\n8 +1\n9 00 +1\n"), [(*row, None, "effect_in")])

    def test_port_43(self) -> None:
        self.assertEqual(self.differences("0 0 in 43\n0 0 in 43\n", "3 00\n4 fe\n"), [
            ("port 43h", "bit 0", None, "port_read"), ("port 43h", "bits 0, 1, 2, 3, 4, 5, 6, 7", "port-43", "port_read")])

    def test_status(self) -> None:
        # Written at 0 and not loaded yet: null count. In mode 2 QEMU shows OUT the other way round.
        trace = "0 0 out 43 34\n0 0 out 40 e8\n0 0 out 40 03\n0 0 out 43 e2\n0 0 in 40\n"
        self.assertEqual(self.differences(trace, "7 35\n"), [
            ("8254 status of counter 0", "bit 0", None, "status_of"),
            ("8254 status of counter 0", "bit 7", "out", "effect_in"),
            ("8254 status of counter 0", "bit 6", "null-count", "status_of")])

    def seconds(self, *reads: tuple[int, int]) -> list[str | None]:
        """A peer's seconds by the millisecond of their reads. Here the second turns at 502 ms, and each second from it.
        """
        trace = "0 0 out 70 00\n" + "".join(f"0 {ms}000000 in 71\n" for ms, _ in reads)
        peer = "".join(f"{line} {byte:02} +1000\n" for line, (_, byte) in enumerate(reads, 4))
        found = self.differences(trace, peer, "--all")
        for register, what, _, _ in found:
            self.assertEqual((register, what), ("MC146818 seconds", "time"))
        return [row for _, _, row, _ in found]

    def test_seconds(self) -> None:
        # There the second turns at 900 ms. One at 800 ms that says 1, or one at 950 ms that says 0, is of no such clock.
        self.assertEqual(self.seconds((600, 0), (890, 0), (910, 1), (1890, 1), (1910, 2)), ["divider"])
        self.assertEqual(self.seconds((890, 0), (910, 1), (1700, 1), (1800, 2), (1910, 2)), ["divider"])
        self.assertEqual(self.seconds((890, 0), (910, 1), (1950, 1)), [None, "divider"])
        self.assertEqual(self.seconds((600, 0), (700, 2)), [None, "divider"])

    def test_bits_of_the_mc146818(self) -> None:
        # UIP begins 2,228 us before 502 ms. PF is set at 977 us, with PIE 0. Bit 6 of register B is no row's.
        read = "0 0 out 70 {}\n0 {} in 71\n"
        self.assertEqual(self.differences(read.format("0a", 501000000), "4 26\n"), [
            ("MC146818 register A", "bit 7", "uip", "uip_of")])
        self.assertEqual(self.differences(read.format("0a", 0), "4 27\n"), [
            ("MC146818 register A", "bit 0", None, "uip_of")])
        self.assertEqual(self.differences(read.format("0c", 2000000), "4 00\n"), [
            ("MC146818 register C", "bit 6", "periodic-flag", "flags_next")])
        self.assertEqual(self.differences(read.format("0b", 0), "4 42\n"), [
            ("MC146818 register B", "bit 6", None, "b_stored")])
        self.assertEqual(self.differences(read.format("32", 0), "4 20\n"), [
            ("MC146818 byte 32h", "bit 5", "century", "rtc_at_power_on")])
        self.assertEqual(self.differences(read.format("32", 0), "4 24\n"), [
            ("MC146818 byte 32h", "bits 2, 5", None, "rtc_at_power_on")])
        self.assertEqual(self.differences("0 0 out 70 32\n0 0 out 71 00\n0 0 in 71\n", "5 20\n"), [
            ("MC146818 byte 32h", "bit 5", None, "rtc_written")])
        self.assertEqual(self.differences("0 0 out 70 0b\n0 0 out 71 06\n0 0 out 70 04\n0 0 in 71\n", "6 17\n"), [
            ("MC146818 hours", "time", "form", "form_of")])

    def flags(self, before: str, *reads: tuple[int, int], b: int = 2) -> list[tuple[str, str | None]]:
        """What differs in register C, read at these milliseconds, where the peer read these bytes; after some
        records, and a write of register B at the first of those times."""
        at = reads[0][0] * 1_000_000
        trace = f"{before}0 {at} out 70 0b\n0 {at} out 71 {b:02x}\n0 {at} out 70 0c\n"
        first = trace.count("\n") + 3
        trace += "".join(f"0 {ms * 1_000_000} in 71\n" for ms, _ in reads)
        peer = "".join(f"{line} {byte:02x} +1000\n" for line, (_, byte) in enumerate(reads, first))
        return [(what, row) for _, what, row, _ in self.differences(trace, peer)]

    def test_periodic_flag(self) -> None:
        # At rate 6 PF is set each 977 us. With PIE 1 from 0 on both have it after 2 ms; IRQF goes with it.
        self.assertEqual(self.flags("", (0, 0x00), (2, 0x00), b=0x42), [("bit 6", None)])
        self.assertEqual(self.flags("", (0, 0x00), (2, 0x40), b=0x42), [("bit 7", None)])
        self.assertEqual(self.flags("", (2, 0x00), b=0x42), [("bit 6", "periodic-flag")])

    def test_update_flags(self) -> None:
        # Here the second turns at 502 and 1,502 ms; there, by its reads at 890 and 910 ms, at 900 and 1,900 ms. So UF can
        # be set there alone at 1,950 ms, and not at 1,700 ms.
        seconds = "0 0 out 70 00\n0 890000000 in 71\n0 910000000 in 71\n"
        for last, row in ((1950, "divider"), (1700, None)):
            trace = f"{seconds}0 910000000 out 70 0c\n0 1600000000 in 71\n0 {last}000000 in 71\n"
            self.assertEqual([(what, why) for register, what, why, _ in self.differences(
                trace, "4 00 +1000\n5 01 +1000\n7 50 +1000\n8 50 +1000\n") if register.endswith("C")], [("bit 4", row)])

    def test_alarm_flag(self) -> None:
        # At 600 ms the second is 1. AF can be set there by an alarm at second 0, and not by one at 30.
        for second, row in (("00", "divider"), ("30", None)):
            before = f"0 0 out 70 01\n0 0 out 71 {second}\n0 600000000 out 70 00\n0 600000000 in 71\n"
            self.assertEqual(self.flags(before, (600, 0x70)), [("bit 5", row)])

    def test_hpet(self) -> None:
        self.assertEqual(self.differences("0 0 hr 100 8\n", "3 0000000400000030\n"), [
            ("HPET timer 0 configuration", "bits 11, 13", "route", "timer_at_power_on"),
            ("HPET timer 0 configuration", "bits 34, 52, 53, 54, 55", "routes", "config_register")])
        self.assertEqual(self.differences("0 0 hr 100 4\n", "3 00000230\n"), [
            ("HPET timer 0 configuration", "bits 9, 11, 13", None, "timer_at_power_on")])
        self.assertEqual(self.differences("0 0 hw 100 4 204\n0 0 hr 100 4\n", "4 00000234\n"), [
            ("HPET timer 0 configuration", "bits 9, 11, 13", "route", "chosen_route")])
        self.assertEqual(self.differences("0 0 hr 108 4\n", "3 ffffffff\n"), [
            ("HPET timer 0 comparator", "all bits", "comparator", "timer_at_power_on")])
        self.assertEqual(self.differences("0 0 hr 108 4\n", "3 ffffffef\n")[0][2], None)
        self.assertEqual(self.differences("0 0 hr 104 4\n", "3 00000005\n")[0][2:], (None, "timer_at_power_on"))
        self.assertEqual(self.differences("0 0 hr f4 4\n", "3 00000001 +1000\n")[0][2:], (None, "counter_after"))

    def test_a_saved_state(self) -> None:
        # A row about power on explains nothing of a board that begins as it was saved.
        reads = "0 0 in 40\n0 0 out 70 00\n0 0 in 71\n0 0 out 70 20\n0 0 in 71\n"
        self.put("clockboard 1\nbegin\n0 0 out 70 20\n0 0 out 71 05\n0 0 save\nend\n", "stamp 1\n")
        said = subprocess.run([support.program(), "replay"], input=self.trace.read_bytes(), capture_output=True, check=True)
        state = said.stdout.decode().splitlines()[2].split(" ")[-1]
        self.put(f"clockboard 1\nstate {state}\nbegin\n{reads}end\n", "4 12\n6 01\n8 07\n")
        self.assertEqual([one["known"] for one in self.found()["differences"]], [None] * 3)
        self.assertEqual([row for _, _, row, _ in self.differences(reads, "3 12\n5 01\n7 07\n")],
                         ["no-count", "firmware", "divider"])

    def page(self, *peers: str) -> list[tuple[str, str, str | None, str]]:
        trace = "0 0 wrmsr 4b564d01 1\n"
        for at in range(len(peers)):
            trace += f"0 {1000 * (at + 1)} refresh 0\n0 {1000 * (at + 1)} page 0\n"
        return self.differences(trace, "".join(f"{5 + 2 * at} {peer} +10\n" for at, peer in enumerate(peers)))

    def test_pages(self) -> None:
        # Here the page gives 1,000 ns at a TSC of 1,000. There, by an older timestamp, the same; or 5,000 more; or first
        # 5,000 and then 9,000 more.
        self.assertEqual(self.page("2 900 900 80000000 1 01"), [])
        self.assertEqual(self.page("2 900 5900 80000000 1 01", "4 900 5900 80000000 1 01"), [
            ("pvclock page", "time", "page-zero", "published")])
        self.assertEqual([row for _, _, row, _ in self.page("2 900 5900 80000000 1 01", "4 900 9900 80000000 1 01")],
                         [None, "page-zero"])
        self.assertEqual(self.page("2 1000 1000 80000000 1 02"), [
            ("pvclock page flags", "bit 0", "stable", "published"),
            ("pvclock page flags", "bit 1", "stopped", "published")])
        self.assertEqual(self.page("2 1000 1000 90000000 1 01")[0][:3], ("pvclock page rate", "rate", None))


class Unusable(Folder):
    def refused(self, peer: str, **env: str) -> str:
        self.put(TRACE, peer)
        done = support.run("compare", str(self.trace), env=env)
        self.assertEqual((done.returncode, done.stdout), (2, ""))
        self.assertEqual(len(done.stderr.splitlines()), 1)
        return done.stderr

    def test_another_trace(self) -> None:
        own = hashlib.sha256(TRACE.encode()).hexdigest()
        self.assertIn("the answers of another trace", self.refused(f"trace {'0' * 64}\n"))
        self.put(TRACE, f"trace {own}\n")
        self.assertEqual(support.run("compare", str(self.trace)).returncode, 0)

    def test_malformed(self) -> None:
        for line in ("stamp", "rises 0", "rises 0 x", "5", "5 zz", "5 a6 +", "5 a6 b7", "trace 12", "hello there"):
            with self.subTest(line):
                self.assertIn("line 2 is malformed", self.refused(f"# a peer\n{line}\n"))
        self.assertIn("doesn't follow", self.refused("6 00\n5 00\n"))

    def test_no_peer(self) -> None:
        self.trace.write_text(TRACE)
        done = support.run("compare", str(self.trace))
        self.assertEqual((done.returncode, len(done.stderr.splitlines())), (2, 1))

    def test_no_program(self) -> None:
        self.assertIn("can't be run", self.refused(PEER, CLOCKBOARD="/no/such/program"))

    def test_no_trace(self) -> None:
        self.put("clockboard 1\nbegin\n0 x in 40\nend\n", "stamp 1\n")
        done = support.run("compare", str(self.trace))
        self.assertEqual((done.returncode, len(done.stderr.splitlines())), (3, 1), done.stderr)

    def test_a_reader_that_leaves(self) -> None:
        self.put(TRACE, PEER)
        command = [str(support.TOOLS / "compare"), str(self.trace)]
        with subprocess.Popen(command, stdout=subprocess.PIPE, stderr=subprocess.PIPE, text=True) as done:
            assert done.stdout and done.stderr
            done.stdout.close()
            self.assertEqual(done.stderr.read(), "compare: nobody reads its standard output any more\n")
        self.assertEqual(done.returncode, 2)


class Rules(unittest.TestCase):
    def test_each_cause_has_its_row_and_its_definition(self) -> None:
        from clocktools import judge_hpet, judge_page, judge_pit, judge_rtc, report
        from clocktools.documents import definitions, differences
        from clocktools.judging import Cause

        causes = [value for module in (judge_hpet, judge_page, judge_pit, judge_rtc)
                  for value in vars(module).values() if isinstance(value, Cause)]
        self.assertEqual([cause for cause in causes if (cause.crate, cause.name) not in definitions()], [])
        named = {cause.row for cause in causes} | {report.LOST_TICKS, report.MASKED_RISES}
        # Of the devices of formats 3 to 5 no answer of a peer is judged by a row.
        judged = {name for name in differences() if not name.startswith(("apic-", "hv-", "message-"))}
        self.assertEqual(named | {"wrap", "late-comparator"}, judged)

    def test_each_rule_has_its_definition(self) -> None:
        from clocktools.rules import HPET_RULES, Follower, Rule, hpet_rule, rtc_rule

        rules: list[Rule] = [rtc_rule(index, told) for index in range(0x80) for told in (False, True)]
        rules += [hpet_rule(offset, 4, told) for offset in range(0, 0x400, 4) for told in (False, True)]
        rules += [hpet_rule(0, 1, True)]
        rules += [Rule(*row) for row in HPET_RULES.values()]
        reads = [("in", port) for port in ("40", "41", "42", "43", "61", "70")]
        reads += [("rdmsr", number) for number in ("10", "3b", "4b564d00", "4b564d01")] + [("page", "0")]
        rules += [rule for words in reads if (rule := Follower(1_000_000).rule(words))]
        self.assertEqual([rule for rule in rules if not rule.definition.words], [])


if __name__ == "__main__":
    unittest.main()
