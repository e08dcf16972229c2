# SPDX-License-Identifier: Apache-2.0 OR MIT
"""tools/state: print, diff, set and what-if."""

import json
import subprocess
import tempfile
import unittest
from pathlib import Path

import support
from state_samples import everything, run_tool, running, saved

from clocktools.states.layout import fields
from clocktools.states.saved import unjudged

REFUSED = 3
TIMER = "hpet.timer3"


class Tool(unittest.TestCase):
    def setUp(self) -> None:
        folder = tempfile.TemporaryDirectory()
        self.addCleanup(folder.cleanup)
        self.folder = Path(folder.name)
        self.state = self.file("state", running())

    def file(self, name: str, data: bytes) -> str:
        path = self.folder / name
        path.write_bytes(data)
        return str(path)

    def tool(self, *words: str, text: str = "") -> tuple[int, list[str], list[str]]:
        return run_tool(*words, text=text)

    def set_fields(self, *changes: str) -> str:
        """The file of the state after changes that are taken."""
        status, lines, _ = self.tool("set", self.state, *changes)
        self.assertEqual(status, 0, lines)
        return self.file("changed", bytes.fromhex(lines[0].split()[1]))


class Print(Tool):
    def test_text(self) -> None:
        status, lines, _ = self.tool("print", self.state)
        self.assertEqual(status, 0)
        for line in ("format 5", "host.khz 1000000   kHz", "pit.counter0.control 34h   mode 2, low then high byte, binary",
                     "pit.counter0.flags out+gate+written+loaded", "pit.counter0.count_register 598",
                     f"{TIMER}.config 280ch   on, periodic, edge, 64 bits, line 20", "= now_ns 4499500",
                     "= rtc.datetime 2026-02-28 23:59:50", "= cpu0.tsc_now 11248750", "= cpu0.page.versions_left 2147483646"):
            self.assertIn(line, lines)
        self.assertNotIn("slew_ns 1000000   ns", lines)

    def test_forms_of_a_state(self) -> None:
        """Bytes, hex digits, and the last line `state HEX` of a text are one state."""
        data = running()
        wanted = self.tool("print", self.state)
        older = saved(1, "begin\nend\n").hex()
        texts = (data.hex(), f"state {data.hex()}\n", f"state {older}\nfinal 0 0 0 -\n4 5 state {data.hex()}\n")
        for text in texts:
            self.assertEqual(self.tool("print", "-", text=text), wanted)

    def test_all(self) -> None:
        _, lines, _ = self.tool("print", self.state, "--all")
        self.assertEqual([line.split()[0] for line in lines if not line.startswith("=")], [one.name for one in fields(5, 1)])

    def test_json(self) -> None:
        for version in range(1, 6):
            data = everything(version)
            status, lines, _ = self.tool("print", self.file("one", data), "--json")
            told = json.loads("\n".join(lines))
            self.assertEqual((status, told["format"]), (0, version))
            self.assertEqual({name: int(number) for name, number in told["fields"].items()}, unjudged(data))
            for one in fields(version, 3):
                self.assertIsInstance(told["fields"][one.name], str if one.size == 8 else int, one.name)
            self.assertEqual(told["derived"]["now_ns"], "90000002")

    def test_refused(self) -> None:
        data = running()
        for name, edit in (("magic", b"X" + data[1:]), ("format", data[:8] + b"\7" + data[9:]), ("length", data[:-1]), ("length", data + b"\0"),
                           ("host.khz", data[:12] + bytes(8) + data[20:])):
            status, lines, _ = self.tool("print", "-", text=edit.hex())
            self.assertEqual((status, lines[0].split()[:2]), (REFUSED, ["refused", name]))

    def test_unreadable(self) -> None:
        for path in (str(self.folder / "nowhere"), str(self.folder), self.file("text", b"hello\n"), self.file("empty", b"")):
            status, lines, said = self.tool("print", path)
            self.assertEqual((status, lines, len(said)), (2, [], 1))

    def test_standard_output_fails(self) -> None:
        with open("/dev/full", "w", encoding="utf-8") as full:
            done = subprocess.run([support.TOOLS / "state", "print", self.state], stdout=full, stderr=subprocess.PIPE, text=True, check=False)
        self.assertEqual((done.returncode, done.stderr), (5, "state: its standard output takes no more: No space left on device\n"))

    def test_last_access(self) -> None:
        """A board that has answered its last access is printed without the answers to more."""
        status, lines, _ = self.tool("print", self.set_fields(f"accesses={2**62}"))
        self.assertEqual(status, 0)
        self.assertIn("= cpu0.tsc_now None", lines)
        self.assertIn("= now_ns 4499500", lines)


class Diff(Tool):
    def test_none(self) -> None:
        self.assertEqual(self.tool("diff", self.state, self.state),
                         (0, ["= time +0 ns", "= cpu0.tsc +0 ticks, +0.0 ns beside the time"], []))

    def later(self, *records: str) -> str:
        said = support.program()
        trace = "\n".join(["clockboard 5", f"state {running().hex()}", "begin", *records, "end", ""])
        done = subprocess.run([said, "replay", "--state"], input=trace, capture_output=True, text=True, check=True)
        return self.file("later", bytes.fromhex(done.stdout.split()[-1]))

    def test_fields_and_clocks(self) -> None:
        status, lines, _ = self.tool("diff", self.state, self.later("0 6172339 step"))
        self.assertEqual(status, 1)
        for line in ("pit.counter0.count 15 -> 411   +396, -331886 ns", "hpet.counter 449950 -> 617233   +167283, +1672830 ns",
                     "= time +1672839 ns", "= cpu0.tsc +4182097 ticks, -0.2 ns beside the time"):
            self.assertIn(line, lines)

    def test_run(self) -> None:
        """What is left is what the guest did, and the step itself."""
        later = self.later("0 6172339 in 40")
        self.assertEqual(self.tool("diff", self.state, later, "--run")[1],
                         ["pit.counter0.read_high_next 0 -> 1   +1", "= time +0 ns", "= cpu0.tsc +0 ticks, +0.0 ns beside the time"])

    def test_run_refused(self) -> None:
        other = self.set_fields("host.khz=2000000")
        self.assertEqual(self.tool("diff", self.state, other, "--run")[:2], (REFUSED, ["refused host.khz two hosts' rates"]))
        later = self.later("0 6172339 step")
        self.assertEqual(self.tool("diff", later, self.state, "--run")[1], ["refused host.greatest_count the second state is the older"])

    def test_formats(self) -> None:
        """A field that one of the states hasn't is none there."""
        status, lines, _ = self.tool("diff", self.file("first", saved(1, "begin\nend\n")), self.file("second", saved(2, "begin\nend\n")))
        self.assertEqual((status, lines[0]), (1, "format 1 -> 2   +1"))
        self.assertIn("line0.rises none -> 0", lines)

    def test_json(self) -> None:
        status, lines, _ = self.tool("diff", self.state, self.set_fields("pit.policy=discard", "rtc.ram40=7"), "--json")
        told = json.loads("\n".join(lines))
        self.assertEqual(status, 1)
        self.assertIn({"field": "rtc.ram40", "before": 0, "after": 7, "meaning": "+7"}, told["fields"])
        self.assertIn({"field": "pit.ticks.lost", "before": "0", "after": "7", "meaning": "+7"}, told["fields"])
        self.assertEqual(told["clocks"][0], "time +0 ns")


class Set(Tool):
    def test_names_that_are_no_bytes(self) -> None:
        path = self.set_fields("rtc.datetime=2026-12-31T23:59:58", "cpu0.tsc_now=5", "pit.counter2.gate=1")
        _, lines, _ = self.tool("print", path)
        self.assertIn("= rtc.datetime 2026-12-31 23:59:58", lines)
        self.assertIn("= cpu0.tsc_now 5", lines)
        self.assertIn("rtc.wday 5h", lines)
        self.assertIn("pit.counter2.flags null+out+gate", lines)

    def test_twelve_hours(self) -> None:
        for form, hour, byte in ((0x00, "00", "12h"), (0x00, "13", "81h"), (0x04, "12", "8ch"), (0x06, "23", "17h"), (0x02, "23", "23h")):
            path = self.set_fields(f"rtc.b={form}", f"rtc.datetime=2026-12-31T{hour}:59:58")
            lines = self.tool("print", path)[1]
            self.assertIn(f"rtc.hour {byte}", lines)
            self.assertIn(f"= rtc.datetime 2026-12-31 {hour}:59:58", lines)

    def test_policies_move_the_account(self) -> None:
        status, lines, said = self.tool("set", self.state, "pit.policy=discard")
        self.assertEqual((status, said), (0, ["lossy pit.ticks.waiting 7 that wait are lost"]))
        values = unjudged(bytes.fromhex(lines[0].split()[1]))
        self.assertEqual([values[f"pit.ticks.{name}"] for name in ("due", "rose", "waiting", "lost")], [8, 1, 0, 7])
        _, lines, said = self.tool("set", "-", "pit.policy=slew", text=lines[0])
        self.assertEqual(said, ["lossy pit.ticks.lost 7 that were lost leave the account"])
        values = unjudged(bytes.fromhex(lines[0].split()[1]))
        self.assertEqual([values[f"pit.ticks.{name}"] for name in ("due", "rose", "waiting", "lost")], [1, 1, 0, 0])

    def test_moved_tsc_has_a_page(self) -> None:
        state = self.file("plain", saved(2, "cpus 2\nbegin\n0 1000 step\nend\n"))
        status, lines, said = self.tool("set", state, "cpu1.tsc_offset=7000")
        self.assertEqual((status, said), (0, ["note cpu1.page.version 2: a processor whose TSC was moved has a page that was published"]))
        values = unjudged(bytes.fromhex(lines[0].split()[1]))
        by_guest = unjudged(saved(2, "cpus 2\nbegin\n0 1000 step\n1 1000 wrmsr 10 1f40\nend\n"))
        for name in ("tsc_offset", "page.version", "page.tsc", "page.ns", "page.mul", "page.shift", "page.flags"):
            self.assertEqual(values[f"cpu1.{name}"], by_guest[f"cpu1.{name}"], name)

    def test_refused(self) -> None:
        for changes, told in ((("pit.counter0.count=70000",), "pit.counter0.count 70000"), (("walk=1",), "walk no such field"),
                              (("cpu7.tsc_now=1",), "cpu7.tsc_now no such field"), (("pit.counter0.out=2",), "pit.counter0.out 2"),
                              (("rtc.sec=many",), "rtc.sec many"), (("rtc.datetime=2026-02-30T00:00:00",), "rtc.datetime 2026-02-30T00:00:00"),
                              (("rtc.datetime=1999-02-03T00:00:00",), "rtc.datetime 1999-02-03T00:00:00"),
                              (("format=4",), "format 4, as the state has 5"), (("hpet.timer2.ticks.lost=1",), "hpet.timer2.ticks.lost 1"),
                              (("slew_ns=-1",), "slew_ns -1"), (("cpu0.tsc_now=18446744073709551616",), "cpu0.tsc_now 18446744073709551616")):
            self.assertEqual(self.tool("set", self.state, *changes)[:2], (REFUSED, [f"refused {told}"]))

    def test_one_byte_of_a_row(self) -> None:
        """Rows of the grammar with several names: the one at fault is named, among others that were changed too."""
        for changes, told in ((("rtc.ram45=12", "rtc.a=255", "rtc.sec=5"), "rtc.a 255"), (("rtc.sec=9", "rtc.c=7"), "rtc.c 7"),
                              (("rtc.d=0", "rtc.ram7f=1"), "rtc.d 0"), (("line20.rises=3", "line0.rises=500", "line8.rises=1"), "line0.rises 500"),
                              (("pit.counter0.first_byte=9",), "pit.counter0.first_byte 9"),
                              (("pit.counter0.first_byte_waits=2",), "pit.counter0.first_byte_waits 2"),
                              (("pit.counter1.latched_count=3",), "pit.counter1.latched_count 3"),
                              (("pit.counter1.latched_status=3",), "pit.counter1.latched_status 3")):
            self.assertEqual(self.tool("set", self.state, *changes)[1], [f"refused {told}"])

    def test_words(self) -> None:
        self.assertEqual(self.tool("set", self.state, "rtc.sec")[0], 2)
        self.assertEqual(self.tool("set", self.state)[0], 2)
        self.assertEqual(self.tool("walk")[0], 2)


class WhatIf(Tool):
    def test_text(self) -> None:
        status, lines, _ = self.tool("what-if", self.state, "--khz", "3000000", "--gap", "12000000")
        self.assertEqual((status, lines), (0, [
            "time 4499500 -> 16499500 ns", "cpu0.tsc 11248750 -> 41248750   +30000000 ticks, +0.0 ns beside the gap",
            "cpu0.clock 4499499 -> 16499500   +12000001 ns, +1 ns beside the gap", "rtc 2026-02-28 23:59:50 -> 2026-02-28 23:59:50",
            "hpet 449950 -> 1649950   +0 ns beside the gap", "ticks pit +24 due, +0 rise, +24 wait, +0 lost",
            "ticks hpet3 +12 due, +0 rise, +12 wait, +0 lost",
            "next edge None   line 0 is up, and waits for its acknowledgement; line 20 is up, and waits for its acknowledgement",
            "cpu0.page.versions_left 2147483645"]))

    def test_messages_and_ticks(self) -> None:
        state = self.file("messages", saved(5, "begin\n0 0 hw 130 8 1000000031\n0 0 hw 120 8 684c\n0 0 hw 128 8 186a0\n0 0 hw 128 8 186a0\n"
                                               "0 0 hw 10 4 1\n0 0 wrmsr 832 40\n0 0 wrmsr 83e b\n0 0 wrmsr 838 4c4b40\n0 10 step\nend\n"))
        lines = self.tool("what-if", state, "--khz", "3000000", "--gap", "3000000", "--ticks")[1]
        self.assertIn("messages hpet1 3 from 1000000 each 1000000 ns to cpu 0 vector 31", lines)
        self.assertIn("next tick apic0 5000000", lines)
        self.assertIn("next edge None   no source is programmed to raise a line", lines)
        lines = self.tool("what-if", state, "--khz", "3000000", "--gap", "9000000", "--ticks")[1]
        self.assertIn("ticks apic0 +1 due, +1 rise, +0 wait, +0 lost", lines)
        self.assertFalse([line for line in lines if line.startswith("next tick")])

    def test_policy(self) -> None:
        status, lines, said = self.tool("what-if", self.state, "--khz", "3000000", "--gap", "12000000", "--policy", "discard", "delay", "delay")
        self.assertEqual((status, said), (0, ["lossy pit.ticks.waiting 7 that wait are lost"]))
        self.assertIn("ticks pit +24 due, +0 rise, +0 wait, +24 lost", lines)

    def test_json(self) -> None:
        state = self.set_fields("hpet.timer3.ticks.up=0")
        told = json.loads("\n".join(self.tool("what-if", state, "--khz", "3000000", "--gap", "12000000", "--json")[1]))
        self.assertEqual(told["time_ns"], ["4499500", "16499500"])
        self.assertEqual(told["clocks"]["cpu0.tsc"]["after"], "41248750")
        self.assertEqual(told["edges"], [{"at_ns": "5000000", "line": 20, "up": True}])
        self.assertIsNone(told["next_edge_ns"])

    def test_refused(self) -> None:
        for gap, changes, wanted in ((str(2**59), (), (7, "refused range ")), ("0", ("cpu0.page.version=4294967294",), (9, "refused versions ")),
                                     ("0", (f"accesses={2**62}",), (8, "refused spent "))):
            status, lines, _ = self.tool("what-if", self.set_fields(*changes) if changes else self.state, "--khz", "3000000", "--gap", gap)
            self.assertEqual((status, lines[0][: len(wanted[1])]), wanted)
        self.assertEqual(self.tool("what-if", self.state, "--khz", "5", "--gap", "0")[0], REFUSED)


if __name__ == "__main__":
    unittest.main()
