# SPDX-License-Identifier: Apache-2.0 OR MIT
"""tools/diagram and tools/wave: what they draw of a printed text, and what they say of another."""

import re
import shutil
import subprocess
import tempfile
import unittest
from pathlib import Path

import support

PRINTED = """4 1
edge 4191 0 up
5 2
edge 12000 0 down
edge 12000 0 up
6 3
edge 12500 8 up
7 4 26
final 13000 4 0 0,8
"""
TRACE = """clockboard 1
host 2000000 100
begin
0 100 out 70 0a
0 8482 step
0 24100 ack 0
0 26100 in 71
end
"""


MESSAGES = """3 1
msg 1000 2 0 41 3 1000
edge 3200 8 up
4 2
final 3500 2 0 8
"""
"""Messages of timer 2 at 1000, 2000 and 3000 ns."""


class Diagram(unittest.TestCase):
    def test_columns(self) -> None:
        done = support.run("diagram", text=PRINTED)
        self.assertEqual(done.stdout.splitlines(), [
            "ns         4191  12000 12500",
            "line 0   __/‾‾‾‾‾|‾‾‾‾‾‾‾‾‾‾‾‾‾",
            "line 8   ______________/‾‾‾‾‾‾‾"])

    def test_scale(self) -> None:
        # A character is 1000 ns: 12000 is 7809 ns behind 4191, so seven columns, and 12500 eight. Between them there
        # is no room for a second number.
        done = support.run("diagram", "--scale", "1000", text=PRINTED)
        self.assertEqual(done.stdout.splitlines(), [
            "ns         4191   12000",
            "line 0   __/‾‾‾‾‾‾|‾‾‾‾",
            "line 8   __________/‾‾‾",
            "a character is 1000 ns"])

    def test_scale_of_its_own(self) -> None:
        # Twenty edges of 9 columns are wider than 100 characters. 19,000 ns have 85 of them: 224 ns each, so 500.
        rows = [f"edge {10000 + 1000 * k} 0 {'down' if k % 2 else 'up'}" for k in range(20)]
        done = support.run("diagram", "--width", "100", text="\n".join([*rows, "final 29000 20 0 -", ""]))
        lines = done.stdout.splitlines()
        self.assertEqual(lines[1], "line 0   __" + "/‾\\_" * 9 + "/‾\\___")
        self.assertEqual(lines[2], "a character is 500 ns")
        self.assertLessEqual(max(map(len, lines)), 100)

    def test_window(self) -> None:
        # Line 0 is up since 4191, and line 8 rises only behind the window.
        done = support.run("diagram", "--from", "5000", "--to", "12400", text=PRINTED)
        self.assertEqual(done.stdout.splitlines(), [
            "ns         12000", "line 0   ‾‾|‾‾‾‾‾‾‾", "line 8   __________"])
        done = support.run("diagram", "--to", "4000", text=PRINTED)
        self.assertEqual(done.stdout, "no line changes in that time; lines change from 4191 to 12500 ns\n")

    def test_advice_on_width(self) -> None:
        done = support.run("diagram", "--scale", "1", "--width", "60", text=PRINTED)
        self.assertEqual((done.returncode, done.stdout), (1, ""))
        scale = re.search(r"--scale (\d+) fits", done.stderr)
        self.assertIsNotNone(scale, done.stderr)
        advised = support.run("diagram", "--scale", scale[1], "--width", "60", text=PRINTED)
        self.assertEqual(advised.returncode, 0)
        self.assertLessEqual(max(map(len, advised.stdout.splitlines())), 60)

    def test_messages(self) -> None:
        self.assertEqual(support.run("diagram", text=MESSAGES).stdout.splitlines(), [
            "ns         1000 2000 3000 3200",
            "line 8   _________________/‾‾‾‾‾‾‾",
            "timer 2  __|____|____|____________"])

    def test_many_messages(self) -> None:
        # A million messages, 10 ns apart: each of the characters from the first to the last has some.
        text = MESSAGES.replace("3 1000", "1000000 10").replace("3500", "20000000")
        row = support.run("diagram", "--scale", "1000000", text=text).stdout.splitlines()[2]
        self.assertEqual(row, "timer 2  __" + "|" * 10 + "_" * 10)

    def test_nothing(self) -> None:
        self.assertEqual(support.run("diagram", text="3 1\nfinal 0 1 0 -\n").stdout, "no line changes\n")


class OtherInput(unittest.TestCase):
    """What isn't a printed text is told in one line, by each picture."""

    def test_told(self) -> None:
        for text, told in ((TRACE, "this is a trace"), ("", "standard input: it is empty"), ("<html>\n", "begins with: <html>"),
                           ("usage: clockboard replay\n", "printed its usage")):
            for tool in ("diagram", "wave"):
                with self.subTest(tool, text=text):
                    done = support.run(tool, text=text)
                    self.assertEqual((done.returncode, done.stdout), (1, ""))
                    self.assertIn(told, done.stderr)
                    self.assertEqual(done.stderr.count("\n"), 1)

    def test_reader_that_leaves(self) -> None:
        text = "".join(f"edge {k} 0 {'down' if k % 2 else 'up'}\n" for k in range(100_000))
        command = f"{support.TOOLS / 'wave'} | head -1; exit ${{PIPESTATUS[0]}}"
        done = subprocess.run(["bash", "-c", command], input=text, capture_output=True, text=True, check=False)
        self.assertEqual((done.returncode, done.stdout), (2, "$timescale 1 ns $end\n"))
        self.assertEqual(done.stderr, "wave: nobody reads its standard output any more\n")


class Wave(unittest.TestCase):
    def wave(self, *words: str) -> list[str]:
        with tempfile.TemporaryDirectory() as folder:
            trace = Path(folder) / "t"
            trace.write_text(TRACE)
            done = support.run("wave", "-t", str(trace), *words, text=PRINTED)
            return done.stdout.splitlines()

    def test_whole(self) -> None:
        # Counts of 2 GHz from 100 on: 8482 is 4191 ns, 24100 is 12000 ns, 26100 is 13000 ns.
        rows = self.wave()
        self.assertEqual(rows[rows.index("$enddefinitions $end") + 1 :], [
            "#0", "$dumpvars", "0!", '0"', "0#", "0$", "0%", "0&", "$end",
            "sout_70_0a )",
            "#4191", "1!", "1'", "sstep )",
            "#12000", "0!", "1!", "1'", "sack_0 )",
            "#12500", '1"', "1(",
            "#13000", "sin_71 )", "s26 *"])
        self.assertIn("$var string 1 ) access0 $end", rows)
        self.assertIn("$var event 1 ' rise0 $end", rows)

    def test_messages(self) -> None:
        rows = support.run("wave", text=MESSAGES).stdout.splitlines()
        self.assertIn("$var event 1 ( message2 $end", rows)
        self.assertEqual(rows[rows.index("#1000") :], [
            "#1000", "1(", "#2000", "1(", "#3000", "1(", "#3200", '1"', "1'", "#3500"])
        self.assertNotIn("message2", support.run("wave", "-p", text=MESSAGES).stdout)

    def test_plain(self) -> None:
        rows = self.wave("-p")
        kinds = {row.split(" ")[1] for row in rows if row.startswith("$var")}
        self.assertEqual(kinds, {"wire"})
        self.assertFalse([row for row in rows if row.startswith("s")])

    def test_first_rise(self) -> None:
        # The whole file by IEEE 1364, 18.2: the declarations, the levels at first, and what changes when. OUT 0 rises at
        # the fifth pulse, at 4191 ns, and the trace ends at 5000 ns with line 0 up.
        printed = (support.TOP / "examples/first-rise.out").read_text()
        lines = (0, 8, 20, 21, 22, 23)
        wires = [f"$var wire 1 {mark} line{line} $end" for mark, line in zip("!\"#$%&", lines)]
        self.assertEqual(support.run("wave", text=printed).stdout.splitlines(), [
            "$timescale 1 ns $end", "$scope module clockboard $end", *wires, "$var event 1 ' rise0 $end",
            "$upscope $end",
            "$enddefinitions $end", "#0", "$dumpvars", "0!", '0"', "0#", "0$", "0%", "0&", "$end",
            "#4191", "1!", "1'", "#5000"])

    @unittest.skipUnless(shutil.which("vcd2fst"), "no vcd2fst")
    def test_read_by_gtkwave(self) -> None:
        for words in ((), ("-p",)):
            with tempfile.TemporaryDirectory() as folder:
                vcd, fst = Path(folder) / "w.vcd", Path(folder) / "w.fst"
                vcd.write_text("\n".join(self.wave(*words)) + "\n")
                done = subprocess.run(["vcd2fst", vcd, fst], capture_output=True, check=False)
                self.assertEqual(done.returncode, 0, done.stderr)
                self.assertGreater(fst.stat().st_size, 0)


if __name__ == "__main__":
    unittest.main()
