# SPDX-License-Identifier: Apache-2.0 OR MIT
"""tools/explain, with a program that refuses as the test says."""

import importlib.machinery
import gzip
import importlib.util
import tempfile
import unittest
from pathlib import Path
from types import ModuleType

import mistakes
import support

from clocktools.program import replay

HEADER = b"clockboard 1\nbegin\n"


class Explain(unittest.TestCase):
    def explain(self, trace: bytes, said: str) -> list[str]:
        with tempfile.TemporaryDirectory() as folder:
            path = Path(folder) / "t"
            path.write_bytes(trace)
            done = support.run("explain", str(path), env=support.program_that_says(folder, said + "\n", 3))
            self.assertEqual((done.returncode, done.stderr), (3, ""))
            return done.stdout.splitlines()

    def place(self, trace: bytes, said: str) -> str:
        """What stands above the marks."""
        rows = self.explain(trace, said)
        marks = rows[2]
        return rows[1][marks.index("^") : marks.rindex("^") + 1]

    def mend(self, trace: bytes, said: str) -> str:
        return next(row for row in self.explain(trace, said) if row.startswith("mend: "))

    def test_prefix(self) -> None:
        trace = HEADER + b"0 0 out 0x43 34\nend\n"
        self.assertEqual(self.place(trace, "refused 3 form"), "0x43")
        self.assertEqual(self.mend(trace, "refused 3 form"), "mend: numbers have no prefix: 43 in place of 0x43")
        rows = self.explain(trace, "refused 3 form")
        self.assertIn("  `out PORT BYTE` | a port is written, the same ports | none", rows)

    def test_line_ends_and_mark(self) -> None:
        self.assertIn("CR LF", self.mend(b"clockboard 1\r\nbegin\r\nend\r\n", "refused 1 form"))
        self.assertIn("byte order mark", self.mend(b"\xef\xbb\xbfclockboard 1\nbegin\nend\n", "refused 1 form"))

    def test_capitals(self) -> None:
        trace = HEADER + b"0 0 IN 40\nend\n"
        self.assertEqual(self.place(trace, "refused 3 form"), "IN")
        self.assertIn("small letters: in in place of IN", self.mend(trace, "refused 3 form"))

    def test_spaces(self) -> None:
        for line in (b"0  0 step\n", b" 0 0 step\n", b"0 0 step \n"):
            self.assertIn("one space", self.mend(HEADER + line, "refused 3 form"))
        self.assertIn("tab", self.mend(HEADER + b"0\t0 step\n", "refused 3 form"))

    def test_decimals(self) -> None:
        self.assertIn(": 7 in place of 007", self.mend(HEADER + b"0 007 step\n", "refused 3 form"))
        self.assertIn("it is 255", self.mend(HEADER + b"0 ff step\n", "refused 3 form"))

    def test_order(self) -> None:
        trace = b"clockboard 1\nguest 1000000\nhost 1000000 0\nbegin\n"
        self.assertEqual(self.place(trace, "refused 3 form"), "host")
        self.assertIn("order", self.mend(trace, "refused 3 form"))

    def test_missing_word(self) -> None:
        rows = self.explain(HEADER + b"0 0 in\nend\n", "refused 3 form")
        self.assertEqual(rows[1:3], ["line 3: 0 0 in", "              ^"])
        self.assertIn("expected: PORT", rows)

    def test_other_reasons(self) -> None:
        self.assertEqual(self.place(HEADER + b"0 9 step\n0 5 step\nend\n", "refused 4 fell 9"), "5")
        self.assertEqual(self.place(HEADER + b"3 9 step\nend\n", "refused 3 cpu"), "3")
        self.assertEqual(self.place(HEADER + b"0 9 rdmsr 4b564d03\nend\n", "refused 3 steal"), "4b564d03")

    def test_state(self) -> None:
        # Byte 8 of a saved state is its version's first; digits 16 and 17 spell it.
        trace = b"clockboard 1\nstate 434c4b424f4152440600\nbegin\n"
        self.assertEqual(self.place(trace, "refused 2 state 8"), "06")
        rows = self.explain(trace, "refused 2 state 8")
        self.assertEqual(rows[-1], "  byte 8 is in the field at 8: version; condition: 1 to 5")

    def test_block_of_a_state(self) -> None:
        # With one processor block 3 begins at 856, block 4 at 911, block 5 at 948.
        trace = b"clockboard 5\nstate 434c4b424f41524405000100" + 2 * 1008 * b"0" + b"\nbegin\n"
        for place, said in ((870, "block 3, local APIC timers, 55 bytes each: its byte 14"), (911, "block 4"), (948, "block 5")):
            self.assertIn(said, self.explain(trace, f"refused 2 state {place}")[-1])

    def test_nothing_refused(self) -> None:
        with tempfile.TemporaryDirectory() as folder:
            env = support.program_that_says(folder, "final 0 0 0 -\n")
            done = support.run("explain", "-", text="clockboard 1\nbegin\nend\n", env=env)
        self.assertEqual((done.returncode, done.stdout), (0, "final 0 0 0 -\n"))

    def test_page_is_marked(self) -> None:
        trace = b"clockboard 1\ncpus 2\nbegin\n1 0 page 2\nend\n"
        rows = self.explain(trace, "refused 4 cpu")
        self.assertEqual(rows[1:3], ["line 4: 1 0 page 2", "                 ^"])

    def test_gap_is_marked(self) -> None:
        trace = HEADER + b"0 0 move 1000000 0 576460752303423488\nend\n"
        self.assertEqual(self.place(trace, "refused 3 range 576460752303423488"), "576460752303423488")

    def test_row_of_a_line_out_of_form(self) -> None:
        # The row of `form` is long, and tells nothing where the place is marked.
        self.assertFalse([row for row in self.explain(HEADER + b"0 0 walk\nend\n", "refused 3 form") if "`form`" in row])


class Mistakes(unittest.TestCase):
    """What people write by mistake, with the program's own reasons."""

    @classmethod
    def setUpClass(cls) -> None:
        cls.tool = loaded(support.TOOLS / "explain")

    def test_each_has_its_mend(self) -> None:
        alone = mistakes.alone()
        for name, (trace, mend) in mistakes.table().items():
            with self.subTest(name):
                last = replay(trace).lines[-1]
                self.assertTrue(last.startswith("refused "), last)
                rows = self.tool.explanation(trace, last)
                mends = [row for row in rows if row.startswith("mend: ")]
                self.assertTrue(any(mend in row for row in mends), rows)
                if name in alone:
                    self.assertEqual(len(mends), 1, mends)

    def test_time_bytes_that_spell_no_time(self) -> None:
        # A trace takes each byte, so nothing is refused; what is odd is remarked.
        done = support.run("explain", "-", text="clockboard 1\nrtc 61 59 11 00 14 11 a3\nbegin\nend\n")
        self.assertEqual((done.returncode, done.stderr), (0, ""))
        self.assertEqual(done.stdout.splitlines()[1:], [
            "remark: line 2: 61 is no second, 00 is no day of the week, a3 is no year, by two decimal digits; any byte is "
            "taken, here and by clockboard_power_on of the C library, and the clock counts on from it"])

    def test_packed(self) -> None:
        with tempfile.TemporaryDirectory() as folder:
            trace = Path(folder) / "t.gz"
            trace.write_bytes(gzip.compress(b"clockboard 1\nbegin\n0 0 setp\nend\n"))
            done = support.run("explain", str(trace))
        self.assertEqual(done.returncode, 3)
        self.assertIn("is it `step`?", done.stdout)

    def test_no_mend_is_of_another_mistake(self) -> None:
        """What is refused for a port has nothing to do with marks, spaces or comments."""
        rows = self.tool.explanation(HEADER + b"0 0 in 3f8\nend\n", "refused 3 form")
        self.assertEqual([row for row in rows if row.startswith("mend: ")],
                         ["mend: the ports are 40, 41, 42, 43, 61, 70, 71; an access to another one is left out"])

    def test_missing_trace(self) -> None:
        done = support.run("explain", "/nowhere/t")
        self.assertEqual((done.returncode, done.stderr), (1, "explain: /nowhere/t: there is no such file\n"))


def loaded(path: Path) -> ModuleType:
    """A tool as a module."""
    loader = importlib.machinery.SourceFileLoader(path.name, str(path))
    module = importlib.util.module_from_spec(importlib.util.spec_from_loader(path.name, loader))
    loader.exec_module(module)
    return module


if __name__ == "__main__":
    unittest.main()
