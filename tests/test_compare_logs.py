# SPDX-License-Identifier: Apache-2.0 OR MIT
"""tools/compare on recorded logs of Linux under QEMU 7.2, all of whose differences are known, and with faults that are planted in
them; and on traces that a board recorded."""

import subprocess
import sys
import unittest

import support
from test_compare import Folder

PLANTED = {
    "in 42": 0x40, "in 61": 0x02, "in 70": 0x20, "hr 0 4": 1 << 13, "hr 10 4": 1 << 1, "hr f0 4": 1 << 20,
    "hr 100 4": 1 << 2, "hr 120 4": 1 << 8, "hr 148 4": 1 << 31,
}
"""A bit for a read of each register of the recorded log, and below by the MC146818's index. None is one that a row
explains."""
PLANTED_RTC = {0x00: 0x20, 0x01: 0x01, 0x02: 0x04, 0x03: 0x01, 0x04: 0x10, 0x05: 0x01, 0x07: 0x02, 0x08: 0x01, 0x09: 0x80,
               0x0A: 0x40, 0x0B: 0x04, 0x0C: 0x20, 0x0D: 0x01, 0x0F: 0x80, 0x32: 0x40}


class Recorded(Folder):
    """Linux 6.1 on 4 processors of a q35, under QEMU 7.2."""

    def setUp(self) -> None:
        super().setUp()
        done = support.run("import", "qemu", str(support.LOGS / "linux-4-cpus.log.gz"), str(self.trace))
        self.assertEqual(done.returncode, 0, done.stderr)

    def test_all_is_known(self) -> None:
        found = self.found()
        self.assertEqual(found["status"], 0)
        self.assertEqual(found["registers"]["HPET main counter"],
                         {"same": 470, "near": 13112, "known": 0, "unexplained": 0})
        self.assertEqual({one["known"]["name"] for one in found["differences"]},
                         {"refresh", "divider", "century", "firmware", "route", "periodic-flag", "comparator"})

    def test_planted_bits(self) -> None:
        # In the second half of the trace, where all differences are known, a bit of the last read of each register.
        records = self.trace.read_text().splitlines()
        index, last = -1, {}
        for line, text in enumerate(records, 1):
            words = text.split(" ", 2)[-1]
            if words.startswith("out 70"):
                index = int(words[-2:], 16) & 0x7F
            last[words if words != "in 71" else index] = line
        wanted = {last[where]: bit for where, bit in {**PLANTED, **PLANTED_RTC}.items()}
        answers = []
        for text in self.peer.read_text().splitlines():
            words = text.split(" ")
            if words[0].isdigit() and int(words[0]) in wanted:
                words[1] = f"{int(words[1], 16) ^ wanted[int(words[0])]:0{len(words[1])}x}"
            answers.append(" ".join(words))
        self.peer.write_text("\n".join(answers) + "\n")
        found = self.found("--all")
        self.assertEqual(found["status"], 1)
        shown = {one["line"] for kind in found["differences"] if not kind["known"] for one in kind["samples"]}
        self.assertEqual(shown, set(wanted))
        self.assertEqual(len(wanted), len(PLANTED) + len(PLANTED_RTC))

    def test_planted_out_2(self) -> None:
        # 50 wrong OUT 2 bits among the 9,619 differences of bit 4 are kept apart.
        lines = self.peer.read_text().splitlines()
        reads = {str(line) for line, text in enumerate(self.trace.read_text().splitlines(), 1) if text.endswith(" in 61")}
        places = [at for at, text in enumerate(lines) if text.split(" ")[0] in reads][100:5100:100]
        for at in places:
            line, value, within = lines[at].split(" ")
            lines[at] = f"{line} {int(value, 16) ^ 0x20:02x} {within}"
        self.peer.write_text("\n".join(lines) + "\n")
        found = self.found()
        kinds = {(one["register"], one["what"]): one["count"] for one in found["differences"] if not one["known"]}
        self.assertEqual(kinds, {("port 61h", "bit 5"): 50})


class Loaded(Folder):
    """Linux 6.1 without HPET and APIC on a machine with more work than processors, which takes QEMU's processor away between the
    log's line of a write and the write itself."""

    def setUp(self) -> None:
        super().setUp()
        done = support.run("import", "qemu", str(support.LOGS / "linux-loaded.log.gz"), str(self.trace))
        self.assertEqual(done.returncode, 0, done.stderr)
        self.records = [line.split(" ") for line in self.trace.read_text().splitlines()]
        self.answers = {int(words[0]): words[1:] for line in self.peer.read_text().splitlines()
                        if (words := line.split(" "))[0].isdigit()}

    def unexplained(self, answers: dict[int, list[str]]) -> list[tuple[str, int]]:
        """By register and line, each difference that isn't explained."""
        self.peer.write_text("".join(f"{line} {' '.join(words)}\n" for line, words in answers.items()))
        return sorted((kind["register"], one["line"]) for kind in self.found("--all")["differences"] if not kind["known"]
                      for one in kind["samples"])

    def test_all_is_known(self) -> None:
        self.assertEqual(self.unexplained(self.answers), [])

    def test_a_write_acts_later_than_it_is_logged(self) -> None:
        # As if each write acted where it is logged, OUT 2 would differ while a calibration waits for it.
        at_once = {line: ["+4000"] if len(words) == 1 and words[0].startswith("+") else words for line, words in self.answers.items()}
        self.assertEqual({register for register, _ in self.unexplained(at_once)}, {"port 61h"})

    def reads(self, words: list[str], index: int = -1) -> list[int]:
        """The lines of the reads of a port, or of a byte of the MC146818."""
        found, selected = [], -1
        for line, record in enumerate(self.records, 1):
            if record[2:4] == ["out", "70"]:
                selected = int(record[4], 16) & 0x7F
            elif record[2:] == words and (index < 0 or selected == index):
                found.append(line)
        return found

    def test_planted_faults(self) -> None:
        # A count of the 8254 off by 64; OUT 2 the other way, amid a hundred reads of one level; a second twelve later; bits of
        # registers A, B and C; a minute ten later.
        out_2 = self.reads(["in", "61"])
        levels = [int(self.answers[line][0], 16) & 0x20 for line in out_2]
        steady = next(at for at in range(len(levels) - 50, 50, -1) if len({*levels[at - 50 : at + 50]}) == 1)
        faults = [(self.reads(["in", "42"]), 0x40), ([out_2[steady]], 0x20)]
        faults += [(self.reads(["in", "71"], index), bit) for index, bit in ((0, 0x10), (2, 0x10), (0xA, 0x10), (0xB, 4), (0xC, 0x20))]
        wanted = {lines[len(lines) * 3 // 4]: bit for lines, bit in faults}
        answers = dict(self.answers)
        for line, bit in wanted.items():
            value, *within = answers[line]
            answers[line] = [f"{int(value, 16) ^ bit:02x}", *within]
        self.assertEqual({line for _, line in self.unexplained(answers)}, set(wanted))
        self.assertEqual(len(wanted), 7)


def recorded(name: str) -> list[str]:
    """An example as the device in qemu/ would have recorded it: after each record what is printed for it, by its own line."""
    lines: list[str] = []
    printed = (support.TOP / f"examples/{name}.out").read_text().splitlines()
    for number, record in enumerate((support.TOP / f"examples/{name}.trace").read_text().splitlines(), 1):
        lines.append(record)
        line = str(len(lines))
        end = next((at for at, text in enumerate(printed) if text.split(" ")[0] == str(number)), -1)
        for text in printed[: end + 1]:
            words = text.split(" ")
            lines.append("# > " + (" ".join([line, *words[1:]]) if words[0].isdecimal() else text))
        printed = printed[end + 1 :]
    return lines


class RecordedByABoard(Folder):
    """A trace whose comments have what its guest got."""

    def compare(self, lines: list[str]) -> tuple[int, list[str], str]:
        self.trace.write_text("\n".join(lines) + "\n")
        done = support.run("compare", str(self.trace))
        return done.returncode, done.stdout.splitlines(), done.stderr

    def test_the_same(self) -> None:
        for name in ("boot", "hpet-messages", "migration", "tickless"):
            status, printed, said = self.compare(recorded(name))
            self.assertEqual((status, printed[0], said), (0, "compared with the trace's own comments", ""), name)
        self.assertIn("edges of line 0                         2            0            0            0", self.compare(recorded("boot"))[1])

    def planted(self, name: str, old: str, new: str) -> list[str]:
        """The unexplained differences where one comment says otherwise."""
        lines = recorded(name)
        at = next(at for at, line in enumerate(lines) if line.startswith("# > ") and line.endswith(old))
        lines[at : at + 1] = [lines[at].removesuffix(old) + new] if new else ["# nothing"]
        status, printed, said = self.compare(lines)
        self.assertEqual((status, said), (1, ""))
        return [line for line in printed if line.startswith("unexplained")]

    def test_another_value(self) -> None:
        self.assertEqual(self.planted("first-rise", " 5 04", " 5 05"), ["unexplained: 8254 counter 0, bit 0: 1"])

    def test_another_number(self) -> None:
        self.assertEqual(self.planted("first-rise", " 2", " 3"), ["unexplained: number of the access, value: 1"])

    def test_another_edge(self) -> None:
        self.assertEqual(self.planted("first-rise", "edge 4191 0 up", "edge 4192 0 up"), ["unexplained: edges of line 0, an edge: 2"])
        self.assertEqual(self.planted("first-rise", "edge 4191 0 up", ""), ["unexplained: edges of line 0, an edge: 1"])

    def test_another_message(self) -> None:
        event = next(line for line in recorded("hpet-messages") if line.startswith("# > msg "))
        timer = event.split(" ")[4]
        self.assertEqual(self.planted("hpet-messages", event[4:], event[4:] + "7"), [
            f"unexplained: messages of timer {timer}, a message: 2"])

    def test_comments_that_dont_fit(self) -> None:
        lines = recorded("first-rise")
        at = next(at for at, line in enumerate(lines) if line.endswith(" step"))
        status, printed, said = self.compare([*lines[:at], "# a comment", *lines[at:]])
        self.assertEqual((status, printed), (2, []))
        self.assertIn(f"don't say what the guest got at line {at + 2}", said)

    def test_no_answers(self) -> None:
        status, printed, said = self.compare((support.TOP / "examples/boot.trace").read_text().splitlines())
        self.assertEqual((status, printed), (2, []))
        self.assertIn("has no answers to compare with: there is no ", said)
        self.assertIn("tools/import writes beside a trace", said)


class Large(Folder):
    def test_memory_is_that_of_a_short_trace(self) -> None:
        used = []
        for records in (1000, 100000):
            lines = "".join(f"0 {2000 * at} in 61\n" for at in range(records))
            self.put(f"clockboard 1\nbegin\n{lines}end\n", "".join(f"{3 + at} 00\n" for at in range(records)))
            command = [str(support.TOOLS / "compare"), str(self.trace)]
            used.append(int(subprocess.check_output([sys.executable, "-c", support.MEMORY, *command])))
        self.assertLess(used[1] - used[0], 1536)


if __name__ == "__main__":
    unittest.main()
