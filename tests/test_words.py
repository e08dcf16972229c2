# SPDX-License-Identifier: Apache-2.0 OR MIT
"""The words of the scripts in tools/: each mistake is one line on standard error, with the word at fault, what was expected and
the nearest right word, and a status; nothing is printed, and there is no traceback."""

import os
import subprocess
import tempfile
import unittest
from pathlib import Path

import support

TOOLS = ("compare", "diagram", "explain", "import", "kvm-record", "page", "replay", "state", "summary", "wave")
TRACE = str(support.TOP / "examples/first-rise.trace")
PRINTED = str(support.TOP / "examples/first-rise.out")
MISTAKES = (
    ("compare", (), "TRACE is missing; it takes TRACE PEER"),
    ("compare", ("--nera", "5", "t"), "'--nera' is no option; is it --near?"),
    ("compare", ("--near", "-5", "t"), "--near: -5 is below 0, the least number of nanoseconds"),
    ("compare", ("--near", "5us", "t"), "--near: '5us' isn't a number of nanoseconds: digits alone are"),
    ("compare", ("t", "--near"), "--near is to have NS after it"),
    ("compare", ("a", "b", "c"), "'c' is one word too many; it takes TRACE PEER"),
    ("diagram", ("--width", "10"), "--width: 10 is below 40, the least number of characters"),
    ("diagram", ("--from", "9", "--to", "5"), "--from 9 is after --to 5"),
    ("diagram", ("--scal", "9"), "'--scal' is no option; is it --scale?"),
    ("explain", (), "TRACE is missing; it takes TRACE"),
    ("import", ("qmeu", "l", "o"), "'qmeu' is none of qemu, kvm; is it qemu?"),
    ("import", ("qemu", "l"), "OUT is missing; it takes qemu|kvm LOG OUT"),
    ("import", ("kvm", "l", "o", "--host-khz", "5"), "--host-khz: 5 is below 100000, the least rate in kHz"),
    ("import", ("qemu", "l", "o", "--rtc", "noon"), "--rtc: 'noon' is neither SEC[.NSEC] nor YYYY-MM-DDTHH:MM:SS"),
    ("import", ("qemu", "l", "o", "--policy", "drop", "delay", "delay"), "'drop' is none of discard, delay, slew"),
    ("kvm-record", ("out",), "COMMAND is missing; it takes OUT COMMAND"),
    ("page", (), "TRACE is missing; it takes TRACE"),
    ("page", ("--form", "5", TRACE), "'--form' is no option; is it --from?"),
    ("replay", ("--jsno",), "'--jsno' is no option; is it --json?"),
    ("replay", ("--json", "--assert", "x"), "--json and --assert don't go together"),
    ("replay", ("-", "--assert", "-"), "TRACE and EXPECTED can't both be standard input"),
    ("state", ("pirnt", "-"), "'pirnt' is none of print, diff, set, what-if, from, to; is it print?"),
    ("state print", ("-", "--jsno"), "'--jsno' is no option; is it --json?"),
    ("state set", ("-", "rtc.sec"), "NAME=VALUE: 'rtc.sec' isn't NAME=VALUE"),
    ("state what-if", ("-", "--khz", "5"), "--gap is missing; it takes STATE"),
    ("state what-if", ("-", "--khz", "5", "--gap", "5", "--policy", "delay"), "--policy is to have PIT RTC HPET after it"),
    ("state from", ("qmeu", "s"), "'qmeu' is none of qemu, kvm; is it qemu?"),
    ("state to kvm", ("-",), "FOLDER is missing; it takes STATE FOLDER"),
    ("summary", (), "RESULT is missing; it takes RESULT"),
    ("wave", ("-t", "-"), "TRACE and PRINTED can't both be standard input"),
)
"""By tool, and by its job: the words, and what is said of them."""
FILES = (("compare", ("{}", "{}"), 2), ("diagram", ("{}",), 1), ("explain", ("{}",), 1), ("import", ("qemu", "{}", "{}.out"), 1), ("page", ("{}",), 1),
         ("replay", ("{}",), 2), ("state", ("print", "{}"), 2), ("wave", ("{}",), 1))
"""The tools that read a file, with their words, and their status where it can't be read."""


class Words(unittest.TestCase):
    def test_mistakes(self) -> None:
        for tool, words, said in MISTAKES:
            with self.subTest(tool, words=words):
                name, *jobs = tool.split()
                done = support.run(name, *jobs, *words)
                self.assertEqual((done.returncode, done.stdout), (2, ""))
                self.assertEqual(done.stderr, f"{name}: {said}; tools/{tool} --help has all words\n")

    def test_help_and_version(self) -> None:
        for tool in TOOLS:
            done = support.run(tool, "--help")
            self.assertEqual((done.returncode, done.stderr), (0, ""), tool)
            self.assertIn("\nExample:\n\n    ", done.stdout, tool)
            done = support.run(tool, "--version")
            self.assertRegex(done.stdout, rf"^{tool} of clockboard [0-9.]+\n$")

    def test_each_tool_is_here(self) -> None:
        scripts = {path.name for path in support.TOOLS.iterdir() if path.is_file() and path.suffix != ".md"}
        self.assertEqual(scripts, set(TOOLS))


class Files(unittest.TestCase):
    def setUp(self) -> None:
        folder = tempfile.TemporaryDirectory()
        self.addCleanup(folder.cleanup)
        self.folder = Path(folder.name)

    def ends(self, tool: str, words: tuple[str, ...], path: str) -> str:
        """What is said of a file that can't be read."""
        done = support.run(tool, *(word.replace("{}", path) for word in words))
        self.assertEqual((done.returncode, done.stdout), (next(status for name, _, status in FILES if name == tool), ""), tool)
        self.assertEqual(done.stderr.count("\n"), 1, done.stderr)
        return done.stderr

    def test_no_file(self) -> None:
        (self.folder / "guest.trace").write_text("clockboard 1\n")
        path = self.folder / "guest.tarce"
        for tool, words, _ in FILES:
            self.assertEqual(self.ends(tool, words, str(path)), f"{tool}: {path}: there is no such file; is it {self.folder}/guest.trace?\n")

    def test_a_directory(self) -> None:
        path = self.folder / "folder"
        path.mkdir()
        for tool, words, _ in FILES:
            self.assertEqual(self.ends(tool, words, str(path)), f"{tool}: {path}: it is a directory, and a file is wanted\n")

    def test_a_name_that_isnt_utf_8(self) -> None:
        name = os.fsdecode(os.fsencode(self.folder) + b"/\xff")
        for tool, words, _ in FILES:
            self.assertIn(f"{self.folder}/\\xff: there is no such file", self.ends(tool, words, name))

    def test_broken_gzip(self) -> None:
        path = self.folder / "t.gz"
        path.write_bytes(b"\x1f\x8b\x08\x00broken")
        for tool, words, _ in FILES:
            self.assertIn(f"{tool}: {path}: its gzip data are broken: ", self.ends(tool, words, str(path)))


class Output(unittest.TestCase):
    """A full disk, and an output that is closed, are told in one line, with status 2."""

    COMMANDS = (("replay", TRACE), ("replay", TRACE, "--json"), ("page", TRACE), ("wave", PRINTED), ("diagram", PRINTED), ("explain", TRACE),
                ("summary", PRINTED), ("compare", "--help"))

    def end(self, redirected: str, tool: str, *words: str) -> tuple[int, str, str]:
        command = ["sh", "-c", f'exec "$@" {redirected}', "sh", str(support.TOOLS / tool), *words]
        done = subprocess.run(command, stdin=subprocess.DEVNULL, capture_output=True, text=True, check=False)
        return done.returncode, done.stdout, done.stderr

    def test_a_full_disk(self) -> None:
        for tool, *words in self.COMMANDS:
            with self.subTest(tool, words=words):
                self.assertEqual(self.end("> /dev/full", tool, *words), (
                    2, "", f"{tool}: its standard output takes no more: No space left on device\n"))

    def test_closed(self) -> None:
        for tool, *words in self.COMMANDS:
            with self.subTest(tool, words=words):
                self.assertEqual(self.end(">&-", tool, *words), (2, "", f"{tool}: its standard output is closed\n"))

    def test_no_input(self) -> None:
        for tool, *words in (("explain", "-"), ("replay",), ("wave",)):
            status, printed, said = self.end("<&-", tool, *words)
            self.assertEqual((printed, said), ("", f"{tool}: standard input is closed, and a file is wanted there\n"))
            self.assertGreater(status, 0)


if __name__ == "__main__":
    unittest.main()
