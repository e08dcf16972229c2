# SPDX-License-Identifier: Apache-2.0 OR MIT
"""What a user sees where standard input or standard output fails: docs/FAILURES.md, 'What a user sees'."""

import os
import subprocess
import unittest

import support

PROGRAM = os.environ.get("CLOCKBOARD", str(support.TOP / "release/clockboard-x86_64-linux"))
TRACE = support.TOP / "examples/first-rise.trace"
COMMANDS = (("replay",), ("race",), ("gen", "1", "1", "1"), ("soak", "1", "1", "1"), ("--help",), ("no", "command"))


class Failures(unittest.TestCase):
    def end(self, redirected: str, *words: str) -> tuple[int, str, str]:
        """How the program ends and what it says on both streams, with these redirections of the shell's."""
        command = ["sh", "-c", f'exec "$@" {redirected}', "sh", PROGRAM, *words]
        done = subprocess.run(command, stdin=subprocess.DEVNULL, capture_output=True, text=True, check=False)
        return done.returncode, done.stdout, done.stderr

    def test_input_that_fails(self) -> None:
        for name, redirected in (("a directory", "< /"), ("closed", "<&-"), ("open for writing alone", "0> /dev/null")):
            for job in ("replay", "race"):
                with self.subTest(name, job=job):
                    self.assertEqual(self.end(redirected, job), (4, "fault source\n", ""))

    def test_input_that_isnt_read(self) -> None:
        self.assertEqual(self.end("<&-", "soak", "1", "1", "1"), (0, "soak 1 0 34774 0\n", ""))

    def test_output_that_fails(self) -> None:
        for name, redirected in (("a full disk", "> /dev/full"), ("closed", ">&-"), ("open for reading alone", "1< /dev/null")):
            for words in COMMANDS:
                with self.subTest(name, words=words):
                    self.assertEqual(self.end(f"{redirected} < '{TRACE}'", *words), (5, "", ""))

    def test_both_fail(self) -> None:
        self.assertEqual(self.end("< / > /dev/full", "replay"), (5, "", ""))

    def test_a_reader_that_leaves(self) -> None:
        command = [PROGRAM, "gen", "1", "200000", "16"]
        with subprocess.Popen(command, stdout=subprocess.PIPE, stderr=subprocess.PIPE, text=True) as program:
            self.assertEqual(program.stdout.readline(), "clockboard 1\n")
            program.stdout.close()
            self.assertEqual((program.wait(), program.stderr.read()), (5, ""))

    def test_an_input_that_ends_early(self) -> None:
        self.assertEqual(self.end("< /dev/null", "replay"), (3, "refused 1 noend\n", ""))

    def test_words_that_arent_text(self) -> None:
        done = subprocess.run([PROGRAM, b"replay", b"\xff"], stdin=subprocess.DEVNULL, capture_output=True, check=False)
        self.assertEqual((done.returncode, done.stdout, done.stderr), (11, b"", b""))


if __name__ == "__main__":
    unittest.main()
