# SPDX-License-Identifier: Apache-2.0 OR MIT
"""bin/clockboard, in a small tree of its own: which program it runs, and what it says."""

import hashlib
import os
import shutil
import signal
import subprocess
import tempfile
import time
import unittest
from pathlib import Path

import support

PATH = "/usr/bin:/bin"
"""A path without the kit's `rt`."""
NAME = "clockboard-x86_64-linux"
"""The released program."""
RT = """#!/bin/sh
[ "$1" = version ] && echo kit && exit
[ "$1" = doc ] && echo "$(dirname "$0")/START" && exit
mkdir -p out
printf '#!/bin/sh\\necho built\\n' > out/clockboard
chmod +x out/clockboard
cp out/clockboard out/clockboard.o
"""
LINKER = """#!/bin/sh
while [ "$#" -gt 0 ]; do
    case "$1" in -o) out="$2" ;; *clockboard.o) object="$1" ;; esac
    shift
done
sed s/built/linked/ "$object" > "$out"
chmod +x "$out"
"""


def put(path: Path, text: str) -> None:
    path.parent.mkdir(parents=True, exist_ok=True)
    path.write_text(text)
    path.chmod(0o755)


class Tree(unittest.TestCase):
    def setUp(self) -> None:
        folder = tempfile.TemporaryDirectory()
        self.addCleanup(folder.cleanup)
        self.top = Path(folder.name)
        shutil.copytree(support.TOP / "bin", self.top / "bin")
        (self.top / "crates.txt").write_text("clockboard:\n")
        (self.top / "HANDLES").write_text("Handles allowed: none.\n")
        self.edit("one")

    def edit(self, text: str) -> None:
        put(self.top / "crates/clockboard/src/main.rt", text)

    def run_it(self, *words: str, path: str = PATH, **env: str) -> tuple[int, str, str]:
        done = subprocess.run([self.top / "bin/clockboard", *words], capture_output=True, text=True, check=False,
                              stdin=subprocess.DEVNULL, env={**os.environ, "PATH": path, **env})
        return done.returncode, done.stdout, done.stderr

    def sum(self) -> str:
        return subprocess.run([self.top / "bin/run-crate", "--code", "clockboard"], capture_output=True, text=True,
                              check=True).stdout

    def build(self) -> None:
        put(self.top / "crates/clockboard/out/clockboard", "#!/bin/sh\necho own\n")
        (self.top / "crates/clockboard/out/clockboard.sources").write_text(self.sum())

    def release(self) -> None:
        text = "#!/bin/sh\necho released\n"
        put(self.top / "release" / NAME, text)
        digest = hashlib.sha256(text.encode()).hexdigest()
        (self.top / f"release/{NAME}.sha256").write_text(f"{digest}  {NAME}\n")
        (self.top / f"release/{NAME}.sources").write_text(self.sum())

    def path_with_rt(self) -> str:
        put(self.top / "kit/rt", RT)
        put(self.top / "kit/toolchain/bin/ld.lld", LINKER)
        return f"{self.top / 'kit'}:{PATH}"

    def test_built(self) -> None:
        self.build()
        self.release()
        self.assertEqual(self.run_it(), (0, "own\n", ""))

    def test_released(self) -> None:
        self.release()
        self.assertEqual(self.run_it(path=self.path_with_rt()), (0, "released\n", ""))

    def test_edited_is_built(self) -> None:
        self.build()
        self.release()
        self.edit("two")
        status, printed, said = self.run_it(path=self.path_with_rt())
        self.assertEqual((status, printed), (0, "built\n"))
        self.assertIn("building clockboard", said)
        self.assertEqual(self.run_it(), (0, "built\n", ""))

    def test_edited_without_rt(self) -> None:
        self.build()
        self.release()
        self.edit("two")
        status, printed, said = self.run_it()
        self.assertEqual((status, printed), (0, "released\n"))
        self.assertIn("the code was edited since", said)

    def test_released_on_demand(self) -> None:
        self.build()
        self.release()
        self.edit("two")
        status, printed, said = self.run_it(path=self.path_with_rt(), CLOCKBOARD_RELEASED="1")
        self.assertEqual((status, printed), (0, "released\n"))
        self.assertIn("the code was edited since", said)

    @unittest.skipUnless(shutil.which("gcc", path=PATH), "no gcc, which tells where the C library's archive is")
    def test_making_a_release(self) -> None:
        shutil.copytree(support.TOP / "tests", self.top / "tests", ignore=shutil.ignore_patterns("*.py", "logs"))
        env = {**os.environ, "PATH": self.path_with_rt()}

        def ends(script: str) -> tuple[int, str]:
            done = subprocess.run([self.top / script], capture_output=True, text=True, check=False, env=env)
            return done.returncode, done.stdout

        self.assertEqual(ends("tests/release")[0], 1)
        self.assertEqual(ends("bin/release")[0], 0)
        shutil.rmtree(self.top / "crates/clockboard/out")
        self.assertEqual(self.run_it(), (0, "linked\n", ""))
        status, printed = ends("tests/release")
        self.assertEqual((status, printed.splitlines()[-1]), (0, "release: the same, byte by byte"))
        kit = self.top / "release" / f"{NAME}.kit"
        self.assertEqual(kit.read_text(), "kit\n")
        kit.write_text("another kit\n")
        self.assertEqual(ends("tests/release")[0], 1)
        kit.write_text("kit\n")
        self.edit("two")
        self.assertEqual(ends("tests/release")[0], 1)

    def test_sum_of_the_code(self) -> None:
        env = {**os.environ, "PATH": self.path_with_rt()}

        def code() -> str:
            command = [self.top / "bin/run-crate", "--code", "clockboard"]
            return subprocess.run(command, capture_output=True, text=True, check=True, env=env).stdout

        first = code()
        put(self.top / "crates/clockboard/proofs/Lib.antt", "mod Rows\n")
        put(self.top / "crates/runner_tests/src/lib.rt", "one\n")
        self.assertEqual(code(), first)
        self.edit("two")
        self.assertNotEqual(code(), first)

    def test_comments_in_proofs_and_tests(self) -> None:
        self.release()
        put(self.top / "crates/clockboard/proofs/Rows.antt", "-- a comment\n")
        put(self.top / "crates/runner_tests/src/lib.rt", "// a comment\n")
        self.assertEqual(self.run_it(path=self.path_with_rt()), (0, "released\n", ""))

    def test_kept_sum(self) -> None:
        kept = self.top / "crates/clockboard/out/clockboard.code"
        old = time.time() - 100
        first = self.sum()
        self.assertFalse(kept.exists(), "kept although the sources were written just now")
        # What the kept sum is made of has a time that no program sets, so the test waits until it is two seconds old.
        time.sleep(2.2)
        self.assertEqual(self.sum(), first)
        self.assertEqual(kept.read_text().split("\n")[0] + "\n", first)
        # The same size and the same time of change: the sum is that of the new text all the same.
        main = self.top / "crates/clockboard/src/main.rt"
        stat = main.stat()
        self.edit("two")
        os.utime(main, ns=(stat.st_atime_ns, stat.st_mtime_ns))
        self.assertNotEqual(self.sum(), first)
        self.edit("one")
        os.utime(main, (old, old))
        self.assertEqual(self.sum(), first)

    def test_kept_sum_is_quick(self) -> None:
        self.release()
        time.sleep(2.2)
        self.run_it()
        spans = []
        for _ in range(5):
            begin = time.monotonic()
            self.assertEqual(self.run_it(), (0, "released\n", ""))
            spans.append(time.monotonic() - begin)
        # 50 ms on a machine that has nothing else to do; here others may run beside it
        self.assertLess(min(spans), 0.2)

    def test_help_builds_nothing(self) -> None:
        self.release()
        self.edit("two")
        for word in ("--help", "-h", "--version", "-V"):
            status, printed, said = self.run_it(word, path=self.path_with_rt())
            self.assertEqual((status, printed), (0, "released\n"))
            self.assertNotIn("building", said)
        self.assertFalse((self.top / "crates/clockboard/out/clockboard").exists())

    def test_help_of_each_script(self) -> None:
        for script in sorted((self.top / "bin").iterdir()):
            if script.name == "clockboard":
                continue
            done = subprocess.run([script, "--help"], capture_output=True, text=True, check=False,
                                  env={**os.environ, "PATH": self.path_with_rt()})
            self.assertEqual((done.returncode, done.stderr), (0, ""), script.name)
            self.assertIn(f"bin/{script.name} --help", done.stdout)
        self.assertFalse((self.top / "crates/clockboard/out/clockboard").exists())

    def test_unknown_words(self) -> None:
        for script in ("build", "release", "c-library", "install", "test"):
            done = subprocess.run([self.top / "bin" / script, "helf"], capture_output=True, text=True, check=False,
                                  env={**os.environ, "PATH": self.path_with_rt()})
            self.assertEqual((done.returncode, done.stdout), (2, ""), script)
            self.assertIn(f"bin/{script} --help", done.stderr)
        self.assertFalse((self.top / "crates/clockboard/out/clockboard").exists())

    def stubs(self) -> None:
        """Tests that pass, but one, and one that leaves something out, in the places of those that bin/test runs."""
        (self.top / "crates.txt").write_text("clockboard:\nclockboard_c staticlib:\n")
        put(self.top / "crates/clockboard_c/src/lib.rt", "one\n")
        self.release()
        archive = self.top / "release/libclockboard-x86_64-linux.a.sources"
        archive.write_text(subprocess.run([self.top / "bin/run-crate", "--code", "clockboard_c"], capture_output=True, text=True,
                                          check=True).stdout)
        for name in ("definitions", "hostile", "examples", "documents", "believe", "test_fails.py"):
            put(self.top / "tests" / name, "#!/bin/sh\n")
        put(self.top / "tests/c-library", "#!/bin/sh\necho 'skipped: a step (no clang)'\n")
        put(self.top / "tests/run", "#!/bin/sh\n[ \"$2\" != test_fails ] || { echo why; exit 1; }\n"
                                    "[ \"$2\" != test_page ] || echo \"test_x (m.T.test_x) ... skipped 'no browser'\"\n")

    def ended(self, **env: str) -> tuple[int, list[str], str]:
        done = subprocess.run([self.top / "bin/test"], capture_output=True, text=True, check=False, env={**os.environ, "PATH": PATH, **env})
        return done.returncode, done.stdout.splitlines(), done.stderr

    @unittest.skipUnless(shutil.which("gcc", path=PATH) and shutil.which("cc", path=PATH), "no gcc")
    def test_without_rt(self) -> None:
        self.stubs()
        status, printed, said = self.ended()
        self.assertEqual((status, said), (1, ""))
        self.assertEqual(printed[-1], "12 passed, 1 failed; left out: the proofs and must-fail edits (no rt); "
                                      "test_page: no browser; the library for C, C++ and Rust: a step (no clang)")
        self.assertEqual(printed[-2], "why")

    def test_with_rt(self) -> None:
        self.stubs()
        put(self.top / ".ci/run", "#!/bin/sh\necho the gate\n")
        self.assertEqual(self.ended(PATH=self.path_with_rt()), (0, ["the gate"], ""))

    def test_without_a_whole_program(self) -> None:
        self.stubs()
        put(self.top / "release" / NAME, "another")
        status, printed, said = self.ended()
        self.assertEqual((status, printed), (1, []))
        self.assertIn("no whole program", said)

    def released_that_ends(self, status: int) -> None:
        """A released program that prints its words and ends so."""
        shutil.copytree(support.TOOLS / "clocktools", self.top / "tools/clocktools", ignore=shutil.ignore_patterns("__pycache__"))
        self.release()
        text = f"#!/bin/sh\necho released\nexit {status}\n"
        put(self.top / "release" / NAME, text)
        (self.top / f"release/{NAME}.sha256").write_text(f"{hashlib.sha256(text.encode()).hexdigest()}  {NAME}\n")

    def test_words_that_are_no_command(self) -> None:
        self.released_that_ends(2)
        trace = self.top / "t.trace"
        trace.write_text("clockboard 1\n")
        for words, why in (
                ((), "a job is missing: replay, race, gen, soak or state"),
                (("rpelay",), "'rpelay' is no job, which is one of replay, race, gen, soak, state; is it replay?"),
                (("--hlep",), "'--hlep' is no option; is it --help?"),
                (("replay", "--sate"), "'--sate' is no option of replay; is it --state?"),
                (("replay", "--state", "--state"), "--state stands twice; once is enough"),
                (("race", "--json"), "--json is a word of replay alone"),
                (("race", str(trace)), f"'{trace}' is one word too many: race reads its trace from standard input: "
                                       f"bin/clockboard race < {trace}"),
                (("gen", "1", "2"), "CPUS is missing: gen KEY RECORDS CPUS"),
                (("gen", "1", "200001", "1"), "RECORDS is a number from 0 to 200000, and 200001 is out of that"),
                (("soak", "x", "1", "1"), "KEY is a number from 0 to 18446744073709551615, and 'x' is none"),
                (("soak", "1", "1", "1", "1"), "'1' is one word too many: soak KEY RECORDS CPUS"),
                (("gen", "--state"), "'--state' is no option of gen")):
            with self.subTest(words):
                self.assertEqual(self.run_it(*words), (2, "released\n", f"clockboard: {why}; bin/clockboard --help has all words\n"))

    def test_ends_that_fail(self) -> None:
        for status, said in ((4, "no trace came from standard input, as reading it failed"), (5, "standard output took no more"),
                             (6, "memory ran out"), (11, "word 2, $'\\377', isn't UTF-8")):
            with self.subTest(status):
                shutil.rmtree(self.top / "tools", ignore_errors=True)
                self.released_that_ends(status)
                done = subprocess.run([self.top / "bin/clockboard", "replay", b"\xff"], capture_output=True, check=False, stdin=subprocess.DEVNULL,
                                      env={**os.environ, "PATH": PATH})
                self.assertEqual((done.returncode, done.stdout), (status, b"released\n"))
                self.assertIn(f"clockboard: {said}", done.stderr.decode())
                self.assertEqual(done.stderr.count(b"\n"), 1)

    def test_input_that_is_no_file(self) -> None:
        self.released_that_ends(4)
        for redirected, said in (("< /", "it is a directory"), ("<&-", "it is closed")):
            done = subprocess.run(["sh", "-c", f"exec bin/clockboard replay {redirected}"], cwd=self.top, capture_output=True, text=True, check=False,
                                  env={**os.environ, "PATH": PATH})
            self.assertEqual((done.returncode, done.stdout), (4, "released\n"))
            self.assertIn(f"no trace came from standard input, as {said}", done.stderr)

    def test_a_run_that_is_stopped(self) -> None:
        # What ends the script ends the program too, and the status says so; here also where the tests run in the background, which
        # ignores SIGINT.
        self.release()
        text = "#!/bin/sh\necho begun\nexec sleep 60\n"
        put(self.top / "release" / NAME, text)
        (self.top / f"release/{NAME}.sha256").write_text(f"{hashlib.sha256(text.encode()).hexdigest()}  {NAME}\n")
        for number in (signal.SIGTERM, signal.SIGINT):
            with subprocess.Popen([self.top / "bin/clockboard", "replay"], stdout=subprocess.PIPE, stdin=subprocess.DEVNULL,
                                  start_new_session=True, env={**os.environ, "PATH": PATH},
                                  preexec_fn=lambda: signal.signal(signal.SIGINT, signal.SIG_DFL)) as run:
                assert run.stdout
                self.assertEqual(run.stdout.readline(), b"begun\n")
                os.killpg(run.pid, number) if number == signal.SIGINT else run.send_signal(number)
                self.assertEqual(run.wait(), 128 + number)
                self.assertEqual(run.stdout.read(), b"")

    def test_wrong_checksum(self) -> None:
        self.release()
        put(self.top / "release" / NAME, "#!/bin/sh\necho other\n")
        status, printed, said = self.run_it()
        self.assertEqual((status, printed), (1, ""))
        self.assertIn("no whole one in release/", said)


if __name__ == "__main__":
    unittest.main()
