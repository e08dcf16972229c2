# SPDX-License-Identifier: Apache-2.0 OR MIT
"""Many traces: tools/summary, and docs/FLEETS.md's line for GNU parallel."""

import json
import os
import shutil
import signal
import subprocess
import tempfile
import time
import unittest
from pathlib import Path

import support

PARALLEL = shutil.which("parallel")
PROGRAM = support.program()
TRACES = 24
LINE = "parallel --joblog joblog --resume 'tools/compare --json {} > {}.json' :::: list"


def put_trace(path: Path, key: int) -> None:
    """A generated trace, and as its peer another run of the program."""
    trace = subprocess.run([PROGRAM, "gen", str(key), "50", "2"], capture_output=True, check=True).stdout
    said = subprocess.run([PROGRAM, "replay"], input=trace, capture_output=True, check=True, text=False).stdout.decode()
    path.write_bytes(trace)
    answers = [line.split(" ") for line in said.splitlines() if line[0].isdigit()]
    path.with_name(path.name + ".peer").write_text(
        "".join(f"{words[0]} {words[2]}\n" for words in answers if len(words) == 3))


class Folder(unittest.TestCase):
    def setUp(self) -> None:
        folder = tempfile.TemporaryDirectory()
        self.addCleanup(folder.cleanup)
        self.folder = Path(folder.name)


class Summary(Folder):
    def put(self, name: str, **told: object) -> None:
        whole = {"trace": name, "status": 0, "refused": None, "differences": [], **told}
        (self.folder / f"{name}.json").write_text(json.dumps(whole))

    def difference(self, register: str, what: str, count: int, row: str | None = None) -> dict[str, object]:
        return {"register": register, "what": what, "count": count, "known": row and {"name": row}}

    def summary(self) -> tuple[int, list[str]]:
        done = support.run("summary", str(self.folder))
        self.assertEqual(done.stderr, "")
        return done.returncode, done.stdout.splitlines()

    def test_differences(self) -> None:
        refresh = self.difference("port 61h", "bit 4", 10, "refresh")
        self.put("a", differences=[refresh, self.difference("port 61h", "bit 4", 5, "refresh")])
        self.put("b", status=1, differences=[refresh, self.difference("port 61h", "bit 5", 2)])
        status, lines = self.summary()
        self.assertEqual(status, 1)
        self.assertEqual(lines[0], "2 traces: 1 with no difference that is unexplained, 1 with some, 0 refused, "
                         "0 without a result")
        self.assertEqual([" ".join(line.split()) for line in lines[1:]], [
            "unexplained:", "traces count what", "1 2 port 61h, bit 5: b",
            "known:", "traces count what", "2 25 port 61h, bit 4, refresh: a, b"])

    def test_refused_and_unreadable(self) -> None:
        self.put("a", status=3, refused="refused 5 form")
        self.put("b", status=3, refused="refused 7 fell 12")
        self.put("c", status=3, refused="refused 9 form")
        (self.folder / "cut.json").write_text('{"trace": ')
        (self.folder / "other.json").write_text("[]")
        status, lines = self.summary()
        self.assertEqual(status, 3)
        self.assertEqual(lines[0], "5 traces: 0 with no difference that is unexplained, 0 with some, 3 refused, "
                         "2 without a result")
        told = [" ".join(line.split()) for line in lines]
        self.assertIn("2 2 form: a (refused 5 form), c (refused 9 form)", told)
        self.assertIn("1 1 fell: b (refused 7 fell 12)", told)

    def test_more_than_are_named(self) -> None:
        for number in range(5):
            self.put(f"t{number}", differences=[self.difference("port 61h", "bit 4", 1, "refresh")])
        self.assertIn("t0, t1, t2 and 2 more", self.summary()[1][-1])

    def test_no_such_file(self) -> None:
        done = support.run("summary", "/no/such/file")
        self.assertEqual(done.returncode, 2)
        self.assertIn("No such file or directory: /no/such/file", done.stdout)


@unittest.skipUnless(PARALLEL, "GNU parallel isn't installed")
class Parallel(Folder):
    def setUp(self) -> None:
        super().setUp()
        (self.folder / "tools").symlink_to(support.TOOLS)
        traces = self.folder / "traces"
        traces.mkdir()
        self.names = [f"traces/{number}.trace" for number in range(TRACES)]
        for key, name in enumerate(self.names):
            put_trace(self.folder / name, key)
        (self.folder / self.names[-2]).write_text("clockboard 1\nbegin\n0 0 in 44\nend\n")
        done = support.run("import", "qemu", str(support.LOGS / "seabios-tcg.log"), str(self.folder / self.names[5]))
        self.assertEqual(done.returncode, 0)
        (self.folder / "list").write_text("\n".join(self.names) + "\n")

    def start(self) -> "subprocess.Popen[bytes]":
        environment = {**os.environ, "CLOCKBOARD": PROGRAM, "PYTHONDONTWRITEBYTECODE": "1"}
        return subprocess.Popen(["bash", "-c", f"exec {LINE}"], cwd=self.folder, env=environment, start_new_session=True,
                                stdout=subprocess.DEVNULL, stderr=subprocess.DEVNULL)

    def done(self) -> list[str]:
        """The traces that the log of jobs has."""
        log = self.folder / "joblog"
        return [line.split("\t")[8].split(" ")[2] for line in log.read_text().splitlines()[1:]] if log.exists() else []

    def test_cut_off_and_gone_on_with(self) -> None:
        self.assertIn(LINE, (support.TOP / "docs" / "FLEETS.md").read_text())
        with self.start() as first:
            while len(self.done()) < 8 and first.poll() is None:
                time.sleep(0.02)
            os.killpg(first.pid, signal.SIGKILL)
        before = self.done()
        self.assertLess(len(before), TRACES)
        with self.start() as second:
            self.assertEqual(second.wait(), 1)
        self.assertEqual(sorted(self.done()), sorted(self.names))
        self.assertEqual(self.done()[: len(before)], before)
        told = support.run("summary", str(self.folder / "traces"))
        self.assertEqual(told.returncode, 3)
        self.assertEqual(told.stdout.splitlines()[0], f"{TRACES} traces: {TRACES - 1} with no difference that is "
                         "unexplained, 0 with some, 1 refused, 0 without a result")
        self.assertIn(f"form: {self.names[-2]} (refused 3 form)", told.stdout)


if __name__ == "__main__":
    unittest.main()
