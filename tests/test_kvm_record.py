# SPDX-License-Identifier: Apache-2.0 OR MIT
"""tools/kvm-record, with a folder in the place of an ftrace instance.

That the kernel takes what is put isn't tested here.
"""

import contextlib
import io
import tempfile
import unittest
from importlib.machinery import SourceFileLoader
from importlib.util import module_from_spec, spec_from_loader
from pathlib import Path
from types import ModuleType
from unittest import mock

import support


def loaded() -> ModuleType:
    loader = SourceFileLoader("kvm_record", str(support.TOOLS / "kvm-record"))
    module = module_from_spec(spec_from_loader("kvm_record", loader))
    loader.exec_module(module)
    return module


class Record(unittest.TestCase):
    def setUp(self) -> None:
        folder = tempfile.TemporaryDirectory()
        self.addCleanup(folder.cleanup)
        self.top = Path(folder.name)
        (self.top / "trace_pipe").write_text("a line\n")
        (self.top / "per_cpu/cpu0").mkdir(parents=True)
        self.told: list[str] = []
        self.module = loaded()

    def record(self, stats: str, *command: str) -> tuple[int, str]:
        """Records a command with an instance that notes what is put into which file."""
        (self.top / "per_cpu/cpu0/stats").write_text(stats)
        test = self

        class Folder(self.module.Instance):
            def __enter__(self) -> "Folder":
                self.folder = test.top
                return self

            def __exit__(self, *fault: object) -> None:
                test.told.append("gone")

            def put(self, name: str, text: str) -> None:
                test.told.append(name)

        said = io.StringIO()
        with mock.patch.object(self.module, "Instance", Folder), contextlib.redirect_stderr(said):
            status = self.module.record(self.top, self.top / "out", list(command))
        return status, said.getvalue()

    def test_whole(self) -> None:
        status, said = self.record("entries: 1\noverrun: 0\ndropped events: 0\n", "sh", "-c", "exit 3")
        self.assertEqual((status, said), (3, ""))
        self.assertEqual((self.top / "out").read_text(), "a line\n")
        self.assertEqual(self.told, ["trace_marker", "trace_marker", "tracing_on", "gone"])

    def test_lost(self) -> None:
        _, said = self.record("entries: 1\noverrun: 2\ndropped events: 1\n", "true")
        self.assertIn("3 events were lost", said)

    def test_no_such_command(self) -> None:
        with self.assertRaises(OSError):
            self.record("", "/no/such/command")
        self.assertEqual(self.told, ["trace_marker", "tracing_on", "gone"])


class Words(unittest.TestCase):
    def test_no_tracefs(self) -> None:
        with tempfile.TemporaryDirectory() as folder:
            done = support.run("kvm-record", "--tracefs", folder, str(Path(folder) / "out"), "true")
        self.assertEqual(done.returncode, 1)
        self.assertIn("tracefs isn't mounted", done.stderr)

    def test_no_command(self) -> None:
        self.assertEqual(support.run("kvm-record", "out").returncode, 2)


if __name__ == "__main__":
    unittest.main()
