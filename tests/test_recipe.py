# SPDX-License-Identifier: Apache-2.0 OR MIT
"""The lines of README.md's 'Your own guest', as they are written there, where QEMU is installed."""

import os
import re
import shutil
import subprocess
import tempfile
import unittest
from pathlib import Path

import support

QEMU = shutil.which("qemu-system-x86_64")


def lines_typed() -> list[str]:
    section = (support.TOP / "README.md").read_text().split("## Your own guest\n")[1]
    return re.findall(r"^    (.*)$", section.split("\n## ")[0], re.MULTILINE)


class Recipe(unittest.TestCase):
    def test_nothing_is_left_to_fill_in(self) -> None:
        lines = lines_typed()
        self.assertEqual(len(lines), 4)
        self.assertFalse([line for line in lines if ".." in line])

    @unittest.skipUnless(QEMU, "qemu-system-x86_64 isn't installed")
    def test_as_typed(self) -> None:
        with tempfile.TemporaryDirectory() as folder:
            for name in ("tools", "bin"):
                (Path(folder) / name).symlink_to(support.TOP / name)
            ends = [subprocess.run(["bash", "-c", line], cwd=folder, env={**os.environ, "PYTHONDONTWRITEBYTECODE": "1"},
                                   capture_output=True, text=True, check=False) for line in lines_typed()]
        self.assertEqual([done.returncode for done in ends[:3]], [124, 0, 0], ends[1].stderr)
        self.assertRegex(ends[2].stdout, r"\nfinal \d+ \d+ ")
        self.assertIn(ends[3].returncode, (0, 1), ends[3].stderr)
        self.assertRegex(ends[3].stdout, r"\nMC146818 register A +\d+ +\d+ +\d+ +\d+\n")


if __name__ == "__main__":
    unittest.main()
