# SPDX-License-Identifier: Apache-2.0 OR MIT
"""tests/abi: which changes of the headers and the archive it refuses, and which it takes."""

import os
import re
import shutil
import subprocess
import tempfile
import unittest
from pathlib import Path

import support

HEADERS = support.TOP / "c"
ARCHIVE = support.TOP / "release/libclockboard-x86_64-linux.a"
NUMBERS = (HEADERS / "clockboard.h").read_text(encoding="utf-8")
ABI = int(re.search(r"^#define CLOCKBOARD_ABI (\d+)", NUMBERS, re.MULTILINE).group(1))
MAJOR, MINOR = (int(part) for part in re.search(r'^#define CLOCKBOARD_VERSION "(\d+)\.(\d+)', NUMBERS, re.MULTILINE).groups())
NEXT = (r'(CLOCKBOARD_VERSION) "[^"]*"', rf'\1 "{MAJOR}.{MINOR + 1}.0"')
NEW_ABI = (rf"CLOCKBOARD_ABI {ABI}\b", f"CLOCKBOARD_ABI {ABI + 1}")
CODE = (r"    CLOCKBOARD_NOT_SHARED = 18", r"    CLOCKBOARD_LATER = 19,\n    CLOCKBOARD_NOT_SHARED = 18")
SWAPPED = (r"    uint64_t now_ns;      (.*)\n    uint64_t accesses;", r"    uint64_t accesses;\n    uint64_t now_ns;")


@unittest.skipUnless(shutil.which("cc") and shutil.which("nm") and ARCHIVE.is_file(), "no compiler, or no archive")
class Abi(unittest.TestCase):
    def ends(self, status: int, *edits: tuple[str, str], in_map: tuple[str, str] | None = None, without: str = "") -> str:
        """Runs it on edited copies, and gives what it says."""
        with tempfile.TemporaryDirectory() as folder:
            headers, archive = Path(folder) / "c", Path(folder) / "archive.a"
            shutil.copytree(HEADERS, headers)
            for name, changes in (("clockboard.h", edits), ("clockboard.map", (in_map,) if in_map else ())):
                text = (headers / name).read_text(encoding="utf-8")
                for old, new in changes:
                    text, count = re.subn(old, new, text, count=1)
                    self.assertEqual(count, 1, old)
                (headers / name).write_text(text, encoding="utf-8")
            shutil.copy(ARCHIVE, archive)
            if without:
                subprocess.run(["objcopy", f"--localize-symbol={without}", archive], check=True)
            done = subprocess.run([support.TOP / "tests/abi"], capture_output=True, text=True, check=False,
                                  env={**os.environ, "CLOCKBOARD_C": str(headers), "CLOCKBOARD_ARCHIVE": str(archive)})
            self.assertEqual(done.returncode, status, done.stderr)
            return done.stderr

    def test_as_released(self) -> None:
        self.assertEqual(self.ends(0), "")

    def test_breaks(self) -> None:
        """A break under the same number, whatever the version."""
        for edits in ((SWAPPED,), (("CLOCKBOARD_AGAIN = 16", "CLOCKBOARD_AGAIN = 116"),), (("uint16_t port", "uint32_t port"),),
                      (("value\\[4\\]", "value[5]"),), (("uint8_t cpus;        ", "uint16_t cpus; "),)):
            self.assertIn(f"ABI {ABI} had: ", self.ends(1, NEXT, *edits), edits)

    def test_additions_have_a_version(self) -> None:
        self.assertIn("constant CLOCKBOARD_LATER", self.ends(1, CODE))
        self.ends(0, CODE, NEXT)

    def test_a_break_has_a_number_and_a_version(self) -> None:
        node = (f"CLOCKBOARD_{ABI} ", f"CLOCKBOARD_{ABI + 1} ")
        self.ends(0, SWAPPED, NEW_ABI, NEXT, in_map=node)
        self.assertIn("breaks nothing", self.ends(1, SWAPPED, NEW_ABI, in_map=node))
        self.assertIn("c/clockboard.map begins", self.ends(1, SWAPPED, NEW_ABI, NEXT))
        self.assertIn("the released one has", self.ends(1, (NEW_ABI[0], f"CLOCKBOARD_ABI {ABI - 1}")))

    def test_names(self) -> None:
        self.assertIn("clockboard_wall is in one alone", self.ends(1, in_map=("        clockboard_wall;\n", "")))
        self.assertIn("symbol clockboard_wall", self.ends(1, without="clockboard_wall"))
        self.assertIn("clockboard_eoi is in one alone", self.ends(1, ("void clockboard_eoi\\([^;]*;", "")))


if __name__ == "__main__":
    unittest.main()
