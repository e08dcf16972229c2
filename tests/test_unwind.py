# SPDX-License-Identifier: Apache-2.0 OR MIT
"""bin/unwind-tables: its tables are those that a compiler writes of the same code, and it refuses code that it can't follow."""

import re
import shutil
import subprocess
import tempfile
import unittest
from pathlib import Path

import support

SOURCES = ("c/demo.c", "tests/c/calls.c", "tests/c/record.c", "c/by_timers.c")
TOOLS = ("gcc", "as", "ld", "objcopy", "objdump", "readelf")
FLAGS = ("-std=gnu11", "-O2", "-w", "-fcf-protection=none", "-fno-stack-protector", f"-I{support.TOP / 'c'}")
TAKES_ANY_AMOUNT = "void use(char *); void grows(unsigned n) { char place[n]; use(place); }"
LEAVES_A_WORD = ".globl odd\n.type odd, @function\nodd: push %rax\nret\n.size odd, .-odd\n"
ROW = re.compile(r"^([0-9a-f]{16}) (\S+) ")


@unittest.skipUnless(all(shutil.which(tool) for tool in TOOLS), "no gcc, or no binutils")
class Tables(unittest.TestCase):
    def setUp(self) -> None:
        self.folder = tempfile.TemporaryDirectory()
        self.addCleanup(self.folder.cleanup)
        self.object = Path(self.folder.name) / "code.o"

    def compiled(self, *words: str, text: str | None = None) -> None:
        subprocess.run(["gcc", *FLAGS, *words, "-c", "-o", self.object], input=text, text=True, check=True)

    def added(self) -> tuple[int, str]:
        done = subprocess.run([support.TOP / "bin/unwind-tables", self.object, "ld"], capture_output=True, text=True, check=False)
        return done.returncode, done.stderr

    def frames(self) -> list[dict[str, str]]:
        """Of each function the places where the caller's frame comes to lie elsewhere, and where that is."""
        text = subprocess.run(["readelf", "--debug-dump=frames-interp", self.object], capture_output=True, text=True, check=True).stdout
        found: list[dict[str, str]] = []
        for line in text.splitlines():
            if " FDE " in line:
                found.append({"": line[line.index("pc=") :], "0" * 16: "rsp+8"})
            elif found and (row := ROW.match(line)):
                found[-1][row.group(1)] = row.group(2)
        for one in found:
            before = ""
            for place in sorted(place for place in one if place):
                if one[place] == before:
                    del one[place]
                else:
                    before = one[place]
        return sorted(found, key=lambda one: one[""])

    def test_as_a_compiler_has_them(self) -> None:
        functions = 0
        for source in SOURCES:
            self.compiled("-ffunction-sections", str(support.TOP / source))
            by_gcc = self.frames()
            self.compiled("-ffunction-sections", "-fno-asynchronous-unwind-tables", "-fno-unwind-tables", str(support.TOP / source))
            self.assertEqual(self.frames(), [])
            self.assertEqual(self.added(), (0, ""), source)
            self.assertEqual(self.frames(), by_gcc, source)
            functions += len(by_gcc)
        self.assertGreater(functions, 20)

    def test_refusals(self) -> None:
        self.compiled("-fno-asynchronous-unwind-tables", "-x", "c", "-", text=TAKES_ANY_AMOUNT)
        self.assertEqual(self.added()[0], 1)
        self.compiled("-x", "assembler", "-", text=LEAVES_A_WORD)
        status, said = self.added()
        self.assertEqual(status, 1)
        self.assertIn("odd+1: leaves with", said)


if __name__ == "__main__":
    unittest.main()
