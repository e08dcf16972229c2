# SPDX-License-Identifier: Apache-2.0 OR MIT
"""qemu/edit, on a small tree with functions of the names that it looks for."""

import subprocess
import tempfile
import unittest
from pathlib import Path

import support

FILES = {"hw/intc/apic.c": "static void apic_eoi(State *s)\n{\n    end(s);\n}\n",
         "hw/intc/i8259.c": "void pic_intack(State *s, int irq)\n{\n    take(s, irq);\n}\n"
                            "static void pic_ioport_write(void *opaque, hwaddr at,\n    uint64_t value)\n{\n    write();\n}\n",
         "hw/intc/ioapic.c": "static void\nioapic_mem_write(void *opaque, hwaddr at)\n{\n    write();\n}\n",
         "hw/rtc/mc146818rtc.c": "void qmp_rtc_reset_reinjection(Error **errp)\n{\n    drop();\n}\n",
         "hw/i386/meson.build": "i386_ss = ss.source_set()\n"}


class Edit(unittest.TestCase):
    def setUp(self) -> None:
        folder = tempfile.TemporaryDirectory()
        self.addCleanup(folder.cleanup)
        self.tree = Path(folder.name)
        (self.tree / "include/hw/i386").mkdir(parents=True)
        for name, text in FILES.items():
            (self.tree / name).parent.mkdir(parents=True, exist_ok=True)
            (self.tree / name).write_text(text if name.endswith("build") else f'#include "qemu/osdep.h"\n{text}')

    def edit(self, *words: str) -> subprocess.CompletedProcess[str]:
        return subprocess.run([support.TOP / "qemu/edit", *words, self.tree], capture_output=True, text=True, check=False)

    def test_each_function_begins_with_a_watch(self) -> None:
        self.assertEqual(self.edit().returncode, 0)
        for name, text in (("apic", "apic_eoi(State *s)\n{\n    CLOCKBOARD_WATCH(apic, s);\n"),
                           ("i8259", "pic_intack(State *s, int irq)\n{\n    CLOCKBOARD_WATCH(pic, s);\n"),
                           ("i8259", "uint64_t value)\n{\n    CLOCKBOARD_WATCH(pic, opaque);\n"),
                           ("ioapic", "hwaddr at)\n{\n    CLOCKBOARD_WATCH(ioapic, opaque);\n")):
            self.assertIn(text, (self.tree / f"hw/intc/{name}.c").read_text())
        self.assertTrue((self.tree / "hw/i386/clockboard/device.c").exists())

    def test_a_command_begins_with_its_refusal(self) -> None:
        self.assertEqual(self.edit().returncode, 0)
        self.assertIn("(Error **errp)\n{\n    if (clockboard_keeps_ticks(errp)) {\n        return;\n    }\n\n    drop();\n",
                      (self.tree / "hw/rtc/mc146818rtc.c").read_text())

    def test_a_function_that_is_not_there_changes_no_file(self) -> None:
        place = self.tree / "hw/intc/ioapic.c"
        place.write_text(place.read_text().replace("ioapic_mem_write", "ioapic_write"))
        before = {path: path.read_text() for path in self.tree.glob("hw/*/*")}
        done = self.edit()
        self.assertEqual((done.returncode, done.stderr),
                         (1, "edit: hw/intc/ioapic.c: the function ioapic_mem_write is there 0 times, and not once: "
                             "these edits are for QEMU 7.2\n"))
        self.assertEqual({path: path.read_text() for path in self.tree.glob("hw/*/*")}, before)

    def test_a_tree_is_edited_once(self) -> None:
        self.assertEqual((self.edit().returncode, self.edit().stderr), (0, "edit: the tree is edited already\n"))


if __name__ == "__main__":
    unittest.main()
