# SPDX-License-Identifier: Apache-2.0 OR MIT
"""The fields of tools/state beside docs/FORMATS.md, in each format, and beside docs/STATES.md by their names."""

import re
import unittest

import support

from clocktools.states.layout import FORMATS, LINES, RTC_BYTES, fields, length, rows, timers_of

DOCUMENT = (support.TOP / "docs/FORMATS.md").read_text()
NAMES = (support.TOP / "docs/STATES.md").read_text()


def section(text: str) -> str:
    return text[text.index("\n## The saved state\n"):]


def table_after(text: str, words: str) -> list[list[str]]:
    """The rows of the first table after these words, without its head."""
    lines = text[text.index(words):].split("\n")
    first = next(place for place, line in enumerate(lines) if line.startswith("|"))
    found = []
    for line in lines[first + 2:]:
        if not line.startswith("|"):
            break
        found.append([cell.strip() for cell in line.strip("|").split("|")])
    return found


def sentence(text: str, words: str) -> str:
    """The paragraph that begins with these words, on one line."""
    begin = text.index(words)
    return " ".join(text[begin : text.index("\n\n", begin)].split())


class Documented:
    """The sizes of the fields that docs/FORMATS.md tells, with the place of each row."""

    def __init__(self, text: str, version: int, cpus: int) -> None:
        self.text, self.version, self.cpus = section(text), version, cpus
        self.timers = int(re.search(rf"`timers` that of the HPET's timers: (\d+) in\s+version 1, (\d+) from", self.text)[
            1 if version == 1 else 2])
        self.rows: list[tuple[int, list[int]]] = []
        self.read()

    def numbers(self, words: str, skip: str = r"^[^:]*: ") -> list[int]:
        """The sizes of a paragraph `A processor, 50 bytes: 8 offset .., 8 ..`: the numbers before words, outside of brackets."""
        said = re.sub(skip, "", re.sub(r"\([^()]*\)", "", re.sub(r"\([^()]*\)", "", sentence(self.text, words))))
        return [int(number) for number in re.findall(r"(?:^|, |and )(\d+) [a-zA-Z]", said)]

    def tick_line(self) -> list[int]:
        said = sentence(self.text, "A tick line, 33 bytes")
        up, each = re.search(r": (\d+) up .* then (\d+) each: ticks", said).groups()
        counts = re.sub(r"\([^()]*\)", "", said[said.index(" each: ticks") :]).split(",")
        return [int(up), *([int(each)] * len(counts))]

    def parts(self, size: str, field: str) -> list[list[int]]:
        """The sizes of a table's row, a list for each row of the grammar."""
        if "counters" in field and "3 * " in size:
            counter = [[int(part) for part in row[1].split(",")] for row in table_after(self.text, "A counter, 14 bytes")]
            return counter * 3
        if size == "timers * 18":
            return [[part] for part in self.numbers("A timer, 18 bytes")] * self.timers
        if size == "(timers + 2) * 33":
            return [[part] for part in self.tick_line()] * (self.timers + 2)
        if size == "cpus * 50":
            return [[part] for part in self.numbers("A processor, 50 bytes")] * self.cpus
        if size == str(RTC_BYTES):
            return [[1] * RTC_BYTES]
        if size == "48":
            return [[8] * len(LINES)]
        parts = [int(part) for part in size.split(",")]
        return [[part] for part in parts]

    def read(self) -> None:
        place = 0
        for first, later, size, field, *_ in table_after(self.text, "| Place in version 1 |"):
            told = first if self.version == 1 else later
            if told == "none":
                continue
            if int(told) != place:
                raise AssertionError(f"'{field}' stands at {told}, and the fields before it end at {place}")
            for part in self.parts(size, field):
                self.rows.append((place, part))
                place += sum(part)
        for wanted, words in ((3, "A local APIC timer, 55 bytes"), (4, "The reference TSC page, 37 bytes")):
            if self.version >= wanted:
                for _ in range(self.cpus if wanted == 3 else 1):
                    for row in table_after(self.text, words):
                        for part in [[one] for one in self.tick_line()] if row[2].startswith("tick line") else [[int(row[1])]]:
                            self.rows.append((place, part))
                            place += sum(part)
        if self.version >= 5:
            said = sentence(self.text, "Block 5 has 9 bytes")
            for _ in range(8):
                for size in re.search(r"timers: (\d+) bit 14 .* and (\d+) its register", said).groups():
                    self.rows.append((place, [int(size)]))
                    place += int(size)
        self.length = place

    def told_length(self) -> int:
        """By the table of the versions."""
        row = next(row for row in table_after(self.text, "| Version | Block at its end |") if row[0] == str(self.version))
        base, each = re.fullmatch(r"(\d+) \+ (\d+) \* cpus", row[3]).groups()
        return int(base) + int(each) * self.cpus


def layout_rows(version: int, cpus: int) -> list[tuple[int, list[int]]]:
    """The same of tools/state."""
    sizes = {one.name: one.size for one in fields(version, cpus)}
    return [(0, [8]), *((place, [sizes[name] for name in names]) for place, names in rows(version, cpus).items())]


class Layout(unittest.TestCase):
    def test_each_format(self) -> None:
        for version in FORMATS:
            for cpus in (1, 3, 16):
                with self.subTest(version=version, cpus=cpus):
                    told = Documented(DOCUMENT, version, cpus)
                    self.assertEqual(told.rows, layout_rows(version, cpus))
                    self.assertEqual((told.length, told.told_length()), (length(version, cpus), length(version, cpus)))
                    self.assertEqual(told.timers, timers_of(version))

    def test_a_field_in_the_document_alone(self) -> None:
        edits = ((r"(\| 52 \| 52 \| 8 \| number of accesses .*\n)", r"\1| 60 | 60 | 8 | another | any |\n"),
                 (r"(\| 4 \| 2 \| counting element .*\n)", r"\1| 6 | 2 | another | any |\n"),
                 (r"(8\s+comparator, 8 period)", r"\1, 4 another"),
                 (r"waiting (\(0 under discard\))", r"waiting \1, asleep"),
                 (r"(8 TSC_ADJUST,)", r"\1 8 another,"),
                 (r"(\| 14 \| 8 \| TSC deadline .*\n)", r"\1| 22 | 8 | another | any |\n"),
                 (r"(\| 13 \| 8 \| scale .*\n)", r"\1| 21 | 8 | another | any |\n"),
                 (r"(timers:) 1 (bit 14)", r"\1 2 \2"))
        for old, new in edits:
            text, count = re.subn(old, new, DOCUMENT, count=1)
            self.assertEqual(count, 1, old)
            with self.subTest(old):
                try:
                    found = Documented(text, 5, 2).rows
                except AssertionError:
                    continue
                self.assertNotEqual(found, layout_rows(5, 2))

    def test_names(self) -> None:
        """docs/STATES.md has each name in backquotes, and no other, with N, K and XX for numbers."""
        block = NAMES[NAMES.index("\n## The names\n") : NAMES.index("\n## ", NAMES.index("\n## The names\n") + 4)]
        told = {name for row in re.findall(r"^\| `(.*?)` \|", block, re.MULTILINE) for name in row.split("`, `")}
        found = {re.sub(r"ram[0-9a-f]{2}", "ramXX", re.sub(r"(counter|timer|cpu|line)\d+", r"\1N", one.name)) for one in fields(5, 2)}
        self.assertEqual(told, found)


if __name__ == "__main__":
    unittest.main()
