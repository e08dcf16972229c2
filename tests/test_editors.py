# SPDX-License-Identifier: Apache-2.0 OR MIT
"""The syntax files in share/vim and share/vscode: every word of the examples is coloured as what it is, and a line that is out of
form as an error. vim is run in batch; the TextMate grammar is read by the rules that its patterns need here."""

import json
import re
import shutil
import subprocess
import tempfile
import unittest
from pathlib import Path
from typing import Any

import support

from clocktools.grammar import HEADER, record_forms

EXAMPLES = sorted(support.TOP.glob("examples/*.trace"))
WRONG = ("0 0 walk", "0  0 step", "Begin", "begin ", "cpus", "-1 0 step", "0 step", "0 0 stepx", "hello")
GROUPS = {
    "error": ("clockboardError", "invalid.illegal.clockboard"),
    "comment": ("clockboardComment", "comment.line.number-sign.clockboard"),
    "answer": ("clockboardAnswer", "comment.block.documentation.answer.clockboard"),
    "border": ("clockboardBorder", "keyword.control.border.clockboard"),
    "header": ("clockboardHeader", "keyword.other.header.clockboard"),
    "cpu": ("clockboardCpu", "variable.other.processor.clockboard"),
    "count": ("clockboardCount", "constant.numeric.count.clockboard"),
    "record": ("clockboardRecord", "entity.name.function.record.clockboard"),
    "number": ("clockboardNumber", "constant.numeric.clockboard"),
    "source": ("clockboardSource", "storage.type.source.clockboard"),
    "policy": ("clockboardPolicy", "constant.language.policy.clockboard"),
}
"""What a word is: the group of vim, and the scope of TextMate."""


def wanted(line: str) -> list[str]:
    """What each word of a line is, in lines of examples and the comments of a recorded trace."""
    words = line.split(" ")
    if line.startswith("#"):
        return ["answer" if line.startswith("# > ") else "comment"] * len(words)
    if line in ("begin", "end"):
        return ["border"]
    if words[0] in HEADER:
        return ["header", *map(argument, words[1:])]
    return ["cpu", "count", "record", *map(argument, words[3:])]


def argument(word: str) -> str:
    if word in ("discard", "delay", "slew"):
        return "policy"
    return "source" if re.fullmatch(r"pit|rtc|hpet\d|apic\d+", word) else "number"


def columns(line: str) -> list[int]:
    """The columns, from 0 on, at which words begin."""
    return [match.start() for match in re.finditer(r"\S+", line)]


def text() -> list[str]:
    """All examples, lines of each kind, and lines that are wrong."""
    lines = [line for path in EXAMPLES for line in path.read_text().splitlines() if line]
    lines += ["# > edge 4191 0 up", "# > 5 1", "policy discard delay slew", "state 434c", "0 5 counts apic12", "0 5 move 1000000 0 5"]
    lines += [f"0 5 {name} 0" for name in record_forms(5)]
    return [*lines, *WRONG]


class Vim(unittest.TestCase):
    SCRIPT = """set nocompatible
set runtimepath^={folder}
filetype on
syntax on
edit {file}
let found = [&filetype]
for number in range(1, line('$'))
  let names = []
  let start = 0
  while match(getline(number), '\\S\\+', start) >= 0
    let start = match(getline(number), '\\S\\+', start)
    call add(names, synIDattr(synID(number, start + 1, 1), 'name'))
    let start = matchend(getline(number), '\\S\\+', start)
  endwhile
  call add(found, join(names, ' '))
endfor
call writefile(found, '{out}')
qall!
"""

    @unittest.skipUnless(shutil.which("vim"), "no vim")
    def test_each_word(self) -> None:
        lines = ["clockboard 5", *text()]
        with tempfile.TemporaryDirectory() as name:
            folder = Path(name)
            (folder / "t.trace").write_text("\n".join(lines) + "\n")
            (folder / "script.vim").write_text(self.SCRIPT.format(folder=support.TOP / "share/vim", file=folder / "t.trace", out=folder / "out"))
            command = ["vim", "-N", "-u", "NONE", "-i", "NONE", "-es", "-S", folder / "script.vim"]
            subprocess.run(command, check=False, timeout=60, stdin=subprocess.DEVNULL, capture_output=True)
            found = (folder / "out").read_text().splitlines()
        self.assertEqual(found[0], "clockboard")
        for line, names in zip(lines, found[1:], strict=True):
            with self.subTest(line):
                kinds = ["error"] * len(columns(line)) if line in WRONG else wanted(line)
                self.assertEqual(names.split(" "), [GROUPS[kind][0] for kind in kinds])


class TextMate(unittest.TestCase):
    GRAMMAR: Any = json.loads((support.TOP / "share/vscode/syntaxes/clockboard.tmLanguage.json").read_text())

    def scopes(self, patterns: list[dict[str, Any]], line: str, begin: int, end: int, found: dict[int, str]) -> None:
        """The innermost scope of each character from a column on: of the patterns that match, the first that begins first."""
        while begin < end:
            matches = [(match.start(), place, match) for place, pattern in enumerate(patterns)
                       if (match := re.compile(pattern["match"]).search(line, begin, end)) and match.end() > match.start()]
            if not matches:
                return
            _, place, match = min(matches, key=lambda it: it[:2])
            pattern = patterns[place]
            found.update(dict.fromkeys(range(match.start(), match.end()), pattern.get("name", "")))
            for number, capture in pattern.get("captures", {}).items():
                if match.group(int(number)) is None:
                    continue
                span = range(*match.span(int(number)))
                if "name" in capture:
                    found.update(dict.fromkeys(span, capture["name"]))
                for inner in capture.get("patterns", ()):
                    self.scopes(self.GRAMMAR["repository"][inner["include"][1:]]["patterns"], line, span.start, span.stop, found)
            begin = match.end()

    def test_each_word(self) -> None:
        for line in text():
            with self.subTest(line):
                found: dict[int, str] = {}
                self.scopes(self.GRAMMAR["patterns"], line, 0, len(line), found)
                kinds = ["error"] * len(columns(line)) if line in WRONG else wanted(line)
                self.assertEqual([found.get(column) for column in columns(line)], [GROUPS[kind][1] for kind in kinds])

    def test_the_extension(self) -> None:
        folder = support.TOP / "share/vscode"
        told = json.loads((folder / "package.json").read_text())["contributes"]
        self.assertEqual(told["grammars"][0]["scopeName"], self.GRAMMAR["scopeName"])
        for path in (told["grammars"][0]["path"], told["languages"][0]["configuration"]):
            self.assertTrue((folder / path).is_file(), path)


class Names(unittest.TestCase):
    def test_each_name_of_the_grammar(self) -> None:
        """Both files have the names of the header's lines and of the records, and no others."""
        vim = (support.TOP / "share/vim/syntax/clockboard.vim").read_text()
        textmate = [pattern["match"] for pattern in TextMate.GRAMMAR["patterns"]]
        records, header = "|".join(record_forms(5)), set(HEADER) - {"begin"}
        self.assertIn(records.replace("|", r"\|"), vim)
        self.assertIn(f"({records})", textmate[4])
        self.assertEqual(set(re.findall(r"\w+", textmate[3].split(")")[0])), header)
        self.assertEqual(set(re.search(r"Header /\^\\%\((.*?)\\\)", vim)[1].split(r"\|")), header)  # type: ignore[index]


if __name__ == "__main__":
    unittest.main()
