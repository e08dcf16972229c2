# SPDX-License-Identifier: Apache-2.0 OR MIT
"""The names that pages have in backquotes, compared with the code: functions, types, constants, definitions, clauses."""

import re
from collections.abc import Iterator
from pathlib import Path

FENCED = re.compile(r"^```.*?^```$", re.MULTILINE | re.DOTALL)
QUOTED = re.compile(r"`([^`\n]+)`")
NAME = re.compile(r"[A-Za-z_][\w-]*(?:::[A-Za-z_]\w*)*(?:\(\))?")
WORD = re.compile(r"[A-Za-z_](?:\w|-(?=\w))*")
COMMENT = re.compile(r"//[^\n]*|(?:^|(?<=\s))--(?=\s)[^\n]*", re.MULTILINE)
FOLDERS = ("bench", "bin", "c", "crates", "examples", "qemu", "rust", "share", "tests", "tools")
KINDS = ("", ".antt", ".c", ".h", ".in", ".json", ".map", ".py", ".rs", ".rt", ".sh", ".toml", ".trace")
GENERATED = {"out", "target", "must-fail", "__pycache__"}
ROW = re.compile(r"^\| `([\w-]+)` \|", re.MULTILINE)
DEFINED = re.compile(r"((?:`[^`]+`(?:, | and |,? ?))+)\(((?:\w+'s? )?(?:private[./])?[A-Z]\w*)\)")
IN_FILE = re.compile(r"`(\w+)` in (crates/[\w/]+\.(?:antt|rt))")
IN_CODE = re.compile(r"`(\w+)` in (src/[\w/]+\.rt)")
HEADING = re.compile(r"^## ([\w, ]+)(?::|$)")
FOREIGN = {
    # of C, of Linux, of the kit and its messages: no code here has them
    "_Bool", "__udivti3", "endbr64", "memmove", "min_timer_period_us", "KVM_CAP_SPLIT_IRQCHIP", "KVM_SET_GSI_ROUTING", "core::atomic::wake",
    "cell-in-c", "exported-raw-pointer", "generic-c-function", "unsupported-generic-in-c", "unsupported-theorem",
    # of examples, of what would be added among them
    "CLOCKBOARD_N", "NAME_tests", "apic5", "check_leaps", "leaps", "leaps-here", "leaps_in", "wall_leap",
}


def words(text: str, is_crate: bool) -> set[str]:
    """The words of a file; of a crate's without those of comments. One with dashes is its parts too."""
    found = set(WORD.findall(COMMENT.sub("", text) if is_crate else text))
    return found | {part for word in found if "-" in word for part in word.split("-")}


class Code:
    """The words of all code, and of each crate."""

    def __init__(self, top: Path) -> None:
        self.top = top
        self.crates: dict[str, set[str]] = {}
        self.rest: set[str] = set()
        for path in self.files():
            is_crate = path.is_relative_to(top / "crates")
            kept = self.crates.setdefault(path.relative_to(top / "crates").parts[0], set()) if is_crate else self.rest
            kept |= words(path.read_text(encoding="utf-8", errors="replace"), is_crate)
        self.all = self.rest.union(*self.crates.values())

    def files(self) -> Iterator[Path]:
        for folder in FOLDERS:
            for path in sorted((self.top / folder).rglob("*")):
                if path.suffix in KINDS and not GENERATED & set(path.parts) and path.is_file() and path != Path(__file__).resolve():
                    yield path

    def has(self, name: str) -> bool:
        """Whether the code has a name. A qualified one is all in one crate, or outside the crates. One that begins or ends
        with _ is a part of names."""
        parts = name.removesuffix("()").split("::")
        if len(parts) > 1:
            crate = self.crates.get(parts[0])
            homes = self.crates.values() if crate is None else [crate | {parts[0]}]
            return any(set(parts) <= known for known in (*homes, self.rest))
        if name.startswith("_"):
            return any(it.endswith(name) for it in self.all)
        return any(it.startswith(name) for it in self.all) if name.endswith("_") else parts[0] in self.all


def unknown_names(pages: list[Path], code: Code) -> list[str]:
    """The names in backquotes that no code has, and that are no rows of a table. docs/BELIEVE.md is made of the code."""
    texts = {page: FENCED.sub("", page.read_text(encoding="utf-8")) for page in pages}
    rows = {row for text in texts.values() for row in ROW.findall(text)}
    return [f"{page.relative_to(code.top)} names `{name}`, which no code has"
            for page, text in texts.items() if page.name != "BELIEVE.md"
            for name in dict.fromkeys(QUOTED.findall(text))
            if NAME.fullmatch(name) and name.removesuffix("()") not in rows | FOREIGN and not code.has(name)]


def misplaced_names(pages: list[Path], top: Path) -> list[str]:
    """The names that a page says to be in a file of a crate, as `name` in crates/../file, and that aren't there."""
    return [f"{page.relative_to(top)}: there is no `{name}` in {path}"
            for page in pages for name, path in IN_FILE.findall(page.read_text(encoding="utf-8"))
            if not (top / path).is_file() or name not in words((top / path).read_text(encoding="utf-8"), True)]


def undefined_names(page: Path, top: Path) -> list[str]:
    """The names of docs/DEFINITIONS.md that the file beside them hasn't, as `name` (File) or `name` in src/file.rt."""
    found, crates = [], []
    for line in page.read_text(encoding="utf-8").splitlines():
        if heading := HEADING.match(line):
            crates = [it for it in re.split(r", | and ", heading[1]) if (top / "crates" / it).is_dir()]
        beside = [(QUOTED.findall(names), place) for names, place in DEFINED.findall(line)]
        beside += [([name], place) for name, place in IN_CODE.findall(line)]
        for names, place in beside if crates else []:
            crate, _, file = place.replace("'s ", "' ").rpartition("' ")
            path = file if file.startswith("src/") else f"specs/{file.replace('.', '/')}.antt"
            known = [words(it.read_text(encoding="utf-8"), True)
                     for home in ([crate] if crate else crates) if (it := top / "crates" / home / path).is_file()]
            found += [f"docs/DEFINITIONS.md: {' or '.join(crates)} has no `{name}` in {path}"
                      for name in names if not any(name in it for it in known)]
    return found
