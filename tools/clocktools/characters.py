# SPDX-License-Identifier: Apache-2.0 OR MIT
"""Characters of a line that no word of a trace has, though some look like those that have: what they are, and what to write."""

import re
import unicodedata
from collections.abc import Iterator

BOM = "\ufeff"
VISIBLE = {"\r": "␍", "\t": "⇥", BOM: "␣", "\0": "␀", "\v": "␋", "\f": "␌", "\u00a0": "⍽", "\u200b": "▯",
           "\u200c": "▯", "\u200d": "▯", "\u2060": "▯"}
"""How a character is shown that is seen badly."""
SPACES = {"\u00a0": "a no-break space", "\u2007": "a figure space", "\u202f": "a narrow no-break space", "\u3000": "a wide space"}
QUOTES = "\"'`“”‘’„«»"
DASHES = "‐‑‒–—−"
WITHOUT_WIDTH = "\u200b\u200c\u200d\u2060\ufeff"
CONTROLS = {"\0": "a byte 00h", "\v": "a vertical tab", "\f": "a form feed"}


def seen(line: str) -> str:
    """A line as it is shown, each character in one column."""
    return "".join(VISIBLE.get(letter, letter if letter.isprintable() else "�") for letter in line)


def hex_of(letter: str) -> str:
    return "".join(f"\\x{byte:02x}" for byte in letter.encode())


def line_end_mends(line: str) -> Iterator[str]:
    """Marks at the beginning, and ends of lines."""
    if line.startswith(BOM):
        yield "the file begins with a byte order mark; save it without, or: sed -i '1s/^\\xef\\xbb\\xbf//' TRACE"
    if "\r" in line[:-1].rstrip("\r"):
        yield "lines end with CR alone here, and only LF ends a line: tr '\\r' '\\n' < TRACE > TRACE.txt"
    elif line.endswith("\r"):
        yield "lines end with CR LF here, and only LF ends a line: sed -i 's/\\r$//' TRACE"


def space_mends(line: str) -> Iterator[str]:
    """Spaces, tabs and commas."""
    bare = line.rstrip("\r")
    if "\t" in line:
        yield "a tab is no space: words are parted by single spaces"
    if not bare.strip(" "):
        if bare:
            yield "the line has spaces alone; an empty line has none"
    elif bare.strip(" ") == "end" and bare != "end":
        yield f"a space stands {'behind' if bare[0] == 'e' else 'before'} `end`; the last line is these three letters alone"
    elif bare != bare.strip(" "):
        side = "before its first word" if bare[0] == " " else "behind its last word"
        yield f"words are parted by one space, with none at either end; the line has one {side}"
    elif "  " in bare:
        yield "words are parted by one space, and here are two or more together"
    if re.fullmatch(r" *[\w-]+( *, *[\w-]+){2,} *", bare):
        yield f"words are parted by spaces, and not by commas: {' '.join(re.findall(r'[^, ]+', bare))}"
    elif re.search(r"[a-z][=,:]\s*\w", bare) and not re.match(r"\s*(;|//)", bare):
        yield "words are parted by one space, without = , or :"


def character_mends(line: str) -> Iterator[str]:
    """Characters beside ASCII, and those that only look like letters and digits."""
    for letter in dict.fromkeys(line):
        plain = unicodedata.normalize("NFKC", letter)
        if letter in SPACES or unicodedata.category(letter) == "Zs" and letter != " ":
            name = SPACES.get(letter, f"a space of another width (U+{ord(letter):04X})")
            yield f"{name} is no space: sed -i 's/{hex_of(letter)}/ /g' TRACE"
        elif letter in WITHOUT_WIDTH and not line.startswith(BOM):
            yield f"a character without width (U+{ord(letter):04X}) stands in the line: sed -i 's/{hex_of(letter)}//g' TRACE"
        elif letter in QUOTES and not re.search(f"[0-9]{letter}[0-9]", line):
            yield "words have no quotes; leave them out"
        elif letter in DASHES:
            yield f"a dash (U+{ord(letter):04X}) stands in the line; no word of a trace has one, and numbers have no sign"
        elif letter in CONTROLS:
            yield f"{CONTROLS[letter]} stands in the line; words are parted by spaces, and lines end with LF"
        elif "\udc80" <= letter <= "\udcff":
            yield f"byte {ord(letter) & 0xFF:02x}h is no ASCII, and no UTF-8 either; outside of comments a trace has ASCII alone"
        elif plain != letter and plain.isascii():
            yield f"'{letter}' (U+{ord(letter):04X}) only looks like {plain}: write {plain}"
        elif not letter.isascii() and letter != BOM:
            yield f"'{letter}' (U+{ord(letter):04X}) is no ASCII, and outside of comments a trace has ASCII alone"


def comment_mends(line: str) -> Iterator[str]:
    bare = line.rstrip("\r")
    if re.match(r"\s*(;|//|--|/\*|%|<!--)", bare):
        yield "a comment is a line that begins with #"
    elif re.match(r"\s+#", bare):
        yield "a comment begins with # in the first column"
    elif re.search(r"\S\s*(#|//|;\s*\S)", bare) and not bare.startswith("#"):
        yield "a comment has a line of its own, which begins with #"
    elif re.search(r"[;.,]\s*$", bare):
        yield f"the line ends with '{bare.rstrip()[-1]}', which no line of a trace has"


def mended(line: str) -> str:
    """A line without what these mends are about."""
    bare = line.lstrip(BOM).split("\r")[0]
    if not bare.startswith("#"):
        bare = re.sub(r"\s*(#|//|;).*|[.,]\s*$", "", bare)
    bare = re.sub(f"(?<![0-9])[{QUOTES}]|[{QUOTES}](?![0-9])|[{WITHOUT_WIDTH}{DASHES}\0]", "", bare)
    bare = re.sub("[\v\f]", " ", bare)
    bare = "".join(letter for letter in unicodedata.normalize("NFKC", bare) if letter.isascii())
    if re.fullmatch(r" *[\w-]+( *, *[\w-]+){2,} *", bare):
        bare = bare.replace(",", " ")
    return " ".join(re.sub(r"(?<=[a-z])[=,:](?=\s*\w)", " ", bare).split())


def text_mends(line: str) -> Iterator[str]:
    """All of these, of one line."""
    for mends in (line_end_mends, comment_mends, space_mends, character_mends):
        yield from mends(line)
