# SPDX-License-Identifier: Apache-2.0 OR MIT
"""Saved states as bytes and as fields. No condition of the grammar stands here: the program says whether a board has these
bytes, and else at which place; the place becomes a name."""

import re
import subprocess
from collections.abc import Iterable
from dataclasses import dataclass, field
from pathlib import Path

from .. import command, files
from ..program import program
from .layout import FORMATS, MAGIC, MOST_CPUS, Kind, fields, length, rows

Fields = dict[str, int]
"""The numbers of a state by their names."""

STATE_LINE = re.compile(r"(?:^|\s)state ([0-9a-fA-F]+)\s*$")
HEADER_LINES = 3
"""Of a question: the format, the state, `begin`."""


class StateRefused(Exception):
    """No board has these fields, or the target has no place for one that must not be lost: a name, and what is said of it."""


class Unreadable(command.Refused):
    """A file in which there is nothing to read, or a program that can't be run."""


@dataclass
class Block:
    """What one record printed: its edges and messages in order, and the words of its reply after line and number."""

    edges: list[list[str]] = field(default_factory=list)
    messages: list[list[str]] = field(default_factory=list)
    reply: list[str] = field(default_factory=list)


@dataclass
class Answer:
    """What the program printed for a state and records: a block for each, and the board after them."""

    blocks: list[Block]
    now_ns: int
    after: bytes


@dataclass
class Losses:
    """What a change or a conversion can't carry: `lossy` is what a guest can see later, `notes` the rest."""

    lossy: list[tuple[str, str]] = field(default_factory=list)
    notes: list[tuple[str, str]] = field(default_factory=list)

    def say(self, name: str, text: str) -> None:
        if (name, text) not in self.lossy:
            self.lossy.append((name, text))

    def note(self, name: str, text: str) -> None:
        self.notes.append((name, text))


def replayed(lines: Iterable[str]) -> list[str]:
    """What the program prints for a trace, the state last."""
    text = "".join(f"{line}\n" for line in lines)
    try:
        done = subprocess.run([program(), "replay", "--state"], input=text.encode(), stdout=subprocess.PIPE, check=False)
    except OSError as fault:
        raise Unreadable(f"the program {program()} can't be run: {fault.strerror}") from fault
    said = done.stdout.decode("utf-8", "replace").splitlines()
    if not said or not said[-1].startswith(("state ", "refused ")):
        raise Unreadable(f"the program {program()} gave no answer; it ended with {done.returncode}")
    return said


def heading(data: bytes) -> tuple[int, int] | None:
    """Format and processors of bytes that may be a state's."""
    version, cpus = (int.from_bytes(data[at : at + 2], "little") for at in (8, 10))
    return (version, cpus) if data[:8] == MAGIC and version in FORMATS and 1 <= cpus <= MOST_CPUS and len(data) >= 12 else None


def place_of_fault(data: bytes, said: list[str]) -> int | None:
    """The place at which the program refuses the state itself."""
    words = said[-1].split()
    if words[0] == "refused" and words[1] == "2":
        return int(words[3]) if words[2] == "state" else len(data)
    return None


def judged(data: bytes) -> int | None:
    """The place of the first field at fault, or None where a board has these bytes."""
    shape = heading(data)
    return place_of_fault(data, replayed([f"clockboard {shape[0] if shape else FORMATS[-1]}", f"state {data.hex()}", "begin", "end"]))


def unjudged(data: bytes) -> Fields:
    """The fields of bytes that have the length of a state."""
    shape = heading(data)
    assert shape and len(data) == length(*shape)
    place, found = len(MAGIC), {}
    for one in fields(*shape):
        found[one.name] = int.from_bytes(data[place : place + one.size], "little", signed=one.kind is Kind.SIGNED)
        place += one.size
    return found


def packed(values: Fields) -> bytes:
    """The bytes of fields, each of which fits its size."""
    data = bytearray(MAGIC)
    for one in fields(values["format"], values["cpus"]):
        try:
            data += values[one.name].to_bytes(one.size, "little", signed=one.kind is Kind.SIGNED)
        except OverflowError:
            raise StateRefused(f"{one.name} {values[one.name]}") from None
    return bytes(data)


def at_fault(data: bytes, place: int, good: Fields | None = None) -> str:
    """Name and number of the first field at fault. Where one row of the grammar has several, the numbers of `good`, by default those
    of a board at power on, are put in the places of all but one, for each in turn: the one that is refused so is at fault."""
    shape = heading(data)
    if place == len(data):
        return f"length {len(data)}" + (f", and {length(*shape)} are wanted" if shape else "")
    if not shape:
        return "magic" if place < len(MAGIC) else f"{'format' if place < 10 else 'cpus'} {int.from_bytes(data[place : place + 2], 'little')}"
    if place == length(*shape):
        return f"length {len(data)}, and {place} are wanted"
    data = data[: length(*shape)].ljust(length(*shape), b"\0")
    values = unjudged(data)
    names = rows(*shape)[place]
    if len(names) > 1:
        good = good or blank(*shape)
        for name in names:
            alone = packed({**values, **{other: good[other] for other in names if other != name}})
            if judged(alone) == place:
                return f"{name} {values[name]}"
    return f"{names[0]} {values[names[0]]}"


def decoded(data: bytes) -> Fields:
    """The fields of a saved state, or a refusal."""
    place = judged(data)
    if place is not None:
        raise StateRefused(at_fault(data, place))
    return unjudged(data)


def encoded(values: Fields, good: Fields | None = None) -> bytes:
    """The saved state of these fields, or a refusal; `good` are fields of a board, from which they came."""
    data = packed(values)
    place = judged(data)
    if place is not None:
        raise StateRefused(at_fault(data, place, good))
    return data


def ask(data: bytes, records: list[str]) -> Answer:
    """What the program answers to records on the board of a state. A refusal of the state or of a record is raised."""
    shape = heading(data)
    said = replayed([f"clockboard {shape[0] if shape else FORMATS[-1]}", f"state {data.hex()}", "begin", *records, "end"])
    place = place_of_fault(data, said)
    if place is not None:
        raise StateRefused(at_fault(data, place))
    if said[-1].startswith("refused "):
        raise StateRefused(" ".join(said[-1].split()[2:]))
    blocks: list[Block] = [Block()]
    for line in said[:-2]:
        words = line.split()
        if words[0] in ("edge", "msg"):
            (blocks[-1].edges if words[0] == "edge" else blocks[-1].messages).append(words)
        else:
            blocks[-1].reply = words[1 if words[1] in ("clock", "hv", "page") else 2 :]
            blocks.append(Block())
    return Answer(blocks[:-1], int(said[-2].split()[1]), bytes.fromhex(said[-1].split()[1]))


def at_power_on(header: Iterable[str], version: int) -> Fields:
    """The fields of the board that a trace's header makes."""
    said = replayed([f"clockboard {version}", *header, "begin", "end"])
    if said[-1].startswith("refused "):
        raise StateRefused(" ".join(said[-1].split()[2:]))
    return unjudged(bytes.fromhex(said[-1].split()[1]))


def blank(version: int, cpus: int = 1) -> Fields:
    """A board at power on, with the header's defaults."""
    return at_power_on([f"cpus {cpus}"], version)


def read(path: str) -> bytes:
    """The last saved state of a file, or of standard input for `-`: raw bytes, hex digits, or lines of which the last `state HEX`
    counts."""
    data = files.read(Path(path))
    if data.startswith(MAGIC):
        return data
    text = data.decode("latin-1")
    found = next((match[1] for line in reversed(text.splitlines()) if (match := STATE_LINE.search(line))), None)
    digits = found or "".join(text.split())
    if not digits or len(digits) % 2 or not re.fullmatch("[0-9a-fA-F]+", digits):
        raise Unreadable(f"{files.name_of(Path(path))}: no saved state: neither its bytes, nor their hex digits, nor a line 'state HEX'")
    return bytes.fromhex(digits)
