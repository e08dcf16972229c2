# SPDX-License-Identifier: Apache-2.0 OR MIT
"""What the program prints, as objects of JSON. docs/FORMATS.md, 'A replay as JSON lines', has their keys, which don't change.
Numbers that may be 2^53 or more are strings of decimal digits, as many readers keep 53 bits of a number."""

from collections.abc import Iterable, Iterator
from typing import Any

from .trace import Record

NAMES = {
    "counts": ("due", "rises", "waiting", "lost"),
    "wall": ("version", "seconds", "nanoseconds"),
    "page": ("version", "stamp", "system", "mul", "shift", "flags", "reading"),
    "clock": ("reading", "clock"),
    "hv": ("sequence", "scale", "offset", "reading"),
    "save": ("state",),
    "move": ("time",),
}
"""The keys of a value of several words, by the record that has it."""
LEFT_OUT = {"save": 1, "move": 1, "page": 0, "clock": 0, "hv": 0}
"""How many words before the value are no part of it."""
NOTHING = ("off", "none")


def value_of(record: Record, words: list[str]) -> Any:
    """What a record answered: null, digits, or an object."""
    kind = record.words[0]
    told = words[LEFT_OUT.get(kind, 0) :]
    if not told or told[0] in NOTHING:
        return None
    return dict(zip(NAMES[kind], told, strict=True)) if kind in NAMES else told[0]


def reply(record: Record, words: list[str]) -> dict[str, Any]:
    number = words[1] if words[1].isdecimal() else None
    return {"what": "reply", "line": record.line, "number": number, "cpu": record.cpu, "host": str(record.count),
            "time": str(record.time), "record": " ".join(record.words), "value": value_of(record, words[2:])}


def edge(words: list[str]) -> dict[str, Any]:
    found: dict[str, Any] = {"what": "edge", "at": words[1], "line": int(words[2]), "up": words[3] == "up"}
    return found | ({"cpu": int(words[4]), "vector": words[5]} if len(words) > 4 else {})


def messages(words: list[str]) -> dict[str, Any]:
    _, first, timer, cpu, vector, count, every = words
    return {"what": "messages", "first": first, "timer": int(timer), "cpu": int(cpu), "vector": vector, "count": count, "every": every}


def end(words: list[str]) -> dict[str, Any]:
    """The last lines of a printed text."""
    if words[0] == "final":
        lines = [] if words[4] == "-" else [int(line) for line in words[4].split(",")]
        return {"what": "final", "time": words[1], "accesses": words[2], "greatest": words[3], "lines": lines}
    if words[0] == "state":
        return {"what": "state", "state": words[1]}
    if words[0] == "refused":
        return {"what": "refused", "line": int(words[1]), "reason": words[2], "told": words[3] if len(words) > 3 else None}
    return {"what": words[0].rstrip(":"), "told": " ".join(words[1:])}


def objects(printed: Iterable[str], records: Iterator[Record]) -> Iterator[dict[str, Any]]:
    """An object for each printed line; a reply has the words of its record too."""
    for text in printed:
        words = text.split(" ")
        if words[0] == "edge":
            yield edge(words)
        elif words[0] == "msg":
            yield messages(words)
        elif words[0].isdecimal():
            yield reply(next(record for record in records if record.line == int(words[0])), words)
        else:
            yield end(words)
