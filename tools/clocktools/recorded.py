# SPDX-License-Identifier: Apache-2.0 OR MIT
"""A trace that a board recorded while a guest ran on it: comments that begin with `# > ` have what the guest got, as a replay
prints it. Their values are a board's own, so no row of docs/COMING_FROM_QEMU_AND_KVM.md explains a difference."""

from collections import Counter
from collections.abc import Iterable, Iterator
from dataclasses import dataclass
from pathlib import Path

from .command import Refused
from .judging import Part, bits_named
from .outcome import Outcome, Tally
from .rules import Follower, Rule
from .trace import Head, Record

MARK = "# > "
EDGES = {"edge": ("edges of line", "irq_edges", "changes"), "msg": ("messages of timer", "hpet_bursts", "bursts_of")}
"""By the first word of a printed line its register, without the number, and the definition that decides."""


@dataclass(frozen=True)
class Block:
    """What is printed for the record on a line: edges and messages, and then the reply's words."""

    line: int
    events: tuple[str, ...]
    value: tuple[str, ...]


def is_recorded(path: Path) -> bool:
    """Whether a trace has such comments, which follow each record from the first one on."""
    with path.open(encoding="utf-8", errors="replace") as lines:
        is_body = False
        for line in lines:
            if line.startswith(MARK):
                return True
            if is_body and not line.startswith("#"):
                return False
            is_body |= is_body or line[:1].isdecimal()
    return False


def told(path: Path) -> Iterator[str]:
    """What the comments say, line by line."""
    with path.open(encoding="utf-8", errors="replace") as lines:
        for line in lines:
            if line.startswith(MARK):
                yield line[len(MARK) :]


def blocks(lines: Iterable[str]) -> Iterator[Block]:
    """The blocks of a printed text."""
    events: list[str] = []
    for text in lines:
        words = text.rstrip("\n").split(" ")
        if words[0] in EDGES:
            events.append(" ".join(words))
        elif words[0].isdecimal():
            yield Block(int(words[0]), tuple(events), tuple(words[1:]))
            events.clear()


def register_of(event: str) -> Rule:
    """What an edge or a message is counted as."""
    words = event.split(" ")
    name, crate, definition = EDGES[words[0]]
    return Rule(f"{name} {words[2]}", crate, definition)


def compare(head: Head, found: Iterable[Record], said: Iterable[str], guest: Iterable[str], tally: Tally) -> None:
    """Counts what of each record is as the guest got it."""
    own, got, follower = blocks(said), blocks(guest), Follower(head.guest_khz)
    here, there = next(own, None), next(got, None)
    for record in found:
        rule = follower.rule(record.words)
        while here and here.line < record.line:
            here = next(own, None)
        if not here:
            return
        if not there or there.line != record.line:
            raise Refused(f"the comments '{MARK}..' don't say what the guest got at line {record.line}: records or comments were put "
                          "in or taken out after the recording")
        for outcome in outcomes(record, rule, here, there):
            tally.take(outcome)
        there = next(got, None)


def outcomes(record: Record, rule: Rule | None, here: Block, there: Block) -> Iterator[Outcome]:
    """The outcome of each edge and message that came up to a record, and that of its value, if it has one."""
    extra, missing = Counter(here.events) - Counter(there.events), Counter(there.events) - Counter(here.events)
    for event in (Counter(here.events) & Counter(there.events)).elements():
        yield Outcome(record, register_of(event), (event,), (event,), [])
    for event in [*extra.elements(), *missing.elements()]:
        on = register_of(event)
        own, peer = ((event,), ("none",)) if event in extra else (("none",), (event,))
        yield Outcome(record, on, own, peer, [Part(on.register, "an edge" if on.crate == "irq_edges" else "a message", on.crate, on.name)])
    rule = rule or Rule("number of the access", "board_core", "reply_of")
    if here.value == there.value:
        parts = []
    else:
        parts = [Part(rule.register, what_differs(here.value[1:], there.value[1:]), rule.crate, rule.name)]
    if parts or len(here.value) > 1:
        yield Outcome(record, rule, here.value[1:] or here.value, there.value[1:] or there.value, parts)


def what_differs(own: tuple[str, ...], peer: tuple[str, ...]) -> str:
    """By which bits two values differ; of other words that they do."""
    try:
        return bits_named(int(own[0], 16) ^ int(peer[0], 16)) if len(own) == len(peer) == 1 and own != peer else "value"
    except ValueError:
        return "value"
