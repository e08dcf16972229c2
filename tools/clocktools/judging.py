# SPDX-License-Identifier: Apache-2.0 OR MIT
"""What the judges of the devices share: a difference's parts, each by the bits that differ, with the rule that decides
and the row of docs/COMING_FROM_QEMU_AND_KVM.md that explains it, if one does."""

import math
from dataclasses import dataclass

from .rules import Rule


@dataclass(frozen=True)
class Cause:
    """A row of docs/COMING_FROM_QEMU_AND_KVM.md, by its name there, and the definition that decides here."""

    row: str
    crate: str
    name: str


@dataclass(frozen=True)
class Part:
    """A part of a difference. One without a row isn't explained; one that is near is none."""

    register: str
    what: str
    crate: str
    name: str
    row: str | None = None
    is_near: bool = False


@dataclass(frozen=True)
class Read:
    """A read whose answers differ: its time, to how many nanoseconds that is exact, and both values."""

    time: int
    within: int
    own: int
    peer: int
    is_answered: bool = True
    """Whether the peer's answer is known; else it is taken for the board's."""

    @property
    def mask(self) -> int:
        return self.own ^ self.peer


def bits_named(mask: int) -> str:
    places = [str(place) for place in range(mask.bit_length()) if mask >> place & 1]
    return f"bit {places[0]}" if len(places) == 1 else f"bits {', '.join(places)}"


def unexplained(rule: Rule, what: str) -> Part:
    return Part(rule.register, what, rule.crate, rule.name)


def known(rule: Rule, what: str, cause: Cause) -> Part:
    return Part(rule.register, what, cause.crate, cause.name, cause.row)


def near(rule: Rule, what: str) -> Part:
    return Part(rule.register, what, rule.crate, rule.name, is_near=True)


def by_bits(rule: Rule, mask: int, explained: list[tuple[int, Cause | None]]) -> list[Part]:
    """The parts of a mask: those bits that a cause explains (without a cause they are near), and the rest."""
    parts = []
    for bits, cause in explained:
        told = mask & bits
        if told:
            what = bits_named(told)
            parts.append(known(rule, what, cause) if cause else near(rule, what))
            mask &= ~bits
    return [*parts, unexplained(rule, bits_named(mask))] if mask else parts


def apart(own: int, peer: int, size: int) -> int:
    """How far two counts are apart, modulo the counter's size."""
    ahead = (own - peer) % size
    return min(ahead, size - ahead)


def counts_in(ns: int, counts_per_ns: float) -> int:
    """By how many counts a counter moves in a time at most."""
    return math.ceil(ns * counts_per_ns)
