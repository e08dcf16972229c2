# SPDX-License-Identifier: Apache-2.0 OR MIT
"""How the answers to a trace's records compare, and what was found of all of them."""

from collections import Counter
from dataclasses import dataclass, field

from .judge_pit import Probe, out_2
from .judging import Part
from .probing import answered
from .rules import Rule
from .trace import Record

SHOWN = 3
"""So many samples of a kind of difference are kept."""
PROBED_AT_ONCE = 500
SAME, NEAR, KNOWN, UNEXPLAINED = "same", "near", "known", "unexplained"


@dataclass(frozen=True)
class Outcome:
    """How the answers to one read compare. Of one that waits for a probe, the parts without that."""

    record: Record
    rule: Rule
    own: tuple[str, ...]
    peer: tuple[str, ...]
    parts: list[Part]
    probe: Probe | None = None

    @property
    def verdict(self) -> str:
        if not self.parts:
            return SAME
        if all(part.is_near for part in self.parts):
            return NEAR
        return KNOWN if all(part.is_near or part.row for part in self.parts) else UNEXPLAINED


@dataclass
class Kind:
    """A kind of difference: how many records have it, and the first of them."""

    count: int = 0
    samples: list[Outcome] = field(default_factory=list)


@dataclass
class Tally:
    """What was found: how the reads of each register compare, and each kind of difference."""

    shown: float = SHOWN
    registers: dict[str, Counter[str]] = field(default_factory=dict)
    kinds: dict[Part, Kind] = field(default_factory=dict)
    risen: Counter[int] = field(default_factory=Counter)
    waiting: list[Outcome] = field(default_factory=list)

    def take(self, outcome: Outcome) -> None:
        if outcome.probe:
            self.waiting.append(outcome)
            if len(self.waiting) >= PROBED_AT_ONCE:
                self.settle()
            return
        self.registers.setdefault(outcome.rule.register, Counter())[outcome.verdict] += 1
        for part in outcome.parts:
            if not part.is_near:
                kind = self.kinds.setdefault(part, Kind())
                kind.count += 1
                if len(kind.samples) < self.shown:
                    kind.samples.append(outcome)

    def settle(self) -> None:
        """Asks the board for the probes that wait."""
        waiting, self.waiting = self.waiting, []
        probes = [outcome.probe for outcome in waiting if outcome.probe]
        for outcome, is_near in zip(waiting, answered(probes), strict=True):
            parts = [*outcome.parts, out_2(outcome.rule, is_near)]
            self.take(Outcome(outcome.record, outcome.rule, outcome.own, outcome.peer, parts))

    @property
    def differs(self) -> bool:
        return any(not part.row for part in self.kinds)
