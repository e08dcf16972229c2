# SPDX-License-Identifier: Apache-2.0 OR MIT
"""Compares a trace's answers with those of a peer, record by record, and holds no more of either than it needs."""

from collections.abc import Iterable, Iterator

from .judge_hpet import HpetJudge
from .judge_page import PageJudge, msr
from .judge_pit import PitJudge, Probe
from .judge_rtc import NO_PHASE, RtcJudge
from .judging import Part, Read, by_bits
from .outcome import Outcome, Tally
from .peer import NO_ANSWER, Answer, Peer
from .rules import Follower, Rule
from .trace import Edge, Head, Record, Reply, is_edge

class Judge:
    """Follows a trace's records, and compares the answers to those that read."""

    def __init__(self, head: Head, near: int | None) -> None:
        self.near = near
        self.follower = Follower(head.guest_khz)
        self.pit, self.rtc, self.hpet, self.pages = PitJudge(), RtcJudge(), HpetJudge(), PageJudge()
        if head.begins_saved:
            self.pit.begin_saved()
            self.rtc.phase = NO_PHASE

    def record(self, record: Record, own: tuple[str, ...], answer: Answer) -> Outcome | None:
        """The outcome of a record that the peer answered. Others are followed."""
        rule = self.follower.rule(record.words)
        self.rtc.index = self.follower.index
        if rule is None:
            self.write(record, answer.within if self.near is None else 0)
            return None
        within = answer.within if self.near is None else self.near
        told = answer.value or own
        if record.words[0] == "page":
            parts, probe = self.pages.read(rule, record, own, told, within) if answer.value else [], None
        elif not own:
            return None
        else:
            read = Read(record.time, within, int(own[0], 16), int(told[0], 16), bool(answer.value))
            parts, probe = self.read(record.words, rule, read)
        return Outcome(record, rule, own, answer.value, parts, probe) if answer.value else None

    def write(self, record: Record, within: int) -> None:
        kind, *words = record.words
        if kind == "hw":
            self.hpet.write(int(words[0], 16), int(words[1]), int(words[2], 16), within)
        elif kind == "out":
            port, byte = int(words[0], 16), int(words[1], 16)
            if port == 0x71:
                self.rtc.write(byte, record.time)
            elif port != 0x70:
                self.pit.write(port, byte, record.time, within)

    def read(self, words: tuple[str, ...], rule: Rule, read: Read) -> tuple[list[Part], Probe | None]:
        place = int(words[1], 16)
        if words[0] == "rdmsr":
            return msr(rule, read) if read.mask else [], None
        if words[0] == "hr":
            return self.hpet.read(rule, place, int(words[2]), read) if read.mask else [], None
        if place == 0x71:
            return self.rtc.read(rule, read, self.rtc.index in self.follower.rtc_written), None
        if place == 0x61:
            return self.pit.port_61_read(rule, read) if read.mask else ([], None)
        if place == 0x43:
            return self.pit.port_43_read(rule, read), None
        if not 0x40 <= place <= 0x42:
            return by_bits(rule, read.mask, []), None
        is_status = rule.name == "status_of"
        return (self.pit.status if is_status else self.pit.count)(place - 0x40, rule, read), None


def outcomes(head: Head, found: Iterable[Record], said: Iterable[Reply | Edge], peer: Peer, near: int | None,
             tally: Tally) -> Iterator[Outcome]:
    """The outcome of each read that the peer answered, in the trace's order; rises are counted on the way."""
    judge, answers, printed = Judge(head, near), peer.answers(), iter(said)
    answer = next(answers, NO_ANSWER)
    for record in found:
        while answer is not NO_ANSWER and answer.line < record.line:
            answer = next(answers, NO_ANSWER)
        own = None
        for event in printed:
            if is_edge(event):
                tally.risen[event.line] += event.up
            elif event.line == record.line:
                own = event.value
                break
        if own is None:
            return
        silent = Answer(record.line, (), peer.stamp_ns)
        outcome = judge.record(record, own, answer if answer.line == record.line else silent)
        if outcome:
            yield outcome
