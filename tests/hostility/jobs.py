# SPDX-License-Identifier: Apache-2.0 OR MIT
"""What a job may print where an end fails or memory runs out, worked out from what it prints with none of that."""

import re
from dataclasses import dataclass, field
from itertools import accumulate
from pathlib import Path

from .program import TOP, Program

SOURCE_FAULT = b"fault source\n"
MEMORY_FAULT = b"fault memory\n"
REPLAY = ("replay",)
RACE = ("race",)
SHARED = b"""clockboard 1
guest 2000000
cpus 3
begin
0 1000 wrmsr 4b564d01 1001
0 1000 rdmsr 10
1 1000 rdmsr 10
1 1000 wrmsr 4b564d01 2001
1 1000 clock 1
2 1000 step
2 1000 rdmsr 3b
2 1000 rdmsr 10
end
"""
"""Three processors at one count, so that all but the numbers of the accesses is the same in any order."""


@dataclass
class Job:
    """A command on a trace: what it prints; what may stand before `fault memory`, and what before `fault source` behind so
    many bytes; whether numbers of accesses may differ from run to run."""

    name: str
    words: tuple[str, ...]
    trace: bytes
    text: bytes
    is_in_any_order: bool = False
    fronts: set[bytes] = field(default_factory=lambda: {b""})
    lines: list[tuple[int, bytes]] = field(default_factory=list)

    def reads(self) -> bool:
        """Whether it reads from the source."""
        return self.words[:1] in (REPLAY, RACE) and set(self.words[1:]) <= {"--state"}

    def before_source_fault(self, given: int) -> bytes:
        """What stands before `fault source` where so many bytes were given: the blocks of the whole lines among them."""
        return b"".join(block for end, block in self.lines if end <= given)

    def is_whole(self, text: bytes) -> bool:
        """Whether a text is the job's."""
        return self.plain(text) == self.plain(self.text)

    def is_beginning(self, cut: bytes) -> bool:
        """Whether a text is a beginning of the job's: where numbers may differ, its whole lines are."""
        if self.is_in_any_order:
            cut = cut[:cut.rfind(b"\n") + 1]
        return self.plain(self.text).startswith(self.plain(cut))

    def plain(self, text: bytes) -> bytes:
        """A text without what may differ from run to run."""
        return re.sub(rb"(?m)^(\d+) \d+", rb"\1 N", text) if self.is_in_any_order else text


def blocks_of(trace: bytes, text: bytes) -> list[tuple[int, bytes]]:
    """Each line of a trace, by where it ends, and what it printed: the lines of edges stand before its own."""
    lines = trace.splitlines(keepends=True)
    blocks = [b""] * len(lines)
    block = b""
    for line in text.splitlines(keepends=True):
        block += line
        word = line.split()[0]
        if word.isdigit():
            blocks[int(word) - 1] = block
            block = b""
    blocks[-1] = block
    return list(zip(accumulate(map(len, lines)), blocks))


def replay_of(program: Program, name: str, trace: bytes, words: tuple[str, ...] = REPLAY) -> Job:
    """A replay that reads its trace to the end."""
    text = program.run(words, trace).text
    lines = blocks_of(trace, text)
    fronts = set(accumulate(block for _, block in lines)) - {text} | {b""}
    return Job(name, words, trace, text, fronts=fronts, lines=lines)


def job_of(program: Program, name: str, words: tuple[str, ...], trace: bytes = b"", is_in_any_order: bool = False) -> Job:
    """A job that prints nothing before it has all."""
    return Job(name, words, trace, program.run(words, trace).text, is_in_any_order)


def example(name: str) -> bytes:
    return (TOP / "examples" / f"{name}.trace").read_bytes()


def saved_trace(program: Program, of: bytes) -> bytes:
    """A trace that begins with the board that another leaves, and saves it twice."""
    final, state = program.run(("replay", "--state"), of).text.splitlines()[-2:]
    count = int(final.split()[1])
    records = b"0 %d save\n0 %d step\n0 %d save\n" % (count, count + 1000, count + 2000)
    return b"clockboard 2\n" + state + b"\nbegin\n" + records + b"end\n"


def all_jobs(program: Program) -> list[Job]:
    """Each command, on traces that are moved, boot, begin with a saved state, and run on threads."""
    moved, boot = example("migration"), example("boot")
    saved = saved_trace(program, example("alarm"))
    return [
        replay_of(program, "replay of a move", moved),
        replay_of(program, "replay of a boot", boot),
        replay_of(program, "replay of a saved board", saved),
        replay_of(program, "replay of a move with --state", moved, ("replay", "--state")),
        job_of(program, "race of a move", RACE, moved),
        job_of(program, "race of a saved board with --state", ("race", "--state"), saved),
        job_of(program, "race of three processors", RACE, SHARED, is_in_any_order=True),
        job_of(program, "gen", ("gen", "5", "9", "2")),
        job_of(program, "soak", ("soak", "5", "40", "2")),
        job_of(program, "the usage", ("replay", "7"), boot),
        job_of(program, "the help", ("--help",), boot),
        job_of(program, "the version", ("--version",), boot),
    ]
