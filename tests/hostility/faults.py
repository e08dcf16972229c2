# SPDX-License-Identifier: Apache-2.0 OR MIT
"""Each allocation, read, write and thread fails in turn, and the answer is one that docs/FAILURES.md names."""

from collections import Counter
from collections.abc import Callable, Iterator

from .jobs import MEMORY_FAULT, SOURCE_FAULT, Job
from .program import Outcome, Program

PIECE = 16384
"""How many bytes the program asks for at a time."""

Check = Callable[[Job, int, Outcome], bool]
"""Whether what a run left is allowed, where the call of this number failed."""
Seen = Counter[tuple[str, int | None]]
"""How many runs ended with a status behind a fault of a kind of call."""


def outcome_is_good(job: Job, outcome: Outcome) -> bool:
    return outcome.status == (2 if job.text.startswith(b"usage: ") else 0) and job.is_whole(outcome.text)


def after_allocation(job: Job, _number: int, outcome: Outcome) -> bool:
    """Memory ran out: as the words came, and nothing is printed; or later, behind whole blocks; or it wasn't needed."""
    if outcome.status == 11:
        return outcome.text == b""
    if outcome.status == 6:
        return outcome.text.endswith(MEMORY_FAULT) and outcome.text[:-len(MEMORY_FAULT)] in job.fronts
    return outcome_is_good(job, outcome)


def after_read(piece: int) -> Check:
    """The source failed behind so many whole pieces."""
    def check(job: Job, number: int, outcome: Outcome) -> bool:
        given = min(piece * (number - 1), len(job.trace))
        return outcome.status == 4 and outcome.text == job.before_source_fault(given) + SOURCE_FAULT
    return check


def after_write(job: Job, _number: int, outcome: Outcome) -> bool:
    """The sink failed, and has a beginning of the text."""
    return outcome.status == 5 and job.is_beginning(outcome.text)


def after_bytes_written(job: Job, number: int, outcome: Outcome) -> bool:
    """The sink failed behind so many bytes of the text, less one."""
    return after_write(job, number, outcome) and len(outcome.text) == number - 1


def after_thread(job: Job, _number: int, outcome: Outcome) -> bool:
    """A thread wasn't started: its work was done all the same."""
    return outcome_is_good(job, outcome)


CHECKS: list[tuple[str, Check]] = [
    ("alloc={}", after_allocation),
    ("alloc+={}", after_allocation),
    ("alloc={},reads=1", after_allocation),
    ("alloc={},writes=1", after_allocation),
    ("read={}", after_read(PIECE)),
    ("read={},reads=1", after_read(1)),
    ("read={},reads=1,errno=11", after_read(1)),
    ("write={}", after_write),
    ("write={},reads=1", after_write),
    ("write={},writes=1,errno=28", after_bytes_written),
    ("write+={},reads=1,errno=32", after_write),
    ("thread={}", after_thread),
    ("thread+={}", after_thread),
]
"""Faults, in which {} is the number of the call, and what stands behind them."""


def both_ends(program: Program, job: Job) -> Iterator[tuple[str, bool]]:
    """The source fails in the middle, and then the sink at each byte that is to be told of it."""
    given = len(job.trace) // 2
    text = job.before_source_fault(given) + SOURCE_FAULT
    for number in range(1, len(text) + 1):
        faults = f"read={given + 1},reads=1,write={number},writes=1"
        outcome = program.run(job.words, job.trace, faults)
        yield faults, outcome.status == 5 and outcome.text == text[:number - 1]


def memory_and_sink(program: Program, job: Job) -> Iterator[tuple[str, bool]]:
    """Memory runs out at each allocation, and the first write behind it fails."""
    number = 1
    while True:
        faults = f"alloc={number},write=1"
        outcome = program.run(job.words, job.trace, faults)
        yield faults, outcome.text == b"" and outcome.status in (5, 11)
        if not program.run(job.words, job.trace, f"alloc={number}").is_faulted:
            return
        number += 1


def in_turn(program: Program, job: Job, faults: str, check: Check, seen: Seen) -> Iterator[tuple[str, bool]]:
    """A fault at each call in turn, until there is no such call."""
    number = 1
    while True:
        spelled = faults.format(number)
        outcome = program.run(job.words, job.trace, spelled)
        if not outcome.is_faulted:
            yield spelled, outcome_is_good(job, outcome)
            return
        seen[faults.split("=")[0].strip("+"), outcome.status] += 1
        yield spelled, check(job, number, outcome)
        number += 1


def try_job(program: Program, job: Job, seen: Seen) -> Iterator[tuple[str, bool]]:
    """All faults of one job: each with whether the answer is one that is allowed."""
    yield "", outcome_is_good(job, program.run(job.words, job.trace))
    yield "reads=1,writes=1", outcome_is_good(job, program.run(job.words, job.trace, "reads=1,writes=1"))
    for faults, check in CHECKS:
        yield from in_turn(program, job, faults, check, seen)
    if job.reads():
        yield from both_ends(program, job)
    yield from memory_and_sink(program, job)
