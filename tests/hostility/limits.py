# SPDX-License-Identifier: Apache-2.0 OR MIT
"""Limits of address space, stack and threads in steps, under which no signal may end a replay or a race."""

import os
import resource
import subprocess
from collections.abc import Iterator
from dataclasses import dataclass

from .faults import after_allocation
from .jobs import RACE, SHARED, Job, all_jobs, job_of
from .program import SECONDS, Outcome, Program

MB = 1 << 20
NOBODY = 65534
"""The system sets root no limit of threads."""

PARTED = b"clockboard 2\ncpus 64\nbegin\n%send\n" % b"".join(b"%d 9 page 0\n" % cpu for cpu in range(64))
"""64 processors, whose threads don't fit most limits."""


@dataclass(frozen=True)
class Limit:
    """A limit of the system's, as its text is spelled."""

    name: str
    kind: int
    most: int
    is_of_root: bool = True


def all_limits() -> Iterator[Limit]:
    """From 4 MB, and from one thread, up."""
    for quarters in (*range(16, 80), *range(80, 400, 16)):
        yield Limit("address space", resource.RLIMIT_AS, quarters * MB // 4)
    for size in (4, 5, 6, 8, 12, 16, 32, 64, 256, 1024):
        yield Limit("stack", resource.RLIMIT_STACK, size * MB)
    yield Limit("stack", resource.RLIMIT_STACK, resource.RLIM_INFINITY)
    for threads in range(1, 9):
        yield Limit("threads", resource.RLIMIT_NPROC, threads, is_of_root=False)


def run_under(program: Program, job: Job, limit: Limit) -> Outcome:
    """Runs a job under a limit."""
    def restrict() -> None:
        resource.setrlimit(limit.kind, (limit.most, limit.most))
        if not limit.is_of_root and os.getuid() == 0:
            os.setuid(NOBODY)

    try:
        done = subprocess.run([program.path, *job.words], input=job.trace, capture_output=True, check=False, env={},
                              preexec_fn=restrict, timeout=SECONDS)
    except subprocess.TimeoutExpired:
        return Outcome(None, b"", False)
    except OSError:
        return Outcome(11, b"", True)
    return Outcome(done.returncode, done.stdout, True)


def limited_jobs(program: Program) -> list[Job]:
    """The replays and the races, and a race of many processors."""
    return [job for job in all_jobs(program) if job.reads()] + [
        job_of(program, "race of 64 processors", RACE, PARTED),
        job_of(program, "race of three processors with --state", ("race", "--state"), SHARED, is_in_any_order=True),
    ]


def is_allowed(job: Job, outcome: Outcome) -> bool:
    """It has done the job, or memory ran out; the loader of a program that loads the C library may not have started it."""
    return after_allocation(job, 0, outcome) or (outcome.status == 127 and outcome.text == b"")


def try_limits(program: Program, job: Job) -> Iterator[tuple[str, Outcome, bool]]:
    """A job under each limit: how it ended, and whether that is allowed."""
    for limit in all_limits():
        outcome = run_under(program, job, limit)
        yield f"{limit.name} {limit.most}", outcome, is_allowed(job, outcome)
