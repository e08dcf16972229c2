# SPDX-License-Identifier: Apache-2.0 OR MIT
"""Says on standard error which of the program's words is at fault, what was expected, and the nearest right word: for
bin/clockboard, where the program has answered them by its usage."""

import re
import sys
from pathlib import Path

if __package__ in (None, ""):
    sys.path.insert(0, str(Path(__file__).resolve().parents[1]))

from clocktools.command import nearest, say, shown

JOBS = ("replay", "race", "gen", "soak", "state")
OPTIONS = {"": ("--help", "--version", "-h", "-V"), "replay": ("--state", "--json", "--assert", "--help", "--version"),
           "race": ("--state", "--help", "--version"), "gen": ("--help", "--version"), "soak": ("--help", "--version")}
NUMBERS = (("KEY", 0, 2**64 - 1), ("RECORDS", 0, 200_000), ("CPUS", 1, 16))
"""The numbers of `gen` and `soak`, each with its least and its greatest."""


def fault(words: list[str]) -> str:
    """What is wrong with the program's words."""
    if not words:
        return f"a job is missing: {', '.join(JOBS[:-1])} or {JOBS[-1]}"
    job, rest = words[0], words[1:]
    if job.startswith("-"):
        return f"'{shown(job)}' is no option{nearest(job, OPTIONS[''])}"
    if job not in JOBS:
        is_file = " (a trace comes from standard input: bin/clockboard replay < it)" if Path(job).is_file() else ""
        return f"'{shown(job)}' is no job, which is one of {', '.join(JOBS)}{nearest(job, JOBS)}{is_file}"
    if job in ("replay", "race"):
        return of_trace(job, rest)
    return of_numbers(job, rest)


def of_trace(job: str, words: list[str]) -> str:
    for place, word in enumerate(words):
        if word == "--state":
            if word in words[:place]:
                return "--state stands twice; once is enough"
        elif word in ("--json", "--assert"):
            return f"{word} is a word of replay alone"
        elif word.startswith("-") and word != "-":
            return f"'{shown(word)}' is no option of {job}{nearest(word, OPTIONS[job])}"
        else:
            return f"'{shown(word)}' is one word too many: {job} reads its trace from standard input: bin/clockboard {job} < {shown(word)}"
    return f"{job} takes these words, but not here"


def of_numbers(job: str, words: list[str]) -> str:
    option = next((word for word in words if re.match(r"-[^0-9]", word) and word != "--"), None)
    if option:
        return f"'{shown(option)}' is no option of {job}{nearest(option, OPTIONS[job])}"
    numbers = [word for word in words if word != "--"]
    for (name, low, high), word in zip(NUMBERS, numbers):
        if not re.fullmatch(r"\+?[0-9]+", word):
            return f"{name} is a number from {low} to {high}, and '{shown(word)}' is none"
        if not low <= int(word) <= high:
            return f"{name} is a number from {low} to {high}, and {word} is out of that"
    form = f"{job} KEY RECORDS CPUS"
    if len(numbers) < len(NUMBERS):
        return f"{NUMBERS[len(numbers)][0]} is missing: {form}"
    return f"'{shown(numbers[len(NUMBERS)])}' is one word too many: {form}" if len(numbers) > len(NUMBERS) else form


if __name__ == "__main__":
    say("clockboard", f"{fault(sys.argv[1:])}; bin/clockboard --help has all words", 0)
