# SPDX-License-Identifier: Apache-2.0 OR MIT
"""What the definitions say of a trace, and of the commands that read none, with the exit status."""

from .compute import Definitions, Fields

REPLAY = ("trace_replay.specs.Replay", "replay")
CHECK = ("trace_runner.specs.Check", "check")
SAYING = ("trace_runner.specs.Sayings", "saying_of")
STATUS = "trace_replay.specs.Status"
# What a race asks for a record of these words; of any other an access.
CALLS = {"page": "ReadPage", "clock": "ReadClock", "hv": "ReadHv"}
# Commands that read no trace: their words, and what these ask for.
COMMANDS = [
    (["gen", "7", "200", "3"], ("Gen", Fields(key=7, records=200, cpus=3))),
    (["soak", "1", "0", "3"], ("Soak", Fields(key=1, records=0, cpus=3))),
    (["soak", "2", "1", "1"], ("Soak", Fields(key=2, records=1, cpus=1))),
    (["--help"], ("Help", ("Overview",))),
    *((([job, "--help"]), ("Help", (f"Of{job.title()}",))) for job in ("replay", "race", "gen", "soak")),
    (["--version"], ("Version",)),
    ([], ("Unknown",)),
]

Printed = tuple[bytes, int]


def status(definitions: Definitions, value: tuple) -> int:
    return definitions.value(STATUS, "number_of", value)


def verdict(definitions: Definitions, value: tuple) -> int:
    return status(definitions, definitions.value(STATUS, "verdict_status", value))


def replayed(definitions: Definitions, trace: bytes) -> Printed:
    """What a replay prints, and its status."""
    closing = definitions.value(*REPLAY, False, list(trace))
    return bytes(closing["text"]), verdict(definitions, closing["end"])


def checked(definitions: Definitions, trace: bytes) -> Printed | list:
    """What a race prints for a trace of which a line is refused, and its status; of another trace the phases that run."""
    closing = definitions.value(*CHECK, False, list(trace))
    kind, value = closing["end"]
    if kind == "Stopped":
        return bytes(closing["text"]), verdict(definitions, value)
    return [([(it["line"], it["cpu"], it["h"], it["call"][0]) for it in phase["records"]], phase["end"])
            for phase in value["phases"]]


def phases(trace: bytes) -> list:
    """The same phases, read from the words of a trace of which no line is refused."""
    found, records, is_header = [], [], True
    for number, line in enumerate(trace.decode().split("\n"), 1):
        words = line.split(" ")
        if is_header or not line or line[0] == "#":
            is_header = is_header and line != "begin"
        elif line == "end":
            return [*found, (records, ("Finish",))]
        else:
            cpu, h, word = int(words[0]), int(words[1]), words[2]
            if word == "save":
                end = ("Save", number, cpu, h)
            elif word == "move":
                end = ("Move", number, cpu, h, dict(zip(("khz", "start", "gap"), map(int, words[3:]))))
            else:
                records.append((number, cpu, h, CALLS.get(word, "Act")))
                continue
            found.append((records, end))
            records = []
    raise ValueError("a trace without an end")


def said(definitions: Definitions, command: tuple) -> Printed:
    """What a command says that reads no trace, and its status."""
    saying = definitions.value(*SAYING, command)[1]
    return bytes(saying["text"]), status(definitions, saying["status"])
