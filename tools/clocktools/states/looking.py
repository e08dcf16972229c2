# SPDX-License-Identifier: Apache-2.0 OR MIT
"""What a guest reads on a board now. Each number is the program's answer to a record."""

from dataclasses import dataclass

from .layout import LAST_VERSION
from .meaning import datetime_of
from .saved import Block, Fields, StateRefused, ask, heading, unjudged


@dataclass
class Clocks:
    """The clocks of a board at one time: each processor's TSC and clock by its page (none where the page is off), Hyper-V's time, the
    next edge, and what the records before the questions printed. A board that has answered its last access is asked nothing."""

    now_ns: int
    tsc: list[int | None]
    clock_ns: list[int | None]
    hyperv: int | None
    next_edge_ns: int | None
    first: list[Block]
    values: Fields


def number_or_none(words: list[str], place: int) -> int | None:
    return None if words[-1] in ("off", "none") else int(words[place])


def look(data: bytes, first: list[str] | None = None, count: int | None = None) -> Clocks:
    """The clocks of a state's board at a count of its host's counter, by default its greatest, after the records `first`."""
    shape = heading(data)
    version, cpus = shape or (0, 0)
    count = int.from_bytes(data[36:44], "little") if count is None else count
    questions = [f"{cpu} {count} {words}" for cpu in range(cpus) for words in ("rdmsr 10", f"clock {cpu}")]
    if version >= 4:
        questions.append(f"0 {count} hv")
    try:
        answer = ask(data, [*(first or []), *questions, f"0 {count} next"])
    except StateRefused as fault:
        if first or not str(fault).startswith("spent "):
            raise
        return Clocks(ask(data, []).now_ns, [None] * cpus, [None] * cpus, None, None, [], unjudged(data))
    said = [block.reply for block in answer.blocks[len(first or []):]]
    return Clocks(answer.now_ns, [int(words[0], 16) for words in said[: 2 * cpus : 2]],
                  [number_or_none(words, 1) for words in said[1 : 2 * cpus : 2]],
                  number_or_none(said[2 * cpus], 4) if version >= 4 else None, number_or_none(said[-1], 0),
                  answer.blocks[: len(first or [])], unjudged(answer.after))


def versions_left(values: Fields, cpu: int) -> int:
    """How often a processor's page can still be published."""
    return (LAST_VERSION - values[f"cpu{cpu}.page.version"]) // 2


def derived(values: Fields, clocks: Clocks) -> dict[str, int | str | None]:
    """What is no byte of the state and follows from it."""
    found: dict[str, int | str | None] = {"now_ns": clocks.now_ns, "rtc.datetime": datetime_of(values),
                                          "next_edge_ns": clocks.next_edge_ns}
    for cpu in range(values["cpus"]):
        found[f"cpu{cpu}.tsc_now"] = clocks.tsc[cpu]
        found[f"cpu{cpu}.clock_now_ns"] = clocks.clock_ns[cpu]
        found[f"cpu{cpu}.page.versions_left"] = versions_left(values, cpu)
    if values["format"] >= 4:
        found["hv.now"] = clocks.hyperv
    return found
