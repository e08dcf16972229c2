# SPDX-License-Identifier: Apache-2.0 OR MIT
"""What a page shows of a trace and of what is printed for it, in columns that a browser reads quickly."""

import json
from collections.abc import Iterable
from dataclasses import dataclass, field
from typing import Any

from .command import Refused
from .decoding import DEVICES, DRIVES, HPET, Decoder
from .summing import summary
from .trace import Edge, Record, bursts, edges, final_time, replies

MOST_RECORDS = 1_000_000


@dataclass(frozen=True)
class Differences:
    """The kinds of difference, and by a record's line the kinds that it has with the peer's answer."""

    kinds: list[dict[str, str]]
    by_line: dict[int, list[tuple[int, str]]]


NO_DIFFERENCES = Differences([], {})


def differences_of(told: dict[str, Any]) -> Differences:
    """What `tools/compare --all --json` printed."""
    kinds: list[dict[str, str]] = []
    by_line: dict[int, list[tuple[int, str]]] = {}
    for number, kind in enumerate(told["differences"]):
        known, rule = kind["known"], kind["definition"]
        kinds.append({"register": kind["register"], "what": kind["what"],
                      "known": f"here {known['here']}; there {known['there']}" if known else "",
                      "rule": f"{rule['crate']}, {rule['name']}: {rule['words']} ({rule['standard']})"})
        for sample in kind["samples"]:
            by_line.setdefault(sample["line"], []).append((number, sample["peer"]))
    return Differences(kinds, by_line)


@dataclass(frozen=True)
class Span:
    """The time of which a page shows what happens."""

    first: int = 0
    last: int = 2**63

    def has(self, time: int) -> bool:
        return self.first <= time <= self.last


@dataclass
class Columns:
    """The records in columns: numbers as their differences, and each text once, by its number."""

    lines: list[str] = field(default_factory=list)
    cpus: list[str] = field(default_factory=list)
    times: list[str] = field(default_factory=list)
    words: list[str] = field(default_factory=list)
    values: list[str] = field(default_factory=list)
    texts: dict[tuple[str, str, str], int] = field(default_factory=dict)

    def told(self) -> dict[str, Any]:
        texts = [[words, told, DEVICES.index(device)] for words, told, device in self.texts]
        return {"texts": texts, "line": " ".join(self.lines), "cpu": " ".join(self.cpus), "time": " ".join(self.times),
                "words": " ".join(self.words), "value": "\n".join(self.values)}


def columns_of(records: Iterable[Record], answers: dict[int, str], span: Span, base: int) -> Columns:
    """The records of a time, in columns. Those before it are followed, as they say what those in it mean."""
    found, decoder = Columns(), Decoder()
    line, time = 0, base
    for record in records:
        device, told = decoder.told(record.words)
        if not span.has(record.time):
            continue
        key = " ".join(record.words), told, device
        found.lines.append(str(record.line - line))
        found.cpus.append(str(record.cpu))
        found.times.append(str(record.time - time))
        found.words.append(str(found.texts.setdefault(key, len(found.texts))))
        found.values.append(answers[record.line])
        line, time = record.line, record.time
    return found


def ends_up(printed: list[str]) -> set[int]:
    """The lines that are up at the end."""
    for line in printed:
        if line.startswith("final "):
            numbers = line.split(" ")[4]
            return set() if numbers == "-" else {int(number) for number in numbers.split(",")}
    return set()


def lines_of(found: list[Edge], ends: set[int], span: Span, base: int) -> list[dict[str, Any]]:
    """Each line that changes or is up at the end: its first level, and the times and directions of its edges."""
    lines: dict[int, dict[str, Any]] = {}
    for edge in found:
        line = lines.setdefault(edge.line, {"line": edge.line, "first": int(not edge.up), "at": [], "up": []})
        if edge.at < span.first:
            line["first"] = int(edge.up)
        elif span.has(edge.at):
            line["at"].append(edge.at - base)
            line["up"].append(int(edge.up))
    for number in ends - lines.keys():
        lines[number] = {"line": number, "first": 1, "at": [], "up": []}
    return [lines[number] for number in sorted(lines)]


def timers_of(printed: list[str], span: Span, base: int) -> list[dict[str, Any]]:
    """Each timer that sends messages, with its bursts: the first message, how many, from one to the next, and where to."""
    found: dict[int, dict[str, Any]] = {}
    for burst in bursts(printed):
        if span.has(burst.times[0]) or span.has(burst.times[-1]):
            timer = found.setdefault(burst.timer, {"timer": burst.timer, "bursts": []})
            timer["bursts"].append([burst.times.start - base, len(burst.times), burst.times.step,
                                    f"processor {burst.cpu}, vector {burst.vector}"])
    return [found[number] for number in sorted(found)]


def answers_of(printed: list[str]) -> dict[int, str]:
    """The value of each line that was answered. A reply of a page or a clock has its name in the number's place."""
    return {reply.line: " ".join(reply.value) for reply in replies(printed)}


def page_data(title: str, records: Iterable[Record], printed: list[str], differences: Differences, ticks: dict[str, tuple[int, ...]],
              span: Span) -> dict[str, Any]:
    """What the page shows. Times are counted from the first, so that the numbers of a browser hold them."""
    answers = answers_of(printed)
    answered = [record for record in records if record.line in answers]
    shown = [record for record in answered if span.has(record.time)]
    if len(shown) > MOST_RECORDS:
        middle = shown[MOST_RECORDS // 2].time
        raise Refused(f"{title} has {len(shown):,} records, and a page shows {MOST_RECORDS:,}: choose a time by --from NS and --to NS, as "
                      f"--from {shown[0].time} --to {middle}")
    found = list(edges(printed))
    times = [record.time for record in (shown[:1] + shown[-1:])] + [edge.at for edge in found if span.has(edge.at)]
    times += [at for burst in bursts(printed) for at in (burst.times[0], burst.times[-1]) if span.has(at)]
    end = final_time(printed) or 0
    base, last = min([*times, end] if times else [0]), max([*times, end if span.has(end) else 0])
    refused = next((line for line in printed if line.startswith(("refused ", "fault "))), "")
    return {
        "title": title, "base": str(base), "end": max(last - base, 1), "told": refused,
        "cpus": sorted({record.cpu for record in shown}), "devices": DEVICES,
        "drives": {line: [DEVICES.index(device) for device in DRIVES.get(line, (HPET,))] for line in (0, 8, 20, 21, 22, 23)},
        "lines": lines_of(found, ends_up(printed), span, base), "timers": timers_of(printed, span, base),
        "records": columns_of(answered, answers, span, base).told(),
        "summary": summary(answered, found, ticks, 0, last) if answered else [],
        "kinds": differences.kinds, "differences": differences.by_line,
    }


def page(template: str, script: str, data: dict[str, Any]) -> str:
    """The whole file. No text of a trace can end the script that holds it."""
    told = json.dumps(data, ensure_ascii=True, separators=(",", ":")).replace("<", "\\u003c")
    return template.replace("/*SCRIPT*/", script, 1).replace("/*DATA*/", told, 1)
