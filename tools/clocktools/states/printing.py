# SPDX-License-Identifier: Apache-2.0 OR MIT
"""`print` and `diff`: the fields of a state, and of two."""

from dataclasses import dataclass
from typing import Any

from .layout import Field, Kind, by_name, fields
from .looking import Clocks, derived, look
from .meaning import datetime_of, difference, meaning, shown, signed
from .saved import Fields, StateRefused, ask, blank, unjudged

ALWAYS_SHOWN = ("format", "cpus", "host.khz")
WORDS = (Kind.POLICY, Kind.FLAGS)
"""The kinds whose numbers are shown as words."""
JSON_EXACT = 4
"""Fields of more bytes are strings of digits in JSON, as many readers keep 53 bits of a number."""


def for_json(one: Field, number: int) -> int | str:
    return str(number) if one.size > JSON_EXACT else number


def state_told(data: bytes) -> dict[str, Any]:
    """A state as one object for machines."""
    clocks = look(data)
    values = unjudged(data)
    return {"format": values["format"],
            "fields": {one.name: for_json(one, values[one.name]) for one in fields(values["format"], values["cpus"])},
            "derived": {name: str(told) if isinstance(told, int) else told for name, told in derived(values, clocks).items()}}


def state_lines(data: bytes, is_whole: bool) -> list[str]:
    """A state in text. Fields as at power on are left out where it isn't the whole."""
    clocks = look(data)
    values = unjudged(data)
    base = {} if is_whole else blank(values["format"], values["cpus"])
    lines = []
    for one in fields(values["format"], values["cpus"]):
        number = values[one.name]
        if number != base.get(one.name) or one.name in ALWAYS_SHOWN:
            lines.append(f"{one.name} {shown(one, number)}   {meaning(one.name, number)}".rstrip())
    return lines + [f"= {name} {told}" for name, told in derived(values, clocks).items()]


def ran_to(data: bytes, until_ns: int) -> bytes:
    """The state after a step to a later time."""
    values = unjudged(data)
    count = values["host.anchor_count"] - (values["host.anchor_ns"] - until_ns) * values["host.khz"] // 1_000_000
    return ask(data, [f"0 {count} step"]).after


@dataclass(frozen=True)
class Change:
    """A field that differs between two states, and what that comes to. One that a state hasn't is None there."""

    field: Field
    before: int | None
    after: int | None
    meaning: str

    def text(self, number: int | None) -> str:
        if number is None:
            return "none"
        return shown(self.field, number) if self.field.kind in WORDS else str(number)


def changed_fields(first: Fields, second: Fields) -> list[Change]:
    shapes = [by_name(values["format"], values["cpus"]) for values in (first, second)]
    found = []
    for name, one in {**shapes[0], **shapes[1]}.items():
        before, after = first.get(name), second.get(name)
        if before != after:
            is_told = before is not None and after is not None and one.kind not in WORDS
            found.append(Change(one, before, after, difference(name, before, after, second["guest.khz"]) if is_told else ""))
    return found


def clock_lines(before: Clocks, after: Clocks) -> list[str]:
    """The time between two states, and what each clock has beside it."""
    passed = after.now_ns - before.now_ns
    lines = [f"= time {passed:+d} ns"]
    for cpu, (tsc, later) in enumerate(zip(before.tsc, after.tsc)):
        if tsc is None or later is None:
            continue
        ticks = signed(later - tsc)
        beside = ticks * 1_000_000 / after.values["guest.khz"] - passed
        lines.append(f"= cpu{cpu}.tsc {ticks:+d} ticks, {beside:+.1f} ns beside the time")
    dates = [datetime_of(clocks.values) for clocks in (before, after)]
    return lines + ([f"= rtc.datetime {dates[0]} -> {dates[1]}"] if dates[0] != dates[1] else [])


def compared(first: bytes, second: bytes, runs: bool) -> tuple[list[Change], list[str]]:
    """The fields that differ between two states, and the lines of their clocks. With `runs` the first one steps to the time of the
    second."""
    before, after = look(first), look(second)
    one, other = unjudged(first), unjudged(second)
    if runs:
        if one["host.khz"] != other["host.khz"]:
            raise StateRefused("host.khz two hosts' rates")
        if after.now_ns < before.now_ns:
            raise StateRefused("host.greatest_count the second state is the older")
        first = ran_to(first, after.now_ns)
        one, before = unjudged(first), look(first)
    alike = (one["format"], one["cpus"]) == (other["format"], other["cpus"])
    return changed_fields(one, other), clock_lines(before, after) if alike else []


def differences_told(found: list[Change], clocks: list[str]) -> dict[str, Any]:
    """What differs as one object for machines."""
    def told(change: Change, number: int | None) -> int | str | None:
        return None if number is None else for_json(change.field, number)

    return {"fields": [{"field": change.field.name, "before": told(change, change.before), "after": told(change, change.after),
                        "meaning": change.meaning} for change in found], "clocks": [line[2:] for line in clocks]}


def difference_lines(found: list[Change]) -> list[str]:
    return [f"{change.field.name} {change.text(change.before)} -> {change.text(change.after)}   {change.meaning}".rstrip()
            for change in found]
