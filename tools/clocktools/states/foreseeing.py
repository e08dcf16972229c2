# SPDX-License-Identifier: Apache-2.0 OR MIT
"""`what-if`: what a guest sees of a move, by two replays: one without the move and one with it, and the same questions after both."""

from dataclasses import dataclass
from typing import Any

from .editing import line_owners, move_account
from .layout import POLICIES, TICK_COUNTS, tick_lines
from .looking import Clocks, look, versions_left
from .meaning import HPET_NS, datetime_of, signed
from .saved import Fields, Losses, ask, encoded, unjudged

START = 10**12
"""The count of the new host's counter when the gap is over; the guest doesn't see it."""
STATUSES = {"range": 7, "spent": 8, "versions": 9}
"""Of a move that is refused, as those of the program."""
HOUR = 3600 * 10**9
AT_ONCE = 16
"""How many counts one run of the program asks for."""


@dataclass
class Move:
    """A move and what it comes to."""

    khz: int
    gap_ns: int
    before: Clocks
    after: Clocks
    state: bytes
    """After the move."""

    @property
    def time_ns(self) -> tuple[int, int]:
        return self.before.now_ns, self.after.now_ns


def moved(data: bytes, khz: int, gap_ns: int) -> Move:
    values = unjudged(data)
    record = f"0 {values['host.greatest_count']} move {khz} {START} {gap_ns}"
    return Move(khz, gap_ns, look(data), look(data, [record], START), ask(data, [record]).after)


def with_policies(data: bytes, policies: list[str], losses: Losses) -> bytes:
    """The state under other policies, of the 8254, the MC146818 and the HPET."""
    good = unjudged(data)
    values = dict(good)
    for device, policy in zip(("pit", "rtc", "hpet"), policies):
        move_account(values, device, POLICIES.index(policy), losses)
    return encoded(values, good)


def clocks_of(move: Move) -> dict[str, dict[str, Any]]:
    """Each clock before and after, and what it has beside the gap."""
    before, after, gap = move.before, move.after, move.gap_ns
    old, new = before.values, after.values
    found: dict[str, dict[str, Any]] = {}

    def row(name: str, first: int | str, second: int | str, meaning: str) -> None:
        found[name] = {"before": first, "after": second, "meaning": meaning}

    for cpu, (first, second) in enumerate(zip(before.tsc, after.tsc)):
        assert first is not None and second is not None
        ticks = signed(second - first)
        row(f"cpu{cpu}.tsc", first, second, f"{ticks:+d} ticks, {ticks * 1_000_000 / old['guest.khz'] - gap:+.1f} ns beside the gap")
    for cpu, (clock, later) in enumerate(zip(before.clock_ns, after.clock_ns)):
        if clock is not None and later is not None:
            row(f"cpu{cpu}.clock", clock, later, f"{later - clock:+d} ns, {later - clock - gap:+d} ns beside the gap")
    if before.hyperv is not None and after.hyperv is not None:
        row("hv", before.hyperv, after.hyperv, f"{(after.hyperv - before.hyperv) * 100 - gap:+d} ns beside the gap")
    row("rtc", datetime_of(old), datetime_of(new), "")
    counted = signed(new["hpet.counter"] - old["hpet.counter"]) * HPET_NS - gap
    row("hpet", old["hpet.counter"], new["hpet.counter"], f"{counted:+d} ns beside the gap" if old["hpet.config"] & 1 else "stands")
    return found


def short_name(owner: str) -> str:
    """The name by which a record asks for tick counts."""
    if owner.startswith("hpet.timer"):
        return owner.replace(".timer", "")
    return f"apic{owner[3:].split('.')[0]}" if owner.startswith("cpu") else owner


def ticks_of(move: Move) -> dict[str, dict[str, int]]:
    """What became of the ticks, by source; those without any are left out."""
    old, new = move.before.values, move.after.values
    found = {short_name(owner): {name: new[f"{owner}.ticks.{name}"] - old[f"{owner}.ticks.{name}"] for name in TICK_COUNTS}
             for owner in tick_lines(old["format"], old["cpus"])}
    return {source: counts for source, counts in found.items() if any(counts.values())}


def next_tick(data: bytes, cpu: int) -> int | None:
    """The first nanosecond in which a tick of a processor's local APIC timer comes due, or None if none comes in an hour. Found by
    cutting the time between, with the counts at several places in each run of the program."""
    values = unjudged(data)
    now_ns = look(data).now_ns

    def due(places: list[int]) -> list[int]:
        counts = [values["host.anchor_count"] - (values["host.anchor_ns"] - now_ns - place) * values["host.khz"] // 1_000_000
                  for place in places]
        said = ask(data, [f"{cpu} {count} counts apic{cpu}" for count in counts]).blocks
        return [int(block.reply[0]) for block in said]

    low, high = 0, HOUR
    first, last = due([low, high])
    if first == last:
        return None
    while high - low > 1:
        places = sorted({low + (high - low) * step // (AT_ONCE + 1) for step in range(1, AT_ONCE + 1)} - {low})
        for place, count in zip(places, due(places)):
            if count != first:
                high = place
                break
            low = place
    return now_ns + high


def why_no_edge(values: Fields) -> str:
    """Why no edge comes though time goes on."""
    up = [(line, owner) for line, owners in line_owners(values).items() for owner in owners if values[f"{owner}.ticks.up"]]
    told = []
    for line, owner in up:
        is_level = owner.startswith("hpet") and values[f"{owner}.config"] & 2
        wanted = "a read of register C" if owner == "rtc" else "a write of its status bit" if is_level else "its acknowledgement"
        told.append(f"line {line} is up, and waits for {wanted}")
    return "; ".join(told) or "no source is programmed to raise a line"


def report(move: Move, asks_ticks: bool) -> dict[str, Any]:
    """The whole as one object for machines."""
    blocks = move.after.first
    edges = [words for block in blocks for words in block.edges]
    messages = [words for block in blocks for words in block.messages]
    values = move.after.values
    found: dict[str, Any] = {
        "time_ns": [str(time) for time in move.time_ns], "clocks": clocks_of(move), "ticks": ticks_of(move),
        "edges": [{"at_ns": str(int(words[1])), "line": int(words[2]), "up": words[3] == "up"} for words in edges],
        "messages": [{"timer": int(words[2]), "count": int(words[5]), "first_ns": words[1], "every_ns": words[6], "cpu": int(words[3]),
                      "vector": words[4]} for words in messages],
        "next_edge_ns": move.after.next_edge_ns if move.after.next_edge_ns is None else str(move.after.next_edge_ns),
        "versions_left": {f"cpu{cpu}.page.versions_left": versions_left(values, cpu) for cpu in range(values["cpus"])}}
    if move.after.next_edge_ns is None:
        found["why"] = why_no_edge(values)
    if asks_ticks and values["format"] >= 3:
        running = [cpu for cpu in range(values["cpus"])
                   if values[f"cpu{cpu}.apic_timer.current"] or values[f"cpu{cpu}.apic_timer.deadline"]]
        ticks = {f"apic{cpu}": next_tick(move.state, cpu) for cpu in running}
        found["next_tick_ns"] = {name: tick if tick is None else str(tick) for name, tick in ticks.items()}
    return found


def exact(found: dict[str, Any]) -> dict[str, Any]:
    """The same with the numbers of 64 bits as strings."""
    return {**found, "clocks": {name: {key: str(told) if isinstance(told, int) else told for key, told in row.items()}
                                for name, row in found["clocks"].items()}}


def report_lines(found: dict[str, Any]) -> list[str]:
    """The same in text."""
    lines = ["time {} -> {} ns".format(*found["time_ns"])]
    lines += [f"{name} {row['before']} -> {row['after']}   {row['meaning']}".rstrip() for name, row in found["clocks"].items()]
    lines += [f"ticks {name} {row['due']:+d} due, {row['rose']:+d} rise, {row['waiting']:+d} wait, {row['lost']:+d} lost"
              for name, row in found["ticks"].items()]
    lines += [f"messages hpet{row['timer']} {row['count']} from {row['first_ns']} each {row['every_ns']} ns to cpu {row['cpu']} "
              f"vector {row['vector']}" for row in found["messages"]]
    lines += [f"edge {row['at_ns']} {row['line']} {'up' if row['up'] else 'down'}" for row in found["edges"]]
    lines.append(f"next edge {found['next_edge_ns']}" + (f"   {found['why']}" if "why" in found else ""))
    lines += [f"next tick {name} {tick}" for name, tick in found.get("next_tick_ns", {}).items()]
    return lines + [f"{name} {left}" for name, left in found["versions_left"].items()]
