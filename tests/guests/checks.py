# SPDX-License-Identifier: Apache-2.0 OR MIT
"""What is checked of each run, by the guest's log and the traces."""

import json
import re
import subprocess
from collections.abc import Callable
from datetime import datetime
from pathlib import Path

from kinds import (BAD, HPET_NS, HZ, LATE, LIMIT, MARGIN, ON_THE_BOARD, PIT_HZ, RTC_HZ, S3, S3_MARGIN, SECOND, SLEEPS_IN_S3, START,
                   Late, Seen, need)
from taken_over import program, state


def numbers(log: str, name: str) -> list[list[float]]:
    """The numbers of each line `guest: NAME ..`."""
    lines = re.findall(rf"^guest: {name} (.*)$", log, re.MULTILINE)
    return [[float(word) for word in re.findall(r"[\d.]+", said)] for said in lines]


def check_linux(seen: Seen) -> None:
    log = seen.log.replace("\r", "")
    bad = BAD.search(log)
    need(not bad, f"the log has '{bad and bad[0]}'")
    need("guest: done" in log, "the guest didn't come to its end")
    late = LATE.search(log)
    need(not late, f"the log has '{late and late[0]}'", Late)
    detected = re.findall(r"tsc: Detected ([\d.]+) MHz", log)
    refined = re.findall(r"tsc: Refined TSC clocksource calibration: ([\d.]+) MHz", log)
    seen.mhz = float((refined or detected or ["0"])[-1])
    worst = 0.0
    for said in re.findall(r"^guest: slept (\d+) on \S+: ([\d.]+) ([\d.]+)$", log, re.MULTILINE):
        wanted, begin, end = map(float, said)
        worst = max(worst, abs(end - begin - wanted) / wanted)
    need(worst <= 0.02 or seen.run.is_slow, f"a sleep is off by {100 * worst:.1f} %", Late)
    clocks = numbers(log, "clocks")[-2:]
    apart = max(abs(system - hardware) for system, hardware in clocks)
    need(len(clocks) == 2 and apart <= 1, f"the MC146818 is {apart:.0f} s from the system's clock")
    need(0 <= clocks[0][1] - START <= LIMIT, f"the MC146818 began at {clocks[0][1]:.0f}")
    before, after = numbers(log, "alarm")[-1]
    need(after > before, "no interrupt of the alarm")
    sources = re.findall(r"^guest: clocksource (\S+) of .*$", log, re.MULTILINE)
    events = re.findall(r"^guest: clockevent (\S+)$", log, re.MULTILINE)
    seen.interrupts = [int(number) for number in numbers(log, "interrupts")[-1][:2]]
    seen.cells |= {"TSC in MHz, at first and refined": " ".join([*detected[-1:], *(refined[-1:] or ["-"])]),
                   "clock, events": f"{sources[-1]}, {events[-1]}", "sleeps late": f"{100 * worst:.1f} %",
                   "interrupts 0, 8": "{}, {}".format(*seen.interrupts)}


def check_icount(seen: Seen) -> None:
    check_linux(seen)
    need(bool(re.search(r"tsc: Detected (999\.99\d|1000\.00\d) MHz", seen.log)), "Linux's TSC isn't 1,000 MHz")


def check_messages(seen: Seen) -> None:
    """Linux ticks by messages of the HPET; the last ones come after it was looked."""
    check_linux(seen)
    taken = int(numbers(seen.log, "interrupts")[-1][2])
    sent = sum(int(count) for count in re.findall(r"^# > msg .* (\d+) \d+$", seen.traces[0].read_text(), re.MULTILINE))
    need(0.8 * sent < taken <= sent, f"{taken} interrupts of {sent} messages")
    seen.cells["interrupts 0, 8"] += f", {taken} by messages"
    seen.cells["rises 0, 8"] += f", {sent} messages"


def check_suspend(seen: Seen) -> None:
    """The alarm wakes the guest from S3 each time: line 8 rises last before the trace of the reset begins, some 5 s after the last access."""
    check_linux(seen)
    woke = numbers(seen.log, "woke")
    need(len(woke) == SLEEPS_IN_S3, f"the guest woke {len(woke)} times")
    need(all(S3 <= after - before <= S3 + S3_MARGIN for before, after in woke), f"the guest slept in S3 by the MC146818 {woke}")
    if seen.run.device:
        need(len(seen.traces) == 1 + SLEEPS_IN_S3, f"{len(seen.traces)} traces of {SLEEPS_IN_S3} sleeps")
    for path in seen.traces[:-1]:
        lines = path.read_text().splitlines()
        suspended = max(k for k, line in enumerate(lines) if line.endswith("hw 10 8 0"))
        rises = [k for k, line in enumerate(lines) if re.fullmatch(r"# > edge \d+ 8 up", line)]
        need(rises[-1:] > [suspended], f"{path.name}: line 8 didn't rise in the sleep")


def fields(place: Path, name: str) -> dict[str, int]:
    """The fields of a state, and the MC146818's pulses since 1970: its bytes change 65 after the divider's turn."""
    told = json.loads(state(place, "print", name, "--json"))
    found = {field: int(number) for field, number in told["fields"].items()}
    second = int(datetime.fromisoformat(told["derived"]["rtc.datetime"] + "+00:00").timestamp()) + (found["rtc.divider"] < 65)
    return found | {"rtc.pulses": second * RTC_HZ + found["rtc.divider"]}


def check_clocks(place: Path) -> None:
    """From the save in the first plain QEMU to the load in the second one the converted clocks went by the virtual clock, which stood
    during the moves: the HPET's counter, and the place of its ticks; counter 0 of the 8254 where it is periodic, within a pulse; the
    MC146818, within two. Of the ticks that came due on the board none was lost and none waits."""
    before, after = fields(place, "state-1"), fields(place, "state-3")
    passed = after["host.greatest_count"] - before["host.greatest_count"]
    need(passed > ON_THE_BOARD * SECOND, f"the guest was on the board for {passed} ns")
    if before["hpet.config"] & 1:
        apart = (after["hpet.counter"] - before["hpet.counter"]) * HPET_NS - passed
        need(abs(apart) <= HPET_NS, f"the HPET's counter is {apart} ns from the virtual clock")
        moved, period = after["hpet.timer0.comparator"] - before["hpet.timer0.comparator"], before["hpet.timer0.period"]
        need(not moved % 2**32 % period, f"timer 0 of the HPET ticks at another place of its period of {period}")
    if before["pit.counter0.control"] >> 1 & 7 == 2:
        period = before["pit.counter0.count_register"] or 65536
        pulses = (before["pit.counter0.count"] - after["pit.counter0.count"] - passed * PIT_HZ // SECOND) % period
        need(min(pulses, period - pulses) <= 1, f"counter 0 is {pulses} pulses of {period} from the virtual clock")
    board = fields(place, "state-2")
    for name in ("pit.ticks", "hpet.timer0.ticks"):
        need(board[f"{name}.due"] == board[f"{name}.rose"], f"{name}: {board[f'{name}.due']} due, {board[f'{name}.rose']} rose")
    need(board["pit.ticks.rose"] + board["hpet.timer0.ticks.rose"] > ON_THE_BOARD * HZ - MARGIN, "too few ticks on the board")
    apart = (after["rtc.pulses"] - before["rtc.pulses"]) * SECOND // RTC_HZ - passed
    need(abs(apart) <= 2 * SECOND // RTC_HZ, f"the MC146818 is {apart} ns from the virtual clock")


def check_taken_over(seen: Seen) -> None:
    """The guest has each tick of the sleep in which it came to the board: none was lost, and none came twice."""
    check_linux(seen)
    check_clocks(seen.place)
    need(len(seen.logs) == 3 and "guest: slept 4" in seen.logs[1] and "guest: done" in seen.logs[2], "the guest wasn't in three QEMUs")
    (ticks,), (begin, end) = numbers(seen.log, "ticks")[-1], numbers(seen.log, r"slept 4 on \S+:")[-1]
    need(abs(ticks - (end - begin) * HZ) <= MARGIN, f"{ticks:.0f} ticks of line 0 in {end - begin:.2f} s", Late)
    seen.cells["interrupts 0, 8"] += f"; {ticks:.0f} in {end - begin:.2f} s"


def check_seabios(seen: Seen) -> None:
    """SeaBIOS waits by the 8254's ticks and counts them: 18.2 a second, each acknowledged."""
    trace = seen.traces[0].read_text()
    rises = [int(at) for at in re.findall(r"^# > edge (\d+) 0 up$", trace, re.MULTILINE)]
    spans = [later - sooner for sooner, later in zip(rises[-20:], rises[-19:])]
    need(len(spans) == 19 and all(abs(span - 54925416) < 1000 for span in spans), f"ticks apart by {spans} ns")


def check_memtest(seen: Seen) -> None:
    need("Memtest86+" in seen.log, "memtest86+ said nothing")
    need(not re.search(r"Errors: +[1-9]", seen.log), "memtest86+ found errors")
    rates = re.findall(r"CLK/Temp: +(\d+) *MHz", seen.log)
    seen.cells["TSC in MHz, at first and refined"] = f"{rates[0]} -" if rates else "-"


CHECKS: dict[str, Callable[[Seen], None]] = {"linux": check_linux, "icount": check_icount, "messages": check_messages, "suspend": check_suspend,
                                             "taken-over": check_taken_over, "seabios": check_seabios, "memtest": check_memtest}


def check_traces(seen: Seen) -> None:
    """Each trace replays to the values and edges that the guest got."""
    records = values = edges = 0
    of_line: dict[str, int] = {}
    for path in seen.traces:
        with path.open("rb") as trace:
            replay = subprocess.run([program(), "replay"], stdin=trace, capture_output=True, text=True, check=False)
        need(replay.returncode == 0, f"{path.name}: the replay ends with {replay.returncode}")
        printed = replay.stdout.splitlines()[:-1]
        told = [line[4:] for line in path.read_text().splitlines() if line.startswith("# > ")]
        for number, (here, there) in enumerate(zip(printed, told)):
            need(here == there, f"{path.name}: the replay prints '{here}' where the guest got '{there}' ({number})")
        need(len(printed) == len(told), f"{path.name}: the replay prints {len(printed)} lines, the guest got {len(told)}")
        records += sum(line[0].isdigit() for line in printed)
        values += sum(line.count(" ") > 1 and line[0].isdigit() for line in printed)
        for line in re.findall(r"^edge \d+ (\d+) up$", replay.stdout, re.MULTILINE):
            of_line[line] = of_line.get(line, 0) + 1
        edges += sum(line.startswith("edge") for line in printed)
    if seen.traces:
        seen.rises = [of_line.get(line, 0) for line in ("0", "8")]
        seen.cells |= {"rises 0, 8": "{}, {}".format(*seen.rises), "accesses": f"{records:,}", "values": f"{values:,}",
                       "edges": f"{edges:,}"}


def need_rises(seen: Seen) -> None:
    """A guest counts no more interrupts of a line than it rose. One that is taken over has others, too."""
    if seen.traces and seen.run.check != "taken-over":
        need(all(taken <= rose for taken, rose in zip(seen.interrupts, seen.rises)),
             f"{seen.interrupts} interrupts of {seen.rises} rises")
