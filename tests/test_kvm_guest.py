# SPDX-License-Identifier: Apache-2.0 OR MIT
"""A board beside a guest of KVM: what `from kvm` makes of KVM's structures goes on as the guest did, and KVM goes on from those of
`to kvm`. tests/streams/record_kvm made the recording; RECORDED_KVM names the folder of another one.

A reading was made between two times. It fits where the board has it between these."""

import gzip
import json
import os
import tempfile
import unittest
from dataclasses import replace
from functools import cache
from pathlib import Path
from typing import Any

import support
from state_samples import run_tool
from streams.beside import page_clock, replies

from clocktools.states.counters import Channel, counter_from
from clocktools.states.kvm import (CLOCK, HOST_TSC, REALTIME, Choices, Kvm, Processor, apic_from, apic_to, from_kvm, msrs_to, next_period,
                                   pit_to, pit_unpacked, to_kvm)
from clocktools.states.saved import Fields, Losses, ask, blank, packed, unjudged
from clocktools.states.timebase import board_now

FRESH = os.environ.get("RECORDED_KVM")
FOLDER = Path(FRESH or support.HERE / "streams/kvm")
TOLD: dict[str, Any] = json.loads(gzip.decompress((FOLDER / "guest.json.gz").read_bytes()))
PULSE_NS = 838
FULL = 65536
GIVEN_READINGS = 100
SECONDS_NS = 3 * 10**9
LATE_NS = 20_000_000 if FRESH else 2_000_000
"""By how much a tick of KVM may be late, as it comes by a timer of its host, which may have other work than a fresh recording."""
DIVISORS = {"one-shot": 1, "one-shot by 16": 16, "periodic": 1, "periodic by 128": 128, "one-shot by 4": 4}


def channels_of(told: dict[str, Any]) -> list[Channel]:
    return pit_unpacked(bytes.fromhex(told["saved"]["files"]["pit2"]))[0]


def board_by_ns(channels: list[Channel], now_ns: int, **choices: Any) -> tuple[Fields, Losses]:
    """The state of the 8254 by a counter of nanoseconds, which is CLOCK_MONOTONIC."""
    losses = Losses()
    kvm = Kvm([replace(channel) for channel in channels], 0, now_ns, HOST_TSC, 0, now_ns, {"tsc_khz": 1_000_000, "monotonic_ns": now_ns},
              [Processor(b"", {}, 0)])
    return from_kvm(blank(2), kvm, Choices(version=2, **choices), losses), losses


def counts_of(values: Fields, counter: int, times: list[int]) -> list[int]:
    """What the board shows of a counter at these counts of its host's counter."""
    order = sorted(set(times))
    records = [f"0 {time} {words}" for time in order for words in (f"out 43 {counter << 6:02x}", *[f"in {0x40 + counter:x}"] * 2)]
    read = [words[0] for words in replies(packed(values), records) if words]
    found = {time: int(high + low, 16) for time, low, high in zip(order, read[::2], read[1::2], strict=True)}
    return [found[time] for time in times]


def counts_between(values: Fields, windows: list[tuple[int, int]], counter: int = 2) -> list[set[int]]:
    """All counts that the board has of a counter in each of these windows."""
    times = [[*range(begin, end, PULSE_NS // 2), end] for begin, end in windows]
    shown = iter(counts_of(values, counter, [time for row in times for time in row]))
    return [{next(shown) for _ in row} for row in times]


def names_of(losses: Losses) -> list[str]:
    return [name for name, _ in losses.lossy]


class Counters(unittest.TestCase):
    """Counter 2 of KVM's 8254, and counter 0."""

    def taken(self, name: str) -> tuple[Fields, Losses]:
        told = TOLD["counters"][name]
        return board_by_ns(channels_of(told), told["saved"]["host"]["monotonic_ns"])

    def outside(self, values: Fields, readings: list[list[int]], more: int = 0) -> list[int]:
        """The readings that the board doesn't have, nor by so much more."""
        shown = counts_between(values, [(begin, end) for begin, end, *_ in readings])
        return [row[4] for row, counts in zip(readings, shown, strict=True) if row[4] not in counts | {count + more for count in counts}]

    def test_counts(self) -> None:
        """Each count that the guest read is one of the board's, in all modes; 1 and 5 by the write too, as KVM starts them so."""
        names = [name for name in TOLD["counters"] if not name.endswith(("odd", "BCD", "gate low"))]
        self.assertEqual(len(names), 8)
        for name in names:
            with self.subTest(name):
                values, losses = self.taken(name)
                self.assertEqual(values["pit.counter2.control"], 0x30 | TOLD["counters"][name]["mode"] << 1)
                self.assertEqual(self.outside(values, TOLD["counters"][name]["counts"]), [])
                self.assertEqual("pit.counter2.flags" in names_of(losses), name[:6] in ("mode 1", "mode 5"))

    def test_odd_count_in_mode_3(self) -> None:
        """KVM's count is one more than the board's in the first half of the period, and the same in the second."""
        values, losses = self.taken("mode 3, odd")
        readings = TOLD["counters"]["mode 3, odd"]["counts"]
        self.assertEqual(self.outside(values, readings, more=1), [])
        odd = [row[4] for row in readings if row[4] % 2]
        self.assertTrue(5 <= len(odd) <= len(readings) - 5, odd)
        self.assertEqual(self.outside(values, readings), odd)
        self.assertIn("pit.counter2.count", names_of(losses))

    def test_decimal(self) -> None:
        """KVM counts the digits of BCD as a binary number. The board goes on in decimal, which is told."""
        for name in ("mode 0, BCD", "mode 2, BCD"):
            with self.subTest(name):
                values, losses = self.taken(name)
                told = TOLD["counters"][name]
                self.assertIn("pit.counter2.count", names_of(losses))
                self.assertEqual(values["pit.counter2.control"] & 1, 1)
                channels = channels_of(told)
                self.assertEqual((channels[2].count, channels[2].bcd), (0x9000, 1))
                binary, _ = board_by_ns([*channels[:2], replace(channels[2], bcd=0)], told["saved"]["host"]["monotonic_ns"])
                self.assertEqual(self.outside(binary, told["counts"]), [])
                self.assertTrue(any(not f"{row[4]:x}".isdecimal() for row in told["counts"]))
                passed = channels[2].pulses(told["saved"]["host"]["monotonic_ns"])
                shown, *later = counts_of(values, 2, [told["saved"]["host"]["monotonic_ns"], *(row[0] for row in told["counts"])])
                self.assertEqual(int(f"{shown:x}"), (9000 - passed) % 10000 if told["mode"] == 0 else 9000 - passed % 9000)
                self.assertTrue(all(f"{count:x}".isdecimal() for count in later))

    def test_gate_low(self) -> None:
        """KVM counts on while the gate is low. The board stands, which is told."""
        values, losses = self.taken("mode 2, gate low")
        told = TOLD["counters"]["mode 2, gate low"]
        self.assertIn("pit.counter2.count", names_of(losses))
        self.assertEqual(len({count for count in counts_of(values, 2, [row[0] for row in told["counts"]])}), 1)
        channels = channels_of(told)
        high, _ = board_by_ns([*channels[:2], replace(channels[2], gate=1)], told["saved"]["host"]["monotonic_ns"])
        self.assertEqual(self.outside(high, told["counts"]), [])

    def test_out(self) -> None:
        """OUT at port 61h: the board's in modes 0 and 3, the contrary in modes 1, 2, 4 and 5, where KVM has it inverted."""
        for name, told in TOLD["counters"].items():
            if not name.endswith(("BCD", "gate low")):
                with self.subTest(name):
                    values, _ = self.taken(name)
                    times = [time for begin, end, *_ in told["outs"] for time in (begin, end)]
                    shown = [int(words[0], 16) >> 5 & 1 for words in replies(packed(values), [f"0 {time} in 61" for time in times])]
                    pairs = [(first, row[4] >> 5 & 1) for first, last, row in zip(shown[::2], shown[1::2], told["outs"]) if first == last]
                    self.assertGreater(len(pairs), 15)
                    is_inverted = told["mode"] in (1, 2, 4, 5)
                    self.assertEqual([pair for pair in pairs if (pair[0] != pair[1]) != is_inverted], [])


class Counter0(unittest.TestCase):
    """Its load time isn't in the structure."""

    def test_load_time(self) -> None:
        """It is 0 in a new machine; one that was set stays, though the guest has loaded the counter since."""
        told = TOLD["counter 0"]
        fresh, was_set = (pit_unpacked(bytes.fromhex(told[name]))[0][0] for name in ("fresh", "set"))
        self.assertEqual((fresh.count_load_time, was_set.count_load_time), (0, 123_456_789))
        loaded = channels_of(told)[0]
        self.assertEqual((loaded.mode, loaded.count, loaded.count_load_time), (2, 50000, 123_456_789))
        for other in TOLD["counters"].values():
            self.assertEqual(channels_of(other)[0].count_load_time, 0)
            self.assertNotEqual(channels_of(other)[2].count_load_time, 0)
        _, losses = board_by_ns(channels_of(told), told["saved"]["host"]["monotonic_ns"])
        self.assertIn("pit.counter0.count", names_of(losses))

    def test_where_the_monitor_knows_it(self) -> None:
        """Loaded at a time that the monitor saw, the counts that the guest read are the board's."""
        told = TOLD["counter 0"]
        begin_ns, end_ns = told["loaded"][:2]
        values, losses = board_by_ns(channels_of(told), told["saved"]["host"]["monotonic_ns"], pit0_loaded_ns=end_ns)
        shown = counts_between(values, [(begin, end + end_ns - begin_ns) for begin, end, *_ in told["counts"]], counter=0)
        self.assertEqual([row[4] for row, counts in zip(told["counts"], shown, strict=True) if row[4] not in counts], [])
        self.assertNotIn("pit.counter0.count", names_of(losses))


class GivenCounters(unittest.TestCase):
    """KVM_SET_PIT2 of a board's 8254."""

    def test_structures(self) -> None:
        """What KVM was given is what `to kvm` makes of these states."""
        for kind in ("given counters", "given in time"):
            for name, told in TOLD[kind].items():
                values = unjudged(bytes.fromhex(told["state"]))
                self.assertEqual(pit_to(values, 0, Losses()).hex(), told["given"], name)
                if kind == "given in time":
                    self.assertEqual(next_period(values, 2), told["due_ns"] - told["board_ns"])

    def as_loaded(self, told: dict[str, Any], more: int = 0) -> list[bool]:
        """Which readings a counter has that was loaded at the call, or so much more."""
        channel = pit_unpacked(bytes.fromhex(told["given"]))[0][2]
        begin_ns, end_ns, *_ = told["call"]
        values, found = blank(2), []
        for begin, end, _, _, count in told["counts"]:
            passed = range(begin - end_ns, end - begin_ns + PULSE_NS, PULSE_NS // 2)
            shown = set()
            for time in passed:
                counter_from(values, 2, replace(channel, count_load_time=0), max(time, 0), Losses())
                shown.add(values["pit.counter2.count"])
            found.append(count in shown or count - more in shown)
        return found

    def as_going_on(self, told: dict[str, Any]) -> list[bool]:
        """Which readings the board has that goes on from the time at which it was converted; KVM is late by the call's length."""
        values = unjudged(bytes.fromhex(told["state"]))
        count = values["host.greatest_count"] - told["board_ns"]
        windows = [(begin + count - told["call"][1] + told["due_ns"], end + count) for begin, end, *_ in told["counts"]]
        return [row[4] in counts for row, counts in zip(told["counts"], counts_between(values, windows), strict=True)]

    def test_periods_begin_at_the_call(self) -> None:
        """Each reading fits a load at the call, an odd count in mode 3 as KVM has it; none but by chance the time in the structure."""
        fits = {name: self.as_loaded(told) for name, told in TOLD["given counters"].items()}
        self.assertEqual(sum(map(len, fits.values())), GIVEN_READINGS)
        self.assertEqual([name for name, rows in fits.items() if not all(rows)], ["mode 3, odd"])
        self.assertTrue(all(self.as_loaded(TOLD["given counters"]["mode 3, odd"], more=1)))
        self.assertLess(sum(sum(self.as_going_on(told)) for told in TOLD["given counters"].values()), 5)

    def test_in_time(self) -> None:
        """Given to KVM when its next period begins, as the tool tells it, counter 2 goes on with the board's counts."""
        for name, told in TOLD["given in time"].items():
            self.assertEqual(self.as_going_on(told), [True] * len(told["counts"]), name)


@cache
def taken(place: str, version: int, *words: str) -> tuple[Fields, tuple[str, ...]]:
    """The state that the tool makes of a monitor's files, and the names of what is lost."""
    told = TOLD
    for name in place.split("/"):
        told = told[name]
    with tempfile.TemporaryDirectory() as name:
        folder = Path(name)
        for file, digits in told["saved"]["files"].items():
            (folder / file).write_bytes(bytes.fromhex(digits))
        (folder / "host.json").write_text(json.dumps(told["saved"]["host"]))
        status, lines, said = run_tool("from", "kvm", name, "--format", str(version), *words)
    assert status == 1, (status, lines, said)
    return unjudged(bytes.fromhex(lines[0].split()[1])), tuple(line.split()[1] for line in said if line.startswith("lossy "))


def currents_of(values: Fields, windows: list[tuple[int, int]]) -> list[tuple[int, int]]:
    """The current count of the local APIC's timer at the beginning and the end of windows of the host's TSC."""
    order = sorted({count for window in windows for count in window})
    shown = [int(words[0], 16) for words in replies(packed(values), [f"0 {count} rdmsr 839" for count in order])]
    found = dict(zip(order, shown, strict=True))
    return [(found[begin], found[end]) for begin, end in windows]


def due_at(values: Fields, counts: list[int]) -> list[int]:
    """How many ticks of the local APIC's timer have come due by these counts of the host's TSC."""
    now = values["host.greatest_count"]
    return [int(words[0]) for words in replies(packed(values), [f"0 {max(count, now)} counts apic0" for count in counts])]


def ticks(values: Fields, nanoseconds: int) -> int:
    """Counts of the host's TSC."""
    return nanoseconds * values["host.khz"] // 1_000_000


class Timers(unittest.TestCase):
    """The local APIC's timer of a guest as a board's, whose counter is the host's TSC. KVM was asked for the local APIC and for the clock
    one after the other, so what the board shows is late by that. KVM's structure lacks the part of a count, by which the board is early."""

    def outside(self, values: Fields, readings: list[list[int]], begin: int, end: int) -> list[tuple[int, ...]]:
        """The current counts that the board doesn't have where their windows are moved so much."""
        initial, found = values["cpu0.apic_timer.initial"], currents_of(values, [(row[2] + begin, row[3] + end) for row in readings])
        return [(first, row[4], last) for row, (first, last) in zip(readings, found, strict=True)
                if (first - row[4]) % initial > (first - last) % initial]

    def moved(self, told: dict[str, Any], name: str, values: Fields) -> tuple[int, int]:
        """How much the windows of a guest's readings are moved."""
        _, _, begin, end = told["saved"]["lapic"]
        return values["host.anchor_count"] - end - ticks(values, DIVISORS[name]), values["host.anchor_count"] - begin

    def test_currents(self) -> None:
        """Each current count that the guest read is one that the board has."""
        for name, told in TOLD["timers"].items():
            with self.subTest(name):
                values, lossy = taken(f"timers/{name}", 3)
                self.assertEqual("cpu0.apic_timer.phase_ns" in lossy, DIVISORS[name] > 1)
                self.assertEqual(self.outside(values, told["currents"], *self.moved(told, name, values)), [])

    def test_ticks(self) -> None:
        """The board's tick comes no later than the guest sees its vector, and no earlier than a host's timer may be late."""
        for name, told in TOLD["timers"].items():
            with self.subTest(name):
                values, _ = taken(f"timers/{name}", 3)
                least, most = self.moved(told, name, values)
                _, _, begin, end, _ = told["tick"]
                self.assertEqual(due_at(values, [begin + least - ticks(values, LATE_NS), end + most]), [0, 1])

    def test_deadline(self) -> None:
        """The deadline is there until its tick, which comes at its TSC, and 0 after it."""
        told = TOLD["deadline"]
        values, _ = taken("deadline", 3)
        before, after = told["deadlines"]
        deadline = before[4]
        self.assertEqual((values["cpu0.apic_timer.deadline"], after[4]), (deadline, 0))
        shown = replies(packed(values), [f"0 {count} rdmsr 6e0" for count in (before[3], after[2])])
        self.assertEqual([int(words[0], 16) for words in shown], [deadline, 0])
        self.assertEqual(due_at(values, [deadline - ticks(values, 1) - 1, deadline + ticks(values, 1) + 1]), [0, 1])
        self.assertTrue(told["tick"][2] - ticks(values, LATE_NS) <= deadline <= told["tick"][3], told["tick"])


class GivenTimers(Timers):
    """KVM_SET_LAPIC and MSR 6E0h of a board's local APIC timer."""

    def moved(self, told: dict[str, Any], name: str, values: Fields) -> tuple[int, int]:
        """From the time of the call to that of the board."""
        _, _, begin, end = told["call"]
        now = values["host.greatest_count"]
        return now - end - ticks(values, DIVISORS.get(name, 1)), now - begin

    def test_structures(self) -> None:
        """What KVM was given is what `to kvm` makes of these states, but for two whose current count was set to 0."""
        for name, told in TOLD["given timers"].items():
            values = unjudged(bytes.fromhex(told["state"]))
            if name.endswith("over"):
                values["cpu0.apic_timer.current"] = 0
            self.assertEqual(apic_to(values, 0, bytes.fromhex(told["lapic"]), Losses()).hex(), told["lapic"], name)

    def test_currents(self) -> None:
        """KVM goes on from register 390h. With 0 there it begins a period anew, and leaves a one-shot idle."""
        for name, told in TOLD["given timers"].items():
            with self.subTest(name):
                values = unjudged(bytes.fromhex(told["state"]))
                apic_from(values, 0, Processor(bytes.fromhex(told["lapic"]), {}), Losses())
                if name == "one-shot, over":
                    self.assertEqual([row[4] for row in told["currents"]], [0] * 10)
                self.assertEqual(self.outside(values, told["currents"], *self.moved(told, name, values)), [])

    def test_ticks(self) -> None:
        """The tick comes as long after the call as it comes on the board."""
        for name in ("one-shot", "periodic", "one-shot by 4"):
            with self.subTest(name):
                told = TOLD["given timers"][name]
                values = unjudged(bytes.fromhex(told["state"]))
                least, most = self.moved(told, name, values)
                self.assertEqual(due_at(values, [told["tick"][2] + least - ticks(values, LATE_NS), told["tick"][3] + most]), [0, 1])

    def test_deadline(self) -> None:
        """Set after the local APIC, the deadline is there for the guest, and its tick comes at its TSC."""
        told = TOLD["given deadline"]
        values, deadline = unjudged(bytes.fromhex(told["state"])), told["deadline"]
        self.assertEqual(msrs_to(values, 0, None).hex(), told["msrs"])
        self.assertEqual([row[4] for row in told["deadlines"]], [deadline])
        self.assertTrue(told["tick"][2] - ticks(values, LATE_NS) <= deadline <= told["tick"][3], told["tick"])


class Clocks(unittest.TestCase):
    """KVM's clock and its page, for three seconds."""

    def test_time(self) -> None:
        """The board's time at each count of the host's TSC is KVM's clock, within 1 ns."""
        values, _ = taken("clock", 3)
        anchor = values["host.anchor_ns"]
        times = []
        for digits, _, _ in TOLD["clock"]["clocks"][::3]:
            clock, flags, _, _, count = CLOCK.unpack(bytes.fromhex(digits))
            self.assertTrue(flags & HOST_TSC)
            times.append(clock)
            self.assertLessEqual(abs(ask(packed(values), [f"0 {count} step"]).now_ns - clock), 1)
        self.assertGreater(times[-1] - anchor, SECONDS_NS)

    def test_page(self) -> None:
        """At each TSC that the guest read, the board's page gives what KVM's page gives, within 1 ns."""
        values, lossy = taken("clock", 3, "--page-version", "2")
        self.assertNotIn("cpu0.page.version", lossy)
        rows = [(tsc, bytes.fromhex(page)) for _, tsc, page in TOLD["clock"]["clocks"]]
        shown = replies(packed(values), [f"0 {tsc} clock 0" for tsc, _ in rows])
        apart = [int(words[1]) - page_clock(page, tsc) for words, (tsc, page) in zip(shown, rows, strict=True)]
        self.assertLessEqual(max(abs(number) for number in apart), 1, apart)
        first = rows[0][1]
        self.assertEqual((values["cpu0.page.mul"], values["cpu0.page.shift"], values["cpu0.page.version"]),
                         (int.from_bytes(first[24:28], "little"), int.from_bytes(first[28:29], "little", signed=True),
                          int.from_bytes(first[:4], "little")))

    def clock_file(self, values: Fields, realtime_ns: int | None) -> str:
        with tempfile.TemporaryDirectory() as name:
            to_kvm(values, None, Path(name), Choices(realtime_ns=realtime_ns), Losses())
            return (Path(name) / "clock").read_bytes().hex()

    def test_given(self) -> None:
        """KVM_SET_CLOCK: with a time of day the clock has what went by since; without one it goes on from the call."""
        for name, told in TOLD["given clocks"].items():
            values = unjudged(bytes.fromhex(told["state"]))
            clock, flags, _, realtime, _ = CLOCK.unpack(bytes.fromhex(told["given"]))
            self.assertEqual(self.clock_file(values, realtime or None), told["given"])
            after, _, _, later, _ = CLOCK.unpack(bytes.fromhex(told["after"]))
            self.assertEqual((clock, flags), (board_now(values), REALTIME if name == "with" else 0))
            (begin_ns, end_ns, *_), (got_begin_ns, got_end_ns, *_) = told["call"], told["got"]
            passed = after - clock
            if name == "with":
                self.assertGreater(passed, 500_000_000)
                self.assertLessEqual(abs(passed - (later - realtime)), end_ns - begin_ns)
            else:
                self.assertTrue(got_begin_ns - end_ns <= passed <= got_end_ns - begin_ns, passed)

    def test_offset(self) -> None:
        """The KVM that was recorded takes no offset, and answers as if it did: what is read back is the one in force."""
        told = TOLD["offset"]
        read = int.from_bytes(bytes.fromhex(told["read"]), "little")
        self.assertIn(read, (0, int.from_bytes(bytes.fromhex(told["given"]), "little")) if FRESH else (0,))
        _, _, begin, end, tsc = told["tsc"]
        self.assertTrue(begin <= tsc <= end)


if __name__ == "__main__":
    unittest.main()
