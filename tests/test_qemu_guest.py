# SPDX-License-Identifier: Apache-2.0 OR MIT
"""A board beside guests of QEMU that read their clocks: under TCG a second QEMU went on with the stream, and the board goes on beside it;
under KVM, which begins the periods of its 8254 anew at each stop, the board is set beside what the guest read before. Recorded by
tests/streams/record_guests.

A reading was made between two moments. It fits where the board has it between these."""

import gzip
import hashlib
import json
import unittest
from dataclasses import dataclass, field
from functools import cache, cached_property

import support
from streams.beside import POLICY, page_clock, replies

from clocktools.states.meaning import HPET_NS, PIT_HZ, SECOND
from clocktools.states.qemu import Source, cpu_number, from_qemu, to_qemu
from clocktools.states.qemu_stream import Stream
from clocktools.states.saved import Fields, Losses, at_power_on, packed, unjudged
from clocktools.states.timebase import board_now

LOW, FULL = 2**32, 2**16
COUNTER_0, COUNTER_2, PULSE_NS = 11932, 50000, 838
INDEX = {"pit0": 0, "pit2": 3, "second": 6, "c": 9, "current": 12, "tsc": 15}
"""Where a line has the two moments and the number of each clock."""
TSC, PAGE = 18, slice(20, 28)
PERIODIC_EVENT = 0x40
HALF_SECOND_NS = SECOND // 2
STEPS = 100
"""Into which a time is cut to find a turn of the second."""
LOADED_NS = 7_000_000_000_123
"""The virtual clock of a QEMU that loads what a board gives back."""
TSC_NS = 20_000
"""How far TCG's TSC may be from the board's: QEMU stops its clocks one after the other."""
STOP_NS = 20_000_000
"""How far the clocks of a QEMU under KVM may be apart, which it reads one after the other at a stop."""
STOPPED_NS = 1_000_000
"""How far the time of day at the stop may be from it."""
LATE_NS = 50_000_000
"""How late a timer of TCG may be."""
READINGS = {"pit0": ("out 43 00", "in 40", "in 40"), "pit2": ("out 43 80", "in 42", "in 42"), "second": ("out 70 00", "in 71"),
            "current": ("rdmsr 839",), "tsc": ("rdmsr 10",)}


@dataclass(eq=False)
class Guest:
    """A stream, the time of day at the stop, and lines of what the guest read before it and after it."""

    accel: str
    realtime_ns: int
    stream: str
    before: list[list[int]]
    after: list[list[int]]
    state: str = ""
    """That of a board to which the guest went then, where it did."""
    back: str = ""
    """The sha256 of the sections of the stream that the board gave back."""
    returned: list[list[int]] = field(default_factory=list)
    """What the guest read in a QEMU that loaded that."""

    @cached_property
    def source(self) -> Stream:
        return Stream(bytes.fromhex(self.stream))

    def rate_khz(self) -> int:
        """Of the TSC, by the HPET."""
        counted, passed = (sum((second[place] - first[place]) % LOW for first, second in zip(self.before, self.before[1:]))
                           for place in (INDEX["tsc"] + 2, INDEX["tsc"]))
        return round(counted * 1_000_000 / (passed * HPET_NS))


@cache
def guest(name: str) -> Guest:
    return Guest(**json.loads(gzip.decompress((support.HERE / f"streams/guests/{name}.json.gz").read_bytes())))


@cache
def converted(name: str, rtc_now_ns: int | None = None, is_user_pit: bool = False) -> tuple[Fields, Losses]:
    """The board's counter is the virtual clock."""
    one, losses = guest(name), Losses()
    virtual_ns = one.source.get("timer", "cpu_clock_offset")
    khz = None if one.accel == "kvm" else one.rate_khz()
    source = Source(version=3, count=virtual_ns, guest_khz=khz, rtc_now_ns=rtc_now_ns, is_user_pit=is_user_pit,
                    rtc_clock="host" if name.endswith("time-of-day") else "vm")
    return from_qemu(at_power_on(["cpus 1", POLICY], 3), one.source, source, losses), losses


def shown(values: Fields, what: str, counts: list[int]) -> list[int]:
    """What a board shows of a clock at these counts of its counter."""
    order = sorted(set(counts))
    replied = [words[0] for words in replies(packed(values), [f"0 {count} {words}" for count in order for words in READINGS[what]]) if words]
    if what.startswith("pit"):
        replied = [high + low for low, high in zip(replied[::2], replied[1::2], strict=True)]
    found = {count: int(word, 16) for count, word in zip(order, replied, strict=True)}
    return [found[count] for count in counts]


def windows_after(values: Fields, lines: list[list[int]], what: str, more_ns: int = 0) -> list[tuple[int, int]]:
    """The board's counts at the two moments of each line, by the HPET's counter, and so much more on both sides."""
    def count_at(moment: int) -> int:
        return now + (moment - values["hpet.counter"]) % LOW * HPET_NS - board_now(values) % HPET_NS

    now, place = values["host.greatest_count"], INDEX[what]
    return [(max(count_at(line[place]) - more_ns, now), count_at(line[place + 1]) + HPET_NS + more_ns) for line in lines]


def outside(values: Fields, what: str, windows: list[tuple[int, int]], read: list[int], period: int) -> list[tuple[int, int, int]]:
    """The readings of a counter that falls, or of the TSC, which rises, that the board doesn't have between two moments."""
    found = iter(shown(values, what, [count for window in windows for count in window]))
    rows = [(first, number, last) for first, last, number in zip(found, found, read, strict=True)]
    sign = -1 if what == "tsc" else 1
    return [row for row in rows if sign * (row[0] - row[1]) % period > sign * (row[0] - row[2]) % period]


def outside_of(values: Fields, lines: list[list[int]], what: str, period: int, more_ns: int = 0) -> list[tuple[int, int, int]]:
    """The readings in these lines that the board doesn't have between their moments, or so much before or after."""
    assert len(lines) > 20
    return outside(values, what, windows_after(values, lines, what, more_ns), [line[INDEX[what] + 2] for line in lines], period)


class GoesOn(unittest.TestCase):
    """Under TCG the virtual clock runs on its own, and a second QEMU goes on from the stream."""

    PERIODIC, ONE_SHOT = "tcg-periodic", "tcg-one-shot"

    def board(self, name: str) -> Fields:
        return converted(name)[0]

    def lines(self, name: str) -> list[list[int]]:
        return guest(name).after

    def outside(self, name: str, what: str, period: int, more_ns: int = 0) -> list[tuple[int, int, int]]:
        return outside_of(self.board(name), self.lines(name), what, period, more_ns)

    def test_counters(self) -> None:
        """Counter 0 leads; the pulses of counter 2 are up to one pulse from QEMU's."""
        for name in (self.PERIODIC, self.ONE_SHOT):
            with self.subTest(name):
                self.assertEqual(self.outside(name, "pit0", COUNTER_0), [])
                self.assertEqual(self.outside(name, "pit2", COUNTER_2, PULSE_NS), [])

    def test_current_counts(self) -> None:
        """The local APIC's timer, periodic over a turn, and one-shot."""
        for name, period in ((self.PERIODIC, 50_000_000), (self.ONE_SHOT, LOW)):
            with self.subTest(name):
                read = [line[INDEX["current"] + 2] for line in self.lines(name)]
                self.assertEqual(any(first < second for first, second in zip(read, read[1:])), name == self.PERIODIC)
                self.assertEqual(self.outside(name, "current", period), [])

    def test_tsc(self) -> None:
        for name in (self.PERIODIC, self.ONE_SHOT):
            self.assertEqual(self.outside(name, "tsc", LOW, TSC_NS), [], name)

    def test_seconds(self) -> None:
        """The second turns between the same two readings."""
        place = INDEX["second"] + 2
        for name in (self.PERIODIC, self.ONE_SHOT):
            with self.subTest(name):
                values, lines = self.board(name), self.lines(name)
                self.assertGreater(len({line[place] for line in lines}), 1)
                windows = windows_after(values, lines, "second")
                found = iter(shown(values, "second", [count for window in windows for count in window]))
                rows = [(first, line[place], last) for first, last, line in zip(found, found, lines, strict=True)]
                self.assertEqual([row for row in rows if row[1] not in (row[0], row[2])], [])


class Modes(unittest.TestCase):
    """Counter 2 in other modes under TCG."""

    def test_modes_1_and_5(self) -> None:
        """QEMU starts them by the write, without a rise of the gate, which is told; the counts are the board's."""
        for name in ("tcg-mode-1", "tcg-mode-5"):
            with self.subTest(name):
                values, losses = converted(name)
                self.assertEqual(values["pit.counter2.control"] & 0xF, int(name[-1]) << 1)
                self.assertIn("pit.counter2.flags", [name for name, _ in losses.lossy])
                self.assertEqual(outside_of(values, guest(name).after, "pit2", FULL, PULSE_NS), [])

    def test_odd_count_in_mode_3(self) -> None:
        """QEMU's count is one more than the board's in the first half of the period, and the same in the second."""
        values, losses = converted("tcg-mode-3-odd")
        self.assertTrue(any("an odd count in mode 3" in text for name, text in losses.lossy if name == "pit.counter2.count"))
        lines = guest("tcg-mode-3-odd").after
        windows = windows_after(values, lines, "pit2", PULSE_NS)
        read = [line[INDEX["pit2"] + 2] for line in lines]
        found = iter(shown(values, "pit2", [count for window in windows for count in window]))
        for first, last, number in zip(found, found, read, strict=True):
            self.assertEqual(first % 2, 0)
            self.assertLessEqual((first - (number - number % 2)) % 50000, (first - last) % 50000, (first, number, last))
        self.assertTrue(5 <= sum(number % 2 for number in read) <= len(read) - 5)

    def test_decimal(self) -> None:
        """QEMU counts the digits of BCD as a binary number. The board goes on in decimal, which is told."""
        values, losses = converted("tcg-decimal")
        self.assertIn("pit.counter2.count", [name for name, _ in losses.lossy])
        lines = guest("tcg-decimal").after
        read = [line[INDEX["pit2"] + 2] for line in lines]
        self.assertTrue(any(not f"{number:x}".isdecimal() for number in read))
        windows = windows_after(values, lines, "pit2")
        self.assertTrue(all(f"{count:x}".isdecimal() for count in shown(values, "pit2", [begin for begin, _ in windows])))
        binary = Stream(bytes.fromhex(guest("tcg-decimal").stream))
        binary.put("i8254", "channels[2].bcd", 0)
        virtual_ns, losses = values["host.anchor_count"], Losses()
        passed = (virtual_ns - binary.get("i8254", "channels[2].count_load_time")) * PIT_HZ // SECOND
        self.assertEqual(f"{shown(values, 'pit2', [virtual_ns])[0]:x}", str(9000 - passed % 9000))
        plain = from_qemu(at_power_on(["cpus 1", POLICY], 3), binary, Source(version=3, count=virtual_ns, guest_khz=1_000_000), losses)
        self.assertEqual(outside(plain, "pit2", windows_after(plain, lines, "pit2", PULSE_NS), read, 0x9000), [])


class Rtc(unittest.TestCase):
    """What a stream doesn't tell of the MC146818, and what QEMU doesn't keep."""

    def test_time_of_day(self) -> None:
        """With -rtc clock=host the part of the second isn't in the stream: that is told, or it comes from the time of day at the stop."""
        one = guest("tcg-time-of-day")
        without, losses = converted("tcg-time-of-day")
        self.assertIn("rtc.divider", [name for name, _ in losses.lossy])
        told, _ = converted("tcg-time-of-day", one.realtime_ns)
        moments = [-((told["hpet.counter"] - line[INDEX["second"] + 1]) % LOW) * HPET_NS for line in one.before]
        self.assertTrue(fits_turns(told, turns_of(one.before, moments), STOPPED_NS))
        self.assertFalse(fits_turns(without, turns_of(one.before, moments), STOPPED_NS))

    def test_periodic_events(self) -> None:
        """QEMU begins the MC146818's period anew at each load: its next event comes half a second after that, not when the stream says."""
        for name in ("tcg-periodic", "tcg-one-shot"):
            with self.subTest(name):
                one, values = guest(name), converted(name)[0]
                wanted = one.source.get("mc146818rtc", "next_periodic_time")
                windows = windows_after(values, one.after, "c")
                event = next(place for place, line in enumerate(one.after) if place and line[INDEX["c"] + 2] & PERIODIC_EVENT)
                begin, end = windows[event - 1][0], windows[event][1]
                self.assertFalse(begin - LATE_NS <= wanted <= end, (begin, wanted, end))
                self.assertTrue(begin - LATE_NS <= values["host.anchor_count"] + HALF_SECOND_NS <= end, (begin, end))


class Returned(GoesOn):
    """A guest of TCG that was on a board for 1.5 ms, in a QEMU that goes on from the stream that the board gave back."""

    PERIODIC, ONE_SHOT = "tcg-returned-periodic", "tcg-returned-one-shot"

    def board(self, name: str) -> Fields:
        return unjudged(bytes.fromhex(guest(name).state))

    def lines(self, name: str) -> list[list[int]]:
        return guest(name).returned

    def test_streams(self) -> None:
        """What QEMU loaded is what `to qemu` makes of these states. Where that has changed, the recordings are to be made again."""
        for name in (self.PERIODIC, self.ONE_SHOT):
            stream = Stream(bytes.fromhex(guest(name).stream))
            made = to_qemu(self.board(name), stream, LOADED_NS, LOADED_NS, Losses())
            self.assertEqual(hashlib.sha256(made).hexdigest(), guest(name).back, name)

    def test_counters(self) -> None:
        """No phase is lost: each counter has a load time of its own."""
        for name in (self.PERIODIC, self.ONE_SHOT):
            with self.subTest(name):
                self.assertEqual(self.outside(name, "pit0", COUNTER_0), [])
                self.assertEqual(self.outside(name, "pit2", COUNTER_2), [])


def turns_of(lines: list[list[int]], moments: list[int]) -> list[tuple[int, int]]:
    """Between which two moments the second turned."""
    place = INDEX["second"] + 2
    return [(first, second) for first, second, line, later in zip(moments, moments[1:], lines, lines[1:]) if line[place] != later[place]]


def fits_turns(values: Fields, turns: list[tuple[int, int]], more_ns: int) -> bool:
    """Whether a board's second turns as it did between these moments, which are nanoseconds from the save and lie before it."""
    assert len(turns) >= 2
    low, step, count = 0, SECOND, values["host.anchor_count"]
    while step > more_ns // 10:
        step //= STEPS
        found = shown(values, "second", [count, *(count + low + place * step for place in range(1, STEPS + 1))])
        low += step * next(place for place in range(STEPS) if found[place + 1] != found[0])
    return all((low + step - begin + more_ns) % SECOND <= end - begin + 2 * more_ns for begin, end in turns)


class UnderKvm(unittest.TestCase):
    """QEMU reads KVM's clocks one after the other at a stop: first its own, then the 8254, then the TSC and the clock of the page."""

    def setUp(self) -> None:
        self.guest, self.stream = guest("kvm"), guest("kvm").source
        self.values, losses = converted("kvm")
        self.notes = [name for name, _ in losses.notes]
        self.lossy = [name for name, _ in losses.lossy]
        self.clock_ns = self.stream.get("kvmclock", "clock")

    def moment(self, line: list[int], place: int) -> int:
        """The nanoseconds from the stop to a moment before it, by the page of the guest's clock."""
        whole = line[TSC + 1] << 32 | line[TSC]
        page = b"".join(word.to_bytes(4, "little") for word in line[PAGE])
        return page_clock(page, whole - (whole - line[place]) % LOW) - self.clock_ns

    def windows(self, counter: str, period: int) -> list[tuple[int, int]]:
        """Those of a counter's readings, by whole periods after the save."""
        found = []
        for line in self.guest.before:
            begin, end = (self.moment(line, INDEX[counter] + edge) for edge in (0, 1))
            periods = -(begin * PIT_HZ // (period * SECOND)) + 1
            whole = self.values["host.anchor_count"] + periods * period * SECOND // PIT_HZ
            found.append((whole + begin, whole + end))
        return found

    def move(self) -> int:
        """How long before the page's clock the 8254 was read, by the last reading of counter 2: two counts are a pulse."""
        begin, _ = self.windows("pit2", COUNTER_2)[-1]
        fallen = (shown(self.values, "pit2", [begin])[0] - self.guest.before[-1][INDEX["pit2"] + 2]) % COUNTER_2
        self.assertLess(fallen // 2 * PULSE_NS, STOP_NS)
        return fallen // 2 * SECOND // PIT_HZ

    def differing(self, values: Fields, counter: str, period: int) -> int:
        """How many readings of a counter don't fit the time at which the 8254 was read, to the length of a reading."""
        move, found = self.move(), []
        for begin, end in self.windows(counter, period):
            found.append((begin + move - (end - begin), end + move + end - begin))
        return len(outside(values, counter, found, [line[INDEX[counter] + 2] for line in self.guest.before], period))

    def test_counter_2(self) -> None:
        """The load time of the stream: all readings before the stop fit one time at which the 8254 was read."""
        self.assertEqual(self.differing(self.values, "pit2", COUNTER_2), 0)

    def test_counter_0(self) -> None:
        """That of counter 0 isn't when the guest loaded it, so its readings don't fit it."""
        self.assertIn("pit.counter0.count", self.lossy)
        self.assertEqual(self.values["pit.counter0.count"], COUNTER_0)
        values, losses = converted("kvm", is_user_pit=True)
        self.assertNotIn("pit.counter0.count", [name for name, _ in losses.lossy])
        self.assertEqual(self.differing(values, "pit0", COUNTER_0), len(self.guest.before))

    def test_seconds(self) -> None:
        """The second turns as it did before the stop, but for the time between the readings of QEMU's clocks, which is a note."""
        self.assertIn("host.anchor_ns", self.notes)
        moments = [self.moment(line, INDEX["second"] + 1) for line in self.guest.before]
        self.assertTrue(fits_turns(self.values, turns_of(self.guest.before, moments), STOP_NS))

    def test_current_count(self) -> None:
        """It isn't in the stream: the board has the initial one, from which a QEMU that loads the stream begins, too."""
        self.assertIn("cpu0.apic_timer.current", self.lossy)
        initial, place = self.values["cpu0.apic_timer.initial"], INDEX["current"] + 2
        self.assertEqual(self.values["cpu0.apic_timer.current"], initial)
        self.assertLess(self.guest.before[-1][place], initial * 3 // 4)
        self.assertGreater(self.guest.after[0][place], initial * 7 // 8)

    def test_page(self) -> None:
        """The guest's clock goes on from KVM's, not below what the guest read last; QEMU's TSC and clock are near one page's pair."""
        count = self.values["host.anchor_count"]
        self.assertEqual(self.values["cpu0.page.msr"], 0x5001)
        clock, tsc = (int(words[place], base) for words, place, base in
                      zip(replies(packed(self.values), [f"0 {count} clock 0", f"0 {count} rdmsr 10"]), (1, 0), (10, 16)))
        self.assertEqual((clock, tsc), (self.clock_ns, cpu_number(self.stream, "tsc", 0)))
        self.assertLess(self.moment(self.guest.before[-1], INDEX["tsc"] + 1), 0)
        line = self.guest.before[-1]
        page = b"".join(word.to_bytes(4, "little") for word in line[PAGE])
        self.assertLess(abs(page_clock(page, tsc) - clock), STOP_NS)
        self.assertEqual((self.values["cpu0.page.mul"], self.values["cpu0.page.shift"] % 256), (line[PAGE][6], line[PAGE][7] % 256))


if __name__ == "__main__":
    unittest.main()
