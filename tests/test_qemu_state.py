# SPDX-License-Identifier: Apache-2.0 OR MIT
"""Recorded streams of QEMU as states: the board goes on beside what QEMU showed. tests/streams/record makes the recordings, and
tests/streams/back has QEMU load what a board gives back; both need a QEMU with the accelerator qtest."""

import gzip
import re
import tempfile
import unittest
from pathlib import Path

import support
from state_samples import run_tool
from streams.beside import Converted, Recording, converted, readings_of, recordings, replayed, rises_of
from streams.scenes import MESSAGE_DATA, MESSAGE_PLACE

from clocktools.states.meaning import mode_of
from clocktools.states.qemu import at_save, for_device, state_of_device, to_qemu
from clocktools.states.qemu_stream import Stream
from clocktools.states.saved import Fields, Losses, StateRefused, encoded, unjudged
from clocktools.states.timebase import tsc_at

PULSE_NS = range(837, 841)
KEPT_TIME_NS = 1400
"""How far a rise may be from QEMU's where the time is kept, and a phase lost."""
PERIODIC, PERIODIC_KEPT = "rtc-periodic", "periodic events are kept: the second turns "
"""A recording, and what is said of its second."""


def distance(first: str, second: str) -> int:
    """How far two counts of 16 bits are apart."""
    span = 16 ** len(first)
    apart = (int(first, 16) - int(second, 16)) % span
    return min(apart, span - apart)


def fits(values: Fields, line: int, apart: int) -> bool:
    """Whether the board's rise less QEMU's is what is known: line 0 comes one pulse later there in mode 2, and one earlier in mode 4."""
    mode = mode_of(values["pit.counter0.control"])
    if line == 0 and not values["hpet.config"] & 2 and mode in (2, 4):
        return -apart in PULSE_NS if mode == 2 else apart in PULSE_NS
    return abs(apart) <= 1


def named(name: str) -> Recording:
    return next(one for one in recordings() if one.name == name)


def pairs_of(one: Recording, line: int, found: Converted) -> list[tuple[int, int]]:
    """The rises of a line after the save, here and there."""
    here, there = rises_of(encoded(found.values), found.values, one), [rise for rise in one.rises if rise[0] > one.virtual_ns]
    return list(zip(*([time for time, of in rises if of == line] for rises in (here, there)), strict=True))


class Recorded(unittest.TestCase):
    def test_there_are_some(self) -> None:
        self.assertGreater(len(recordings()), 20)

    def test_readings(self) -> None:
        """HPET, counter 0, dates and single bytes are QEMU's; counter 2 is within one pulse where it isn't the one that leads."""
        for one in recordings():
            with self.subTest(one.name):
                found = converted(one)
                shown = readings_of(encoded(found.values), one)
                leads = "pit0" in {what for _, what, _ in one.expected()} or one.source().get("i8254", "channels[0].rw_mode")
                for (time, what, told), here in zip(one.expected(), shown, strict=True):
                    near = 1 if what in ("pit2", "low2") and leads else 0
                    self.assertLessEqual(distance(told, here) if what != "rtc" else int(told != here), near, (time, what, told, here))

    def test_rises(self) -> None:
        for one in recordings():
            with self.subTest(one.name):
                found = converted(one, keeps_second=one.name != PERIODIC)
                for line in one.lines:
                    pairs = pairs_of(one, line, found)
                    self.assertEqual([pair for pair in pairs if not fits(found.values, line, pair[0] - pair[1])], [], line)

    def test_pulses_of_a_periodic_timer(self) -> None:
        """A periodic timer of QEMU's HPET can pulse twice for a tick, 10 ns apart. The board's line rises once for each."""
        for name in ("hpet-legacy", "all"):
            with self.subTest(name):
                one = named(name)
                twice = {tuple(rise) for rise in one.again if rise[0] > one.virtual_ns}
                self.assertGreater(len(twice), 10)
                self.assertEqual(twice - {(time + 10, line) for time, line in one.rises}, set())
                found = converted(one)
                here = [rise for rise in rises_of(encoded(found.values), found.values, one) if rise[1] in {line for _, line in twice}]
                self.assertEqual(len(here), sum(time > one.virtual_ns and line in {line for _, line in twice} for time, line in one.rises))

    def test_phases(self) -> None:
        """A time is found at which no phase is lost; with the time kept, each loss is told, and counts are off by a pulse at most."""
        for one in recordings():
            with self.subTest(one.name):
                self.assertEqual([name for name, _ in converted(one).losses.lossy if name.endswith(".phase")], [])
                found = converted(one, keeps_time=True)
                self.assertEqual(found.values["host.anchor_ns"], one.virtual_ns)
                for (_, what, told), here in zip(one.expected(), readings_of(encoded(found.values), one)):
                    if what.startswith("pit"):
                        self.assertLessEqual(distance(told, here), 2, (what, told, here))
                for line in () if one.name == PERIODIC else (line for line in one.lines if line != 8):
                    self.assertLessEqual(max((abs(here - there) for here, there in pairs_of(one, line, found)), default=0), KEPT_TIME_NS)

    def test_periodic_events(self) -> None:
        """One divider gives the second and the periodic events. Which of both is lost is told, by how much, and it is so much."""
        one, told = named(PERIODIC), re.compile(r"the next periodic event comes ([+-]\d+) ns from the source's")
        found = converted(one)
        apart = next(int(match[1]) for name, text in found.losses.lossy if name == "rtc.divider" and (match := told.search(text)))
        here = rises_of(encoded(found.values), found.values, one)[0][0]
        there = next(time for time, _ in one.rises if time > one.virtual_ns)
        self.assertTrue(0 < abs(apart) < 250_000_000 and abs(here - there - apart) <= 1, (here - there, apart))
        kept = converted(one, keeps_second=False)
        self.assertEqual([text[: len(PERIODIC_KEPT)] for name, text in kept.losses.lossy if name == "rtc.divider"], [PERIODIC_KEPT])
        self.assertNotEqual(kept.values["rtc.divider"], found.values["rtc.divider"])

    def test_messages(self) -> None:
        """Each message of the HPET comes at QEMU's nanosecond, by the same two halves of its register."""
        one = named("hpet-messages")
        values = converted(one, version=5).values
        self.assertEqual((values["hpet.timer0.message_enable"], values["hpet.timer0.message"]), (1, MESSAGE_PLACE << 32 | MESSAGE_DATA))
        said = replayed(["clockboard 5", f"state {encoded(values).hex()}", "begin", f"0 {one.end_ns} step", "end"])
        bursts = [list(map(int, (words[1], *words[5:7]))) for words in map(str.split, said) if words[0] == "msg"]
        here = [first + number * each - values["host.anchor_ns"] + one.virtual_ns for first, count, each in bursts for number in range(count)]
        there = [time for time in one.messages if time > one.virtual_ns]
        self.assertGreater(len(there), 15)
        self.assertLessEqual(max(abs(first - second) for first, second in zip(here, there, strict=True)), 1)
        self.assertIn(("hpet.timer0.config", "messages need format 5"), converted(one).losses.lossy)

    def test_level(self) -> None:
        """A timer that is level-triggered keeps its bit of the status: one came before the save, one comes after it."""
        one = named("hpet-level")
        shown = [told for _, what, told in one.expected() if what == "isr"]
        self.assertEqual((shown[0], shown[-1], converted(one).values["hpet.status"]), ("00000004", "00000006", 4))

    def test_back(self) -> None:
        """A state that goes back into its own template at the same clock gives QEMU's fields again: load times within a pulse."""
        for one in recordings():
            with self.subTest(one.name):
                source, template = one.source(), one.source()
                values, losses = converted(one).values, Losses()
                self.assertEqual(len(to_qemu(values, template, one.virtual_ns, one.virtual_ns, losses)), len(source.data))
                self.fields_are_alike(one, source, template)

    def fields_are_alike(self, one: Recording, source: Stream, template: Stream) -> None:
        for number in (0, 2):
            if source.get("i8254", f"channels[{number}].rw_mode"):
                for name in ("count", "mode", "bcd", "gate", "rw_mode", "latched_count", "count_latched", "status_latched", "write_state"):
                    path = f"channels[{number}].{name}"
                    self.assertEqual(template.get("i8254", path), source.get("i8254", path), path)
        self.phase_is_alike(source, template)
        for name in ("config", "isr", "hpet_counter"):
            if not (name == "hpet_counter" and source.get("hpet", "config") & 1):
                self.assertEqual(template.get("hpet", name), source.get("hpet", name), name)
        if source.has("hpet", "hpet/offset:hpet_offset"):
            self.assertEqual(template.get("hpet", "hpet/offset:hpet_offset"), source.get("hpet", "hpet/offset:hpet_offset"))
        self.assertEqual(template.bytes_of("mc146818rtc", "cmos_data"), source.bytes_of("mc146818rtc", "cmos_data"))
        second = [(stream.get("mc146818rtc", "base_rtc") * 10**9 + one.virtual_ns - stream.get("mc146818rtc", "last_update")
                   + stream.get("mc146818rtc", "offset")) % 10**9 for stream in (source, template)]
        if source.bytes_of("mc146818rtc", "cmos_data")[10] >> 4 & 7 == 2:
            self.assertLessEqual(abs(second[0] - second[1]), 1)


    def phase_is_alike(self, source: Stream, template: Stream) -> None:
        """The counter that leads gets its load time back, but for whole periods."""
        leads = next((number for number in (0, 2) if source.get("i8254", f"channels[{number}].rw_mode")), None)
        if leads is not None and source.get("i8254", f"channels[{leads}].mode") in (2, 3):
            first, second = (stream.get("i8254", f"channels[{leads}].count_load_time") for stream in (source, template))
            pulses = source.get("i8254", f"channels[{leads}].count") / 1193182 * 10**9
            self.assertLessEqual(abs((second - first) / pulses - round((second - first) / pulses)) * pulses, 2)


class Streams(unittest.TestCase):
    def setUp(self) -> None:
        folder = tempfile.TemporaryDirectory()
        self.addCleanup(folder.cleanup)
        self.folder = Path(folder.name)
        self.recording = next(one for one in recordings() if one.name == "pit-mode-2")
        self.stream = self.file("stream", bytes.fromhex(self.recording.stream))

    def file(self, name: str, data: bytes) -> str:
        (self.folder / name).write_bytes(data)
        return str(self.folder / name)

    def test_tool(self) -> None:
        words = ("from", "qemu", self.stream, "--virtual-ns", str(self.recording.virtual_ns), "--rtc-clock", "vm", "--format", "1")
        status, lines, said = run_tool(*words)
        self.assertEqual(status, 1)
        self.assertIn("lossy guest.khz not in the stream: 1000000; --guest-khz tells it", said)
        names = ",".join(line.split()[1] for line in said if line.startswith("lossy "))
        self.assertEqual(run_tool(*words, "--accept", names)[0], 0)
        up = run_tool(*words, "--up", "0")[1]
        self.assertIn("pit.ticks.up 1", run_tool("print", "-", text=up[0])[1])
        self.assertEqual(run_tool(*words, "--up", "9")[:2], (3, ["refused --up 9 no tick line of the board's has it"]))
        self.assertIn("lossy rtc.divider the part of the second isn't in the stream (-rtc clock=host): taken as its beginning",
                      run_tool(*(word for word in words if word not in ("--rtc-clock", "vm")))[2])

    def test_unreadable(self) -> None:
        data = bytes.fromhex(self.recording.stream)
        for name, text in (("empty", b""), ("text", b"hello"), ("cut", data[:3000]), ("undescribed", data[: Stream(data).end + 1])):
            status, lines, said = run_tool("from", "qemu", self.file(name, text))
            self.assertEqual((status, lines, len(said)), (2, [], 1), name)

    def test_hpet_needs_a_place(self) -> None:
        """A template in which the HPET stood has no place for a counter that runs."""
        running = next(one for one in recordings() if one.name == "hpet-one-shot")
        state = self.file("state", encoded(converted(running).values))
        done = run_tool("to", "qemu", state, str(self.folder / "out"), "--template", self.stream)
        self.assertEqual(done[0], 3)
        self.assertIn("refused hpet.counter", done[1][0])

    def test_device(self) -> None:
        """A stream for the device of qemu/ has the state, keeps the other sections, and loses it on the way back."""
        state, source = encoded(converted(self.recording).values), bytes.fromhex(self.recording.stream)
        made = for_device(state, Stream(source))
        again = Stream(made)
        self.assertEqual(state_of_device(again), state)
        self.assertEqual(set(again.sections), {*Stream(source).sections, ("clockboard", 0)})
        self.assertEqual([again.get("hpet", f"timer[{number}].qemu_timer") for number in range(3)], [-1] * 3)
        path = self.file("moved", made)
        self.assertEqual(run_tool("from", "qemu", path, "--device"), (0, [f"state {state.hex()}"], []))
        out = str(self.folder / "out")
        run_tool("to", "qemu", self.file("state", state), out, "--template", path, "--virtual-ns", str(self.recording.virtual_ns))
        self.assertNotIn(("clockboard", 0), Stream(Path(out).read_bytes()).sections)
        self.assertEqual(run_tool("to", "qemu", self.file("state", state), out, "--template", path, "--device")[0], 2)



class Device(unittest.TestCase):
    """QEMU's own devices in a stream for the device of qemu/, and the way back."""

    def test_own_devices_move_no_line(self) -> None:
        """The HPET's timers are off, its counter runs on; the MC146818 asks for no interrupt. All is there again on the way back."""
        for name in ("all", "hpet-legacy", PERIODIC):
            one = named(name)
            values, source = converted(one).values, one.source()
            stream = Stream(for_device(encoded(values), one.source()))
            self.assertEqual([stream.get("hpet", f"timer[{number}].qemu_timer") for number in range(3)], [-1] * 3)
            self.assertEqual([stream.get("hpet", f"timer[{number}].config") & 4 for number in range(3)], [0] * 3)
            self.assertEqual(stream.get("hpet", "config"), source.get("hpet", "config"))
            self.assertEqual(stream.bytes_of("mc146818rtc", "cmos_data")[11] & 0x70, 0)
            back = Stream(to_qemu(values, stream, one.virtual_ns, one.virtual_ns, Losses()))
            self.assertEqual(back.bytes_of("mc146818rtc", "cmos_data"), source.bytes_of("mc146818rtc", "cmos_data"))
            for number in range(3):
                for part, bits in (("config", 0x14E), ("cmp", 2**64 - 1), ("period", 2**64 - 1)):
                    name = f"timer[{number}].{part}"
                    self.assertEqual(back.get("hpet", name) & bits, source.get("hpet", name) & bits, name)

    def test_back_at_the_time_of_the_save(self) -> None:
        """The state of the device is that after its last access: on the way back it goes on to the virtual clock of the stream."""
        one = named("hpet-legacy")
        values, losses = converted(one).values, Losses()
        later = unjudged(at_save(encoded(values), one.virtual_ns + 100_000, losses))
        self.assertEqual(later["hpet.counter"], values["hpet.counter"] + 10_000)
        self.assertEqual((later["host.greatest_count"], losses.lossy), (one.virtual_ns + 100_000, []))
        at_save(encoded(values), one.virtual_ns + 2_000_000, losses)
        self.assertEqual([name for name, _ in losses.lossy], ["line0.rises"])
        stream = Stream(for_device(encoded(values), one.source()))
        stream.put("timer", "cpu_clock_offset", one.virtual_ns + 100_000)
        with tempfile.TemporaryDirectory() as folder:
            template, state, out = (Path(folder) / name for name in ("template", "state", "out"))
            template.write_bytes(bytes(stream.data))
            state.write_bytes(encoded(values))
            run_tool("to", "qemu", str(state), str(out), "--template", str(template))
            made = Stream(out.read_bytes())
        counted = (made.get("timer", "cpu_clock_offset") + made.get("hpet", "hpet/offset:hpet_offset")) % 2**64
        self.assertEqual(counted // 10, later["hpet.counter"])


MACHINES = {"tcg-7.2-4-processors": 4, "kvm-7.2-2-processors": 2, "tcg-11.1-4-processors": 4, "kvm-11.1-2-processors": 2}
"""Streams of q35 after some seconds of its firmware, with their processors. The 8254 of kvm is KVM's."""


class Machines(unittest.TestCase):
    def taken(self, name: str, *words: str) -> tuple[Fields, list[str], bytes]:
        """The state's fields, what is lossy, and the stream's bytes."""
        data = gzip.decompress((support.HERE / f"streams/machines/{name}.stream.gz").read_bytes())
        with tempfile.TemporaryDirectory() as folder:
            path = Path(folder) / "stream"
            path.write_bytes(data)
            status, lines, said = run_tool("from", "qemu", str(path), "--format", "3", "--rtc-now", "1772368500000000000", *words)
        self.assertEqual((status, len(lines)), (1, 1), lines)
        return unjudged(bytes.fromhex(lines[0].split()[1])), [line.split()[1] for line in said if line.startswith("lossy ")], data

    def test_each(self) -> None:
        for name, cpus in MACHINES.items():
            with self.subTest(name):
                values, lossy, data = self.taken(name)
                stream, is_kvm = Stream(data), name.startswith("kvm")
                self.assertEqual(values["cpus"], cpus)
                self.assertEqual("guest.khz" in lossy, not is_kvm)
                self.assertEqual("pit.counter0.count" in lossy, is_kvm)
                for cpu in range(cpus):
                    tsc = stream.get("cpu", "env.tsc", None, cpu) if is_kvm else stream.get("timer", "cpu_ticks_offset")
                    self.assertEqual(tsc_at(values, cpu, values["host.greatest_count"]), tsc % 2**64)
                self.assertEqual(len(to_qemu(values, stream, None, None, Losses())), len(data))

    def test_pit_of_qemu_under_kvm(self) -> None:
        self.assertNotIn("pit.counter0.count", self.taken("kvm-7.2-2-processors", "--user-pit")[1])

    def test_processors(self) -> None:
        values, _, _ = self.taken("tcg-7.2-4-processors")
        _, _, data = self.taken("kvm-7.2-2-processors")
        with self.assertRaisesRegex(StateRefused, "cpus 4, and the template has 2"):
            to_qemu(values, Stream(data), None, None, Losses())


if __name__ == "__main__":
    unittest.main()
