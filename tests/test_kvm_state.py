# SPDX-License-Identifier: Apache-2.0 OR MIT
"""KVM's structures: tools/state's conversions beside those of c/kvm_state.h on the same random data, the same of c/state_fields.h and of
what-if beside the C library, and the rules by rows."""

import random
import shutil
import subprocess
import tempfile
import unittest
from dataclasses import replace
from pathlib import Path
from typing import Any

import support
from state_samples import boards, everything, run_tool, running, saved

from clocktools.states.counters import Channel
from clocktools.states.editing import move_account
from clocktools.states.foreseeing import moved as moved_to, report
from clocktools.states.kvm import (CLOCK, CURRENT, DIVIDE, INITIAL, LAPIC, LVT, MSR, REALTIME, Choices, Kvm, Processor, apic_from, from_kvm,
                                   pit_packed, to_kvm)
from clocktools.states.layout import fields
from clocktools.states.saved import Fields, Losses, blank, encoded, packed, unjudged

ARCHIVE = support.TOP / "release/libclockboard-x86_64-linux.a"
CASES = 60
MOVES, TICKS_ASKED = 10, 7
"""Of so many moves each seventh is asked for its next ticks, which takes a dozen runs of the program for each processor."""
RISES_LATER = "begin\n0 0 out 43 30\n0 0 out 40 ff\n0 0 out 40 ff\n0 1000000 step\nend\n"
"""Line 0 rises 55 ms later, in the gap of a move."""
COMPILERS = (("gcc", "-std=c11", "-x", "c"), ("g++", "-std=c++17", "-x", "c++"))
SANITIZED = ("-O1", "-g", "-D_POSIX_C_SOURCE=200809L", "-fsanitize=address,undefined", "-fno-sanitize-recover", "-Wall", "-Wextra", "-Werror",
             "-pedantic")


def random_channel(source: random.Random, now_ns: int) -> Channel:
    access = source.choice((0, 1, 2, 3, 3, 3))
    count = source.choice((1, 2, 3, 18, 65535, 65536, 65536, source.randrange(1, 65537)))
    return Channel(count=count, latched_count=source.randrange(65536), count_latched=source.choice((0, 0, 1, 2, 3)),
                   status_latched=source.choice((0, 0, 1)), status=source.randrange(256), read_state=source.choice((access, 3, 4)),
                   write_state=source.choice((access, 3, 4)), write_latch=source.randrange(256), rw_mode=access,
                   mode=source.choice((0, 1, 2, 2, 3, 3, 4, 5, 255)), bcd=source.choice((0, 0, 0, 1)), gate=source.choice((0, 1, 1)),
                   count_load_time=now_ns - source.choice((-5, 0, 1, 838, 839, source.randrange(10**9), source.randrange(10**13))))


def random_processor(source: random.Random) -> Processor:
    lapic = bytearray(LAPIC)
    initial = source.choice((0, source.randrange(2**32)))
    for place, number in ((LVT, source.choice((0x10000, 0x40, 0x20041, 0x40042, 0x60043, 0x1040))), (INITIAL, initial),
                          (CURRENT, source.choice((0, initial, source.randrange(initial + 1)))), (DIVIDE, source.choice((0, 1, 3, 8, 10, 11, 0xFF)))):
        lapic[place : place + 4] = number.to_bytes(4, "little")
    numbers = {0x10: source.randrange(2**64), 0x3B: source.choice((0, source.randrange(2**64))), 0x6E0: source.choice((0, source.randrange(2**63)))}
    for choices in ((0x4B564D01, 0x12), (0x4B564D00, 0x11), (0x40000021,), (0x40000020,)):
        numbers[source.choice(choices)] = source.choice((0, source.randrange(2**32) | source.choice((0, 1))))
    return Processor(bytes(lapic), numbers, source.choice((None, 0, source.randrange(2**64))))


def random_kvm(source: random.Random, cpus: int) -> Kvm:
    now_ns = source.randrange(10**13, 10**15)
    host = {"tsc_khz": source.randrange(100_000, 10_000_001), "monotonic_ns": now_ns, "count": source.randrange(2**62)}
    if source.random() < 0.3:
        host["host_khz"] = source.randrange(100_000, 10_000_001)
    return Kvm([random_channel(source, now_ns) for _ in range(3)], source.randrange(4), source.randrange(2**50), source.choice((0, 4, 8, 12)),
               source.randrange(1_790_000_000, 1_800_000_000) * 10**9 + 5, source.randrange(2**62), host,
               [random_processor(source) for _ in range(cpus)])


def choices_of(source: random.Random, kvm: Kvm) -> Choices:
    return Choices(pit0_loaded_ns=source.choice((None, kvm.host["monotonic_ns"] - source.randrange(10**9))),
                   page_versions=source.choice(([], [source.randrange(1, 2**31) * 2 for _ in kvm.processors])))


def line_from(base: bytes, kvm: Kvm, choices: Choices) -> str:
    """The question to the program in C."""
    parts = []
    for cpu, processor in enumerate(kvm.processors):
        version = choices.page_versions[cpu] if choices.page_versions else 0
        msrs = b"".join(MSR.pack(number, 0, value) for number, value in processor.msrs.items())
        parts.append(f"{processor.lapic.hex()} {msrs.hex()} {'-' if processor.tsc_offset is None else processor.tsc_offset} {version}")
    clock = CLOCK.pack(kvm.clock_ns, kvm.clock_flags, 0, kvm.realtime_ns, kvm.host_tsc)
    pit0 = -1 if choices.pit0_loaded_ns is None else choices.pit0_loaded_ns
    return (f"from {base.hex()} {pit_packed(kvm.channels, kvm.pit_flags).hex()} {kvm.host['monotonic_ns']} {pit0} {clock.hex()} "
            f"{kvm.host['count']} {kvm.host.get('host_khz', kvm.host['tsc_khz'])} {kvm.host['tsc_khz']} {len(parts)} {' '.join(parts)}")


def names_lost(losses: Losses) -> set[str]:
    """The names of what is lost as the program in C tells them: of a processor without its number."""
    return {name if not name.startswith("cpu") else "cpu" + name[name.index("."):] for name, _ in losses.lossy}


def asked(program: Path, lines: list[str]) -> list[list[str]]:
    done = subprocess.run([program], input="\n".join(lines) + "\n", capture_output=True, text=True, check=False)
    assert done.returncode == 0 and not done.stderr, (done.returncode, done.stderr[:2000])
    return [line.split() for line in done.stdout.splitlines()]


@unittest.skipUnless(shutil.which("gcc") and ARCHIVE.exists(), "no gcc, or no archive")
class BesideC(unittest.TestCase):
    """What the headers do is what the tables of tools/state do."""

    programs: list[Path]

    @classmethod
    def setUpClass(cls) -> None:
        folder = tempfile.TemporaryDirectory()
        cls.addClassCleanup(folder.cleanup)
        cls.programs = []
        for number, words in enumerate(COMPILERS):
            if shutil.which(words[0]):
                program = Path(folder.name) / f"program{number}"
                subprocess.run([*words[:2], *SANITIZED, f"-I{support.TOP / 'c'}", *words[2:], support.HERE / "c/kvm_state.c", "-x", "none",
                                ARCHIVE, "-o", program], check=True)
                cls.programs.append(program)

    def test_from(self) -> None:
        lines, wanted = [], []
        for seed in range(CASES):
            source = random.Random(f"from {seed}")
            base, choices, losses = source.choice(boards()), Choices(), Losses()
            values = unjudged(base)
            kvm = random_kvm(source, values["cpus"])
            choices = choices_of(source, kvm)
            lines.append(line_from(base, kvm, choices))
            channels = [replace(channel) for channel in kvm.channels]
            made = from_kvm(values, replace(kvm, channels=channels), choices, losses)
            wanted.append((packed(made).hex(), names_lost(losses)))
        for program in self.programs:
            for seed, (said, (state, lost)) in enumerate(zip(asked(program, lines), wanted, strict=True)):
                with self.subTest(program=program.name, seed=seed):
                    self.assertEqual(differing(bytes.fromhex(said[1]), bytes.fromhex(state)), [])
                    self.assertEqual(set(said[2:]), lost)

    def test_to(self) -> None:
        template = random.Random(1).randbytes(LAPIC)
        lines, wanted = [], []
        for number, data in enumerate((*boards(), *(moved(data, seed) for seed in range(4) for data in boards()))):
            losses = Losses()
            lines.append(f"to {data.hex()} 0 {template.hex()}")
            with tempfile.TemporaryDirectory() as folder:
                values = unjudged(data)
                for cpu in range(values["cpus"]):
                    (Path(folder) / f"cpu{cpu}.lapic").write_bytes(template)
                to_kvm(values, None, Path(folder), Choices(), losses)
                wanted.append((number, words_of(Path(folder), values), names_lost(losses)))
        for program in self.programs:
            for said, (number, words, lost) in zip(asked(program, lines), wanted, strict=True):
                with self.subTest(program=program.name, number=number):
                    self.assertEqual(said[1 : 1 + len(words)], words)
                    self.assertEqual(set(said[1 + len(words) :]), lost)

    def test_fields(self) -> None:
        for program in self.programs:
            for data in boards():
                values, shape = unjudged(data), fields(*(int.from_bytes(data[at : at + 2], "little") for at in (8, 10)))
                said = asked(program, [f"names {data.hex()}", *(f"field {data.hex()} {one.name}" for one in shape)])
                self.assertEqual(said[0][1:], [f"{one.name}:{one.size}" for one in shape])
                self.assertEqual([int(words[1]) for words in said[1:]], [values[one.name] % 256**one.size for one in shape])
                set_lines = [f"set {data.hex()} {one.name} {min(256**one.size - 1, 77)}" for one in shape[2:]]
                for one, words in zip(shape[2:], asked(program, set_lines), strict=True):
                    self.assertEqual(differing(bytes.fromhex(words[1]), data), [one.name] if values[one.name] != 77 else [])

    def test_fields_that_are_not_there(self) -> None:
        data = everything(5).hex()
        old = everything(1).hex()
        lines = [f"field {data} {name}" for name in ("walk", "rtc.ram0d", "rtc.ram80", "pit.counter3.count", "cpu3.tsc_offset", "cpu", "rtc.",
                                                       "hpet.timer8.config", "pit.counter0.", "x" * 300)]
        lines += [f"field {old} {name}" for name in ("hv.msr", "line0.rises", "hpet.timer3.config", "cpu0.apic_timer.lvt")]
        lines += [f"set {data} pit.counter0.count 65536", f"set {data} pit.speaker 256", "field 00 format", f"setup {data[2:]}"]
        for program in self.programs:
            self.assertEqual(asked(program, lines), [["none"]] * len(lines))

    def test_policies(self) -> None:
        rows = [(data, device, policy) for data in boards() for device in ("pit", "rtc", "hpet") for policy in range(3)]
        lines = [f"policy {data.hex()} {device} {policy}" for data, device, policy in rows]
        for program in self.programs:
            for (data, device, policy), words in zip(rows, asked(program, lines), strict=True):
                values, losses = unjudged(data), Losses()
                move_account(values, device, policy, losses)
                self.assertEqual(words[:2], ["state", encoded(values).hex()])
                self.assertEqual(int(words[2]), sum(int(text.split()[0]) for _, text in losses.lossy))
            data = running().hex()
            self.assertEqual(asked(program, [f"policy {data} pit 3", f"policy {data} walk 1", "policy 00 pit 1"]),
                             [["answer", "2"], ["answer", "2"], ["answer", "9"]])

    def test_what_if(self) -> None:
        """What a copy of a board answers after a move is what the tool says of its state: time, edges, the next ones, the state."""
        rows = []
        for seed in range(MOVES):
            source = random.Random(f"move {seed}")
            rows.append((boards()[seed % len(boards())], source.randrange(100_000, 10_000_001), source.choice((0, source.randrange(10**9)))))
        rows.append((saved(2, RISES_LATER), 3_000_000, 10**8))
        wanted = [self.foreseen(*row, asks_ticks=number % TICKS_ASKED == 0) for number, row in enumerate(rows)]
        self.assertTrue(any(tick for told in wanted for tick in told[2]) and any(len(told) > 4 for told in wanted))
        for program in self.programs:
            for said, told in zip(asked(program, [f"foresee {data.hex()} {khz} {gap}" for data, khz, gap in rows]), wanted, strict=True):
                words = iter(said[1:])
                self.assertEqual([next(words), next(words)], told[:2])
                ticks = [next(words) for _ in told[2]]
                self.assertEqual([tick for tick, wish in zip(ticks, told[2]) if wish is not None], [wish for wish in told[2] if wish is not None])
                self.assertEqual(list(words), told[3:])

    def foreseen(self, data: bytes, khz: int, gap: int, asks_ticks: bool) -> list[Any]:
        """The same of the tool, whose move is a record and so an access; a processor's tick is none where it wasn't asked for."""
        move = moved_to(data, khz, gap)
        told, values = report(move, asks_ticks), unjudged(move.state)
        ticks = told.get("next_tick_ns", {})
        edges = [f"{edge['at_ns']}:{edge['line']}:{int(edge['up'])}" for edge in told["edges"]]
        return [told["time_ns"][1], told["next_edge_ns"] or "0", [ticks.get(f"apic{cpu}") for cpu in range(values["cpus"])],
                *edges, packed({**values, "accesses": values["accesses"] - 1}).hex()]

    def test_setup(self) -> None:
        for program in self.programs:
            values = unjudged(everything(4))
            names = ("host.khz", "host.anchor_count", "host.anchor_ns", "guest.khz", "slew_ns", "wall.sec", "wall.nsec", "format", "cpus",
                     "pit.policy", "rtc.policy", "hpet.policy", *(f"rtc.{name}" for name in ("sec", "min", "hour", "wday", "date", "month", "year")))
            self.assertEqual(asked(program, [f"setup {everything(4).hex()}"]), [["setup", *(str(values[name]) for name in names)]])


def differing(first: bytes, second: bytes) -> list[str]:
    one, other = unjudged(first), unjudged(second)
    return [f"{name}" if name not in other or other[name] != number else "" for name, number in one.items() if other.get(name) != number]


def moved(data: bytes, seed: int) -> bytes:
    """A board's state with other numbers in the fields that conversions read."""
    source, values = random.Random(f"to {seed} {len(data)}"), unjudged(data)
    for number in range(3):
        at = f"pit.counter{number}."
        mode = source.randrange(8)
        values |= {at + "control": source.choice((1, 2, 3, 3)) << 4 | mode << 1, at + "count_register": source.choice((0, 2, source.randrange(65536))),
                   at + "count": source.randrange(65536), at + "flags": source.randrange(256), at + "read_high_next": source.randrange(2),
                   at + "first_byte_waits": source.randrange(2), at + "count_latched": source.randrange(2)}
    if values["format"] >= 3:
        values |= {"cpu0.apic_timer.phase_ns": source.randrange(2), "cpu0.apic_timer.deadline": source.choice((0, 5)),
                   "cpu0.apic_timer.ticks.up": source.randrange(2)}
    values |= {"pit.ticks.up": source.randrange(2), "pit.ticks.waiting": source.randrange(2), "pit.speaker": source.randrange(2)}
    return packed(values)


def words_of(folder: Path, values: Fields) -> list[str]:
    """What a folder has, as the program in C prints it. KVM's count of Hyper-V isn't among its entries."""
    words = [(folder / name).read_bytes().hex() for name in ("pit2", "clock")]
    for cpu in range(values["cpus"]):
        msrs = b"".join(MSR.pack(*entry) for entry in MSR.iter_unpack((folder / f"cpu{cpu}.msrs").read_bytes()) if entry[0] != 0x40000020)
        words += [(folder / f"cpu{cpu}.lapic").read_bytes().hex() if values["format"] >= 3 else "-", msrs.hex(),
                  str(int.from_bytes((folder / f"cpu{cpu}.tsc_offset").read_bytes(), "little"))]
    return words


class LocalApic(unittest.TestCase):
    """Rows of the current count: KVM goes on from it; where it is 0 a periodic timer begins anew and a one-shot is over."""

    def test_current(self) -> None:
        for lvt, initial, current, wanted, is_told in ((0x20041, 1000, 400, 400, False), (0x20041, 1000, 0, 1000, True), (0x41, 1000, 400, 400, False),
                                                       (0x41, 1000, 0, 0, False), (0x41, 1000, 2000, 1000, False), (0x40041, 1000, 400, 0, False)):
            lapic, losses, values = bytearray(LAPIC), Losses(), blank(3)
            for place, number in ((LVT, lvt), (INITIAL, initial), (CURRENT, current), (DIVIDE, 0xB)):
                lapic[place : place + 4] = number.to_bytes(4, "little")
            apic_from(values, 0, Processor(bytes(lapic), {}), losses)
            self.assertEqual(values["cpu0.apic_timer.current"], wanted, (hex(lvt), current))
            self.assertEqual("cpu0.apic_timer.current" in [name for name, _ in losses.lossy], is_told)


class Folder(unittest.TestCase):
    """The files of a monitor."""

    def setUp(self) -> None:
        folder = tempfile.TemporaryDirectory()
        self.addCleanup(folder.cleanup)
        self.folder = Path(folder.name)
        self.state = self.folder / "state"
        self.state.write_bytes(everything(5))
        self.kvm = self.folder / "kvm"
        self.status, self.lines, self.said = run_tool("to", "kvm", str(self.state), str(self.kvm))

    def test_there_and_back(self) -> None:
        """Settings, TSCs, page numbers and local APIC timers come back; what is lost is named."""
        self.assertEqual((self.status, self.lines), (1, []))
        values = unjudged(everything(5))
        left = 50000 - (50000 - values["pit.counter2.count"]) // 2
        told = next(line for line in self.said if line.startswith("note pit.counter2.count its next period begins in "))
        for number in (1, 2):
            self.assertIn(f"lossy pit.counter{number}.count KVM_SET_PIT2 begins the period at the call, whatever the load time says", self.said)
        self.assertTrue(abs(int(told.split()[-2]) - left * 10**9 // 1193182) <= 839, told)
        status, lines, said = run_tool("from", "kvm", str(self.kvm), "--onto", str(self.state), "--pit0-loaded", "0")
        self.assertEqual(status, 1)
        values, again = unjudged(everything(5)), unjudged(bytes.fromhex(lines[0].split()[1]))
        names = [f"cpu{cpu}.{name}" for cpu in range(3) for name in ("tsc_offset", "tsc_adjust", "page.msr", "apic_timer.lvt", "apic_timer.divide",
                                                                     "apic_timer.initial", "apic_timer.current", "apic_timer.deadline")]
        names += ["wall.msr", "hv.msr", "pit.speaker", "guest.khz", "host.khz", "rtc.divider", "hpet.counter"]
        names += [f"pit.counter{number}.{name}" for number in (1, 2) for name in ("control", "count_register", "count", "latched_count",
                                                                                  "count_latched", "read_high_next")]
        self.assertEqual([name for name in names if values[name] != again[name]], [])
        self.assertIn("lossy cpu1.page.version it is in the guest's memory alone: 2, and the monitor puts the page again", said)

    def test_time_of_day(self) -> None:
        """With a time of day KVM adds what went by since; without one there is no flag."""
        self.assertEqual(CLOCK.unpack((self.kvm / "clock").read_bytes())[1:4], (0, 0, 0))
        run_tool("to", "kvm", str(self.state), str(self.kvm), "--realtime-ns", "1795953600000000007")
        self.assertEqual(CLOCK.unpack((self.kvm / "clock").read_bytes())[1:4], (REALTIME, 0, 1795953600000000007))

    def test_options(self) -> None:
        words = ("from", "kvm", str(self.kvm), "--onto", str(self.state), "--page-version", "8,10,12", "--up", "apic1")
        _, lines, said = run_tool(*words)
        values = unjudged(bytes.fromhex(lines[0].split()[1]))
        self.assertEqual([values[f"cpu{cpu}.page.version"] for cpu in range(3)], [8, 10, 12])
        self.assertEqual(values["cpu1.apic_timer.ticks.up"], 1)
        names = ",".join(line.split()[1] for line in said if line.startswith("lossy "))
        self.assertEqual(run_tool(*words, "--accept", names)[0], 0)

    def test_refused(self) -> None:
        clock = bytearray((self.kvm / "clock").read_bytes())
        clock[:8] = (2**59).to_bytes(8, "little")
        (self.kvm / "clock").write_bytes(clock)
        self.assertEqual(run_tool("from", "kvm", str(self.kvm), "--onto", str(self.state))[:2], (3, [f"refused host.anchor_ns {2**59}"]))
        self.assertEqual(run_tool("from", "kvm", str(self.kvm), "--onto", str(self.state), "--format", "4")[0], 3)

    def test_unreadable(self) -> None:
        for name, text in (("pit2", b"short"), ("clock", b""), ("cpu0.msrs", b"odd"), ("cpu1.lapic", b"short"), ("host.json", b"{}"),
                           ("host.json", b"[1]"), ("host.json", b"no JSON")):
            whole = (self.kvm / name).read_bytes()
            (self.kvm / name).write_bytes(text)
            status, lines, said = run_tool("from", "kvm", str(self.kvm))
            self.assertEqual((status, lines, len(said)), (2, [], 1), name)
            (self.kvm / name).write_bytes(whole)
        (self.kvm / "cpu0.msrs").unlink()
        self.assertEqual(run_tool("from", "kvm", str(self.kvm))[0], 2)
        self.assertEqual(run_tool("from", "kvm", str(self.folder / "nowhere"))[0], 2)


if __name__ == "__main__":
    unittest.main()
