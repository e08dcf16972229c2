# SPDX-License-Identifier: Apache-2.0 OR MIT
"""Guests in a few writes: each programs the clocks of a QEMU under qtest, and says when it is saved, until when it is followed, what is
read on the way, and of which inputs of the IO-APIC the rises are told."""

import random
from dataclasses import dataclass

from .qtest import Qtest

MS = 1_000_000
TIME_BYTES = (0, 2, 4, 6, 7, 8, 9)
HPET_REGISTERS = {"hpet": 0xF0, "isr": 0x20}
READINGS = 24
AGAIN_NS = 10
ACKNOWLEDGED_NS = 100_000
"""A guest reads register C so long after the rise."""
MESSAGE_PLACE, MESSAGE_DATA = 0x5000, 0x31
"""Where in RAM a timer of the HPET sends its messages, and what it writes there."""


@dataclass
class Scene:
    """Steps are words: `at NS`, `out PORT BYTE`, `in PORT`, `pit COUNTER MODE COUNT ACCESS`, `cmos BYTE VALUE`, `hpet OFFSET VALUE`,
    `timer NUMBER CONFIG COMPARATOR [PERIOD]`; ports, bytes, offsets and configurations are hexadecimal."""

    steps: str
    save_ns: int
    end_ns: int
    reads: tuple[str, ...]
    lines: tuple[int, ...] = ()
    has_messages: bool = False
    """Whether the HPET can send messages, which are followed in the place of rises."""

    @property
    def words(self) -> tuple[str, ...]:
        """QEMU's words for it."""
        return ("-global", "hpet.msi=on") if self.has_messages else ()


def set_pit(qemu: Qtest, counter: int, mode: int, count: int, access: int) -> None:
    qemu.out(0x43, counter << 6 | access << 4 | mode << 1)
    if access & 1:
        qemu.out(0x40 + counter, count & 255)
    if access & 2:
        qemu.out(0x40 + counter, count >> 8)


def set_timer(qemu: Qtest, number: int, config: int, comparator: int, period: int | None = None) -> None:
    qemu.hpet_write(0x100 + 0x20 * number, config | (0x40 if period is not None else 0))
    qemu.hpet_write(0x108 + 0x20 * number, comparator)
    if period is None:
        qemu.hpet_write(0x10C + 0x20 * number, 0)
    else:
        qemu.hpet_write(0x108 + 0x20 * number, period)


def play(qemu: Qtest, scene: Scene) -> None:
    for step in scene.steps.split(";"):
        name, *words = step.split()
        if name == "at":
            qemu.until(int(words[0]))
        elif name == "pit":
            set_pit(qemu, *map(int, words))
        elif name == "timer":
            set_timer(qemu, int(words[0]), int(words[1], 16), *map(int, words[2:]))
        elif name == "cmos":
            qemu.out(0x70, int(words[0], 16))
            qemu.out(0x71, int(words[1], 16))
        elif name == "hpet":
            qemu.hpet_write(int(words[0], 16), int(words[1], 16))
        elif name == "in":
            qemu.read(int(words[0], 16))
        else:
            qemu.out(*(int(word, 16) for word in words))
    qemu.until(scene.save_ns)


SCENES = {
    "pit-mode-2": Scene("at 333333; pit 0 2 11932 3", 25 * MS + 456789, 120 * MS, ("pit0",), (0,)),
    "pit-two-counters": Scene("at 100001; pit 0 2 1193 3; out 61 1; pit 2 2 3000 3", 7 * MS + 1, 15 * MS, ("pit0", "pit2"), (0,)),
    "pit-mode-3-of-65536": Scene("at 777; pit 0 3 0 3", 100 * MS + 5, 400 * MS, ("pit0",), (0,)),
    "pit-mode-3": Scene("at 4242; pit 0 3 2386 3; out 61 3; pit 2 3 1000 3", 3 * MS + 77, 15 * MS, ("pit0", "pit2"), (0,)),
    "pit-mode-0": Scene("at 5000017; pit 0 0 50000 3; out 61 1; pit 2 0 60000 3", 20 * MS + 9, 80 * MS, ("pit0", "pit2"), (0,)),
    "pit-mode-0-over": Scene("at 1000; pit 0 0 300 3", 20 * MS + 9, 60 * MS, ("pit0",), (0,)),
    "pit-mode-4": Scene("at 2222; pit 0 4 40000 3", 20 * MS + 9, 60 * MS, ("pit0",), (0,)),
    "pit-single-bytes": Scene("at 999; pit 0 2 200 1; out 61 1; pit 2 2 32000 2", 20 * MS + 9, 22 * MS, ("low0", "low2"), (0,)),
    "pit-half-read": Scene("at 12345; pit 0 2 40000 3; out 61 1; pit 2 3 50000 3; at 1000000; in 40; out 43 80; in 42; out 43 e2",
                           2 * MS + 9, 2 * MS + 90, ("low0", "low2", "low0", "low2")),
    "pit-latched": Scene("at 12345; pit 0 2 40000 3; pit 1 2 18 3; out 43 0; out 43 e4; out 61 1; out 43 b6; out 42 34", 2 * MS + 9,
                         2 * MS + 90, ("low0", "low0", "low1", "low1")),
    "hpet-legacy": Scene("at 123457; timer 0 c 100000 100000; hpet 10 3", 10 * MS + 3, 40 * MS, ("hpet",), (0,)),
    "hpet-one-shot": Scene("at 7003; hpet 10 1; at 1000003; timer 1 2904 700000; timer 2 2a04 1500000", 5 * MS + 8, 40 * MS, ("hpet",),
                           (20, 21)),
    "hpet-stopped": Scene("at 1005; hpet 10 1; at 3000009; timer 0 2804 900000; hpet 10 0", 20 * MS, 40 * MS, ("hpet",), (20,)),
    "hpet-level": Scene("at 7003; timer 1 2806 700000; timer 2 2a06 300000; hpet 10 1", 5 * MS + 8, 40 * MS, ("hpet", "isr"), (20,)),
    "hpet-messages": Scene(f"at 123457; hpet 110 {MESSAGE_DATA:x}; hpet 114 {MESSAGE_PLACE:x}; timer 0 400c 200000 150000; hpet 10 1",
                           3 * MS + 7, 30 * MS, ("hpet",), has_messages=True),
    "rtc-periodic": Scene("at 60000000; cmos a 2e; cmos b 42; at 850000000; out 70 c; in 71", 900 * MS + 123, 4000 * MS, ("rtc",), (8,)),
    "rtc-update": Scene("at 40000000; cmos b 12; at 1200000000; out 70 c; in 71", 1300 * MS + 321, 4000 * MS, ("rtc",), (8,)),
    "rtc-alarm": Scene("at 60000000; cmos 1 59; cmos 3 ff; cmos 5 c0; cmos b 22", 1300 * MS + 321, 5000 * MS, ("rtc",), (8,)),
    "rtc-leap-day": Scene("at 60000000; cmos b 86; cmos 0 3a; cmos 2 3b; cmos 4 17; cmos 6 7; cmos 7 1c; cmos 8 2; cmos 9 1c; cmos 32 14; "
                          "cmos b 6", 500 * MS, 4000 * MS, ("rtc",)),
    "rtc-divider-reset": Scene("at 60000000; cmos a 66; at 90000000; cmos a 26; cmos b 12", 200 * MS + 5, 3000 * MS, ("rtc",), (8,)),
    "all": Scene("at 100000077; pit 0 2 11932 3; cmos b 12; at 120000005; timer 2 280c 2000000 2000000; hpet 10 1", 333 * MS + 33,
                 900 * MS, ("pit0", "hpet"), (0, 20)),
}


def random_scene(seed: int) -> Scene:
    """One of counters, timers and the MC146818 at odd times."""
    source = random.Random(f"scene {seed}")
    steps, reads, lines, time = [], list[str](), set[int](), source.randrange(1000, 5 * MS)
    for kind in source.sample(("pit0", "pit2", "hpet", "rtc"), source.randrange(1, 4)):
        time += source.randrange(1, 3 * MS)
        steps.append(f"at {time}")
        reads.append(kind)
        if kind.startswith("pit"):
            count = source.choice((0, source.randrange(200, 65536))) & ~1
            steps += ["out 61 1", f"pit {kind[3]} {source.choice((0, 2, 2, 3, 4))} {count} 3"]
            lines |= {0} if kind == "pit0" else set()
        elif kind == "hpet":
            for number in range(3):
                config = 4 | source.choice((0, 0x100)) | (20 + number) << 9 | source.choice((0, 8))
                period = f" {source.randrange(10**5, 10**6)}" if config & 8 else ""
                steps.append(f"timer {number} {config:x} {source.randrange(3 * 10**5, 3 * 10**6)}{period}")
                lines.add(20 + number)
            steps.append("hpet 10 1")
        else:
            steps.append(f"cmos b {source.choice((0x02, 0x06, 0x12)):x}")
    save = time + source.randrange(1, 40 * MS)
    return Scene("; ".join(steps), save, save + (1500 if "rtc" in reads else 60) * MS, tuple(reads), tuple(sorted(lines)) if "rtc" not in reads else ())


def reading(qemu: Qtest, what: str) -> str:
    """What a guest reads of a clock, in hexadecimal digits."""
    if what in HPET_REGISTERS:
        return f"{qemu.hpet_read(HPET_REGISTERS[what]):08x}"
    if what == "rtc":
        found = ""
        for place in TIME_BYTES:
            qemu.out(0x70, place)
            found += f"{qemu.read(0x71):02x}"
        return found
    counter = int(what[3])
    if what.startswith("low"):
        return f"{qemu.read(0x40 + counter):02x}"
    qemu.out(0x43, counter << 6)
    low = qemu.read(0x40 + counter)
    return f"{qemu.read(0x40 + counter) << 8 | low:04x}"


def times(scene: Scene) -> list[int]:
    """When a guest reads: at the save, and at odd distances after it."""
    number, found = 12345, [scene.save_ns]
    for step in range(1, READINGS):
        number = (number * 6364136223846793005 + 1442695040888963407) % 2**64
        found.append(scene.save_ns + (scene.end_ns - scene.save_ns) * step // READINGS + (number >> 40) % 9973)
    return [time for time in found if time <= scene.end_ns]


def follow_messages(qemu: Qtest, scene: Scene) -> list[int]:
    """When the HPET's timer 0 sends its messages."""
    found: list[int] = []
    qemu.command(f"writel {MESSAGE_PLACE:#x} 0")
    while qemu.now_ns < scene.end_ns:
        qemu.command("clock_step")
        if int(qemu.command(f"readl {MESSAGE_PLACE:#x}")[0], 0) == MESSAGE_DATA:
            found.append(qemu.now_ns)
            qemu.command(f"writel {MESSAGE_PLACE:#x} 0")
    return [time for place, time in enumerate(found) if time <= scene.end_ns and (not place or time - found[place - 1] > 10)]


def follow(qemu: Qtest, scene: Scene) -> list[tuple[int, int]]:
    """The rises up to the end, by steps from timer to timer. A read of register C comes after each rise of line 8."""
    seen, found, still = len(qemu.rises), list[tuple[int, int]](), 0
    while qemu.now_ns < scene.end_ns and still < 20:
        before = qemu.now_ns
        qemu.command("clock_step")
        new = [(time, line) for time, line in qemu.rises[seen:] if line in scene.lines and time <= scene.end_ns]
        seen, found = len(qemu.rises), found + new
        if any(line == 8 for _, line in new):
            qemu.command(f"clock_step {ACKNOWLEDGED_NS}")
            qemu.out(0x70, 12)
            qemu.read(0x71)
        still = still + 1 if qemu.now_ns == before else 0
    return found


def again(rises: list[tuple[int, int]]) -> list[tuple[int, int]]:
    """The rises with which a periodic timer of QEMU's HPET pulses a second time for one tick."""
    return [second for first, second in zip(rises, rises[1:]) if second[0] - first[0] <= AGAIN_NS and second[1] == first[1]]
