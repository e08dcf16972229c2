# SPDX-License-Identifier: Apache-2.0 OR MIT
"""What QEMU's words and commands for its own MC146818 do with the board: they work as with QEMU's own devices, or a message says why not.
No guest runs: the ports are written by qtest."""

import json
import subprocess
import sys
from pathlib import Path

from kinds import TOP, need
from packages import download

sys.path.append(str(TOP / "tests"))
from streams.qtest import Qtest  # noqa: E402 pylint: disable=wrong-import-position

REFUSED = (
    (("-rtc", "clock=host"), "", "-rtc clock=host can't be had: give clock=vm"),
    (("-rtc", "clock=rt"), "", "-rtc clock=rt can't be had: give clock=vm"),
    (("-rtc", "driftfix=slew"), "", "for -rtc driftfix=slew give rtc-policy=slew"),
    (("-rtc", "driftfix=none"), ",rtc-policy=slew", "for -rtc driftfix=none give rtc-policy=discard"),
    (("-rtc", "base=1969-12-31"), "", "begins in 1970 to February 2100, and not at -rtc base=1969-12-31"),
    (("-rtc", "base=2100-03-01"), "", "begins in 1970 to February 2100, and not at -rtc base=2100-03-01"),
    (("-smp", "65"), "", "at most 64 processors, and -smp asks for 65"),
)
"""Words of QEMU, and of the device, and what the message says."""
TAKEN = (
    ((), ""),
    (("-rtc", "base=localtime,clock=vm"), ""),
    (("-rtc", "base=1970-01-02"), ""),
    (("-rtc", "driftfix=slew"), ",rtc-policy=slew"),
    (("-rtc", "driftfix=none"), ",rtc-policy=discard"),
    (("-smp", "64"), ""),
)
HELD, GOES_ON, PERIODIC = 0x82, 0x02, 0x42
"""Register B."""
SECOND = 10**9


class Listener(Qtest):
    """A QEMU without a guest, whose events of the clock are kept."""

    def __init__(self, qemu: str, firmware: list[str], words: tuple[str, ...]) -> None:
        super().__init__(qemu, firmware, words)
        self.offsets = list[int]()

    def set(self, at: int, byte: int) -> None:
        self.out(0x70, at)
        self.out(0x71, byte)

    def events(self) -> list[int]:
        """The offsets of the events until now. A second later, as QEMU sends one a second."""
        self.command(f"clock_step {2 * SECOND}")
        self.monitor.write('{"execute": "query-status"}\n')
        self.monitor.flush()
        found = []
        while "return" not in (said := json.loads(self.monitor.readline())):
            if said["event"] == "RTC_CHANGE":
                found.append(said["data"]["offset"])
        return found


def firmware_of(folder: Path) -> list[str]:
    places = (download(folder, "seabios") / "usr/share/seabios", download(folder, "qemu-system-data") / "usr/share/qemu")
    return [word for place in places for word in ("-L", str(place))]


def check_start(qemu: str, firmware: list[str]) -> None:
    start = [qemu, *firmware, "-nodefaults", "-display", "none", "-accel", "qtest"]
    words: tuple[str, ...]
    for words, device, message in REFUSED:
        done = subprocess.run([*start, *words, "-device", f"clockboard{device}"], capture_output=True, text=True, check=False, timeout=60)
        need(done.returncode == 1 and message in done.stderr, f"{' '.join(words)}: {done.returncode} {done.stderr}")
    for words, device in TAKEN:
        done = subprocess.run([*start, *words, "-device", f"clockboard{device}", "-qmp", "stdio"], capture_output=True, text=True,
                              check=False, timeout=60, input='{"execute": "qmp_capabilities"}{"execute": "quit"}')
        need(done.returncode == 0 and not done.stderr, f"{' '.join(words)}: {done.returncode} {done.stderr}")


def changes(qemu: str, firmware: list[str], words: tuple[str, ...]) -> list[list[int]]:
    """The events after each step in which a guest sets its clock, or may."""
    machine = Listener(qemu, firmware, words)
    machine.events()
    found = []
    for steps in (((0x0b, HELD), (0x00, 0x10), (0x04, 0x13), (0x09, 0x27)), ((0x0b, GOES_ON),), ((0x02, 0x07),), ((0x0b, GOES_ON),), ((0x0a, 0x76),),
                  ((0x0a, 0x26),), ((0x05, 0x11),), ((0x32, 0x20),)):
        machine.out(0x70, 0)
        machine.read(0x71)  # QEMU's own bytes are as old as the last read
        for at, byte in steps:
            machine.set(at, byte)
        found.append(machine.events())
    machine.ask("quit")
    machine.process.wait()
    return found


def check_changes(qemu: str, firmware: list[str]) -> None:
    """RTC_CHANGE is sent where QEMU's own MC146818 sends it, the same offset within two seconds."""
    plain, board = (changes(qemu, firmware, words) for words in ((), ("-device", "clockboard")))
    need(any(plain) and list(map(len, plain)) == list(map(len, board)), f"RTC_CHANGE: {board}, and {plain} by QEMU's own")
    apart = [abs(here - there) for some, others in zip(board, plain) for here, there in zip(some, others)]
    need(max(apart) <= 2, f"RTC_CHANGE: {board}, and {plain} by QEMU's own")


def check_reinjection(qemu: str, firmware: list[str]) -> None:
    """The command drops what waits. Under discard nothing does; else ticks that wait are kept, and it says so."""
    for policy, waits in (("discard", False), ("delay", True), ("slew", True)):
        machine = Listener(qemu, firmware, ("-device", f"clockboard,rtc-policy={policy}"))
        machine.ask("rtc-reset-reinjection")
        machine.set(0x0a, 0x26)
        machine.set(0x0b, PERIODIC)
        machine.command(f"clock_step {SECOND}")
        said = ""
        try:
            machine.ask("rtc-reset-reinjection")
        except RuntimeError as error:
            said = str(error)
        need(("can't be dropped" in said) == waits, f"rtc-reset-reinjection under {policy} says '{said}'")
        machine.ask("quit")
        machine.process.wait()


def check(qemu: str, folder: Path) -> None:
    firmware = firmware_of(folder)
    check_start(qemu, firmware)
    check_changes(qemu, firmware)
    check_reinjection(qemu, firmware)
