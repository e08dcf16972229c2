# SPDX-License-Identifier: Apache-2.0 OR MIT
"""A QEMU under the accelerator qtest: ports and registers by its text protocol, the virtual clock by steps, migration by QMP. Changes of
the IO-APIC's inputs are stamped with the nanosecond of the timer that made them."""

from .machine import Machine

HPET = 0xFED00000
RTC = "clock=vm,base=2026-03-01T12:34:56"


class Qtest(Machine):
    def __init__(self, qemu: str, firmware: list[str], words: tuple[str, ...] = (), is_incoming: bool = False) -> None:
        super().__init__()
        self.now_ns, self.rises = 0, list[tuple[int, int]]()
        self.pending = list[int]()
        self.start(qemu, *firmware, "-accel", "qtest", "-machine", "q35", "-m", "1", "-rtc", RTC, "-qtest",
                   f"unix:{self.path('q')},server=on,wait=on", "-qtest-log", "/dev/null", *words, *(("-incoming", "defer") if is_incoming else ()))
        self.test = self.connected("q")
        self.connect_monitor()
        self.command("irq_intercept_in ioapic")

    def command(self, text: str) -> list[str]:
        self.test.write(text + "\n")
        self.test.flush()
        while True:
            words = self.test.readline().split()
            if words[0] != "IRQ":
                if words[0] != "OK":
                    raise RuntimeError(f"{text}: {' '.join(words)}")
                break
            if words[1] == "raise":
                self.pending.append(int(words[2]))
        if text.startswith("clock"):
            self.now_ns = int(words[1])
        self.rises += [(self.now_ns, line) for line in self.pending]
        self.pending.clear()
        return words[1:]

    def out(self, port: int, byte: int) -> None:
        self.command(f"outb {port:#x} {byte:#x}")

    def read(self, port: int) -> int:
        return int(self.command(f"inb {port:#x}")[0], 0)

    def hpet_write(self, offset: int, value: int) -> None:
        self.command(f"writel {HPET + offset:#x} {value:#x}")

    def hpet_read(self, offset: int) -> int:
        return int(self.command(f"readl {HPET + offset:#x}")[0], 0)

    def until(self, now_ns: int) -> None:
        if now_ns > self.now_ns:
            self.command(f"clock_set {now_ns}")
