# SPDX-License-Identifier: Apache-2.0 OR MIT
"""Runs of the board's definitions that would take too long nanosecond by nanosecond.

The definition of a run computes each nanosecond. In one in which no pulse falls, and which the catch-up interval doesn't
divide, all four parts of a nanosecond give their board back, so `Runs` computes the others alone, each by the definition
`onward`. It also keeps the last runs, since the definitions of one access ask for the same run several times.

Of the timers of local APICs `Runs` computes those that count or have a deadline; the nanosecond of an idle one gives it and
its line back. Messages of the HPET are looked for where its pulses fall.
"""

from collections.abc import Callable

from .compute import Definitions, Fields, Gap, applied

RUN = "board_devices.specs.Run"
NEXT = "board_core.specs.Next"
APICS = "local_apics.specs.Nanosecond"
MESSAGES = "hpet_bursts.specs.Messages"
RATES = (("pit_readback", "PIT_HZ"), ("rtc_registers", "RTC_HZ"), ("hpet_registers", "HPET_HZ"))
SECOND = 10**9
SHORT = 32


class Runs:
    """Takes the place of both `run`, of `first_edge` and of `message_times` among the definitions."""

    def __init__(self, definitions: Definitions, most: int = 20_000) -> None:
        self.all, self.most = definitions, most
        self.pit, self.rtc, self.hpet = (definitions.constants[it] for it in RATES)
        self.take_place()

    def take_place(self) -> None:
        self.kept: list[tuple] = []
        self.kept_apics: list[tuple] = []
        for place, length_at, quickly in ((RUN, "run"), 1, self.run), ((NEXT, "first_edge"), 1, self.first_edge), \
                ((APICS, "run"), 2, self.apics_run), ((MESSAGES, "message_times"), 2, self.message_times):
            self.all.made[place] = self.where_short(place, length_at, quickly)

    def where_short(self, place: tuple[str, str], length_at: int, quickly: Callable) -> Callable:
        """The definition itself for a length of at most `SHORT`, else what takes its place."""
        module = self.all.modules[place[0]]
        by_definition = self.all.function(module, module.declared[place[1]])
        if self.all.arity(*place) == 3:
            return lambda a, b, c: (by_definition if (a, b, c)[length_at] <= SHORT else quickly)(a, b, c)
        return lambda a, b, c, d: (by_definition if (a, b, c, d)[length_at] <= SHORT else quickly)(a, b, c, d)

    def run(self, start: int, length: int, devices: Fields) -> Fields:
        for known, result in self.kept:
            if known[:2] == (start, length) and (known[2] is devices or known[2] == devices):
                return result
        ran = Fields(state=devices, edges=[])
        for ran in self.steps(start, length, ran):
            pass
        self.kept = [((start, length, devices), ran), *self.kept[:2]]
        return ran

    def first_edge(self, now: int, length: int, devices: Fields) -> tuple:
        for ran in self.steps(now, length, Fields(state=devices, edges=[])):
            if ran["edges"]:
                return ("Some", ran["edges"][0]["at"])
        return ("None",)

    def steps(self, start: int, length: int, ran: Fields):
        """The runs up to each nanosecond in which something may happen."""
        at, count = start, 0
        while (at := self.following(at, ran["state"])) <= start + length:
            count += 1
            if count > self.most:
                raise Gap(f"a record passes a time with more than {self.most:,} nanoseconds in which something falls, the most that are computed; "
                          "part the time by shorter ones, or take a trace of less time")
            ran = self.all.value(RUN, "onward", at, ran)
            yield ran

    def following(self, at: int, devices: Fields) -> int:
        """The first nanosecond after one in which a pulse falls, or that is a catch-up point."""
        rates = [self.pit, self.rtc] + [self.hpet] * (devices["hpet"]["config"] % 2)
        pulses = [-(-(at * hz // SECOND + 1) * SECOND // hz) for hz in rates]
        return min(*pulses, (at // devices["slew_ns"] + 1) * devices["slew_ns"])

    def apics_run(self, tsc: Callable, start: int, length: int, apics: Fields) -> Fields:
        """The timers of local APICs after so many nanoseconds, by the TSC of each processor at a nanosecond."""
        ends = [applied(tsc, k, at) for k in busy(apics) for at in (start + 1, start + length)]
        for known, result in self.kept_apics:
            if known == (start, length, ends, apics):
                return result
        ran = apics
        for at in range(start + 1, start + length + 1):
            if not busy(ran):
                break
            ran = self.apics_nanosecond(tsc, at, ran)
        self.kept_apics = [((start, length, ends, apics), ran), *self.kept_apics[:2]]
        return ran

    def apics_nanosecond(self, tsc: Callable, at: int, apics: Fields) -> Fields:
        timers, lines = list(apics["timers"]), list(apics["lines"])
        for k in busy(apics):
            count, timer = applied(tsc, k, at), timers[k]
            lines[k] = self.all.value("tick_policy.specs.Stretch", "ticked_where",
                                      self.all.value(APICS, "tick_with", count, timer), lines[k])
            timers[k] = self.all.value("lapic_timer.specs.Stretch", "nanosecond", count, timer)
        return apics.changed(timers=timers, lines=lines)

    def message_times(self, timer: int, start: int, length: int, hpet: Fields) -> list[int]:
        """The nanoseconds at which a timer of the HPET sends messages."""
        times: list[int] = []
        if not self.all.value("hpet_registers.specs.Outputs", "is_message", timer, hpet) or not hpet["config"] % 2:
            return times
        period = SECOND // self.hpet
        for at in range((start // period + 1) * period, start + length + 1, period):
            if self.all.value(MESSAGES, "message_next", timer, hpet):
                times.append(at)
            hpet = self.all.value("hpet_registers.specs.Stretch", "hpet_pulsed", hpet)
        return times


def busy(apics: Fields) -> list[int]:
    """The places of the timers that count or have a deadline."""
    return [k for k, timer in enumerate(apics["timers"]) if timer["current"] or timer["deadline"]]
