# SPDX-License-Identifier: Apache-2.0 OR MIT
"""Pages that a board publishes, filled for a state that comes from elsewhere: pvclock's, the wall clock's words, Hyper-V's."""

from .editing import FIRST_VERSION, publish
from .saved import Fields, Losses
from .timebase import tsc_at

ENABLED = 1


def hyperv_scale(khz: int) -> int:
    """Of the reference page: units of 100 ns a tick of the TSC, with 64 bits after the binary point."""
    return 2**64 * 10_000 // khz


def fill_hyperv(values: Fields, msr: int, reading: int | None, losses: Losses) -> None:
    """Hyper-V's page as published by processor 0 at the board's greatest count, at which it reads this number of 100 ns."""
    if values["format"] < 4:
        if msr & ENABLED:
            losses.say("hv.msr", f"{msr:x}h: the reference page needs format 4")
        return
    values |= {"hv.msr": msr, "hv.version": FIRST_VERSION if msr else 0, "hv.cpu": 0, "hv.scale": 0, "hv.offset": 0, "hv.tsc_offset": 0}
    if not msr & ENABLED:
        return
    scale = hyperv_scale(values["guest.khz"])
    tsc = tsc_at(values, 0, values["host.greatest_count"])
    if reading is None:
        losses.say("hv.offset", "no reading of MSR 40000020h: the page reads the board's time")
        reading = values["host.anchor_ns"] // 100
    values |= {"hv.scale": scale, "hv.offset": (reading - (tsc * scale >> 64)) % 2**64, "hv.tsc_offset": values["cpu0.tsc_offset"]}


def fill_wall(values: Fields, msr: int, realtime_ns: int | None, losses: Losses) -> None:
    """The wall clock's words: the time of day at the board's time 0."""
    values["wall.msr"], values["wall.version"] = msr, FIRST_VERSION if msr else 0
    if realtime_ns is None:
        if msr:
            losses.say("wall.sec", "no time of day beside the clock: 0")
        return
    at_zero = max(realtime_ns - values["host.anchor_ns"], 0)
    values["wall.sec"], values["wall.nsec"] = at_zero // 10**9 % 2**32, at_zero % 10**9


def fill_processor(values: Fields, cpu: int, msr: int, version: int | None, losses: Losses) -> None:
    """A processor's page, as a publishing at the anchor leaves it. The grammar asks it of one whose TSC was moved, too."""
    at = f"cpu{cpu}."
    values[at + "page.msr"] = msr
    if not (msr or values[at + "tsc_offset"] or values[at + "tsc_adjust"] or version):
        return
    publish(values, cpu, tsc_at(values, cpu, values["host.anchor_count"]), values["host.anchor_ns"], version or FIRST_VERSION)
    if msr & ENABLED and version is None:
        losses.say(at + "page.version", f"it is in the guest's memory alone: {FIRST_VERSION}, and the monitor puts the page again")
