# SPDX-License-Identifier: Apache-2.0 OR MIT
"""The HPET of a QEMU stream. QEMU keeps the offset of the counter from its virtual clock, and each timer's registers as the guest wrote
them; a board keeps the counter."""

from .layout import timers_of
from .meaning import HPET_NS
from .qemu_stream import Stream
from .saved import Fields, Losses, StateRefused
from .timebase import board_now

SECTION = "hpet"
OFFSET = "hpet/offset:hpet_offset"
"""In its subsection, which a stream has where the HPET ran."""
ON, PERIODIC, LEVEL, NARROW, MESSAGES, ROUTE = 0x4, 0x8, 0x2, 0x100, 0x4000, 9
KEPT = 0x14E
"""Bits 1, 2, 3, 6 and 8 of a timer's configuration."""
ROUTES, FIRST_ROUTE = range(20, 24), 20
WRITTEN = 0x7FFF & ~0x8030
NEVER = -1
LAST_TIMER_NS = 2**62


def mask_of(config: int) -> int:
    """The bits of a timer's comparator."""
    return 2**32 - 1 if config & NARROW else 2**64 - 1


def route_from(at: str, config: int, is_legacy: bool, losses: Losses) -> int:
    """The route of a timer, which is 20 where the board has none such."""
    route = config >> ROUTE & 31
    if route in ROUTES:
        return route
    if config & ON and not is_legacy:
        losses.say(at + "config", f"route {route}: here {FIRST_ROUTE}; wire line {FIRST_ROUTE} to input {route}")
    return FIRST_ROUTE


def timer_from(values: Fields, stream: Stream, number: int, losses: Losses) -> None:
    at = f"hpet.timer{number}."
    config, comparator = (stream.get(SECTION, f"timer[{number}].{name}") for name in ("config", "cmp"))
    period = stream.get(SECTION, f"timer[{number}].period")
    runs = values["hpet.config"] & 1 and config & ON
    mask = mask_of(config)
    values[at + "config"] = config & KEPT | route_from(at, config, bool(values["hpet.config"] & 2) and number < 2, losses) << ROUTE
    values[at + "comparator"] = comparator & mask
    values[at + "period"] = (period if config & PERIODIC else comparator) & mask
    if runs and not config & PERIODIC:
        left = (values[at + "comparator"] - values["hpet.counter"]) & mask
        if not left or left > mask // 2:
            losses.say(at + "comparator", "passed: the source doesn't fire again, the board does when the counter comes round")
    if stream.get(SECTION, f"timer[{number}].wrap_flag", 0):
        losses.say(at + "config", "the source fires at the wrap of 32 bits too, the board doesn't")
    if values["format"] >= 5:
        values[at + "message_enable"] = int(bool(config & MESSAGES))
        values[at + "message"] = stream.get(SECTION, f"timer[{number}].fsb", 0)
    elif config & MESSAGES:
        losses.say(at + "config", "messages need format 5")


def timers_in(stream: Stream) -> int:
    """How many timers the stream's HPET has; newer ones save the number under another name."""
    return stream.get(SECTION, "num_timers", stream.get(SECTION, "num_timers_save", 3))


def hpet_from(values: Fields, stream: Stream, virtual_ns: int, losses: Losses) -> int | None:
    """Fills the HPET. Gives the nanoseconds since its last pulse, where it runs."""
    values["hpet.config"], values["hpet.status"] = stream.get(SECTION, "config") & 3, stream.get(SECTION, "isr") & 0xFF
    values["hpet.counter"] = stream.get(SECTION, "hpet_counter")
    phase = None
    if values["hpet.config"] & 1 and stream.has(SECTION, OFFSET):
        counted = (virtual_ns + stream.get(SECTION, OFFSET)) % 2**64
        phase, values["hpet.counter"] = counted % HPET_NS, counted // HPET_NS
    there, here = timers_in(stream), timers_of(values["format"])
    if there != here:
        losses.say("hpet.timers", f"the source has {there}, format {values['format']} has {here}: the guest finds {here}")
    for number in range(min(there, here)):
        timer_from(values, stream, number, losses)
    values["hpet.status"] &= (1 << min(there, here)) - 1
    return phase


def expiry(values: Fields, number: int, virtual_ns: int) -> int:
    """When QEMU's timer is to fire: -1 where it is off."""
    at = f"hpet.timer{number}."
    config = values[at + "config"]
    if not values["hpet.config"] & 1 or not config & ON:
        return NEVER
    mask = mask_of(config)
    left = (values[at + "comparator"] - values["hpet.counter"]) & mask or mask + 1
    at_ns = virtual_ns + left * HPET_NS - board_now(values) % HPET_NS
    return at_ns if at_ns < LAST_TIMER_NS else NEVER


def timer_to(values: Fields, stream: Stream, number: int, virtual_ns: int) -> None:
    at, there = f"hpet.timer{number}.", f"timer[{number}]."
    config = values[at + "config"]
    messages = MESSAGES if values.get(at + "message_enable") else 0
    old = stream.get(SECTION, there + "config") & ~WRITTEN
    stream.put(SECTION, there + "config", old | config | messages)
    stream.put(SECTION, there + "cmp", values[at + "comparator"])
    stream.put(SECTION, there + "period", values[at + "period"] if config & PERIODIC else 0)
    if values["format"] >= 5:
        stream.put(SECTION, there + "fsb", values[at + "message"])
    stream.put(SECTION, there + "qemu_timer", expiry(values, number, virtual_ns))


def silence_hpet(stream: Stream) -> None:
    """Has no timer of QEMU's own HPET fire. The counter runs on, so that the section keeps the place of its offset."""
    for number in range(timers_in(stream) if stream.has(SECTION) else 0):
        at = f"timer[{number}]."
        stream.put(SECTION, at + "config", stream.get(SECTION, at + "config") & ~ON)
        stream.put(SECTION, at + "qemu_timer", NEVER)


def hpet_to(values: Fields, stream: Stream, virtual_ns: int, losses: Losses) -> None:
    """Writes the section. One whose counter runs needs a template in which it ran, which has a place for the offset."""
    if not stream.has(SECTION):
        if values["hpet.config"] & 1:
            raise StateRefused("hpet.config 1: the template has no HPET")
        return
    there = timers_in(stream)
    if values["hpet.config"] & 1:
        offset = values["hpet.counter"] * HPET_NS + board_now(values) % HPET_NS - virtual_ns
        if not stream.put(SECTION, OFFSET, offset):
            raise StateRefused("hpet.counter runs, and the template's HPET didn't: it has no place for the offset")
    for name, number in (("config", values["hpet.config"]), ("isr", values["hpet.status"] & (1 << there) - 1),
                         ("hpet_counter", values["hpet.counter"])):
        stream.put(SECTION, name, number)
    for timer in range(timers_of(values["format"])):
        if timer < there:
            timer_to(values, stream, timer, virtual_ns)
        elif values[f"hpet.timer{timer}.config"] & ON:
            raise StateRefused(f"hpet.timer{timer}.config is on, and the target has {there} timers")
