# SPDX-License-Identifier: Apache-2.0 OR MIT
"""`set`: fields of a state by their names. What a change asks of other fields is done here; whether a board has them, the program
says."""

import datetime
import re

from .layout import FLAGS, LINES, POLICIES, Kind, by_name, tick_lines
from .looking import look
from .saved import Fields, Losses, StateRefused, encoded, unjudged

FIRST_VERSION = 2
"""Of a page that was published once."""
TSC_NOW = re.compile(r"cpu(\d+)\.tsc_now")


def page_scale(khz: int) -> tuple[int, int]:
    """Multiplier and shift of a page for this rate of the TSC: the multiplier fills its 32 bits."""
    return next((multiplier, shift) for shift in range(-4, 5)
                if 2**31 <= (multiplier := 10**9 * 2 ** (32 - shift) // (khz * 1000)) < 2**32)


def publish(values: Fields, cpu: int, tsc: int, now_ns: int, version: int = FIRST_VERSION) -> None:
    """Fills a processor's page as a publishing at this TSC and time does."""
    multiplier, shift = page_scale(values["guest.khz"])
    at = f"cpu{cpu}.page."
    values.update({at + "version": version, at + "tsc": tsc, at + "ns": now_ns, at + "mul": multiplier, at + "shift": shift,
                   at + "flags": 1})


def move_account(values: Fields, device: str, policy: int, losses: Losses) -> None:
    """Another policy, with the tick counts that it asks for. Under discard no tick waits: those that do are lost. Under the others none
    is lost: those that were leave the account."""
    for owner in tick_lines(values["format"], 0):
        if owner.split(".")[0] != device:
            continue
        waiting, lost, due = (f"{owner}.ticks.{name}" for name in ("waiting", "lost", "due"))
        if policy == 0 and values[waiting]:
            losses.say(waiting, f"{values[waiting]} that wait are lost")
            values[lost] += values[waiting]
            values[waiting] = 0
        if policy and values[lost]:
            losses.say(lost, f"{values[lost]} that were lost leave the account")
            values[due] -= values[lost]
            values[lost] = 0
    values[f"{device}.policy"] = policy


def number_of(text: str) -> int | None:
    """Decimal digits, hexadecimal ones with 0x before or h after, with a sign or without."""
    digits, base = (text[:-1], 16) if text.lower().endswith("h") else (text, 0)
    try:
        return int(digits, base)
    except ValueError:
        return int(text) if re.fullmatch(r"[+-]?\d+", text) else None


def set_datetime(values: Fields, text: str) -> None:
    """The seven bytes of the MC146818's time, in the form of register B."""
    try:
        moment = datetime.datetime.fromisoformat(text)
    except ValueError:
        raise StateRefused(f"rtc.datetime {text}") from None
    if moment.year // 100 != 20 or moment.tzinfo:
        raise StateRefused(f"rtc.datetime {text}")
    form = values["rtc.b"]

    def byte(number: int) -> int:
        return number if form & 4 else number // 10 << 4 | number % 10

    hour = byte(moment.hour) if form & 2 else byte(moment.hour % 12 or 12) | (0x80 if moment.hour >= 12 else 0)
    values.update({"rtc.sec": byte(moment.second), "rtc.min": byte(moment.minute), "rtc.hour": hour,
                   "rtc.wday": byte(moment.isoweekday() % 7 + 1), "rtc.date": byte(moment.day), "rtc.month": byte(moment.month),
                   "rtc.year": byte(moment.year % 100)})


def set_tsc(values: Fields, data: bytes, cpu: int, number: int) -> None:
    """The offset with which a processor's TSC reads this number now."""
    offset, now = f"cpu{cpu}.tsc_offset", look(data).tsc[cpu]
    if now is None:
        raise StateRefused(f"accesses {values['accesses']}, so that the TSC can't be asked for")
    values[offset] = (unjudged(data)[offset] + number - now) % 2**64


def line_owners(values: Fields) -> dict[int, list[str]]:
    """The lines of the owners of tick counts that have one now."""
    legacy = bool(values["hpet.config"] & 2)
    found: dict[int, list[str]] = {line: [] for line in LINES}
    if not legacy:
        found[0].append("pit")
    found[8].append("rtc")
    for owner in tick_lines(values["format"], 0)[2:]:
        number = int(owner[len("hpet.timer"):])
        line = (0, 8)[number] if legacy and number < 2 else values[f"{owner}.config"] >> 9 & 31
        if values[f"{owner}.config"] & 4:
            found.setdefault(line, []).append(owner)
    return found


def raise_lines(values: Fields, names: list[str]) -> None:
    """Marks lines as up, by their numbers or as apicP, where the interrupt controller still has the request."""
    owners = line_owners(values)
    for name in names:
        apic = f"cpu{name[4:]}.apic_timer"
        found = [apic] if name.startswith("apic") else owners.get(int(name), [])[:1] if name.isdecimal() else []
        if not found or f"{found[0]}.ticks.up" not in values:
            raise StateRefused(f"--up {name} no tick line of the board's has it")
        values[f"{found[0]}.ticks.up"] = 1


def set_one(values: Fields, data: bytes, name: str, text: str, losses: Losses) -> None:
    """One NAME=VALUE."""
    known = by_name(values["format"], values["cpus"])
    owner, _, bit = name.rpartition(".")
    number = number_of(text)
    tsc = TSC_NOW.fullmatch(name)
    if name == "rtc.datetime":
        set_datetime(values, text)
        return
    if name in known and known[name].kind is Kind.POLICY and text in (*POLICIES, "0", "1", "2"):
        move_account(values, name.split(".")[0], POLICIES.index(text) if text in POLICIES else int(text), losses)
        return
    is_flag = f"{owner}.flags" in known and bit in FLAGS
    if name not in known and not is_flag and not (tsc and int(tsc[1]) < values["cpus"]):
        raise StateRefused(f"{name} no such field")
    if name in ("format", "cpus"):
        raise StateRefused(f"{name} {text}, as the state has {values[name]}")
    if number is None or is_flag and number not in (0, 1) or tsc and not 0 <= number < 2**64:
        raise StateRefused(f"{name} {text}")
    if tsc:
        set_tsc(values, data, int(tsc[1]), number)
    elif is_flag:
        place = FLAGS.index(bit)
        values[f"{owner}.flags"] = values[f"{owner}.flags"] & ~(1 << place) | number << place
    else:
        values[name] = number


def publish_moved(values: Fields, data: bytes, names: list[str], losses: Losses) -> None:
    """A processor whose TSC was moved has a page that was published once, even if the guest never enabled it."""
    for cpu in range(values["cpus"]):
        at = f"cpu{cpu}."
        is_moved = values[at + "tsc_adjust"] or values[at + "tsc_offset"]
        if is_moved and not values[at + "page.version"] and at + "page.version" not in names:
            clocks = look(data)
            publish(values, cpu, ((clocks.tsc[cpu] or 0) + values[at + "tsc_offset"]) % 2**64, clocks.now_ns)
            losses.note(at + "page.version", f"{FIRST_VERSION}: a processor whose TSC was moved has a page that was published")


def edited(data: bytes, changes: list[tuple[str, str]], losses: Losses) -> bytes:
    """The state after changes in their order. `data` is a board's."""
    good = unjudged(data)
    values = dict(good)
    for name, text in changes:
        set_one(values, data, name, text, losses)
    publish_moved(values, data, [name for name, _ in changes], losses)
    return encoded(values, good)
