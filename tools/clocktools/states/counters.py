# SPDX-License-Identifier: Apache-2.0 OR MIT
"""Counters of the 8254 and the channels in which KVM and QEMU keep them. A channel has the time at which its count was loaded, and
works the rest out; a board has the counting element."""

from dataclasses import asdict, dataclass, fields

from .layout import FLAGS
from .meaning import PIT_HZ, SECOND, mode_of
from .saved import Fields, Losses
from .timebase import board_now, pulses_by, time_of

WORD = 3
"""The access of two bytes; as a state of reading or writing, 4 says that the high byte is next."""
HIGH_NEXT = 4
FULL = 65536


@dataclass
class Channel:
    """A channel of struct kvm_pit_state2, and of QEMU's section i8254: the names are theirs."""

    count: int
    latched_count: int
    count_latched: int
    status_latched: int
    status: int
    read_state: int
    write_state: int
    write_latch: int
    rw_mode: int
    mode: int
    bcd: int
    gate: int
    count_load_time: int

    def pulses(self, now_ns: int) -> int:
        """Since the load, rounded down: the board's first reading is the source's last."""
        return max((now_ns - self.count_load_time) * PIT_HZ // SECOND, 0)

    def numbers(self) -> dict[str, int]:
        return asdict(self)


CHANNEL_NAMES = tuple(one.name for one in fields(Channel))


@dataclass
class Counter:
    """What a channel comes to: the flags by their names, and the counting element."""

    flags: dict[str, int]
    count: int


def counting(mode: int, period: int, modulus: int, pulses: int) -> Counter:
    """The counting element and OUT so many pulses after the load of a count."""
    if mode in (2, 3):
        place = pulses % period
        if mode == 2:
            return Counter({"out": int(period - place != 1)}, (period - place) % modulus)
        half, top = (period + 1) // 2, period - period % 2
        return Counter({"out": int(place < half), "odd": period % 2}, (top - 2 * (place if place < half else place - half)) % modulus)
    count = (period - pulses) % modulus
    if mode in (0, 1):
        return Counter({"out": int(pulses >= period)}, count)
    return Counter({"out": int(pulses != period), "armed": int(pulses < period)}, count)


def decimal_period(count: int) -> int:
    """The count of four BCD digits; 0 is 10000."""
    return sum(min(count >> 4 * place & 15, 9) * 10**place for place in range(4)) or 10000


def latches_from(at: str, channel: Channel, access: int, losses: Losses) -> Fields:
    """The fields of latched counts, latched statuses and the order of bytes."""
    mode = mode_of(channel.mode << 1)
    found = dict.fromkeys((at + name for name in ("first_byte_waits", "first_byte", "read_high_next", "count_latched",
                                                   "latched_count", "status_latched", "latched_status")), 0)
    if channel.write_state == HIGH_NEXT and access == WORD:
        found |= {at + "first_byte_waits": 1, at + "first_byte": channel.write_latch}
    if channel.count_latched:
        high = access == WORD and channel.count_latched == 2
        found |= {at + "count_latched": 1, at + "latched_count": channel.latched_count, at + "read_high_next": int(high)}
        if access == WORD and (channel.read_state == HIGH_NEXT) != high:
            losses.say(at + "read_high_next", "the source keeps an order of its own for counts that aren't latched")
    elif access == WORD:
        found[at + "read_high_next"] = int(channel.read_state == HIGH_NEXT)
    if channel.status_latched:
        found |= {at + "status_latched": 1, at + "latched_status": channel.status}
        if mode in (1, 2, 4, 5):
            losses.say(at + "latched_status", "its OUT bit is the source's, which is inverted in modes 1, 2, 4 and 5")
    return found


def say_what_differs(at: str, number: int, channel: Channel, mode: int, losses: Losses) -> None:
    """What the source does otherwise with this channel's settings."""
    gate = channel.gate & 1
    if not channel.rw_mode & 3:
        losses.say(at + "control", "never programmed: taken as an access of two bytes")
    if channel.bcd & 1:
        losses.say(at + "count", "BCD: the source counts the digits as binary, the board goes on in decimal")
    if mode in (2, 3) and channel.count == 1:
        losses.say(at + "count_register", "count 1 acts as 2")
    if number < 2 and not gate:
        losses.say(at + "flags", "gate 0: counters 0 and 1 have gate 1")
    if number == 2 and not gate and mode in (0, 2, 3, 4):
        losses.say(at + "count", "the gate is low: the source counts on, the board stands")
    if mode in (1, 5):
        losses.say(at + "flags", "the source starts modes 1 and 5 by the write, not by a trigger: taken as triggered then")
    if mode == 3 and channel.count % 2 and not channel.bcd & 1:
        losses.say(at + "count", "an odd count in mode 3: the source's count is one more in the first half of the period")
    if mode == 0 and channel.write_state == HIGH_NEXT and channel.rw_mode & 3 == WORD:
        losses.say(at + "count", "mode 0 half written: the board stands until the second byte")


def counter_from(values: Fields, number: int, channel: Channel, now_ns: int, losses: Losses) -> int:
    """Fills a counter's fields; `now_ns` is by the clock of the load time. Gives the nanoseconds since its last pulse."""
    at = f"pit.counter{number}."
    access, bcd = channel.rw_mode & 3 or WORD, channel.bcd & 1
    mode = mode_of(channel.mode << 1)
    say_what_differs(at, number, channel, mode, losses)
    period = decimal_period(channel.count & 0xFFFF) if bcd else channel.count or FULL
    if mode in (2, 3) and period == 1:
        period = 2
    if now_ns < channel.count_load_time:
        losses.say(at + "count", "loaded in the future: taken as loaded now")
    pulses = channel.pulses(now_ns)
    counter = counting(mode, period, 10000 if bcd else FULL, pulses)
    gate = 1 if number < 2 else channel.gate & 1
    flags = {**counter.flags, "gate": gate, "written": 1, "loaded": 1}
    values.update(latches_from(at, channel, access, losses))
    if mode in (2, 3) and not gate:
        flags["out"] = 1
    if mode == 0 and values[at + "first_byte_waits"]:
        flags["out"] = 0
    values[at + "control"] = access << 4 | (channel.mode & 7) << 1 | bcd
    values[at + "count_register"], values[at + "count"] = channel.count & 0xFFFF, counter.count
    values[at + "flags"] = sum(flags.get(name, 0) << bit for bit, name in enumerate(FLAGS))
    return max(now_ns - channel.count_load_time, 0) - time_of(pulses)


def pulses_since_load(values: Fields, number: int) -> int:
    """How many pulses ago a target's channel was loaded that shows this counter's element and OUT."""
    at = f"pit.counter{number}."
    mode, has = mode_of(values[at + "control"]), {name: values[at + "flags"] >> bit & 1 for bit, name in enumerate(FLAGS)}
    period, count = values[at + "count_register"] or FULL, values[at + "count"]
    if not has["loaded"]:
        return 0
    if mode == 2:
        return max(period - (count or FULL), 0)
    if mode == 3:
        fallen = max(period - period % 2 - (count or (FULL if period == FULL else 0)), 0) // 2
        return fallen if has["out"] else (period + 1) // 2 + fallen
    pulses = (period - count) % FULL
    is_over = has["out"] if mode in (0, 1) else not has["armed"]
    return pulses + FULL if is_over and pulses < period else pulses


def counter_to(values: Fields, number: int, now_ns: int, losses: Losses) -> Channel:
    """A channel of the target; `now_ns` is the board's time by the clock of the load time."""
    at = f"pit.counter{number}."
    control = values[at + "control"]
    access, bcd, has = control >> 4 & 3, control & 1, {name: values[at + "flags"] >> bit & 1 for bit, name in enumerate(FLAGS)}
    if bcd:
        losses.say(at + "count", "BCD: the target counts the digits as binary")
    if not has["loaded"]:
        losses.say(at + "flags", "no count is loaded: the target counts on from now" + ("" if has["written"] else ", by 65536"))
    elif has["null"]:
        losses.say(at + "flags", "a count waits for its load: the target has it in force at once")
    if has["triggered"]:
        losses.say(at + "flags", "a trigger waits")
    pulses, now = pulses_since_load(values, number), board_now(values)
    past = pulses_by(now) - pulses
    load_ns = now_ns - (now - time_of(past)) if past >= 0 else now_ns - now - time_of(-past)
    latched, high, order = values[at + "count_latched"], access == WORD and values[at + "read_high_next"], access
    if high and not latched:
        order = HIGH_NEXT
    return Channel(count=values[at + "count_register"] or FULL, latched_count=values[at + "latched_count"],
                   count_latched=(2 if high else access) if latched else 0, status_latched=values[at + "status_latched"],
                   status=values[at + "latched_status"], read_state=order,
                   write_state=HIGH_NEXT if values[at + "first_byte_waits"] else access, write_latch=values[at + "first_byte"],
                   rw_mode=access, mode=mode_of(control), bcd=bcd, gate=has["gate"], count_load_time=load_ns)
