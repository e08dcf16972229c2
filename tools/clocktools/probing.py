# SPDX-License-Identifier: Apache-2.0 OR MIT
"""Asks the board what OUT 2 would have been a little earlier or later, as docs/FORMATS.md's `in 61` shows it."""

from .judge_pit import OUT_BIT, Probe
from .program import replay
from .trace import replies

PERIOD_NS = 500_000_000
"""596,591 pulses of the 8254 last exactly so long: moved by as much, writes and reads fall on the same pulses."""
STEPS = 4
"""So many times on each side of a read are tried."""


def answered(probes: list[Probe]) -> list[bool]:
    """Of each probe, whether OUT 2 shows the peer's bit within the time to which the record is exact."""
    lines, owners = ["clockboard 1", "begin"], {}
    end = 0
    for number, probe in enumerate(probes):
        first = probe.writes[0].time
        moved = (end // PERIOD_NS + 1) * PERIOD_NS + first % PERIOD_NS - first
        for write in probe.writes:
            end = write.time + moved
            lines.append(f"0 {end} out {write.port:x} {write.byte:02x}")
        for step in range(-STEPS, STEPS + 1):
            end = max(end, probe.time + moved + probe.within * step // STEPS)
            lines.append(f"0 {end} in 61")
            owners[len(lines)] = number
    found = [False] * len(probes)
    for reply in replies(replay(("\n".join(lines) + "\nend\n").encode()).lines):
        if reply.line in owners and reply.value:
            number = owners[reply.line]
            found[number] |= bool(int(reply.value[0], 16) & OUT_BIT) == probes[number].bit
    return found
