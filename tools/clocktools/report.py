# SPDX-License-Identifier: Apache-2.0 OR MIT
"""What tools/compare prints: one object for machines, and the same in words."""

from pathlib import Path
from typing import Any

from .documents import definitions, differences
from .judging import Part
from .outcome import KNOWN, NEAR, SAME, UNEXPLAINED, Kind, Outcome, Tally
from .peer import Peer
from .trace import Head

LOST_TICKS, MASKED_RISES = "lost-ticks", "masked-rises"
VERDICTS = (SAME, NEAR, KNOWN, UNEXPLAINED)


def sample(outcome: Outcome) -> dict[str, Any]:
    record = outcome.record
    return {"line": record.line, "record": f"{record.cpu} {record.count} {' '.join(record.words)}",
            "clockboard": " ".join(outcome.own), "peer": " ".join(outcome.peer)}


def row_told(name: str | None) -> dict[str, str] | None:
    if name is None:
        return None
    row = differences()[name]
    return {"name": row.name, "section": row.section, "here": row.here, "there": row.there}


def difference(part: Part, kind: Kind) -> dict[str, Any]:
    definition = definitions()[part.crate, part.name]
    return {"register": part.register, "what": part.what, "count": kind.count, "known": row_told(part.row),
            "definition": {"crate": part.crate, "name": part.name, "words": definition.words,
                           "standard": definition.standard},
            "samples": [sample(outcome) for outcome in sorted(kind.samples, key=lambda one: one.record.line)]}


def rises_of(line: int, risen: int, taken: int) -> dict[str, Any]:
    """The rises of a line beside the vectors that the peer's guest took. Where they differ a row says why."""
    row = None if risen == taken else LOST_TICKS if taken > risen else MASKED_RISES
    return {"line": line, "rises": risen, "vectors": taken, "known": row_told(row)}


def report(trace: Path, status: int, tally: Tally, peer: Peer | None, head: Head, refused: str | None) -> dict[str, Any]:
    """All that was found, as one object. Unexplained differences come first, then those of which there are more."""
    kinds = sorted(tally.kinds.items(), key=lambda item: (item[0].row is not None, -item[1].count, item[0].register))
    return {
        "trace": str(trace),
        "peer": "the trace's own comments" if peer is None else str(peer.path),
        "status": status,
        "refused": refused,
        "policies": list(head.policies),
        "registers": {name: {verdict: counts[verdict] for verdict in VERDICTS}
                      for name, counts in sorted(tally.registers.items())},
        "differences": [difference(part, kind) for part, kind in kinds],
        "rises": [rises_of(line, tally.risen[line], count) for line, count in (sorted(peer.rises.items()) if peer else ())],
    }


def difference_lines(found: dict[str, Any]) -> list[str]:
    """A kind of difference in words, and its samples."""
    known, definition = found["known"], found["definition"]
    lines = [f"{'known' if known else 'unexplained'}: {found['register']}, {found['what']}: {found['count']}"]
    if known:
        lines.append(f"  {known['name']}: here {known['here']}; there {known['there']}")
    lines.append(f"  {definition['crate']}, {definition['name']}: {definition['words']}")
    lines.append(f"  by {definition['standard']}")
    for one in found["samples"]:
        lines.append(f"  line {one['line']}: {one['record']}")
        lines.append(f"    clockboard {one['clockboard']}, peer {one['peer']}")
    return lines


def printed_text(found: dict[str, Any]) -> str:
    lines = [f"compared with {found['peer']}"]
    lines += [line for one in found["differences"] for line in difference_lines(one)]
    registers = found["registers"]
    width = max((len(name) for name in registers), default=8) + 2
    lines.append(f"{'register':{width}}" + "".join(f"{verdict:>13}" for verdict in VERDICTS))
    for name, counts in registers.items():
        lines.append(f"{name:{width}}" + "".join(f"{counts[verdict]:>13}" for verdict in VERDICTS))
    for one in found["rises"]:
        why = f": {one['known']['name']}: {one['known']['here']}" if one["known"] else ""
        lines.append(f"line {one['line']}: {one['rises']} rises, {one['vectors']} vectors taken by the peer's guest"
                     + why)
    return "\n".join(lines)
