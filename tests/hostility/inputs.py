# SPDX-License-Identifier: Apache-2.0 OR MIT
"""Random bytes and mutated traces from fixed seeds, and whether the program's answers to one are as documented."""

import random
import re
from collections.abc import Callable
from functools import cache

from .jobs import RACE, REPLAY, SHARED, example, saved_trace
from .program import TOP, Outcome, Program

COUNT = 10_000
MEMORY = 16 << 20
"""All that a replay may map, in bytes."""

WORDS = (b"clockboard begin end host guest cpus wall rtc pit hpet slew route state in out hr hw rdmsr wrmsr page clock counts "
         b"next step ack refresh save move rose delay discard 0 1 2 7 40 43 61 70 71 100 108 ff 4b564d01 10 3b 1000000 "
         b"576460752303423487 576460752303423488 18446744073709551615 18446744073709551616 ffffffffffffffff #").split()
NUMBERS = (b"0", b"1", b"00", b"+5", b"-1", b"255", b"256", b"7fffffff", b"4294967294", b"4294967296", b"576460752303423487",
           b"576460752303423488", b"9223372036854775807", b"18446744073709551615", b"18446744073709551616", b"9" * 40, b"f" * 16)

PRINTED = re.compile(
    rb"(?:(?:\d+ (?:\d+|page|clock|hv)(?: [^\n]*)?|edge \d+ \d+ (?:up|down)(?: \d+ [0-9a-f]+)?|msg(?: [0-9a-f]+){6}|"
    rb"final [^\n]*)\n)*"
    rb"(?P<refused>refused \d+ (?P<why>[a-z]+)(?: \d+)?\n)?")
"""A text of whole lines, of which the last may be a refusal."""

STATUS_OF = {None: 0, b"range": 7, b"spent": 8, b"versions": 9,
             **dict.fromkeys((b"form", b"steal", b"cpu", b"fell", b"state", b"long", b"noend"), 3)}


def random_bytes(_program: Program, number: int) -> bytes:
    """Bytes of any value, bytes of traces' letters, or a trace's words in any order, behind nothing or a trace's head."""
    source = random.Random(f"bytes {number}")
    head = source.choice((b"", b"", b"clockboard 1\n", b"clockboard 2\nbegin\n", b"clockboard 1\ncpus 2\nbegin\n"))
    kind = number % 3
    if kind == 0:
        return head + source.randbytes(source.randrange(600))
    if kind == 1:
        return head + bytes(source.choices(b"0123456789abcdef \n\t#\x00\xffwxr", k=source.randrange(600)))
    lines = (b" ".join(source.choices(WORDS, k=source.randrange(8))) for _ in range(source.randrange(60)))
    return head + b"\n".join(lines) + source.choice((b"", b"\n", b"\nend\n"))


@cache
def traces(program: Program) -> tuple[bytes, ...]:
    """The traces that are mutated: the examples, one of three processors, and boards that were saved."""
    examples = [example(path.stem) for path in sorted((TOP / "examples").glob("*.trace"))]
    saved = saved_trace(program, example("migration"))
    return (*examples, SHARED, saved, nearly_spent(saved, 52, (1 << 62) - 2, 8), nearly_spent(saved, 527, (1 << 32) - 4, 4))


def nearly_spent(saved: bytes, place: int, number: int, size: int) -> bytes:
    """A trace with a saved state whose number at a place is this one, and four records that publish a page."""
    digits = re.search(rb"state ([0-9a-f]+)", saved)
    state = bytearray.fromhex(digits[1].decode())
    state[place : place + size] = number.to_bytes(size, "little")
    time = int.from_bytes(state[36:44], "little")
    records = b"".join(b"0 %d wrmsr 4b564d01 1\n" % time for _ in range(4))
    return b"clockboard 1\nstate " + state.hex().encode() + b"\nbegin\n" + records + b"end\n"


def mutated_trace(program: Program, number: int) -> bytes:
    """One of the traces with one to four changes."""
    source = random.Random(f"trace {number}")
    trace = source.choice(traces(program))
    for _ in range(source.randrange(1, 5)):
        trace = source.choice(CHANGES)(source, program, trace)
    return trace


def long_trace(program: Program, number: int) -> bytes:
    """A generated trace of about as many records as a race takes."""
    return program.run(("gen", str(number), "190000", "16"), b"").text


def change_a_byte(source: random.Random, _program: Program, trace: bytes) -> bytes:
    at = source.randrange(len(trace) + 1)
    return trace[:at] + source.randbytes(source.randrange(2)) + trace[at + 1:]


def change_a_word(source: random.Random, _program: Program, trace: bytes) -> bytes:
    """A word becomes another, or a number at the end of some range."""
    words = list(re.finditer(rb"[^ \n]+", trace))
    if not words:
        return trace
    word = source.choice(words)
    return trace[:word.start()] + source.choice(source.choice((WORDS, NUMBERS))) + trace[word.end():]


def change_a_digit(source: random.Random, _program: Program, trace: bytes) -> bytes:
    digits = list(re.finditer(rb"[0-9a-f]", trace))
    if not digits:
        return trace
    at = source.choice(digits).start()
    return trace[:at] + bytes(source.choices(b"0123456789abcdef")) + trace[at + 1:]


def change_the_lines(source: random.Random, program: Program, trace: bytes) -> bytes:
    """A line goes, comes twice, changes places with another, or comes from another trace."""
    lines = trace.splitlines(keepends=True)
    if not lines:
        return trace
    at, other = source.randrange(len(lines)), source.randrange(len(lines))
    what = source.randrange(4)
    if what == 0:
        del lines[at]
    elif what == 1:
        lines.insert(other, lines[at])
    elif what == 2:
        lines[at], lines[other] = lines[other], lines[at]
    else:
        lines.insert(at, source.choice(source.choice(traces(program)).splitlines(keepends=True)))
    return b"".join(lines)


def cut(source: random.Random, _program: Program, trace: bytes) -> bytes:
    return trace[:source.randrange(len(trace) + 1)]


CHANGES: tuple[Callable[[random.Random, Program, bytes], bytes], ...] = (
    change_a_byte, change_a_word, change_a_word, change_a_digit, change_a_digit, change_the_lines, change_the_lines, cut)
KINDS: list[tuple[str, Callable[[Program, int], bytes], int]] = [
    ("random byte strings", random_bytes, COUNT),
    ("mutated traces", mutated_trace, COUNT),
    ("long traces", long_trace, 2),
]
"""What inputs are called, how the one of a number is made, and how many there are."""


def judge(program: Program, trace: bytes) -> tuple[str, str]:
    """How a replay ended, and what is at fault, if anything: with its status and text, with the text in pieces of a byte, or
    with what `race` makes of the same trace."""
    whole = program.run(REPLAY, trace, f"memory={MEMORY}")
    told = f"status {whole.status}"
    match = PRINTED.fullmatch(whole.text)
    if not match:
        return told, "a line that isn't documented"
    if match["why"]:
        told += f" {match['why'].decode()}"
    if whole.status is None or STATUS_OF.get(match["why"]) != whole.status:
        return told, "a status that isn't documented"
    if program.run(REPLAY, trace, "reads=1,writes=1") != whole:
        return told, "another answer in pieces of a byte"
    raced = program.run(RACE, trace)
    if raced.status != whole.status or not race_agrees(match["refused"], whole, raced):
        return told, "another answer of race"
    return told, ""


def race_agrees(refused: bytes | None, whole: Outcome, raced: Outcome) -> bool:
    """A race prints a refusal alone, and as many lines of replies else: its edges and numbers depend on the order."""
    if refused:
        return raced.text == refused
    return len(replies(raced.text)) == len(replies(whole.text))


def replies(text: bytes) -> list[bytes]:
    return [line for line in text.splitlines() if line[:1].isdigit()]
