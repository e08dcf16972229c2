# SPDX-License-Identifier: Apache-2.0 OR MIT
"""Mutated states from fixed seeds: `print` answers or refuses as the program does, and names a field at the place that the program
tells. MUTATED_STATES says how many, by default 1,500, and 100 where CLOCKBOARD names no program and bin/clockboard looks for one."""

import os
import random
import subprocess
import unittest
from concurrent.futures import ThreadPoolExecutor

import support
from state_samples import boards

from clocktools.states import printing
from clocktools.states.layout import by_name, length, rows
from clocktools.states.saved import StateRefused, heading

COUNT = int(os.environ.get("MUTATED_STATES") or ("1500" if "CLOCKBOARD" in os.environ else "100"))
AT_A_TIME = 3
EDGES = (0, 1, 2, 0x7F, 0x80, 0xFF)


def mutated(number: int) -> bytes:
    """A board's state with bytes changed, cut off, added or moved; one of five is left with other numbers in whole fields."""
    source = random.Random(f"state {number}")
    data = bytearray(source.choice(boards()))
    shape = heading(bytes(data)) or (1, 1)
    kind = source.randrange(20)
    if kind == 0:
        return bytes(data[: source.randrange(len(data) + 1)])
    if kind == 1:
        return bytes(data) + source.randbytes(source.randrange(1, 80))
    if kind == 2:
        data[source.randrange(12)] = source.randrange(256)
    if kind == 3:
        first, second = sorted(source.sample(range(len(data)), 2))
        data[first:second] = data[first:second][::-1]
    if kind == 4:
        data[8:10] = source.randrange(7).to_bytes(2, "little")
    for _ in range(source.randrange(1, 4)):
        if kind >= 16:
            name = source.choice(list(by_name(*shape)))
            place, size = place_of(name, shape), by_name(*shape)[name].size
            data[place : place + size] = source.choice((0, 1, 2 ** (8 * size) - 1, source.randrange(2 ** (8 * size)))).to_bytes(size, "little")
        else:
            data[source.randrange(12, len(data))] = source.choice((*EDGES, source.randrange(256)))
    return bytes(data)


def place_of(name: str, shape: tuple[int, int]) -> int:
    """The place of a field's first byte."""
    place = 8
    for one in by_name(*shape).values():
        if one.name == name:
            return place
        place += one.size
    raise KeyError(name)


def by_the_program(data: bytes) -> int | None:
    """The place at which the program refuses a state, or None."""
    version = min(max(int.from_bytes(data[8:10], "little"), 1), 5)
    trace = f"clockboard {version}\nstate {data.hex()}\nbegin\nend\n"
    done = subprocess.run([support.program(), "replay"], input=trace.encode(), capture_output=True, check=False)
    words = done.stdout.decode().splitlines()[-1].split()
    if words[0] == "final":
        return None
    return int(words[3]) if words[2] == "state" else 0


def names_place(told: str, data: bytes, place: int) -> bool:
    """Whether a refusal's name is of the row at this place."""
    name, shape = told.split(" ")[0], heading(data)
    if shape and place < min(len(data), length(*shape)):
        return name in rows(*shape)[place] if place >= 8 else name == "magic"
    return name == "length" if shape or place == len(data) else name in ("magic", "format", "cpus")


def fault_of(number: int) -> str:
    """What is wrong with the answer to a mutated state, or nothing."""
    data = mutated(number)
    place = by_the_program(data)
    try:
        lines = printing.state_lines(data, is_whole=True)
    except StateRefused as fault:
        if place is None:
            return f"{number}: the program takes it, and print refuses {fault}"
        return "" if names_place(str(fault), data, place) else f"{number}: place {place}, and print names {fault}"
    return "" if place is None and len(lines) > len(by_name(*heading(data))) else f"{number}: place {place}, and it is printed"


class Mutated(unittest.TestCase):
    def test_print(self) -> None:
        with ThreadPoolExecutor(AT_A_TIME) as pool:
            wrong = [fault for fault in pool.map(fault_of, range(COUNT)) if fault]
        self.assertEqual(wrong[:10], [])

    def test_some_are_taken(self) -> None:
        taken = sum(by_the_program(mutated(number)) is None for number in range(100))
        self.assertTrue(10 <= taken <= 90, taken)


if __name__ == "__main__":
    unittest.main()
