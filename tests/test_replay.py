# SPDX-License-Identifier: Apache-2.0 OR MIT
"""tools/replay: each printed line as an object, and the first place at which a replay isn't as expected."""

import gzip
import json
import re
import subprocess
import tempfile
import unittest
from pathlib import Path
from typing import Any

import support

from clocktools.as_json import LEFT_OUT, NAMES, objects
from clocktools.trace import records_of

TRACES = [*sorted(support.TOP.glob("examples/*.trace")), *sorted(support.TOP.glob("tests/traces/*.trace"))]
FIRST_RISE = support.TOP / "examples/first-rise.trace"
ONE_RECORD_EACH = """clockboard 5
begin
0 0 wrmsr 4b564d01 1
0 0 wrmsr 40000021 1
0 10 page 0
0 10 clock 0
0 10 hv
0 20 counts pit
0 20 wall
0 20 next
0 20 rose 0
0 30 in 61
0 40 move 1000000 0 5
end
"""


def printed_of(one: dict[str, Any]) -> str:
    """The printed line that an object was made of."""
    kind = one["what"]
    if kind == "edge":
        told = ["edge", one["at"], one["line"], "up" if one["up"] else "down", *([one["cpu"], one["vector"]] if "cpu" in one else [])]
    elif kind == "messages":
        told = ["msg", *(one[key] for key in ("first", "timer", "cpu", "vector", "count", "every"))]
    elif kind == "final":
        told = ["final", one["time"], one["accesses"], one["greatest"], ",".join(map(str, one["lines"])) or "-"]
    elif kind == "refused":
        told = ["refused", one["line"], one["reason"], *filter(None, [one["told"]])]
    elif kind == "state":
        told = ["state", one["state"]]
    else:
        told = [one["line"], *value_words(one)]
    return " ".join(map(str, told))


def value_words(one: dict[str, Any]) -> list[str]:
    """The words of a reply behind its line."""
    name, value = one["record"].split(" ")[0], one["value"]
    words = list(value.values()) if isinstance(value, dict) else [] if value is None else [value]
    if one["number"] is None:
        return [name, *(words or ["off"])]
    before = {"save": ["state"], "move": ["moved"]}.get(name, [])
    return [one["number"], *before, *(words or (["none"] if name == "next" else []))]


class AsJson(unittest.TestCase):
    def test_each_line_of_each_trace(self) -> None:
        """The text can be made of the objects again, and a record is on the line that its object names."""
        for trace in TRACES:
            with self.subTest(trace.name):
                lines = trace.read_text().splitlines()
                printed = trace.with_suffix(".out").read_text().splitlines()
                found = list(objects(printed, records_of(lines)))
                self.assertEqual([printed_of(one) for one in found], printed)
                for one in found:
                    if one["what"] == "reply":
                        self.assertEqual(lines[one["line"] - 1], f"{one['cpu']} {one['host']} {one['record']}")

    def test_values(self) -> None:
        done = support.run("replay", "-", "--json", text=ONE_RECORD_EACH)
        self.assertEqual((done.returncode, done.stderr), (0, ""))
        values = [one["value"] for line in done.stdout.splitlines() if (one := json.loads(line))["what"] == "reply"]
        self.assertEqual(values[3], {"reading": "10", "clock": "10"})
        self.assertEqual(values[5:10], [{"due": "0", "rises": "0", "waiting": "0", "lost": "0"},
                                        {"version": "0", "seconds": "0", "nanoseconds": "0"}, None, "0000000000000000", "20"])
        self.assertEqual(values[10], {"time": "45"})

    def test_state_and_refusal(self) -> None:
        done = support.run("replay", "--state", "--json", text="clockboard 1\nbegin\nend\n")
        self.assertEqual([json.loads(line)["what"] for line in done.stdout.splitlines()], ["final", "state"])
        done = support.run("replay", "--json", text="clockboard 1\nbegin\n0 9 step\n0 5 step\nend\n")
        self.assertEqual(done.returncode, 3)
        self.assertEqual(json.loads(done.stdout.splitlines()[-1]), {"what": "refused", "line": 4, "reason": "fell", "told": "9"})

    def test_times_that_many_readers_would_round(self) -> None:
        done = support.run("replay", "--json", text=f"clockboard 1\nbegin\n0 {2**58 + 1} step\nend\n")
        self.assertEqual(json.loads(done.stdout.splitlines()[-1])["time"], str(2**58 + 1))

    def test_the_wrapper(self) -> None:
        with FIRST_RISE.open() as trace:
            done = subprocess.run([support.TOP / "bin/clockboard", "replay", "--json"], stdin=trace, capture_output=True, text=True, check=True)
        self.assertEqual(json.loads(done.stdout.splitlines()[3]), {"what": "edge", "at": "4191", "line": 0, "up": True})

    def test_the_document(self) -> None:
        """docs/FORMATS.md has a row for each object and for each value of several words, with these keys in this order."""
        text = (support.TOP / "docs/FORMATS.md").read_text()
        section = text[text.index("## A replay as JSON lines") :].split("\n## ")[0]
        rows = {row[0]: re.findall(r"`(\w+)`", row[1]) for row in re.findall(r"^\| `(\w+)` \| (.*?) \|", section, re.MULTILINE)}
        told: dict[str, list[str]] = {}
        for trace in TRACES:
            for one in objects(trace.with_suffix(".out").read_text().splitlines(), records_of(trace.read_text().splitlines())):
                if len(one) > len(told.get(one["what"], [])) + 1:
                    told[one["what"]] = [key for key in one if key != "what"]
        told.pop("fault", None)
        self.assertEqual({name: rows[name] for name in told}, told)
        self.assertEqual({name: rows[name] for name in NAMES}, {name: list(keys) for name, keys in NAMES.items()})
        self.assertEqual(set(LEFT_OUT) - set(NAMES), set())


class Assert(unittest.TestCase):
    def setUp(self) -> None:
        folder = tempfile.TemporaryDirectory()
        self.addCleanup(folder.cleanup)
        self.expected = Path(folder.name) / "expected"

    def differs(self, trace: Path, old: str, new: str) -> list[str]:
        """What is said where the expected text has something else in one place."""
        text = trace.with_suffix(".out").read_text()
        self.assertIn(old, text)
        self.expected.write_text(text.replace(old, new, 1))
        done = support.run("replay", str(trace), "--assert", str(self.expected))
        self.assertEqual((done.returncode, done.stderr), (1, ""))
        return done.stdout.splitlines()

    def test_the_same(self) -> None:
        for name in ("boot", "hpet-messages"):
            trace = support.TOP / f"examples/{name}.trace"
            done = support.run("replay", str(trace), "--assert", str(trace.with_suffix(".out")))
            self.assertEqual((done.returncode, done.stdout, done.stderr), (0, "", ""))

    def test_a_value(self) -> None:
        said = self.differs(FIRST_RISE, "12 5 04\n", "12 5 05\n")
        self.assertEqual(said[0], f"{FIRST_RISE}: line 12: 0 5000 in 40: expected 12 5 05, got 12 5 04")
        self.assertTrue(said[1].startswith("  8254 counter 0: by pit_counter, effect_in: "))
        self.assertEqual(said[2:5], [f"  before: line {line}: 0 0 out {words}" for line, words in ((5, "43 34"), (6, "40 04"), (7, "40 00"))])
        self.assertIn("  state: pit.counter0.count 4", said)
        self.assertEqual({line.split(".")[0] for line in said[5:]}, {"  state: pit", "  state: = now_ns 5000"})

    def test_an_edge(self) -> None:
        said = self.differs(FIRST_RISE, "edge 4191 0 up", "edge 4192 0 up")
        self.assertEqual(said[0], f"{FIRST_RISE}: line 10: 0 5000 step: expected edge 4192 0 up, got edge 4191 0 up")
        self.assertIn("  state: pit.ticks.rose 1", said)

    def test_a_message(self) -> None:
        trace = support.TOP / "examples/hpet-messages.trace"
        event = next(line for line in trace.with_suffix(".out").read_text().splitlines() if line.startswith("msg "))
        said = self.differs(trace, event, event + "0")
        self.assertIn(f"expected {event}0, got {event}", said[0])
        self.assertTrue(any(line.startswith(f"  state: hpet.timer{event.split()[2]}.config") for line in said), said)

    def test_the_end(self) -> None:
        said = self.differs(FIRST_RISE, "final 5000 6 0 0\n", "")
        self.assertEqual(said, [f"{FIRST_RISE}: at its end: expected nothing more, got final 5000 6 0 0"])
        said = self.differs(FIRST_RISE, "final 5000 6 0 0\n", "13 7 00\nfinal 5000 7 0 0\n")
        self.assertIn("expected 13 7 00, got final 5000 6 0 0", said[0])

    def test_the_device_of_each_record(self) -> None:
        # Each record's answer is taken for another one: the state that is shown is that of its own device.
        for words, names in (("in 41", "pit.counter1."), ("in 61", "pit.counter2."), ("in 71", "rtc."), ("hr f0 4", "hpet."),
                             ("hr 120 4", "hpet.timer1."), ("rdmsr 839", "cpu0.apic_timer."), ("page 0", "cpu0.page.")):
            trace = ("clockboard 3\nbegin\n0 0 wrmsr 4b564d01 1\n0 0 out 43 74\n0 0 out 41 10\n0 0 out 41 00\n0 0 out 61 01\n0 0 out 71 05\n"
                     f"0 0 hw 10 4 1\n0 0 hw 120 4 4\n0 0 wrmsr 832 30\n0 0 wrmsr 838 100\n0 9000 {words}\nend\n")
            printed = subprocess.run([support.program(), "replay"], input=trace, capture_output=True, text=True, check=True).stdout
            self.expected.write_text(re.sub(r"^13 .*", "13 0 ff", printed, flags=re.MULTILINE))
            done = support.run("replay", "--assert", str(self.expected), text=trace)
            self.assertEqual(done.returncode, 1, words)
            self.assertIn(f"standard input: line 13: 0 9000 {words}: expected 13 0 ff", done.stdout)
            shown = [line.removeprefix("  state: ") for line in done.stdout.splitlines() if line.startswith("  state: ")]
            self.assertTrue(any(line.startswith(names) for line in shown), (words, shown))

    def test_packed(self) -> None:
        packed = self.expected.with_suffix(".gz")
        packed.write_bytes(gzip.compress(FIRST_RISE.with_suffix(".out").read_bytes()))
        self.assertEqual(support.run("replay", str(FIRST_RISE), "--assert", str(packed)).returncode, 0)

    def test_no_printed_text(self) -> None:
        done = support.run("replay", str(FIRST_RISE), "--assert", str(FIRST_RISE))
        self.assertEqual((done.returncode, done.stdout), (2, ""))
        self.assertIn("this is a trace", done.stderr)


if __name__ == "__main__":
    unittest.main()
