# SPDX-License-Identifier: Apache-2.0 OR MIT
"""tools/page, read by a browser without a window: what is drawn, how it zooms, and what is marked."""

import json
import os
import re
import shutil
import subprocess
import sys
import tempfile
import unittest
from html import unescape
from pathlib import Path
from typing import Any
from unittest import mock

import support

from clocktools.program import program

BROWSER = next(filter(None, map(shutil.which, ("chromium", "chromium-browser", "google-chrome"))), None)
if not BROWSER:
    print("skipped: the page in a browser (no chromium)", file=sys.stderr)
SECONDS = 60
KINDS = {"differences": [
    {"register": "port 61h", "what": "bit 4", "count": 1, "samples": [{"line": 4, "peer": "10"}],
     "known": {"name": "refresh", "section": "8254", "here": "toggles", "there": "stays"},
     "definition": {"crate": "pit_readback", "name": "read_of_61", "words": "a read of 61h", "standard": "8254"}},
    {"register": "8254 counter 0", "what": "all bits", "count": 1, "samples": [{"line": 5, "peer": "77"}], "known": None,
     "definition": {"crate": "pit_counter", "name": "effect_in", "words": "a read <of> it", "standard": "8254"}}]}
"""What tools/compare tells of two differences: one that is known, and one that isn't."""


def written(trace: Path, *words: str) -> str:
    done = support.run("page", str(trace), *words)
    if done.returncode or done.stderr:
        raise AssertionError(done.stderr)
    return done.stdout


def seen(page: str, script: str, place: str = "") -> Any:
    """What a script finds in a page, in a browser that was given the page at a place."""
    told = "<pre id='told-to-test'></pre><script>document.getElementById('told-to-test').textContent = " \
           f"JSON.stringify((() => {{ {script} }})());</script>"
    with tempfile.TemporaryDirectory() as folder:
        path = Path(folder) / "page.html"
        path.write_text(page + told)
        command = [BROWSER, "--headless", "--no-sandbox", "--disable-gpu", "--window-size=1200,800",
                   f"--user-data-dir={folder}/profile", "--dump-dom", f"file://{path}{place}"]
        done = subprocess.run(command, capture_output=True, text=True, check=True, timeout=SECONDS)
    found = re.search(r"<pre id=.told-to-test.>(.*?)</pre>", done.stdout, re.DOTALL)
    if not found or not found[1]:
        raise AssertionError(f"the page's script failed: {done.stderr[-2000:]}")
    return json.loads(unescape(found[1]))


class Page(unittest.TestCase):
    FIRST_RISE = support.TOP / "examples/first-rise.trace"

    def test_loads_nothing(self) -> None:
        page = written(self.FIRST_RISE)
        self.assertNotRegex(page, r"""(src|href)\s*=|@import|url\(|fetch\(|https?://(?!www\.w3\.org/2000/svg)""")

    def test_no_trace(self) -> None:
        done = support.run("page", "/nowhere/t")
        self.assertEqual((done.returncode, done.stdout, done.stderr),
                         (1, "", "page: /nowhere/t: there is no such file\n"))

    def test_text_of_a_trace_ends_no_script(self) -> None:
        with tempfile.TemporaryDirectory() as folder:
            trace = Path(folder) / "a<script>.trace"
            trace.write_bytes(self.FIRST_RISE.read_bytes())
            page = written(trace)
        self.assertEqual(page.count("<script"), 2)


@unittest.skipUnless(BROWSER, "no browser: apt-get install chromium")
class InABrowser(unittest.TestCase):
    def test_first_rise(self) -> None:
        # OUT 0 rises at the fifth pulse, 4191 ns (README, 'First answer').
        found = seen(written(Page.FIRST_RISE), """
            return [...document.querySelectorAll('#waves .edge')].map((edge) =>
                [edge.dataset.at, edge.dataset.up, edge.textContent]);""")
        self.assertEqual(found, [["4191", "1", "line 0 up at 4191 ns"]])

    def test_messages(self) -> None:
        with tempfile.TemporaryDirectory() as folder:
            printed = Path(folder) / "printed"
            printed.write_text("3 1\nmsg 1000 2 0 41 3 1000\n4 2\n5 3\n6 4\n7 5\n8 6\nfinal 5000 6 0 -\n")
            page = written(Page.FIRST_RISE, "--printed", str(printed))
        found = seen(page, """
            return [...document.querySelectorAll('#waves .message')].map((it) => it.textContent)""")
        self.assertEqual(found, [f"message of timer 2 at {at} ns to processor 0, vector 41" for at in (1000, 2000, 3000)])

    def test_zoom(self) -> None:
        found = seen(written(Page.FIRST_RISE), """
            const waves = document.getElementById('waves'), span = () => [waves.dataset.from, waves.dataset.to].map(Number);
            const spans = [span()];
            document.getElementById('in').click(); spans.push(span());
            document.getElementById('out').click(); spans.push(span());
            const box = waves.getBoundingClientRect();
            waves.dispatchEvent(new WheelEvent('wheel', {deltaY: -1, clientX: box.left + 90})); spans.push(span());
            dispatchEvent(new KeyboardEvent('keydown', {key: 'ArrowRight'})); spans.push(span());
            document.getElementById('whole').click(); spans.push(span());
            return spans;""")
        # Half of the time around its middle; the whole; four fifths from the left; a fifth of that further; the whole.
        self.assertEqual(found, [[0, 5000], [1250, 3750], [0, 5000], [0, 4000], [800, 4800], [0, 5000]])

    def test_place_of_a_line(self) -> None:
        page = written(Page.FIRST_RISE)
        script = "return [...document.querySelectorAll('tr.chosen td')].map((cell) => cell.textContent);"
        wanted = ["12", "0", "5,000", "counter 0: a byte of the count or status", "in 40", "04"]
        self.assertEqual(seen(page, script, "#line=12")[:6], wanted)
        search = "const line = document.getElementById('line'); line.value = '12'; line.onchange({target: line});"
        self.assertEqual(seen(page, search + script)[:6], wanted)

    def test_processors(self) -> None:
        found = seen(written(support.TOP / "examples/boot.trace"), """
            return [...document.querySelectorAll('#waves .name')].map((name) => name.textContent);""")
        self.assertEqual(found, ["line 0", "processor 0", "processor 1"])

    def test_differences(self) -> None:
        with tempfile.TemporaryDirectory() as folder:
            trace, told = Path(folder) / "t", Path(folder) / "told"
            trace.write_text("clockboard 1\nbegin\n0 0 out 61 01\n0 900 in 61\n0 2000 in 40\nend\n")
            told.write_text(json.dumps(KINDS))
            page = written(trace, "--differences", str(told))
        marks, rows, told = seen(page, """
            const told = ['unexplained-next', 'before'].map((id) => {
                document.getElementById(id).click();
                return document.getElementById('details').textContent;
            });
            return [[...document.querySelectorAll('#waves circle')].map((mark) => mark.getAttribute('class')),
                    [...document.querySelectorAll('tbody tr')].map((row) => [row.className, row.lastChild.textContent]), told];""")
        self.assertEqual(marks, ["known", "unexplained"])
        self.assertEqual(rows, [["", ""], ["known chosen", "10"], ["unexplained", "77"]])
        self.assertIn("peer 77: 8254 counter 0, all bits: unexplained\npit_counter, effect_in: a read <of> it (8254)", told[0])
        self.assertIn("peer 10: port 61h, bit 4: here toggles; there stays\npit_readback, read_of_61: a read of 61h (8254)", told[1])

    def test_differences_of_an_imported_log(self) -> None:
        """The peer's file stands beside the trace, so tools/compare is asked: byte 32h is the century there."""
        with tempfile.TemporaryDirectory() as folder:
            trace = Path(folder) / "t"
            done = support.run("import", "qemu", str(support.LOGS / "seabios-tcg.log"), str(trace))
            self.assertEqual(done.returncode, 0, done.stderr)
            page = written(trace)
        told = seen(page, """
            const told = [];
            let before;
            do {
              before = chosen;
              document.getElementById('next').click();
              told.push(document.getElementById('details').textContent);
            } while (before !== chosen);
            return told;""")
        self.assertTrue(any("peer 20: MC146818 byte 32h" in text and "rtc_at_power_on" in text for text in told), told)
        self.assertEqual([text for text in told if "peer " not in text], [])

    def test_what_is_shown_first(self) -> None:
        found = seen(written(support.TOP / "examples/ten-lost-ticks-discard.trace"), """
            const first = document.querySelector('details');
            return [first.open, [...first.querySelectorAll('li')].map((row) => row.textContent), document.getElementById('legend').textContent];""")
        is_open, rows, legend = found
        self.assertTrue(is_open)
        # What examples/README.md says of this trace: a tick each millisecond, 13 due, 3 rose, none waits, 10 lost.
        self.assertIn("ticks of 8254: 13 due, 3 rose, 0 wait, 10 lost", rows)
        self.assertTrue(any(row.startswith("8254 counter 0: programmed 1 time, at last mode 2, count 1193, 1000 Hz") for row in rows), rows)
        self.assertTrue(any(row.startswith("line 0: 3 rises; up for 10.5095 ms at the longest") for row in rows), rows)
        for word in ("unexplained", "known", "wheel", "Legend"):
            self.assertIn(word, legend)

    def test_names_of_accesses(self) -> None:
        # The bits of the data sheets: 124h is on, of edge type, 32-bit, line 0; 0Ch periodic; 34h mode 2; register A 26h 1,024 Hz.
        trace = ("clockboard 3\nbegin\n0 0 hw 100 4 10e\n0 0 hw 10 4 3\n0 0 out 43 34\n0 0 out 43 e2\n0 0 out 70 0a\n0 0 out 71 26\n"
                 "0 0 out 70 0b\n0 0 out 71 42\n0 0 in 71\n0 0 hr f0 4\n0 0 wrmsr 832 200ec\n0 0 wrmsr 4b564d01 1001\n0 0 ack 0\nend\n")
        self.assertEqual(self.cells(trace, "return document.querySelectorAll('tbody tr')", 3), [
            "T0 config: periodic, level, 32-bit, interrupt on, line 0", "configuration: on, legacy replacement",
            "counter 0: mode 2, low then high byte, binary", "read-back: latch status of counter 0", "index 0a: register A",
            "register A: divider runs, 1024 Hz", "index 0b: register B", "register B: periodic interrupt, 24 hours", "register B", "main counter",
            "LVT timer: periodic, open, vector ec", "system time: page at 1000h, on", "line 0 is acknowledged"])

    def cells(self, trace: str, rows: str, column: int) -> list[str]:
        """A column of the table of a trace, after a script."""
        with tempfile.TemporaryDirectory() as folder:
            path = Path(folder) / "t"
            path.write_text(trace)
            page = written(path)
        return list(seen(page, f"return [...(() => {{ {rows} }})()].map((row) => row.children[{column}].textContent);"))

    MANY = "clockboard 1\ncpus 2\nbegin\n" + "".join(
        f"{k % 2} {1000 * k} {('in 61', 'in 71', 'hr f0 4', 'ack 0')[k // 2 % 4]}\n" for k in range(400)) + "end\n"

    def test_zoom_narrows_the_table(self) -> None:
        found = self.cells(self.MANY, "show(100000, 105000); return document.querySelectorAll('tbody tr')", 2)
        self.assertEqual(found, ["100,000", "101,000", "102,000", "103,000", "104,000", "105,000"])

    def test_filters(self) -> None:
        choose = "const choose = (id, value) => { const box = document.getElementById(id); box.value = value; box.onchange({target: box}); };"
        rows = "show(100000, 110000); return document.querySelectorAll('tbody tr')"
        self.assertEqual(set(self.cells(self.MANY, f"{choose} choose('cpu', '1'); {rows}", 1)), {"1"})
        self.assertEqual(set(self.cells(self.MANY, f"{choose} choose('device', data.devices.indexOf('HPET')); {rows}", 4)), {"hr f0 4"})
        both = self.cells(self.MANY.replace("in 71", "ack 8"), f"{choose} filter.wire = '0'; applyFilter(); {rows}", 4)
        self.assertEqual(set(both), {"in 61", "hr f0 4", "ack 0"})

    def test_line_of_the_place_is_zoomed_to(self) -> None:
        with tempfile.TemporaryDirectory() as folder:
            path = Path(folder) / "t"
            path.write_text(self.MANY)
            page = written(path)
        # Line 204 is record 200, at 200,000 ns, and twenty of its neighbours are on each side.
        self.assertEqual(seen(page, "return [svg.dataset.from, svg.dataset.to, document.querySelector('tr.chosen').dataset.line];", "#line=204"),
                         ["180000", "220000", "204"])

    def test_keys(self) -> None:
        found = seen(written(Page.FIRST_RISE), """
            const press = (key) => dispatchEvent(new KeyboardEvent('keydown', {key}));
            press('ArrowDown'); press('ArrowDown');
            const line = document.querySelector('tr.chosen').dataset.line;
            press('?'); press('+');
            return [line, document.getElementById('legend').open, svg.dataset.to - svg.dataset.from];""")
        self.assertEqual(found, ["6", True, 2500])

    def test_round_times(self) -> None:
        with tempfile.TemporaryDirectory() as folder:
            path = Path(folder) / "t"
            path.write_text("clockboard 1\nhost 1000000 0\nbegin\n0 123456789 step\n0 987654321 step\nend\n")
            page = written(path)
        ticks = seen(page, "return [...document.querySelectorAll('.tick')].map((tick) => [tick.dataset.at, tick.textContent]);")
        self.assertEqual(ticks[0], ["200000000", "200 ms"])
        self.assertEqual({int(at) % 100_000_000 for at, _ in ticks}, {0})

    def test_print(self) -> None:
        found = self.cells(self.MANY, "dispatchEvent(new Event('beforeprint')); return document.querySelectorAll('tbody tr')", 0)
        self.assertEqual(len(found), 400)

    def sized(self, records: int) -> tuple[int, str, float]:
        """Of a page of so many records, how many it has, the last line that the table can show, and the milliseconds to its first
        picture; a machine that has more to do than processors gets more of them."""
        with tempfile.TemporaryDirectory() as folder:
            trace, printed = Path(folder) / "t", Path(folder) / "printed"
            kinds = ("in 61", "in 40", "hr f0 4", "step", "hw 108 4 5", "ack 0")
            trace.write_text("clockboard 1\nbegin\n" + "".join(f"0 {100 * k} {kinds[k % 6]}\n" for k in range(records)) + "end\n")
            printed.write_text("".join(f"{k + 3} {k + 1} {k % 65536:04x}\n" for k in range(records)) + f"final {100 * records} {records} 0 -\n")
            page = written(trace, "--printed", str(printed))
        found, last, ready = seen(page, """
            const ready = performance.now();
            tableBox.scrollTop = 1e9;
            listRows();
            return [count, bodyRows.lastChild.dataset.line, ready];""")
        return found, last, ready / max(1.0, os.getloadavg()[0] / (os.cpu_count() or 1))

    def test_sizes(self) -> None:
        for records in (10, 10_000, 100_000, 1_000_000):
            with self.subTest(records):
                found, last, ready = self.sized(records)
                self.assertEqual((found, last), (records, str(records + 2)))
                if records <= 100_000:
                    self.assertLess(ready, 1000, "milliseconds to the first picture")

    def test_a_zoom_of_many_records(self) -> None:
        with tempfile.TemporaryDirectory() as folder:
            trace = Path(folder) / "t"
            with trace.open("wb") as file:
                subprocess.run([program(), "gen", "7", "100000", "4"], stdout=file, check=True)
            page = written(trace)
        records, slowest = seen(page, """
            let slowest = 0;
            for (const factor of [0.5, 0.1, 0.1, 10, 100]) {
              const start = performance.now();
              zoom(factor);
              slowest = Math.max(slowest, performance.now() - start);
            }
            return [count, slowest];""")
        self.assertEqual(records, 100005)
        self.assertLess(slowest, 2000, "milliseconds of a zoom")


class TooManyRecords(unittest.TestCase):
    def test_what_to_do(self) -> None:
        from clocktools import page_data
        from clocktools.command import Refused
        from clocktools.trace import records

        text = "clockboard 1\nbegin\n" + "".join(f"0 {10 * k} step\n" for k in range(20)) + "end\n"
        printed = [f"{k + 3} {k + 1}" for k in range(20)] + ["final 190 20 0 -"]
        with mock.patch.object(page_data, "MOST_RECORDS", 10):
            with self.assertRaises(Refused) as refused:
                page_data.page_data("t", records(text), printed, page_data.NO_DIFFERENCES, {}, page_data.Span())
            self.assertEqual(str(refused.exception), "t has 20 records, and a page shows 10: choose a time by --from NS and --to NS, as "
                                                     "--from 0 --to 50")
            data = page_data.page_data("t", records(text), printed, page_data.NO_DIFFERENCES, {}, page_data.Span(0, 50))
        self.assertEqual((data["records"]["line"], data["end"]), ("3 1 1 1 1 1", 50))


if __name__ == "__main__":
    unittest.main()
