# SPDX-License-Identifier: Apache-2.0 OR MIT
"""tests/definitions, where a trace can't be computed: a line says why, and there is no traceback."""

import subprocess
import tempfile
import unittest
from pathlib import Path

import support


class NotComputed(unittest.TestCase):
    def test_a_long_time_and_no_file(self) -> None:
        # A running HPET has a pulse each 10 ns, so a millisecond has more of them than are computed.
        with tempfile.TemporaryDirectory() as folder:
            trace = Path(folder) / "long.trace"
            trace.write_text("clockboard 1\nbegin\n0 0 hw 10 4 1\n0 1000000 step\nend\n")
            done = subprocess.run([support.TOP / "tests/definitions", trace, "/nowhere/t"], capture_output=True, text=True, check=False)
        self.assertEqual((done.returncode, done.stderr), (1, ""))
        self.assertEqual(done.stdout.splitlines(), [
            "not computed: long.trace: a record passes a time with more than 20,000 nanoseconds in which something falls, the most that "
            "are computed; part the time by shorter ones, or take a trace of less time",
            "not computed: t: No such file or directory"])


if __name__ == "__main__":
    unittest.main()
