# SPDX-License-Identifier: Apache-2.0 OR MIT
"""What tests/documents finds of names in backquotes: each kind of name that is gone, and none that is there."""

import tempfile
import unittest
from pathlib import Path

from page_names import Code, misplaced_names, undefined_names, unknown_names

CODE = {
    "crates/a/src/lib.rt": "// gone_word\npub struct Counter;\nfn pulse_next() {}\nensures halves { x }\n",
    "crates/a/specs/Steps.antt": "-- gone_rule\nunfoldable pub is_due : N\nis_due-later = refl\n",
    "crates/a/specs/private/Plan.antt": "pub plan_of : N\n",
    "crates/b/src/lib.rt": "fn other_call() {}\n",
    "tools/run": "KEPT = 1\n",
}


class Names(unittest.TestCase):
    def setUp(self) -> None:
        folder = tempfile.TemporaryDirectory()
        self.addCleanup(folder.cleanup)
        self.top = Path(folder.name)
        for name, text in CODE.items():
            (self.top / name).parent.mkdir(parents=True, exist_ok=True)
            (self.top / name).write_text(text, encoding="utf-8")

    def page(self, text: str) -> Path:
        page = self.top / "PAGE.md"
        page.write_text(text, encoding="utf-8")
        return page

    def unknown(self, *names: str) -> list[str]:
        page = self.page(" ".join(f"`{name}`" for name in names))
        return [line.split("`")[1] for line in unknown_names([page], Code(self.top))]

    def test_known_names(self) -> None:
        known = ("Counter", "pulse_next", "pulse_next()", "halves", "is_due", "is_due-later", "KEPT", "Counter::pulse_next",
                 "a::pulse_next", "pulse_", "_next", "_Bool", "in 40", "3fh")
        self.assertEqual(self.unknown(*known), [])

    def test_unknown_names(self) -> None:
        # A name in a comment alone, one of another crate, and parts of no name.
        gone = ("job_of_r", "gone_word", "gone_rule", "a::other_call", "Counter::other_call", "b::pulse_next", "due_", "_is")
        self.assertEqual(self.unknown(*gone), list(gone))

    def test_rows_and_blocks_are_no_names(self) -> None:
        page = self.page("| `late-row` | text |\nsee `late-row`\n```\n`not_there`\n```\n")
        self.assertEqual(unknown_names([page], Code(self.top)), [])

    def test_files_beside_names(self) -> None:
        page = self.page("`is_due` in crates/a/specs/Steps.antt, `is_due` in crates/a/src/lib.rt, `is_due` in crates/a/src/no.rt")
        self.assertEqual([line.split(" in ")[1] for line in misplaced_names([page], self.top)],
                         ["crates/a/src/lib.rt", "crates/a/src/no.rt"])

    def test_definitions_beside_files(self) -> None:
        page = self.page("## a: text\n| x | `is_due` (Steps), `plan_of` (private/Plan), `Counter` in src/lib.rt |\n"
                         "| x | `is_due`, `plan_of` (Steps) |\n| x | `is_due` (Plan) |\n## b: text\n| x | `is_due` (a's Steps) |\n"
                         "| x | `is_due` (Steps) |\n")
        self.assertEqual([line.split(": ")[1] for line in undefined_names(page, self.top)], [
            "a has no `plan_of` in specs/Steps.antt", "a has no `is_due` in specs/Plan.antt",
            "b has no `is_due` in specs/Steps.antt"])


if __name__ == "__main__":
    unittest.main()
