"""Tests of tools/facts: the files are those that the definitions give, and a change of a definition is noticed."""
from __future__ import annotations

import shutil
import subprocess
import sys
import tempfile
import unittest
from pathlib import Path

TOP = Path(__file__).resolve().parent.parent.parent
FACTS = TOP / "tools" / "facts"
sys.path.insert(0, str(TOP / "tools"))

from tables import gathering, places  # noqa: E402

LIMITS = "crates/uxn_limits/specs/Limits.antt"
COMMANDS = "crates/uxn_arguments/specs/Words.antt"


class Facts(unittest.TestCase):
    def setUp(self) -> None:
        folder = tempfile.TemporaryDirectory()
        self.addCleanup(folder.cleanup)
        self.top = Path(folder.name)
        copied = [*places.MARKED, places.GRAMMAR, places.FACTS, places.PAGE, gathering.WORDING, "crates/uxn_limits/src/ports.rt"]
        copied += [str(path.relative_to(TOP)) for path in TOP.glob("crates/*/specs/*.antt")]
        for name in copied:
            (self.top / name).parent.mkdir(parents=True, exist_ok=True)
            shutil.copy(TOP / name, self.top / name)

    def call(self, *words: str) -> tuple[int, str]:
        done = subprocess.run([FACTS, "--top", self.top, *words], capture_output=True, text=True, check=False)
        return done.returncode, done.stdout

    def change(self, path: str, old: str, new: str) -> None:
        text = (self.top / path).read_text(encoding="utf-8")
        self.assertIn(old, text)
        (self.top / path).write_text(text.replace(old, new, 1), encoding="utf-8")

    def test_the_repository_has_what_its_definitions_give(self) -> None:
        status, text = self.call("--check")
        self.assertEqual((status, text.splitlines()[-1].endswith(", 0 failed")), (0, True), text)

    def test_a_changed_limit_is_noticed_and_written(self) -> None:
        self.change(LIMITS, "limit.MOST_ROUTINES ≡ 8_000", "limit.MOST_ROUTINES ≡ 9_000")
        status, text = self.call("--check")
        self.assertEqual(status, 1)
        for path in ("docs/limits.md", places.FACTS, "extras/completions/_uxn"):
            self.assertIn(f"FAILED {path}: ", text)
        self.assertEqual(self.call()[0], 0)
        self.assertIn("| routines of `gen` | 1 to 9,000 | 128 |", (self.top / "docs/limits.md").read_text(encoding="utf-8"))
        self.assertEqual(self.call("--check")[0], 0)

    def test_a_page_that_was_changed_by_hand_fails(self) -> None:
        self.change("docs/commands.md", "assembles the source SRC and runs it", "runs the source SRC")
        self.assertIn("FAILED docs/commands.md: ", self.call("--check")[1])

    def test_a_definition_without_words_is_refused(self) -> None:
        self.change(COMMANDS, 'named (codes "line")', 'named (codes "wire")')
        status, text = self.call("--check")
        self.assertEqual(status, 1)
        self.assertIn("no row for command ['wire']", text)

    def test_a_page_without_marks_is_refused(self) -> None:
        self.change("docs/limits.md", "<!-- facts end -->", "")
        self.assertIn("FAILED docs/limits.md: there are no marks", self.call("--check")[1])


if __name__ == "__main__":
    unittest.main()
