"""Tests of the form of the code: types by mypy, Python by ruff or pyflakes, shell by shellcheck, each where it is installed."""
from __future__ import annotations

import shutil
import subprocess
import tempfile
import unittest
from pathlib import Path

TOP = Path(__file__).resolve().parent.parent.parent
SHELL = (
    ".ci/run", "cases/faults", "conformance/adapters/raven-cli", "conformance/adapters/uxn", "conformance/adapters/uxn-asm",
    "conformance/adapters/uxn-dis", "conformance/adapters/uxnasm", "conformance/adapters/uxncli", "extras/completions/uxn.bash",
    "extras/packaging/remove.sh", "extras/packaging/uxn.sh", "extras/tests/shell", "tools/choose", "uxn",
)
# Without the package of the tools: two of its modules import names for others, and mypy finds names that are not there.
PYTHON = ("conformance/conform", "tools/tables", "tools/making", "tools/testrun", ".ci/pagechecks")


class Style(unittest.TestCase):
    def call(self, program: str, *words: str | Path) -> subprocess.CompletedProcess[str]:
        if shutil.which(program) is None:
            self.skipTest(f"there is no {program}")
        return subprocess.run([program, *words], cwd=TOP, capture_output=True, text=True, check=False)

    def must_pass(self, program: str, *words: str | Path) -> None:
        done = self.call(program, *words)
        self.assertEqual(done.returncode, 0, done.stdout + done.stderr)

    def must_fail(self, program: str, text: str, suffix: str, *words: str) -> None:
        """The check notices a fault that a file of its own has."""
        with tempfile.NamedTemporaryFile("w", suffix=suffix) as file:
            file.write(text)
            file.flush()
            self.assertNotEqual(self.call(program, *words, file.name).returncode, 0)

    def test_types(self) -> None:
        with tempfile.TemporaryDirectory() as cache:
            self.must_pass("mypy", "--cache-dir", cache)
            self.must_fail("mypy", "def f(a):\n    return a\n", ".py", "--strict", "--cache-dir", cache)

    def test_names_of_python(self) -> None:
        self.must_pass("pyflakes3", *PYTHON)
        self.must_fail("pyflakes3", "import os\n", ".py")

    def test_rules_of_ruff(self) -> None:
        self.must_pass("ruff", "check", *PYTHON)
        self.must_fail("ruff", "import os\n", ".py", "check")

    def test_shell(self) -> None:
        self.must_pass("shellcheck", "--severity=warning", "--shell=bash", *SHELL)
        self.must_fail("shellcheck", "#!/bin/bash\necho $(ls *.tal | wc -l)$unset\ncd x\n", ".sh", "--severity=warning")


if __name__ == "__main__":
    unittest.main()
