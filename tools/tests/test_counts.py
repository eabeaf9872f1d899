"""bench/run with a stand-in for valgrind, whose counts are known."""
from __future__ import annotations

import os
import shutil
import subprocess
import sys
import tempfile
import unittest
from pathlib import Path

BENCH = Path(os.path.realpath(__file__)).parents[2] / "bench"

# Counts 10 for each instruction of the budget where the source does not end at once, and 500 for all else.
STAND_IN = """#!/bin/sh
count=500
budget=$(echo "$*" | sed -n 's/.*--budget \\([0-9]*\\).*/\\1/p')
grep -q '|0100 BRK' main.tal || count=$((500 + 10 * ${budget:-0}))
echo "==1== Collected : $count" >&2
exit ${STATUS-0}
"""


class CountsTest(unittest.TestCase):
    def setUp(self) -> None:
        self.top = Path(self.enterContext(tempfile.TemporaryDirectory()))
        self.bench = self.top / "bench"
        shutil.copytree(BENCH, self.bench)
        self.write("bin/valgrind", STAND_IN)
        self.write("program", "#!/bin/sh\n")
        self.bounds("10 counting\n9.5 array\n")

    def write(self, name: str, text: str) -> None:
        path = self.top / name
        path.parent.mkdir(exist_ok=True)
        path.write_text(text)
        path.chmod(0o755)

    def bounds(self, rows: str) -> None:
        (self.bench / "run.rows").write_text(f"# The bounds.\n{rows}")

    def run_bench(self, *words: str, path: str = "bin") -> subprocess.CompletedProcess[str]:
        environment = {"PATH": f"{self.top / path}:/usr/bin:/bin" if path else str(self.top / "none")}
        call = [sys.executable, str(self.bench / "run"), *words]
        return subprocess.run(call, capture_output=True, text=True, env=environment, check=False)

    def test_a_row_within_its_bound(self) -> None:
        done = self.run_bench(str(self.top / "program"), "--only", "counting")
        self.assertEqual((done.returncode, done.stdout), (0, "      10.0 instructions of 10  counting: an Uxn instruction\n"))

    def test_a_row_that_takes_more(self) -> None:
        done = self.run_bench(str(self.top / "program"), "--only", "array")
        self.assertEqual((done.returncode, done.stdout), (1, "      10.0 instructions of 9.5  array: an Uxn instruction  FAILED\n"))

    def test_a_row_without_a_bound(self) -> None:
        done = self.run_bench(str(self.top / "program"), "--only", "reverse")
        self.assertEqual((done.returncode, done.stdout), (1, "      10.0 instructions of no bound  reverse: an Uxn instruction  FAILED\n"))

    def test_a_program_that_refuses(self) -> None:
        self.write("bin/valgrind", STAND_IN.replace("${STATUS-0}", "131"))
        done = self.run_bench(str(self.top / "program"), "--only", "counting")
        self.assertEqual((done.returncode, done.stdout), (1, ""))
        self.assertRegex(done.stderr, r"^bench/run: counting: uxn play main.tal --budget 400000 ended with status 131, and valgrind with: ")

    def test_no_program(self) -> None:
        done = self.run_bench(str(self.top / "nothing"))
        self.assertEqual((done.returncode, done.stderr), (2, f"bench/run: {self.top / 'nothing'} is no program\n"))

    def test_no_valgrind(self) -> None:
        done = self.run_bench(str(self.top / "program"), path="")
        self.assertEqual((done.returncode, done.stdout), (0, "not tried: counts of machine instructions, since valgrind is not installed\n"))


if __name__ == "__main__":
    unittest.main()
