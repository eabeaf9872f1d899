"""What the tests of the tools share: a folder for each test, the built program as `uxn`, and calls of the tools as a user makes them."""
from __future__ import annotations

import glob
import os
import shutil
import subprocess
import sys
import tempfile
import unittest

TOP = os.path.realpath(os.path.join(os.path.dirname(__file__), "..", ".."))
EXTRAS = os.path.join(TOP, "extras")
EXAMPLES = os.path.join(TOP, "examples")
CASES = os.path.join(TOP, "cases")
sys.path.append(CASES)
import stored  # noqa: E402


def cases() -> list[stored.Case]:
    """The cases of cases/, in the order of their names."""
    return [stored.read(path) for path in sorted(glob.glob(os.path.join(CASES, "*", "*.case")))]


def needs(*tools: str):
    """Skips a test where one of these programs is not installed."""
    missing = [tool for tool in tools if shutil.which(tool) is None]
    return unittest.skipIf(bool(missing), f"there is no {' '.join(missing)}")


class ToolTest(unittest.TestCase):
    """A test in a folder of its own, which is the current one of all that it calls, with the tools and `uxn` in the PATH."""

    maxDiff = None

    def setUp(self) -> None:
        self.folder = tempfile.mkdtemp(prefix="uxn-test-")
        self.addCleanup(shutil.rmtree, self.folder, ignore_errors=True)
        self.program = os.path.realpath(os.environ["UXN"])
        os.mkdir(self.path(".bin"))
        os.symlink(self.program, self.path(".bin/uxn"))
        path = os.pathsep.join([self.path(".bin"), os.path.join(EXTRAS, "bin"), os.environ["PATH"]])
        self.environment = {**os.environ, "PATH": path, "LC_ALL": "C.UTF-8", "PYTHONDONTWRITEBYTECODE": "1"}

    def path(self, name: str) -> str:
        return os.path.join(self.folder, name)

    def write(self, name: str, data: str | bytes) -> str:
        """Writes a file of the test's folder, and answers its name."""
        os.makedirs(os.path.dirname(self.path(name)), exist_ok=True)
        with open(self.path(name), "wb") as file:
            file.write(data if isinstance(data, bytes) else data.encode())
        return name

    def read(self, name: str) -> bytes:
        with open(self.path(name), "rb") as file:
            return file.read()

    def call(self, *words: str, stdin: bytes = b"", seconds: float = 60, **environment: str) -> subprocess.CompletedProcess[bytes]:
        """Calls a program in the test's folder."""
        return subprocess.run(words, cwd=self.folder, env={**self.environment, **environment}, input=stdin, capture_output=True, timeout=seconds)

    def succeed(self, *words: str, stdin: bytes = b"", **environment: str) -> str:
        """Calls a program that has to end with 0, and answers what it put on its output."""
        done = self.call(*words, stdin=stdin, **environment)
        self.assertEqual(done.returncode, 0, (done.stdout + done.stderr).decode(errors="replace"))
        return done.stdout.decode(errors="replace")

    def refuse(self, status: int, *words: str, stdin: bytes = b"", **environment: str) -> str:
        """Calls a program that has to end with this status and one line on its error output, and answers that line."""
        done = self.call(*words, stdin=stdin, **environment)
        said = done.stderr.decode(errors="replace")
        self.assertEqual(done.returncode, status, done.stdout.decode(errors="replace") + said)
        self.assertEqual(said.count("\n"), 1, said)
        return said.rstrip("\n")
