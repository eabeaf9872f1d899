"""./test, over parts of its own: what it calls, counts, shows and refuses, and how it ends."""
from __future__ import annotations

import hashlib
import json
import os
import platform
import shutil
import signal
import subprocess
import time
import unittest

from support import TOP, ToolTest

COPIED = ("test", "cases/scratch.py", "tools/testrun", "tools/making")
PROGRAM = f"uxn-{platform.system().lower()}-{platform.machine().lower()}"
# A part that notes its call, and then does what the test says.
PART = """#!/bin/sh
echo "$0 $* $UXN_JOBS" >>log
"""


class RunnerTest(ToolTest):
    """A folder as the repository is, with two parts."""

    def setUp(self) -> None:
        super().setUp()
        self.environment.pop("UXN_JOBS", None)
        for name in COPIED:
            os.makedirs(os.path.dirname(self.path(name)), exist_ok=True)
            source = os.path.join(TOP, name)
            (shutil.copytree if os.path.isdir(source) else shutil.copy)(source, self.path(name))
        self.write("crates.txt", "a:\n")
        self.write("crates/a/src/lib.rt", "")
        self.write("extras/tests/test_one.py", "")
        self.write("extras/tests/test_other.py", "")
        self.executable("uxn", "#!/bin/sh\n")
        self.part("cases/run", "echo 3 passed, 0 failed")
        self.part("extras/tests/shell", "echo 1 passed, 0 failed")
        self.part("extras/tests/run", "echo 'not tried: x: there is no y'; echo 2 passed, 0 failed, 1 skipped")

    def executable(self, name: str, text: str) -> None:
        os.chmod(self.path(self.write(name, text)), 0o755)

    def part(self, name: str, command: str) -> None:
        self.executable(name, f"{PART}{command}\n")

    def run_tests(self, status: int, *words: str) -> list[str]:
        done = self.call("./test", "--program", "uxn", *words)
        said = (done.stdout + done.stderr).decode()
        self.assertEqual(done.returncode, status, said)
        return said.splitlines()

    def log(self) -> list[str]:
        return sorted(self.read("log").decode().replace(self.folder + "/", "").splitlines())


class Parts(RunnerTest):
    def test_all(self) -> None:
        lines = self.run_tests(0, "--jobs", "3")
        self.assertEqual(self.log(), [
            "cases/run uxn 2", "extras/tests/run uxn test_one 1", "extras/tests/run uxn test_other 1", "extras/tests/shell uxn 1",
        ])
        self.assertRegex("\n".join(lines), r"(?m)^cases +3 +0 +0 +[\d.]+ +[\d.]+$")
        self.assertRegex("\n".join(lines), r"(?m)^extras +5 +0 +2 +[\d.]+ +[\d.]+$")
        self.assertIn("not tried: extras one: x: there is no y", lines)
        missing = [line for line in lines if line.startswith("not tried: ") and ": there is no " in line and "/" in line]
        self.assertIn("not tried: lines: there is no .ci/lines", missing)
        self.assertEqual(lines[-1], f"8 passed, 0 failed, {2 + len(missing)} skipped")

    def test_what_is_named(self) -> None:
        self.assertEqual(self.run_tests(0, "cases/screen")[-1], "3 passed, 0 failed")
        self.run_tests(0, "cases", "words", "cases/line", "--jobs", "1")
        self.run_tests(0, "extras", "other", "test_one.Class")
        processors = len(os.sched_getaffinity(0))
        self.assertEqual(self.log(), sorted([
            f"cases/run uxn screen {processors}", "cases/run uxn words line 1",
            "extras/tests/run uxn test_one.Class 1", "extras/tests/run uxn test_other 1",
        ]))

    def test_a_failing_part(self) -> None:
        self.part("cases/run", "echo FAILED it; echo '    why'; echo 2 passed, 1 failed; exit 1")
        lines = self.run_tests(1, "cases")
        self.assertEqual(lines[:2], ["FAILED it", "    why"])
        self.assertEqual(lines[-1], "2 passed, 1 failed")

    def test_parts_that_count_nothing(self) -> None:
        for command, why in (
            ("echo begun; exit 3", "it did not come to its end (status 3)"),
            ("echo 3 passed, 0 failed; exit 4", "it ended with status 4"),
            ("echo 0 passed, 0 failed", "no test ran"),
            ("kill -9 $$", "it did not come to its end (status -9)"),
        ):
            self.part("cases/run", command)
            lines = self.run_tests(1, "cases")
            self.assertIn(f"FAILED cases: {why}", lines)
            self.assertRegex(lines[-1], r"^\d passed, 1 failed$")

    def test_a_part_that_prints_rows(self) -> None:
        self.part("bench/memory", "echo '  2.0 MB of 3  asm'; echo '  4.0 MB of 5  play'")
        self.assertEqual(self.run_tests(0, "memory")[-1], "2 passed, 0 failed")
        self.part("bench/memory", "echo '  2.0 MB of 3  asm'; echo '  6.0 MB of 5  play  FAILED'; exit 1")
        lines = self.run_tests(1, "memory", "play", "line")
        self.assertIn("  6.0 MB of 5  play  FAILED", lines)
        self.assertEqual(lines[-1], "1 passed, 1 failed")
        self.part("bench/memory", "exit 2")
        self.assertEqual(self.run_tests(1, "memory")[0], "FAILED memory: it ended with status 2")
        self.assertIn("bench/memory uxn --only play line", " ".join(self.log()))

    def test_what_passes_is_not_shown(self) -> None:
        self.part("cases/run", "echo a line; echo 3 passed, 0 failed")
        self.assertNotIn("a line", self.run_tests(0, "cases"))

    def test_a_signal_ends_all(self) -> None:
        self.part("cases/run", "echo $$ >number; exec sleep 100")
        with subprocess.Popen(["./test", "--program", "uxn", "cases"], cwd=self.folder, stdout=subprocess.DEVNULL) as tests:
            until = time.monotonic() + 60
            while not (os.path.exists(self.path("number")) and self.read("number").endswith(b"\n")):
                self.assertLess(time.monotonic(), until)
                time.sleep(0.05)
            tests.send_signal(signal.SIGTERM)
            self.assertEqual(tests.wait(60), 128 + signal.SIGTERM)
        with self.assertRaises(ProcessLookupError):
            os.kill(int(self.read("number")), 0)

    def test_wrong_calls(self) -> None:
        for words in (("nothing",), ("--jobs", "0"), ("--no-such-option",), ("--program", "gone")):
            self.refuse(2, "./test", "--program", "uxn", *words)
        self.assertIn("there is no dist/manifest.json", self.refuse(2, "./test"))
        self.assertIn("PART is one of these", self.succeed("./test", "--help"))
        self.assertFalse(os.path.exists(self.path("log")))


@unittest.skipUnless(platform.machine() in ("x86_64", "aarch64") and platform.system() == "Linux", "dist/ has no program for it")
class Dist(RunnerTest):
    def setUp(self) -> None:
        super().setUp()
        self.executable(f"dist/{PROGRAM}", "#!/bin/sh\n")
        self.write("dist/uxn.wasm", "module")
        names = ("crates.txt", "crates/a/src/lib.rt")
        lines = "".join(f"{hashlib.sha256(self.read(name)).hexdigest()}  {name}\n" for name in names)
        files = {name: hashlib.sha256(self.read(f"dist/{name}")).hexdigest() for name in (PROGRAM, "uxn.wasm")}
        self.manifest = {"sources": hashlib.sha256(lines.encode()).hexdigest(), "files": files}
        self.write("dist/manifest.json", json.dumps(self.manifest))

    def test_its_program_is_tried(self) -> None:
        self.assertEqual(self.succeed("./test", "cases").splitlines()[-1], "3 passed, 0 failed")
        self.assertRegex(self.succeed("./test"), r"(?m)^dist +3 +0 +0 .*\n(.*\n)+11 passed, 0 failed, \d+ skipped$")
        self.assertEqual(self.log()[0].split()[1], f"dist/{PROGRAM}")

    def test_a_changed_byte(self) -> None:
        for name in (PROGRAM, "uxn.wasm"):
            kept = self.read(f"dist/{name}")
            self.write(f"dist/{name}", kept[:-1] + b"x")
            for words in ((), ("--program", "uxn"), ("cases",)):
                done = self.call("./test", *words)
                said = done.stdout.decode()
                self.assertEqual(done.returncode, 1, said)
                self.assertIn(f"FAILED dist/{name}: it is not the file that dist/manifest.json names", said)
                self.assertRegex(said, r"\n\d passed, 1 failed\n$")
            self.write(f"dist/{name}", kept)
        self.assertFalse(os.path.exists(self.path("log")))
        self.succeed("./test", "cases")

    def test_a_file_or_the_manifest_is_gone(self) -> None:
        os.remove(self.path("dist/uxn.wasm"))
        self.assertEqual(self.call("./test").returncode, 1)
        self.write("dist/manifest.json", "{}")
        self.assertEqual(self.call("./test").returncode, 1)

    def test_other_sources(self) -> None:
        self.write("crates/a/src/lib.rt", "// another\n")
        done = self.call("./test", "cases")
        self.assertEqual(done.returncode, 1)
        self.assertIn(b"FAILED dist/: it is made of other sources", done.stdout)
        self.assertEqual(self.run_tests(0, "cases")[-1], "3 passed, 0 failed")
