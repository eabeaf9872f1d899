"""The folder extras/project: a Makefile and a CI job over uxn-test and uxn-needs."""
import os
import re
import shutil
import time

from support import EXAMPLES, EXTRAS, ToolTest, needs


class Project(ToolTest):
    def setUp(self) -> None:
        super().setUp()
        shutil.copytree(os.path.join(EXTRAS, "project"), self.folder, dirs_exist_ok=True)

    def use(self, example: str, *parts: str) -> None:
        """An example as the program, with parts of it as the test `start`."""
        shutil.copy(os.path.join(EXAMPLES, f"{example}.tal"), self.path("game.tal"))
        os.makedirs(self.path("tests"), exist_ok=True)
        for part in parts:
            path = os.path.join(EXAMPLES, f"{example}.{part}")
            (shutil.copytree if os.path.isdir(path) else shutil.copy)(path, self.path(f"tests/start.{part}"))

    def make(self, *words: str, status: int = 0) -> str:
        done = self.call("make", *words)
        said = (done.stdout + done.stderr).decode()
        self.assertEqual(done.returncode, status, said)
        self.assertNotIn("Traceback", said)
        return said

    @needs("make")
    def test_each_part_is_seen(self) -> None:
        self.use("calculator", "script")
        self.make("test", status=2)
        self.write("tests/start.report", "events 0\nexit 0\n")
        self.write("tests/start.ppm", "")
        self.succeed("uxn-test", "--update")
        self.assertIn("1 passed", self.make("test"))
        self.assertIn("unchanged", self.make("test"))
        for part in ("out", "err", "status", "report", "ppm"):
            kept = self.read(f"tests/start.{part}")
            self.write(f"tests/start.{part}", kept.replace(b"2", b"3") + b"more 1\n")
            self.assertIn("FAILED tests/start", self.make("test", status=2), part)
            self.write(f"tests/start.{part}", kept)
            self.make("test")

    @needs("make")
    def test_a_folder_of_files(self) -> None:
        self.use("notes", "script", "root", "out", "after")
        self.write("tests/none.script", "end\n")
        self.write("tests/none.out", self.succeed("uxn", "play", "game.tal", "--script", "tests/none.script"))
        self.assertIn("2 passed", self.make("test"))
        with open(self.path("tests/start.root/notes.txt"), "a", encoding="ascii") as file:
            file.write("more\n")
        said = self.make("test", status=2)
        self.assertIn("FAILED tests/start", said)
        self.assertIn("1 passed, 1 failed (1 unchanged", said)

    @needs("make")
    def test_roms(self) -> None:
        """A refused source leaves nothing, and a ROM that cannot be written is not kept."""
        self.use("hello")
        self.write("bad.tal", "#1")
        self.assertIn("source 1:1: BadNumber: #1", self.make("-k", status=2))
        self.assertEqual(
            sorted(name for name in os.listdir(self.folder) if name.endswith((".rom", ".lst", ".sym"))),
            ["game.lst", "game.rom", "game.rom.sym"],
        )
        self.write("fails", '#!/bin/sh\n: >"$4"; exit 136\n')
        os.chmod(self.path("fails"), 0o755)
        self.make("UXN=./fails", "bad.rom", status=2)
        self.assertFalse(os.path.exists(self.path("bad.rom")))
        self.make("clean")
        self.assertFalse(os.path.exists(self.path("game.rom")))

    @needs("make")
    def test_includes(self) -> None:
        """What is made of a source is made again where an included file has changed, and only then."""
        self.write("game.tal", "~lib/a.tal #18 DEO")
        self.write("other.tal", "BRK")
        self.write("lib/a.tal", "LIT ~lib/b.tal")
        self.write("lib/b.tal", "41")
        self.write("uxn-test.toml", 'program = "game.tal"\n')
        self.write("tests/start.out", "A")
        self.make("all", "test")
        self.make("-q", "all")
        time.sleep(0.02)
        self.write("lib/b.tal", "42")
        self.assertEqual(self.make("-n", "all").count(" asm "), 1)
        self.assertIn("-A", self.make("test", status=2))
        self.make("all")
        self.assertEqual(self.read("game.rom"), b"\x80B\x80\x18\x17")
        os.unlink(self.path("lib/b.tal"))
        self.assertIn("lib/b.tal", self.make("game.rom", status=2))

    @needs("make")
    def test_a_missing_source_is_said(self) -> None:
        self.write("tests/win.script", "end\n")
        self.write("tests/win.out", "")
        said = self.make("test", status=2)
        self.assertIn("no source beside the folder tests", said)
        self.assertNotIn("passed", said)

    @needs("make")
    def test_no_tests_is_a_failure(self) -> None:
        self.use("hello")
        self.assertIn("no tests", self.make("test", status=2))

    def test_the_commands_of_the_ci_job(self) -> None:
        """The job's own lines are run, over a project that holds the program and a copy of the tools; GitHub itself is
        not there."""
        self.use("hello", "out")
        os.makedirs(self.path("tools"))
        shutil.copy(self.program, self.path("tools/uxn"))
        shutil.copytree(EXTRAS, self.path("tools/extras"))
        with open(self.path(".github/workflows/test.yml"), encoding="utf-8") as file:
            steps = re.findall(r"(?m)^      - run: (.*)$", file.read())
        self.assertEqual([step.split()[0] for step in steps], ["printf", "uxn-test", "printf", "uxn-cover"])
        for shard, passed in ((1, "1 passed"), (2, "0 passed, 0 failed")):
            run = "\n".join(steps).replace("${{ matrix.shard }}", str(shard))
            run = re.sub(r"(?m)^(?=uxn-)", 'PATH=$(paste -sd: "$GITHUB_PATH"):$PATH ', run)
            done = self.call("sh", "-ec", run, GITHUB_PATH=self.path("paths"), PATH="/usr/local/bin:/usr/bin:/bin")
            self.assertIn(passed, done.stdout.decode(), done.stderr.decode())
            self.assertIn(b"<testsuites", self.read(f"report-{shard}.xml"))
            self.assertIn(b"SF:game.tal", self.read("coverage.info"))
