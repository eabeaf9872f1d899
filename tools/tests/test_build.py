"""tools/build: what it proves and in which order, and how it ends."""
from __future__ import annotations

import os
import signal
import subprocess
import sys
import time
import unittest
from pathlib import Path

import fake_toolchain
from making import lanes, sources
from support import CRATES, IDENTITY, Checkout, write

FAILED = 200


class Build(Checkout):
    def setUp(self) -> None:
        super().setUp()
        self.kit = self.folder / "a kit"
        self.path = f"{fake_toolchain.install(self.kit, IDENTITY)}:/usr/bin:/bin"
        self.out = self.top / "crates/uxn_program/out"

    def source(self, crate: str) -> Path:
        return self.top / "crates" / crate / "src" / ("main.rt" if crate == "uxn_program" else "lib.rt")

    def change(self, crate: str, *lines: str) -> None:
        write(self.source(crate), "".join(f"// {line}\n" for line in lines))

    def build(self) -> subprocess.CompletedProcess[str]:
        return self.tool("build", PATH=self.path)

    def start(self) -> subprocess.Popen[str]:
        words = [sys.executable, str(self.top / "tools/build")]
        return subprocess.Popen(words, env=self.environment(PATH=self.path), stderr=subprocess.PIPE, text=True)

    def proved(self) -> list[str]:
        """The crates that were proved since the last call, in the order in which they began."""
        log = self.kit / "log"
        lines = log.read_text().splitlines() if log.exists() else []
        log.unlink(missing_ok=True)
        return [line.split()[1] for line in lines if line.startswith("begin ")]

    def wait_for(self, event: str) -> None:
        end = time.time() + 20
        while not (self.kit / "events" / event).exists():
            self.assertLess(time.time(), end, f"there was no {event}")
            time.sleep(0.02)

    def assert_built(self, done: subprocess.CompletedProcess[str]) -> None:
        self.assertEqual((done.returncode, done.stdout), (0, ""), done.stderr)
        self.assertTrue(os.access(self.out / "uxn_program", os.X_OK))


class What(Build):
    def test_all_from_nothing(self) -> None:
        done = self.build()
        self.assert_built(done)
        lines = done.stderr.splitlines()
        self.assertRegex(lines[0], r"^uxn: building, which takes minutes once: 4 crates, up to \d+ at a time$")
        self.assertEqual(lines[1], "uxn: low is proved (1 of 4)")
        self.assertEqual(sorted(line.split()[1] for line in lines[2:4]), ["middle", "side"])
        self.assertEqual(lines[4:], ["uxn: uxn_program is proved (4 of 4)"])
        self.assertEqual((self.out / "build.log").read_text().count("== "), 4)

    def test_nothing_when_all_is_there(self) -> None:
        self.build()
        self.proved()
        done = self.build()
        self.assertEqual((done.returncode, done.stderr, self.proved()), (0, "", []))

    def test_nothing_when_only_times_changed(self) -> None:
        self.build()
        self.proved()
        os.utime(self.source("low"))
        self.assertEqual((self.build().stderr, self.proved()), ("", []))

    def test_what_changed_and_what_depends_on_it(self) -> None:
        self.build()
        for crate, proved in (("side", ["side", "uxn_program"]), ("low", list(CRATES)), ("uxn_program", ["uxn_program"])):
            self.proved()
            self.change(crate, "another")
            os.utime(self.source(crate), (1, 1))
            self.assert_built(self.build())
            self.assertEqual(sorted(self.proved()), sorted(proved))

    def test_all_by_another_toolchain(self) -> None:
        self.build()
        self.proved()
        write(self.kit / "identity", "another toolchain\n")
        self.change("uxn_program", "another")
        self.build()
        self.assertEqual(sorted(self.proved()), sorted(CRATES))

    def test_a_program_that_another_replaced(self) -> None:
        self.build()
        write(self.out / "uxn_program", "#!/bin/sh\n", 0o755)
        os.utime(self.out / "uxn_program", (1, 1))
        self.assert_built(self.build())
        self.assertIn("built", (self.out / "uxn_program").read_text())

    def test_a_change_during_the_build(self) -> None:
        self.change("uxn_program", "waits go")
        started = self.start()
        self.wait_for("begin-uxn_program")
        self.change("low", "late")
        (self.kit / "go").touch()
        self.assertEqual(started.wait(), 0)
        started.stderr.close()
        self.proved()
        self.build()
        self.assertEqual(sorted(self.proved()), sorted(CRATES))

    def test_the_launcher_builds_and_runs(self) -> None:
        done = self.run_uxn("play", "hello.tal", "--script=a b", PATH=self.path)
        self.assertEqual((done.returncode, done.stdout), (0, "built: play hello.tal --script=a b\n"))
        self.proved()
        self.assertEqual(self.run_uxn("--", "x", PATH=self.path).stdout, "built: -- x\n")
        self.assertEqual(self.proved(), [])
        self.assertEqual(self.run_uxn("dis", "--help", PATH="/usr/bin:/bin").stdout, "built: dis --help\n")


class Failures(Build):
    def test_a_proof_that_is_refused(self) -> None:
        self.change("middle", "says a fault|statements of no use|the last line", "status 1")
        done = self.build()
        self.assertEqual(done.returncode, FAILED)
        self.assertTrue(done.stderr.endswith("uxn: middle is not proved\na fault\nthe last line\n"), done.stderr)
        self.assertIn("== middle\na fault\n", (self.out / "build.log").read_text())
        self.assertFalse((self.out / "uxn_program").exists())
        self.assertFalse((self.out / "state").exists())

    def test_the_program_itself(self) -> None:
        self.change("uxn_program", "says no", "status 1")
        done = self.build()
        self.assertEqual((done.returncode, done.stderr.splitlines()[-2:]), (FAILED, ["uxn: uxn_program is not proved", "no"]))

    def test_what_was_proved_is_kept(self) -> None:
        self.change("uxn_program", "status 1")
        self.build()
        self.proved()
        self.change("uxn_program", "better")
        self.assert_built(self.build())
        self.assertEqual(self.proved(), ["uxn_program"])

    @unittest.skipIf(lanes.count() < 2, "proofs run one at a time here")
    def test_a_check_that_was_killed_is_tried_once_more(self) -> None:
        self.change("middle", "status 247")
        done = self.build()
        self.assert_built(done)
        self.assertIn("uxn: the proof of middle was killed, most likely for memory: from here on one at a time\n", done.stderr)
        self.assertEqual(self.proved().count("middle"), 2)

    def test_a_check_that_is_always_killed(self) -> None:
        self.change("middle", "status 247 247 247")
        done = self.build()
        self.assertEqual(done.returncode, FAILED)
        self.assertIn("uxn: middle is not proved\n", done.stderr)
        self.assertLessEqual(self.proved().count("middle"), 2)

    def test_no_toolchain(self) -> None:
        done = self.tool("build")
        text = "uxn: the program has to be built, and the Rattle toolchain's command rt is not in PATH\n"
        self.assertEqual((done.returncode, done.stdout, done.stderr), (FAILED, "", text))

    def test_a_wrong_call(self) -> None:
        done = self.tool("build", "now")
        self.assertEqual((done.returncode, done.stdout), (2, ""))
        self.assertEqual(done.stderr, "tools/build: unrecognized arguments: now (see tools/build --help)\n")


class SideBySide(Build):
    @unittest.skipIf(lanes.count() < 2, "proofs run one at a time here")
    def test_what_does_not_depend_on_one_another(self) -> None:
        self.change("middle", "waits events/begin-side")
        self.change("side", "waits events/begin-middle")
        begun = time.time()
        self.assert_built(self.build())
        self.assertLess(time.time() - begun, 15)

    def test_one_at_a_time_on_one_processor(self) -> None:
        one = min(os.sched_getaffinity(0))
        words = ["taskset", "-c", str(one), sys.executable, str(self.top / "tools/build")]
        done = subprocess.run(words, env=self.environment(PATH=self.path), capture_output=True, text=True, check=False)
        self.assertIn("4 crates, up to 1 at a time\n", done.stderr)
        events = [line.split()[0] for line in (self.kit / "log").read_text().splitlines() if not line.startswith("pid")]
        self.assertEqual(events, ["begin", "end"] * 4)

    def test_a_second_build_waits_for_the_first(self) -> None:
        self.change("low", "waits go")
        first = self.start()
        self.wait_for("begin-low")
        second = self.start()
        self.assertEqual(second.stderr.readline(), "uxn: another build is at work here; waiting for it\n")
        (self.kit / "go").touch()
        self.assertEqual((first.wait(), second.wait()), (0, 0))
        self.assertEqual(second.stderr.read(), "")
        self.assertEqual(sorted(self.proved()), sorted(CRATES))
        first.stderr.close(), second.stderr.close()


class Signals(Build):
    def assert_ends(self, number: signal.Signals) -> None:
        self.change("middle", "waits never")
        started = self.start()
        self.wait_for("begin-middle")
        self.wait_for("end-low")
        started.send_signal(number)
        self.assertEqual(started.wait(10), 128 + number)
        self.assertNotIn("Traceback", started.stderr.read())
        started.stderr.close()
        for line in (self.kit / "log").read_text().splitlines():
            if line.startswith("pid "):
                with self.assertRaises(ProcessLookupError):
                    os.kill(int(line.split()[1]), 0)
        self.assertFalse((self.out / "state").exists())
        self.proved()
        self.change("middle", "at once")
        self.assert_built(self.build())
        self.assertNotIn("low", self.proved())

    def test_interrupt(self) -> None:
        self.assert_ends(signal.SIGINT)

    def test_termination(self) -> None:
        self.assert_ends(signal.SIGTERM)

    def test_hang_up(self) -> None:
        self.assert_ends(signal.SIGHUP)

    def test_a_signal_that_is_ignored(self) -> None:
        self.change("low", "waits go")
        words = ["sh", "-c", "trap '' HUP; exec \"$@\"", "sh", sys.executable, str(self.top / "tools/build")]
        started = subprocess.Popen(words, env=self.environment(PATH=self.path), stderr=subprocess.DEVNULL)
        self.wait_for("begin-low")
        started.send_signal(signal.SIGHUP)
        (self.kit / "go").touch()
        self.assertEqual(started.wait(), 0)


class Order(Checkout):
    def test_the_longest_way_first(self) -> None:
        write(self.top / "crates/side/proofs/long.antt", "-" * 1000)
        crates = sources.Crates.read(self.top)
        self.assertEqual(crates.by_longest_way(), ["low", "side", "middle", "uxn_program"])
        write(self.top / "crates/middle/proofs/long.antt", "-" * 2000)
        self.assertEqual(crates.by_longest_way(), ["low", "middle", "side", "uxn_program"])

    def test_what_the_program_does_not_need(self) -> None:
        with open(self.top / "crates.txt", "a", encoding="utf-8") as file:
            file.write("tests: uxn_program\n")
        self.assertNotIn("tests", sources.Crates.read(self.top).needed())


class Lanes(Checkout):
    def count(self, processors: int, free: int, allowed: str) -> int:
        memory = write(self.folder / "meminfo", f"MemTotal: 99999999 kB\nMemAvailable: {free} kB\n")
        return lanes.count(processors, memory, write(self.folder / "memory.max", allowed + "\n"))

    def test_processors_and_memory(self) -> None:
        self.assertEqual(self.count(4, 99_000_000, "max"), 4)
        self.assertEqual(self.count(4, 7_000_000, "max"), 2)
        self.assertEqual(self.count(4, 99_000_000, str(10_000_000 * 1024)), 3)
        self.assertEqual(self.count(4, 1_000_000, "max"), 1)
        self.assertEqual(lanes.count(4, self.folder / "none", self.folder / "none"), 1)


class Sums(Checkout):
    def test_the_shell_has_the_same_checksum(self) -> None:
        command = (
            "find crates.txt crates -name out -prune -o \\( -name '*.rt' -o -name '*.antt' -o -path crates.txt \\) -type f -print"
            " | LC_ALL=C sort | xargs sha256sum | sha256sum"
        )
        write(self.top / "crates/low/out/left.rt", "not this\n")
        write(self.top / "crates/low/data/crates.txt", "nor this\n")
        said = subprocess.run(["sh", "-c", command], cwd=self.top, capture_output=True, text=True, check=True).stdout
        self.assertEqual(said.split()[0], self.checksum())

    def test_it_is_of_names_and_contents(self) -> None:
        before = self.checksum()
        write(self.top / "crates/low/README.md", "a page\n")
        self.assertEqual(self.checksum(), before)
        source = self.top / "crates/low/src/lib.rt"
        source.rename(source.with_name("other.rt"))
        renamed = self.checksum()
        write(source, "//! low\n")
        self.assertEqual(len({before, renamed, self.checksum()}), 3)


if __name__ == "__main__":
    unittest.main()
