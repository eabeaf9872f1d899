"""uxn-test: what passes, what fails and what it says of it; recording; kept results; reports for other tools."""
import os
import re
import shutil
import signal
import struct
import subprocess
import time
import xml.etree.ElementTree as ElementTree

from support import EXAMPLES, EXTRAS, ToolTest
from terminal import Terminal

PROGRAMS = os.path.join(EXTRAS, "tests", "programs")
# A program that prints what it is given.
ECHO = ";on-read #10 DEO2 BRK @on-read #17 DEI #04 EQU ?{ #12 DEI #18 DEO } BRK"
HELLO = 'LIT "h #18 DEO LIT "i #18 DEO #0a18 DEO BRK'
SHOT = "#0f00 #08 DEO2 #0008 DUP2 #22 DEO2 #24 DEO2 #0002 DUP2 #28 DEO2 #2a DEO2 #01 #2e DEO BRK"


class Suite(ToolTest):
    """A project with a program that prints its input, and calls of uxn-test in it."""

    def setUp(self) -> None:
        super().setUp()
        self.write("game.tal", ECHO)

    def run_tests(self, *words: str, status: int = 0) -> str:
        done = self.call("uxn-test", *words)
        said = (done.stdout + done.stderr).decode()
        self.assertEqual(done.returncode, status, said)
        self.assertNotIn("Traceback", said)
        return said


def files(test: Suite, **named: str | bytes) -> None:
    """Writes files of tests: win_out for tests/win.out."""
    for name, data in named.items():
        test.write("tests/" + name.replace("_", "."), data)


class Passing(Suite):
    def test_script_and_output(self) -> None:
        files(self, win_script='input "hi 0a\nend\n', win_out="hi\n")
        self.assertRegex(self.run_tests(), r"^1 passed, 0 failed, ")

    def test_an_expect_is_enough(self) -> None:
        self.write("game.tal", "#07 #f0 DEO BRK")
        files(self, port_script="script 2\nexpect f0 07\n")
        self.run_tests()

    def test_all_kinds_of_files(self) -> None:
        """The examples: scripts, pictures, samples, folders of files, machines in a line, sessions of the debugger."""
        shutil.copytree(EXAMPLES, self.path("all"), ignore=shutil.ignore_patterns(".uxn-test"))
        self.assertRegex(self.run_tests("all"), r"^2\d passed, 0 failed")
        listed = self.run_tests("all", "--list").split()
        for name in ("hello", "bounce", "chord", "calculator", "save", "mistake", "numbered"):
            self.assertIn(f"all/{name}", listed)

    def test_a_test_that_is_a_folder(self) -> None:
        self.write("tests/long/script", 'input "ab\n')
        self.write("tests/long/out", "ab")
        self.write("tests/long/status", "0\n")
        self.assertEqual(self.run_tests("--list"), "tests/long\n")
        self.run_tests()
        self.write("tests/long/out", "ac")
        self.assertIn(
            "FAILED tests/long\n    out: it differs from tests/long/out", self.run_tests("tests/long", status=1)
        )

    def test_files_that_lie_about_make_no_test(self) -> None:
        """Files with the name of a part, in the folder of the project and in that of its tests."""
        files(self, win_out="")
        self.write("tests/deep/win.out", "")
        for folder in ("", "tests/"):
            for part in ("log", "out", "script"):
                self.write(f"{folder}{part}", "what another program wrote")
        for words in ([], ["."], [self.folder], ["tests"], ["tests/"]):
            listed = [os.path.join(self.folder, name) for name in self.run_tests(*words, "--list").split()]
            self.assertEqual(listed, [self.path("tests/deep/win"), self.path("tests/win")], words)
        self.assertRegex(self.run_tests(), "^2 passed, 0 failed")
        self.assertEqual(self.run_tests("tests/deep", "--list"), "tests/deep/win\n")

    def test_a_folder_that_is_a_test_hides_no_other(self) -> None:
        self.write("tests/deep/out", "")
        self.write("tests/deep/win.out", "")
        self.write("tests/deep/more/win.out", "")
        self.write("tests/deep/root/no/win.out", "a file of the program")
        wanted = ["tests/deep", "tests/deep/more/win", "tests/deep/win"]
        for words in ([], ["tests/deep"]):
            self.assertEqual(self.run_tests(*words, "--list").split(), wanted)
        self.assertRegex(self.run_tests(), "^3 passed, 0 failed")

    def test_a_folder_that_is_named_is_a_test(self) -> None:
        self.write("uxn-test.toml", '[folder."checks/one"]\nprogram = "game.tal"\n')
        self.write("checks/one/script", 'input "ab\nend\n')
        self.write("checks/one/out", "ab")
        self.write("checks/one/root/note.out", "a file of the program")
        self.write("checks/out", "no test")
        for words in ([], ["."], ["checks"], ["checks/one"]):
            self.assertEqual(self.run_tests(*words, "--list"), "checks/one\n", words)
        self.assertRegex(self.run_tests("checks/one"), "^1 passed, 0 failed")
        self.write("checks/one/out", "ac")
        self.assertIn("FAILED checks/one\n", self.run_tests(status=1))

    def test_names_and_folders(self) -> None:
        files(self, win_script='input "a', win_out="a", lose_script='input "b', lose_out="b")
        self.write("tests/more/win.script", 'input "c')
        self.write("tests/more/win.out", "c")
        for words, listed in (
            (["win"], "tests/more/win tests/win"),
            (["tests/win"], "tests/win"),
            (["tests/win.script"], "tests/win"),
            (["tests/more"], "tests/more/win"),
            (["l*"], "tests/lose"),
            (["."], "tests/lose tests/more/win tests/win"),
            (["tests/win", "lose"], "tests/lose tests/win"),
        ):
            self.assertEqual(self.run_tests(*words, "--list").split(), listed.split(), words)
        done = subprocess.run(
            ["uxn-test", "win"], cwd=self.path("tests"), env=self.environment, capture_output=True, check=False
        )
        self.assertEqual((done.returncode, done.stdout.decode().split(",")[0]), (0, "2 passed"))

    def test_options_of_the_file(self) -> None:
        self.write("other.tal", HELLO)
        self.write("loop.tal", "@on-reset !on-reset")
        self.write("checks/hi.out", "hi\n")
        self.write("checks/deep/loop.report", "cuts 1\ninstructions 50\n")
        self.write(
            "uxn-test.toml",
            '[folder.checks]\nprogram = "other.tal"\n[folder."checks/deep"]\nprogram = "loop.tal"\nbudget = 50\n',
        )
        self.assertRegex(self.run_tests(), "^2 passed")
        self.write(
            "uxn-test.toml",
            '[folder.checks]\nprogram = "other.tal"\n'
            '[test."checks/deep/loop"]\nprogram = "loop.tal"\nbudget = 50\ncuts = 1\n',
        )
        self.assertRegex(self.run_tests(), "^2 passed")

    def test_a_line_of_machines_with_scripts(self) -> None:
        self.write("next.tal", ";on-read #10 DEO2 BRK @on-read #17 DEI #04 EQU ?{ #12 DEI INC #18 DEO } BRK")
        self.write("pair.setup", "machine game.tal\nmachine next.tal\n")
        self.write("uxn-test.toml", 'program = "pair.setup"\n')
        files(
            self,
            one_script='input "AB\nend\n',
            one_out="BC",
            own_setup="machine game.tal\nmachine game.tal\nscript tests/one.script\n",
            own_out="AB",
        )
        self.assertRegex(self.run_tests(), "^2 passed")
        files(self, one_out="BD")
        self.assertIn("FAILED tests/one", self.run_tests(status=1))

    def test_ignored_output(self) -> None:
        files(self, win_script='script 2\ninput "a\nexpect 12 61\n')
        self.assertIn("nothing is wanted: there is no tests/win.out", self.run_tests(status=1))
        self.write("uxn-test.toml", 'ignore = ["out"]\n')
        self.run_tests()


class Failing(Suite):
    """Each of these passed, or was recorded, by the script that was there before."""

    def test_a_missed_expect(self) -> None:
        files(self, win_script='script 2\ninput "a\nexpect 12 61\nexpect 12 62\n', win_out="a")
        said = self.run_tests(status=1)
        self.assertIn("report: 1 of 2 expects missed\n      tests/win.script:4: expect 12 62: port 12 held 61\n", said)
        files(self, win_report="misses 0\n")
        self.assertIn("1 of 2 expects missed", self.run_tests(status=1))
        files(self, win_report="misses 1\n")
        self.assertIn("1 of 2 expects missed", self.run_tests(status=1))
        self.write("uxn-test.toml", '[test."tests/win"]\nmisses = 1\n')
        self.run_tests()

    def test_only_the_lines_of_a_report_that_are_named(self) -> None:
        files(self, win_script='script 2\ninput "a\nexpect 12 61\n', win_out="a", win_report="misses 0\n")
        self.run_tests()
        self.write("game.tal", ECHO.replace("BRK", "#00 POP BRK"))
        self.run_tests()
        files(self, win_report="misses 0\nevents 3\n")
        self.assertIn("report: events is 2; wanted is 3", self.run_tests(status=1))

    def test_a_cut(self) -> None:
        self.write("game.tal", "@on-reset !on-reset")
        files(self, loop_status="0\n")
        self.assertIn("a vector used up its budget and was cut", self.run_tests(status=1))
        files(self, loop_report="cuts 1\n")
        self.run_tests()
        files(self, loop_report="cuts 2\n")
        self.run_tests(status=1)

    def test_refused_calls(self) -> None:
        files(self, win_script="frame 0\n", win_out="")
        self.assertIn("the call was refused with status 132: script 1: BadValue", self.run_tests(status=1))
        files(self, win_status="132\n")
        self.assertIn("was refused", self.run_tests(status=1))
        files(self, win_err="script 1: BadValue\n")
        self.run_tests()
        os.unlink(self.path("game.tal"))
        self.write("uxn-test.toml", 'program = "gone.tal"\n')
        self.assertIn("the call was refused with status 130: missing: gone.tal", self.run_tests(status=1))

    def test_statuses_of_no_run(self) -> None:
        self.write("game.tal", "#ff #0f DEO BRK")
        files(self, end_out="")
        self.assertIn("with status 127", self.run_tests(status=1))
        files(self, end_status="127")
        self.run_tests()
        for status in (126, 136, 137, 138):
            self.environment["UXN"] = self.path("fails")
            self.write("fails", f"#!/bin/sh\nexit {status}\n")
            os.chmod(self.path("fails"), 0o755)
            self.assertIn(f"with status {status}", self.run_tests(status=1))

    def test_nothing_is_wanted(self) -> None:
        files(self, win_script="end\n")
        self.assertIn("it wants nothing", self.run_tests(status=1))
        files(self, win_out="")
        self.run_tests()

    def test_what_is_ignored_is_not_wanted(self) -> None:
        files(self, win_out="other")
        self.write("uxn-test.toml", 'ignore = ["out"]\n')
        self.assertIn("it wants nothing", self.run_tests(status=1))

    def test_a_file_in_place_of_a_folder(self) -> None:
        files(self, win_script="end\n", win_out="", win_after="")
        self.assertIn("tests/win.after: it has to be a folder", self.refuse(2, "uxn-test"))

    def test_a_name_that_is_no_text(self) -> None:
        files(self, win_out="")
        for part, data in ((b"script", b'input "a\n'), (b"out", b"b")):
            with open(os.path.join(os.fsencode(self.folder), b"tests", b"\xff." + part), "wb") as file:
                file.write(data)
        for _ in range(2):
            done = self.call("uxn-test")
            self.assertIn(b"FAILED tests/\\xff\n", done.stdout, done.stderr)
            self.assertEqual((done.returncode, done.stderr), (1, b""))
            time.sleep(0.1)

    def test_no_tests(self) -> None:
        self.assertIn("no tests", self.refuse(1, "uxn-test"))
        os.mkdir(self.path("tests"))
        self.assertIn("no tests", self.refuse(1, "uxn-test"))
        self.assertIn("no tests", self.refuse(1, "uxn-test", "tests"))
        files(self, win_script="end\n", win_out="")
        self.assertIn("there is no such test", self.refuse(2, "uxn-test", "wni"))

    def test_expects_behind_the_end(self) -> None:
        self.write("game.tal", ";on-key #80 DEO2 BRK @on-key #80 #0f DEO BRK")
        files(self, end_script="script 2\nexpect 0f 00\nkey 20\nexpect 0f 00\n")
        self.assertIn("the run ended before 1 of its 2 expects", self.run_tests(status=1))
        files(self, end_report="expects 1\n")
        self.run_tests()

    def test_a_program_that_is_not_said(self) -> None:
        self.write("other.tal", HELLO)
        files(self, win_out="")
        self.assertIn("2 sources (game.tal, other.tal)", self.refuse(2, "uxn-test"))
        os.unlink(self.path("other.tal"))
        os.unlink(self.path("game.tal"))
        self.assertIn("no source", self.refuse(2, "uxn-test"))

    def test_a_time_limit(self) -> None:
        self.write("slow", "#!/bin/sh\nexec sleep 30\n")
        os.chmod(self.path("slow"), 0o755)
        files(self, win_out="")
        self.environment["UXN"] = self.path("slow")
        self.assertIn("it did not end within 1 seconds", self.run_tests("--seconds", "1", status=1))


class WrongCalls(Suite):
    def test_options(self) -> None:
        files(self, win_out="")
        for words in (
            ["--nope"],
            ["-j", "0"],
            ["-j"],
            ["--shard", "3/2"],
            ["--shard", "0/2"],
            ["--allow", "cut"],
            ["--update", "--allow", "cut"],
            ["--update", "--allow", "all", "win"],
            ["--watch", "--tap"],
        ):
            self.refuse(2, "uxn-test", *words)
        self.assertIn("usage: uxn-test", self.succeed("uxn-test", "--help"))

    def test_the_file(self) -> None:
        files(self, win_out="")
        for text in (
            "program = 3",
            "[folder.tests]\nbudget = 0",
            "colour = 1",
            "[",
            "folder = 1",
            '[folder."nowhere"]',
            '[test."tests/gone"]\ncuts = 1',
            'ignore = ["ppm"]',
            "cuts = true",
            "\udcff",
        ):
            self.write("uxn-test.toml", text.encode("utf-8", "surrogateescape"))
            self.assertIn("uxn-test", self.refuse(2, "uxn-test"))

    def test_no_program(self) -> None:
        files(self, win_out="")
        self.assertIn("there is no program", self.refuse(127, "uxn-test", UXN="no-such-uxn"))


class Showing(Suite):
    def test_texts_show_control_bytes(self) -> None:
        files(self, win_script='input "one 0a 1b "two 09 0a "three\n', win_out="one\ntwo\t\nthree\n")
        said = self.run_tests(status=1)
        self.assertIn(
            "      one\n      -two\\t\n      -three\n"
            "      +\\x1btwo\\t\n      +three\\ (without a newline at its end)\n",
            said,
        )
        self.assertEqual(self.read(".uxn-test/failed/tests.win/out"), b"one\n\x1btwo\t\nthree")

    def test_the_first_byte_of_others(self) -> None:
        files(self, win_script="input 00 01 02 ff 04\n", win_out=bytes([0, 1, 2, 3, 4]))
        self.assertIn(
            "byte 3 (0003) differs: wanted is 03, it is ff; 5 bytes are wanted, 5 came", self.run_tests(status=1)
        )

    def test_pictures(self) -> None:
        self.write("game.tal", SHOT)
        files(self, win_script="shot\nshot\n")
        self.run_tests("--update")
        self.write("game.tal", SHOT.replace("#0002", "#0003"))
        said = self.run_tests(status=1)
        self.assertIn("picture 1 differs", said)
        self.assertIn("2 of 64 pixels differ, in columns 2 to 3 and rows 2 to 3", said)
        self.assertRegex(said, r"column 2, row 2: wanted is [0-9a-f]{6}, it is [0-9a-f]{6}")
        for name in ("wanted", "got", "difference"):
            data = self.read(f".uxn-test/failed/tests.win/picture-2-{name}.png")
            self.assertEqual((data[:8], struct.unpack(">II", data[16:24])), (b"\x89PNG\r\n\x1a\n", (64, 64)))
        self.write("game.tal", SHOT.replace("#0008", "#0009"))
        self.assertIn("picture 1 has 9 by 9 pixels; wanted are 8 by 8", self.run_tests(status=1))
        files(self, win_script="shot\n")
        self.assertIn("pictures that came: 1; wanted: 2", self.run_tests(status=1))

    def test_samples(self) -> None:
        shutil.copy(os.path.join(EXAMPLES, "chord.tal"), self.path("game.tal"))
        with open(os.path.join(EXAMPLES, "chord.samples"), "rb") as file:
            data = file.read()
        place = 4 * 1000 + 2
        files(self, chord_samples=data[:place] + b"\x55\x55" + data[place + 2 :])
        shutil.copy(os.path.join(EXAMPLES, "chord.script"), self.path("tests/chord.script"))
        said = self.run_tests(status=1)
        self.assertRegex(
            said,
            r"from frame 2, pair 265 of it \(0\.0227 s\) on: "
            r"wanted is left -?\d+, right 21845; it is left -?\d+, right -?\d+",
        )
        self.assertEqual(self.read(".uxn-test/failed/tests.chord/samples.png")[:4], b"\x89PNG")
        files(self, chord_samples=data)
        self.run_tests()
        self.assertFalse(os.path.exists(self.path(".uxn-test/failed/tests.chord")))

    def test_files_after_the_run(self) -> None:
        shutil.copy(os.path.join(EXAMPLES, "notes.tal"), self.path("game.tal"))
        os.mkdir(self.path("tests"))
        for part in ("script", "out", "root", "after"):
            path, target = os.path.join(EXAMPLES, f"notes.{part}"), self.path(f"tests/notes.{part}")
            (shutil.copytree if os.path.isdir(path) else shutil.copy)(path, target)
        self.run_tests()
        self.write("tests/notes.after/notes.txt", "other\n")
        self.write("tests/notes.after/more.txt", "more\n")
        said = self.run_tests(status=1)
        self.assertIn("after: notes.txt: it differs", said)
        self.assertIn("after: more.txt: it is not there", said)
        shutil.rmtree(self.path("tests/notes.after"))
        self.assertIn("after: notes.txt: it differs", self.run_tests(status=1))


class Warnings(Suite):
    """What is said beside the outcome, which stays the same."""

    def said(self, *words: str) -> list[str]:
        done = self.call("uxn-test", *words)
        self.assertEqual(done.returncode, 0, done.stdout.decode() + done.stderr.decode())
        return done.stderr.decode().splitlines()

    def test_misspelt_files(self) -> None:
        files(self, nop_script='input "a\n', nop_out="a", nop_oot="b", nop_expected="c", other_oot="no test's")
        self.write("tests/nop.aftr/x", "")
        self.write("tests/nop.more/win.script", 'input "a\n')
        self.write("tests/nop.more/win.out", "a")
        self.write("tests/two/script", 'input "a\n')
        self.write("tests/two/out", "a")
        self.write("tests/two/rot/x", "")
        self.write("tests/two/notes", "")
        wanted = [
            "uxn-test: tests/nop.aftr: no test reads it: is it .after?",
            "uxn-test: tests/nop.expected: no test reads it",
            "uxn-test: tests/nop.oot: no test reads it: is it .out?",
            "uxn-test: tests/two/rot: no test reads it: is it root?",
        ]
        self.assertEqual(self.said(), wanted)
        self.assertEqual(self.said("--list"), [])
        self.assertEqual(self.said("--update"), wanted)

    def test_files_of_other_uses(self) -> None:
        """Programs, pictures, notes, backups, and what the configuration names."""
        files(self, nop_script="end\n", nop_out="", nop_tal="BRK", nop_png="", nop_md="", **{"nop_out~": ""})
        self.write("tests/nop.files/x", "")
        self.write("uxn-test.toml", 'program = "tests/*.tal"\n[test."tests/nop"]\nroot = "tests/nop.files"\n')
        self.assertEqual(self.said(), [])

    def test_pictures_that_are_not_compared(self) -> None:
        self.write("game.tal", SHOT)
        files(self, win_script="shot\n", win_out="", other_script="# shot\n", other_out="")
        for _ in range(2):
            self.assertEqual(self.said(), ["uxn-test: tests/win: pictures are not compared: --update records them"])
        self.assertEqual(self.said("--update"), [])
        self.assertEqual(self.said(), [])

    def test_folders_that_git_leaves_out(self) -> None:
        files(self, win_script='input "a\n', both_script='input "a\n', full_script='input "a\n')
        os.makedirs(self.path("tests/win.root/saves"))
        os.makedirs(self.path("tests/both.root"))
        self.write("tests/full.root/saves/x", "")
        end = "is empty, and git leaves out empty folders: put a file in it"
        wanted = [f"uxn-test: tests/both.root {end}", f"uxn-test: tests/win.root/saves {end}"]
        self.assertEqual(self.said("--update"), wanted)
        self.assertEqual(self.said(), [])

    def test_an_empty_root_that_is_written(self) -> None:
        """Without the folder the root begins empty too, since files are wanted after the run."""
        self.write("game.tal", ';name #a8 DEO2 #0002 #aa DEO2 ;name #ae DEO2 BRK @name "new 00')
        files(self, win_script="end\n")
        os.mkdir(self.path("tests/win.root"))
        said = self.run_tests("--update")
        self.assertIn("    after: new: 2 bytes, new\n", said)
        self.assertNotIn("is empty", said)
        os.rmdir(self.path("tests/win.root"))
        self.run_tests()
        self.write("game.tal", "BRK")
        self.assertIn("    after: new: nothing any more\n", self.run_tests("--update"))


class Recording(Suite):
    def test_it_is_shown_and_then_passes(self) -> None:
        files(self, win_script='input "hi 0a\n')
        said = self.run_tests("--update")
        self.assertIn("recorded tests/win\n", said)
        self.assertIn("+hi", said)
        self.assertEqual(self.read("tests/win.out"), b"hi\n")
        self.run_tests()
        self.assertIn("unchanged tests/win", self.run_tests("--update"))

    def test_what_is_recorded(self) -> None:
        shutil.copy(os.path.join(EXAMPLES, "calculator.tal"), self.path("game.tal"))
        os.mkdir(self.path("tests"))
        shutil.copy(os.path.join(EXAMPLES, "calculator.script"), self.path("tests/sum.script"))
        files(self, sum_report="events 0\n")
        self.run_tests("--update")
        self.assertEqual(
            sorted(os.listdir(self.path("tests"))), ["sum.err", "sum.out", "sum.report", "sum.script", "sum.status"]
        )
        with open(os.path.join(EXAMPLES, "calculator.out"), "rb") as file:
            self.assertEqual(self.read("tests/sum.out"), file.read())
        self.assertEqual((self.read("tests/sum.status"), self.read("tests/sum.report")), (b"2\n", b"events 50\n"))
        self.run_tests()

    def test_a_silent_program_wants_silence(self) -> None:
        self.write("game.tal", "BRK")
        files(self, win_script="end\n")
        self.run_tests("--update")
        self.run_tests()
        self.write("game.tal", HELLO)
        self.run_tests(status=1)

    def test_never_a_refusal_a_cut_or_a_miss(self) -> None:
        cases = (
            ("frame 0\n", ECHO, "refusal"),
            ("end\n", "@on-reset !on-reset", "cut"),
            ("script 2\nexpect f0 01\n", ECHO, "miss"),
        )
        for text, program, kind in cases:
            self.write("game.tal", program)
            files(self, win_script=text)
            self.assertIn(f"--allow {kind}", self.run_tests("--update", status=1))
            self.assertEqual(os.listdir(self.path("tests")), ["win.script"])
            self.run_tests("--update", "--allow", kind, "win")
            self.run_tests(status=1 if kind == "miss" else 0)
            shutil.rmtree(self.path("tests"))

    def test_never_an_early_end(self) -> None:
        self.write("fails", "#!/bin/sh\nexit 136\n")
        os.chmod(self.path("fails"), 0o755)
        files(self, win_script="end\n")
        self.environment["UXN"] = self.path("fails")
        self.assertIn(
            "not without --allow early: the call ended early with status 136", self.run_tests("--update", status=1)
        )
        self.assertEqual(os.listdir(self.path("tests")), ["win.script"])

    def test_a_misspelt_name_and_a_missing_program(self) -> None:
        files(self, win_script="end\n")
        self.refuse(2, "uxn-test", "--update", "wni")
        self.write("uxn-test.toml", 'program = "gone.tal"\n')
        self.assertIn("missing: gone.tal", self.run_tests("--update", status=1))
        self.assertEqual(os.listdir(self.path("tests")), ["win.script"])


class Keeping(Suite):
    """Results that are kept are answered without a run, and only as long as nothing of the run has changed."""

    def setUp(self) -> None:
        super().setUp()
        self.write("lib/a.tal", "( nothing )")
        self.write("game.tal", ECHO + " ~lib/a.tal")
        files(self, win_script='input "a\n', win_out="a", lose_script='input "b\n', lose_out="b")
        time.sleep(0.1)
        self.run_tests()

    def test_nothing_is_run_again(self) -> None:
        self.assertIn("(2 unchanged, not run again)", self.run_tests())
        self.assertIn("passed tests/win (unchanged)\n", self.run_tests("-v"))
        self.assertNotIn("unchanged", self.run_tests("--fresh"))

    def test_each_file_counts(self) -> None:
        for name, data, old in (
            ("tests/win.script", 'input "a\n\n', 1),
            ("lib/a.tal", "( more )", 0),
            ("uxn-test.toml", "budget = 1000\n", 2),
        ):
            self.write(name, data)
            self.assertIn("2 passed", self.run_tests())
            self.write(name, data + " ")
            said = self.run_tests()
            self.assertIn(f"({old} unchanged" if old else "2 passed, 0 failed, ", said)
        self.write("lib/a.tal", 'LIT "x #18 DEO')
        self.assertIn("2 passed", self.run_tests())
        self.write("lib/a.tal", "#1")
        self.assertIn("0 passed, 0 failed, 2 not run", self.run_tests(status=1))

    def test_what_is_wanted_counts(self) -> None:
        files(self, win_out="c")
        for _ in range(2):
            said = self.run_tests(status=1)
            self.assertIn("-c", said)
            self.assertIn("(2 unchanged, not run again)", said)
        files(self, win_out="a")
        self.assertIn("2 passed", self.run_tests())

    def test_files_beneath_the_root_count(self) -> None:
        self.write("tests/win.root/a", "1")
        self.assertIn("(1 unchanged", self.run_tests())
        self.assertIn("(2 unchanged", self.run_tests())
        self.write("tests/win.root/a", "2")
        self.assertIn("(1 unchanged", self.run_tests())

    def test_a_root_with_a_link_is_refused(self) -> None:
        self.write("elsewhere/a", "1")
        os.mkdir(self.path("tests/win.root"))
        os.symlink(self.path("elsewhere"), self.path("tests/win.root/more"))
        for _ in range(2):
            said = self.run_tests(status=1)
            self.assertIn("test: tests/win.root/more: it is a symbolic link\n", said)
            self.assertIn("1 passed, 1 failed (1 unchanged", said)

    def test_another_program_counts(self) -> None:
        shutil.copy(self.program, self.path("other"))
        self.environment["UXN"] = self.path("other")
        self.assertIn("(2 unchanged", self.run_tests())
        with open(self.path("other"), "ab") as file:
            file.write(b"\0")
        self.assertNotIn("unchanged", self.run_tests())

    def test_a_torn_store_is_made_anew(self) -> None:
        self.write(".uxn-test/results.sqlite", b"nonsense" * 1000)
        self.assertNotIn("unchanged", self.run_tests())
        self.assertIn("(2 unchanged", self.run_tests())


class Reports(Suite):
    def setUp(self) -> None:
        super().setUp()
        files(self, win_script='input "a\n', win_out="a", lose_script='input "b "<&]]> 1b\n', lose_out="c")

    def test_tap(self) -> None:
        lines = self.run_tests("--tap", status=1).splitlines()
        self.assertEqual(lines[:3], ["TAP version 13", "1..2", "not ok 1 - tests/lose"])
        self.assertEqual(lines[-1], "ok 2 - tests/win")

    def test_junit(self) -> None:
        self.run_tests("--junit", "report.xml", status=1)
        suite = ElementTree.parse(self.path("report.xml")).getroot()[0]
        self.assertEqual(
            [(case.get("classname"), case.get("name"), len(case)) for case in suite],
            [("tests", "lose", 1), ("tests", "win", 0)],
        )
        self.assertEqual((suite.get("tests"), suite.get("failures")), ("2", "1"))
        self.assertIn("-c", suite[0][0].text or "")

    def test_shards_are_parts(self) -> None:
        parts = [self.run_tests("--list", "--shard", f"{k}/3").split() for k in (1, 2, 3)]
        self.assertEqual(parts, [["tests/lose"], ["tests/win"], []])
        self.assertRegex(self.run_tests("--shard", "2/3"), "^1 passed")
        self.assertRegex(self.run_tests("--shard", "3/3"), "^0 passed, 0 failed")

    def test_verbose(self) -> None:
        self.assertIn("passed tests/win\n", self.run_tests("-v", status=1))


class Long(Suite):
    def wait_for(self, process: subprocess.Popen[bytes], text: str, seconds: float = 20) -> str:
        """What a process says until a text comes."""
        said, start = b"", time.monotonic()
        assert process.stdout
        while text.encode() not in said and time.monotonic() - start < seconds:
            said += os.read(process.stdout.fileno(), 65536) or b"(the end)"
        self.assertIn(text, said.decode())
        return said.decode()

    def test_watch_runs_what_a_change_concerns(self) -> None:
        self.write("lib/a.tal", "( nothing )")
        self.write("game.tal", ECHO + " ~lib/a.tal")
        files(self, win_script='input "a\n', win_out="a", lose_script='input "b\n', lose_out="b")
        process = subprocess.Popen(
            ["uxn-test", "--watch"], cwd=self.folder, env=self.environment, stdout=subprocess.PIPE
        )
        try:
            self.wait_for(process, "2 passed")
            time.sleep(0.3)
            files(self, win_out="c")
            said = self.wait_for(process, "0 passed, 1 failed")
            self.assertNotIn("tests/lose", said)
            self.write("lib/a.tal", "#1")
            self.wait_for(process, "0 passed, 0 failed, 2 not run")
            self.write("lib/a.tal", "( right )")
            files(self, win_out="a")
            self.wait_for(process, " passed, 0 failed")
            files(self, new_out="")
            self.wait_for(process, "1 passed, 0 failed")
        finally:
            process.send_signal(signal.SIGINT)
            self.assertEqual(process.wait(10), 130)
            process.stdout.close()

    def test_an_interrupt_leaves_no_folder(self) -> None:
        self.write("slow", "#!/bin/sh\nexec sleep 30\n")
        os.chmod(self.path("slow"), 0o755)
        files(self, win_out="", lose_out="")
        for number in (signal.SIGINT, signal.SIGTERM):
            environment = {**self.environment, "UXN": self.path("slow")}
            process = subprocess.Popen(["uxn-test"], cwd=self.folder, env=environment, stderr=subprocess.PIPE)
            while not self.run_folders():
                time.sleep(0.05)
            process.send_signal(number)
            self.assertEqual((process.communicate(timeout=20)[1], process.returncode), (b"", 130))
            self.assertEqual(self.run_folders(), [])

    def run_folders(self) -> list[str]:
        path = self.path(".uxn-test")
        return [name for name in os.listdir(path) if name.startswith("run-")] if os.path.isdir(path) else []

    def test_many_small_tests(self) -> None:
        for number in range(1000):
            self.write(f"tests/t{number}.script", f'input "{number}\n')
            self.write(f"tests/t{number}.out", str(number))
        time.sleep(0.1)
        self.assertIn("1000 passed", self.run_tests())
        self.assertIn("(1000 unchanged", self.run_tests())


class AtATerminal(Suite):
    def test_a_progress_line_and_a_summary(self) -> None:
        files(self, win_script='input "a\n', win_out="a", lose_script='input "b\n', lose_out="c")
        terminal = Terminal(["uxn-test", "-j", "1"], self.folder, self.environment)
        self.assertRegex(terminal.wait_for("FAILED\x1b[0m tests/lose"), r"\r\x1b\[K[012] of 2 tests")
        terminal.wait_for("1 passed, 1 failed")
        self.assertEqual(terminal.end(), 1)


class Lights(Suite):
    """A game of 169 lines with a planted bug: at the right border the light of the next row is switched."""

    def setUp(self) -> None:
        super().setUp()
        with open(os.path.join(PROGRAMS, "lights.tal"), encoding="utf-8") as file:
            self.source = file.read()
        self.write("game.tal", self.source)
        files(
            self,
            win_script="script 2\nshot\ndown a\nup a\ndown right\nup right\ndown right\nup right\n"
            "expect f0 04\nshot\ndown a\nshot\n",
            right_script='script 2\ninput "dd 20 0a\nexpect f2 05\nshot\n',
        )
        self.run_tests("--update")

    def test_the_game_is_won(self) -> None:
        self.assertEqual(self.read("tests/win.out"), b"You won!\n")
        self.run_tests()

    def test_the_planted_bug_is_found(self) -> None:
        wrong = self.source.replace(
            ".x LDZ #04 EQU ?{ .x LDZ INC .y LDZ toggle }", ".x LDZ #05 EQU ?{ .x LDZ INC .y LDZ toggle }"
        )
        self.assertNotEqual(wrong, self.source)
        self.write("game.tal", wrong)
        said = self.run_tests(status=1)
        self.assertIn("tests/right.script:3: expect f2 05: port f2 held 06", said)
        self.assertIn("picture 1 differs", said)
        self.assertRegex(said, r"pixels differ, in columns 4 to 11 and rows 40 to 47")
