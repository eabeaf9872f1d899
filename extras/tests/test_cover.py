"""uxn-cover: which lines of a source its tests run."""
import os
import re
import shutil
import sys

from support import EXAMPLES, EXTRAS, ToolTest, needs

PROGRAMS = os.path.join(os.path.dirname(os.path.realpath(__file__)), "programs")


class Cover(ToolTest):
    def marks(self, *words: str) -> dict[int, str]:
        """The marks of the lines of one source."""
        lines = self.succeed("uxn-cover", *words).splitlines()
        return {int(line[:5]): line[6] for line in lines if re.match(r" *[0-9]+ ", line[:6]) and len(line) > 6}

    def test_lines_that_were_run(self) -> None:
        self.write("a.tal", "#01 ?yes\n#02 POP\n@yes #00 ?{ #18 DEO } BRK\n@table 01 02\n@never #03\n")
        self.assertEqual(self.marks("a.tal"), {1: "+", 2: "-", 3: "+", 4: " ", 5: "-"})
        self.assertIn("never reached: a.tal:5: never", self.succeed("uxn-cover", "a.tal"))

    def test_a_line_in_part(self) -> None:
        self.write("a.tal", "#01 ?{ #18 DEO } BRK")
        self.assertEqual(self.marks("a.tal"), {1: "~"})
        self.assertEqual(
            self.succeed("uxn-cover", "a.tal", "--brief"), "a.tal   60.0 % of 5 words, 100.0 % of 1 lines\n"
        )

    def test_data_that_is_run(self) -> None:
        self.write("a.tal", "80 18 POP\nBRK\n20 30")
        self.assertEqual(self.marks("a.tal"), {1: "+", 2: "+", 3: " "})

    def test_loops_that_stop_often(self) -> None:
        """A run of a million instructions with loops one behind the other: each takes a run to be found and left."""
        loops = "\n".join(f"@l{name} #0000 &loop INC2 DUP2 #c000 NEQ2 ?&loop POP2" for name in ("ax", "bx", "cx", "dx"))
        self.write("a.tal", f"{loops}\nBRK\n@never POP")
        self.assertEqual(self.marks("a.tal"), {1: "+", 2: "+", 3: "+", 4: "+", 5: "+", 6: "-"})

    def test_a_run_that_is_longer_than_it_follows(self) -> None:
        """Two loops with one run: the second loop is not reached, and the coverage says how far it looked."""
        sys.path.insert(0, EXTRAS)
        from uxntools import executed
        from uxntools.target import Target, Workspace

        self.write("a.tal", "#0000 @one INC2 DUP2 #8000 NEQ2 ?one @two INC2 DUP2 ORA ?two BRK")
        os.environ["UXN"] = self.program
        with Workspace(Target("a.tal", folder=self.folder)) as workspace:
            cut = executed.executed(workspace, range(0x100, 0x120), most_runs=1)
            self.assertEqual((cut.followed, 0x10E in cut.addresses), (20000, False))
            whole = executed.executed(workspace, range(0x100, 0x120))
            self.assertEqual((whole.followed, 0x10E in whole.addresses), (None, True))
            self.assertGreater(whole.end, 200_000)

    def test_included_files_and_lcov(self) -> None:
        shutil.copytree(PROGRAMS, self.path("p"))
        said = self.succeed("uxn-cover", "p/ledger.tal", "--script", "p/ledger.script", "--lcov", "l")
        self.assertRegex(said, r"p/ledger/print\.tal +100\.0 % of \d+ words, +100\.0 % of \d+ lines")
        data = self.read("l").decode()
        self.assertEqual(
            re.findall(r"^SF:(.*)", data, re.M), ["p/ledger.tal", "p/ledger/digit.tal", "p/ledger/print.tal"]
        )
        for record in data.split("end_of_record\n")[:-1]:
            lines = dict(re.findall(r"^DA:(\d+),([01])$", record, re.M))
            self.assertEqual(
                (f"LF:{len(lines)}" in record, f"LH:{list(lines.values()).count('1')}" in record), (True, True)
            )

    def test_a_branch_that_no_test_reaches(self) -> None:
        """The planted mistake: the script has a line that should double, but nothing doubles."""
        shutil.copytree(PROGRAMS, self.path("p"))
        said = self.succeed("uxn-cover", "p/ledger.tal", "--script", "p/ledger.script", "--brief")
        self.assertEqual(re.findall(r"^never reached: (.*)", said, re.M), ["p/ledger.tal:74: do-line/double"])

    def test_tests_of_a_project(self) -> None:
        """Each test adds what it runs; a line of machines is named, and not followed."""
        self.write(
            "game/game.tal", "@main ;on-key #80 DEO2 BRK\n@on-key #83 DEI #41 EQU ?yes BRK\n@yes #01 BRK\n@no #02 BRK"
        )
        self.write("game/tests/none.script", "")
        self.write("game/tests/key.script", "key 42\n")
        self.write("game/tests/yes.script", "key 41\n")
        for name, wanted in (("none", "+---"), ("key", "++--"), ("yes", "+~+-")):
            self.write(f"game/tests/{name}.out", "")
            self.assertEqual("".join(self.marks(f"game/tests/{name}").values()), wanted)
        self.assertEqual("".join(self.marks("game").values()), "+++-")
        self.write("line/a.tal", "BRK")
        self.write("line/tests/two.setup", "machine a.tal\nmachine a.tal\n")
        self.write("line/tests/two.out", "")
        self.assertIn("not followed: line/tests/two: it is a line of machines", self.succeed("uxn-cover"))
        self.assertIn("nothing to follow", self.refuse(1, "uxn-cover", "line"))

    def test_less_than_wanted(self) -> None:
        self.write("a.tal", "BRK #01")
        self.assertEqual(self.succeed("uxn-cover", "a.tal", "--brief", "--least", "50")[:5], "a.tal")
        self.assertEqual(
            self.refuse(1, "uxn-cover", "a.tal", "--brief", "--least", "51"),
            "uxn-cover: 50.0 % of the words were run; wanted are 51 %",
        )

    @needs("genhtml")
    def test_lcov_reads_it(self) -> None:
        shutil.copytree(PROGRAMS, self.path("p"))
        self.succeed("uxn-cover", "p/ledger.tal", "--script", "p/ledger.script", "--lcov", "l")
        self.succeed("genhtml", "l", "-o", "html")
        self.assertTrue(os.path.exists(self.path("html/index.html")))

    def test_the_examples(self) -> None:
        """What the scripts of the examples run of them: each is followed to its end. The three of a line are given what
        the one before them prints; banks.tal without its banks has nothing to print."""
        shutil.copytree(EXAMPLES, self.path("e"))
        self.folder, top = self.path("e"), self.folder
        scripts = {"words": "numbered.script", "squeeze": "words.more", "number": "squeeze.more"}
        for name, script in list(scripts.items())[:2]:
            text = self.call("uxn", "play", f"{name}.tal", "--script", script).stdout
            self.write(f"{name}.more", self.succeed("uxn-text-to-script", stdin=text))
        found = {}
        for name in sorted(os.listdir(EXAMPLES)):
            stem, ending = os.path.splitext(name)
            if ending == ".tal":
                found[stem] = self.percent_of(stem, scripts.get(stem, f"{stem}.script"))
        self.folder = top
        self.assertGreater(len(found), 25)
        self.assertEqual([name for name, percent in found.items() if percent < (50 if name == "banks" else 80)], [])

    def percent_of(self, stem: str, script: str) -> float:
        """How much of an example its script runs."""
        words = ["--script", script] if os.path.exists(self.path(script)) else []
        words += ["--root", f"{stem}.root"] if os.path.exists(self.path(f"{stem}.root")) else []
        said = self.succeed("uxn-cover", f"{stem}.tal", "--brief", *words)
        self.assertNotIn("not followed", said)
        found = re.search(r"([0-9.]+) % of [0-9]+ words", said.splitlines()[-1])
        assert found
        return float(found[1])

    def test_refusals_and_wrong_calls(self) -> None:
        self.assertEqual(
            self.refuse(131, "uxn-cover", self.write("a.tal", "#1")), "uxn-cover: a.tal: source 1:1: BadNumber: #1"
        )
        self.refuse(130, "uxn-cover", "gone.tal")
        self.refuse(2, "uxn-cover", "a.tal", "--least", "101")
        self.refuse(2, "uxn-cover", "a.tal", "--nothing")
        self.assertIn("uxn-cover SRC", self.succeed("uxn-cover", "--help"))
