"""uxn-profile: exact counts by routine, line and vector."""
import json
import os
import re
import sys
from unittest import mock

from support import EXAMPLES, EXTRAS, ToolTest, needs

sys.path.insert(0, EXTRAS)
from uxntools.profiling import following, result  # noqa: E402
from uxntools.target import Target, Workspace  # noqa: E402

CALLS = """|0100 @on-reset #03 print-many ;on-frame #20 DEO2 BRK
@print-many ( n -- ) &loop print-one #01 SUB DUP ?&loop POP JMP2r
@print-one ( -- ) #2e #18 DEO JMP2r
@on-frame #02 print-many BRK
"""
TAIL = """|0100 @on-reset first BRK
@first #00 ?second !second
@second #01 POP JMP2r
"""
INLINE = """|0100 @on-reset say "ab 00 say "c 00 BRK
@say STH2r &loop LDAk DUP ?{ POP INC2 STH2 JMP2r } #18 DEO INC2 !&loop
"""
DROPPED = """|0100 @on-reset #0004 @again work DUP2 ORA ?again POP2 BRK
@work #0001 SUB2 POP2r !back
@back DUP2 ORA ?again POP2 BRK
"""
CHANGING = """|0100 @on-reset ;place LDA INC ;place STA
#00 @place INC ;place LDA #01 ADD DUP ;place STA #20 LTH ?on-reset BRK
"""
COMPUTED = """|0100 @on-reset #0400 @loop OVR #03 AND #00 SWP DUP2 ADD2 ;table ADD2 LDA2 JSR2 INC
DUP #40 LTH ?loop POP2 BRK
@one JMP2r @two INC JMP2r @three #0001 POP2 JMP2r @four ,one JMP
@table =one =two =three =four
"""
DEEP = "|0100 @on-reset #05 down POP BRK\n@down DUP #00 EQU ?{ DUP #01 SUB down POP } JMP2r\n"
LAMBDA = "|0100 @on-reset { #01 #02 BRK } STH2r JMP2\n"
CUT = "|0100 @on-reset ;on-frame #20 DEO2 BRK\n@on-frame #00 &loop INC !&loop\n"
PROGRAMS = {
    "calls": (CALLS, "frame 3\n"),
    "tail": (TAIL, ""),
    "inline": (INLINE, ""),
    "dropped": (DROPPED, ""),
    "changing": (CHANGING, ""),
    "computed": (COMPUTED, ""),
    "deep": (DEEP, ""),
    "lambda": (LAMBDA, ""),
    "cut": (CUT, "frame 2\n"),
}


def stepped(workspace: Workspace, most: int) -> result.Profile:
    """The profile by stepping through every instruction."""

    def refuse(_: object) -> None:
        raise following.Changed

    with mock.patch.object(following.Follower, "_chunk", refuse), mock.patch.object(following, "FIRST", 0):
        return result.profile(workspace, most)


class Profile(ToolTest):
    def profile(self, source: str, script: str = "", most: int = 10**9, **options: str) -> result.Profile:
        self.write("a.tal", source)
        self.write("a.script", script)
        os.environ["UXN"] = self.program
        with Workspace(Target("a.tal", script="a.script", folder=self.folder, **options)) as workspace:
            return result.profile(workspace, most)

    def stacks(self, source: str, script: str = "", **options: str) -> dict[str, int]:
        return {";".join(names): count for names, count in self.profile(source, script, **options).stacks().items()}

    def test_calls_and_vectors(self) -> None:
        """Each call of print-one runs 4 instructions; print-many runs 7 for each and two at its end."""
        found = self.stacks(CALLS, "frame 3\n")
        self.assertEqual(found["on-reset;print-many;print-one"], 3 * 4)
        self.assertEqual(found["on-frame;print-many;print-one"], 3 * 2 * 4)
        self.assertEqual(found["on-reset;print-many"], 3 * 5 + 2)
        self.assertEqual(found["on-frame;print-many"], 3 * (2 * 5 + 2))
        self.assertEqual(found["on-frame"], 3 * 3)

    def test_a_jump_to_another_routine_ends_with_its_caller(self) -> None:
        found = self.stacks(TAIL)
        self.assertEqual(found, {"on-reset": 2, "on-reset;first": 3, "on-reset;first;second": 3})

    def test_text_after_a_call(self) -> None:
        """The return address is taken and pushed anew, and what prints the text belongs to the routine."""
        found = self.profile(INLINE)
        names = {row.name: row for row in found.routines()}
        self.assertEqual((names["on-reset"].own, names["say"].entered), (3, 2))
        self.assertEqual(names["say"].own + 3, found.found.goal)

    def test_a_dropped_return_address(self) -> None:
        """A routine that drops its return address and jumps has ended: the ways do not grow."""
        self.assertLess(max(map(len, self.profile(DROPPED).stacks())), 5)

    def test_recursion(self) -> None:
        found = self.stacks(DEEP)
        self.assertEqual(max(way.count("down") for way in found), 6)
        whole = {row.name: row.whole for row in self.profile(DEEP).routines()}
        self.assertEqual(whole["on-reset"], sum(found.values()))

    def test_each_way_of_following_agrees(self) -> None:
        """Stops at breaks and steps through every instruction say the same, also of code that changes itself."""
        for name, (source, script) in PROGRAMS.items():
            with self.subTest(name):
                self.write("a.tal", source)
                self.write("a.script", script)
                self.compare(Target("a.tal", script="a.script", folder=self.folder, budget="9000"))

    def test_the_examples(self) -> None:
        for name in ("bounce", "calculator", "wordcount", "keys", "paint"):
            with self.subTest(name):
                self.compare(Target(f"{name}.tal", script=f"{name}.script", folder=EXAMPLES))

    def test_a_long_run(self) -> None:
        """Breaks carry the profile over what is too long for steps: a loop within a loop, with calls."""
        source = "|0100 @on-reset #0000 &outer #00 &inner inc2 DUP ?&inner POP INC2 DUP2 #0030 NEQ2 ?&outer POP2 BRK @inc2 INC JMP2r"
        found = self.profile(source)
        self.assertEqual(found.stacks()["on-reset", "inc2"], 0x30 * 256 * 2)
        self.assertEqual(sum(found.found.counts.values()), found.found.total)
        self.assertGreater(found.found.total, 60_000)

    def compare(self, target: Target) -> None:
        os.environ["UXN"] = self.program
        with Workspace(target) as workspace, mock.patch.object(following, "FIRST", 50):
            fast = result.profile(workspace, 10**9)
            slow = stepped(workspace, 10**9)
        self.assertEqual(+fast.found.counts, +slow.found.counts)
        self.assertEqual(fast.stacks(), slow.stacks())
        self.assertEqual(fast.routines(), slow.routines())
        self.assertEqual(fast.vectors(), slow.vectors())
        self.assertEqual(sum(fast.own.values()), fast.found.goal)

    def test_code_that_changes_itself_is_found(self) -> None:
        self.assertTrue(self.profile(CHANGING, budget="9000").found.is_logged)
        self.assertFalse(self.profile(COMPUTED).found.is_logged)

    def test_the_table(self) -> None:
        self.write("a.tal", CALLS)
        self.write("a.script", "# nothing yet\nframe 2\n\nframe\n")
        said = self.succeed("uxn-profile", "a.tal", "--script", "a.script", "--lines")
        self.assertRegex(said, r"on-frame +3 +23 +23  frame 1, a\.script:2, moment 35\n")
        self.assertRegex(said, r" 36 +\d+\.\d %  +36 +\d+\.\d % +9  print-one\n")
        self.assertIn("a.tal:3: @print-one ( -- ) #2e #18 DEO JMP2r", said)

    def test_the_first_part_of_a_run(self) -> None:
        self.write("a.tal", CALLS)
        self.assertIn("10 instructions, the first of 35: --most follows more", self.succeed("uxn-profile", "a.tal", "--most", "10"))

    def test_files_for_others(self) -> None:
        self.write("a.tal", CALLS)
        self.write("a.script", "frame 3\n")
        options = [word for name in ("flame", "folded", "speedscope", "callgrind", "lcov") for word in (f"--{name}", name)]
        self.succeed("uxn-profile", "a.tal", "--script", "a.script", *options)
        self.assertIn(b"on-reset;print-many;print-one 12\n", self.read("folded"))
        opened = json.loads(self.read("speedscope"))
        self.assertEqual(sum(opened["profiles"][0]["weights"]), opened["profiles"][0]["endValue"])
        self.assertIn("print-one: 24 instructions", self.read("flame").decode())
        self.assertIn(b"DA:3,9\n", self.read("lcov"))
        summary = re.search(r"summary: (\d+)", self.read("callgrind").decode())
        assert summary
        self.assertEqual(int(summary[1]), opened["profiles"][0]["endValue"])

    @needs("callgrind_annotate")
    def test_callgrind_annotate_reads_it(self) -> None:
        self.write("a.tal", CALLS)
        self.succeed("uxn-profile", "a.tal", "--callgrind", "a.callgrind")
        said = self.succeed("callgrind_annotate", "--inclusive=yes", "a.callgrind")
        self.assertRegex(said, r"\n +35 \(100\.0%\) +a\.tal:on-reset")

    def test_a_rom(self) -> None:
        self.write("a.tal", CALLS)
        self.succeed("uxn", "asm", "a.tal", "--out", "a.rom", "--symbols", "a.sym")
        said = self.succeed("uxn-profile", "a.rom", "--rom")
        self.assertRegex(said, r"(?m)^ +12 .*  0118$")
        self.assertRegex(self.succeed("uxn-profile", "a.rom", "--rom", "--symbols", "a.sym"), r"(?m)  print-one$")

    def test_refusals_and_wrong_calls(self) -> None:
        self.assertIn("BadNumber", self.refuse(131, "uxn-profile", self.write("a.tal", "#1")))
        self.refuse(130, "uxn-profile", "gone.tal")
        self.refuse(2, "uxn-profile", "a.tal", "--most", "0")
        self.refuse(2, "uxn-profile", "a.tal", "--nothing")
        self.assertIn("uxn-profile SRC", self.succeed("uxn-profile", "--help"))
