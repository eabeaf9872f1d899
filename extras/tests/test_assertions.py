"""Assertions on memory and ports in scripts, stacks at the ends of vectors, budgets of vectors, and where vectors are cut."""
from __future__ import annotations

import os
import random
import shutil
import sys

from support import EXAMPLES, EXTRAS, ToolTest

sys.path.insert(0, EXTRAS)
from uxntools import assertions  # noqa: E402

GAME = """|20 @Screen &vector $2 |80 @Controller &vector $2 &button $1 &key $1 |f0 @Shown &shots $1
|0000 @lives $1 @score $2
|0100 @on-reset #03 .lives STZ ;on-frame .Screen/vector DEO2 ;on-button .Controller/vector DEO2 BRK
@on-frame #00 &loop INC DUP #10 LTH ?&loop POP BRK
@on-button .Controller/button DEI #01 AND ?{ BRK }
    .Shown/shots DEI INC .Shown/shots DEO
    hit BRK
@hit ( -- ) .lives LDZ #01 SUB .lives STZ .score LDZ2 #000a ADD2 .score STZ2 JMP2r
@text "abc
"""


class Lines(ToolTest):
    """What is an assertion, and what is nearly one."""

    def faults(self, line: str) -> list[str]:
        return [fault.why for fault in assertions.read(f"{line}\n".encode())[1]]

    def test_forms(self) -> None:
        for line, place, comparison, value in (
            ("# expect @lives 03", "@lives", "=", b"\3"),
            ("# expect @score* 0012", "@score", "=", b"\0\x12"),
            ("# expect Shown/shots <= 01", "Shown/shots", "<=", b"\1"),
            ('# expect #0300 "abc"', "#0300", "=", b"abc"),
            ('\t# always  @name != "a b" 0A 00\r', "@name", "!=", b"a b\n\0"),
            ("# always @lives <= +3", "@lives", "<=", b"\3"),
            ("# expect @score* -2", "@score", "=", b"\xff\xfe"),
            ("# expect @score* = +65535", "@score", "=", b"\xff\xff"),
            ("# expect @sum/loop+0003 > fE", "@sum/loop+0003", ">", b"\xfe"),
        ):
            found, faults = assertions.read(line.encode())
            self.assertEqual(faults, (), line)
            self.assertEqual([(it.place, it.comparison, it.value) for it in found], [(place, comparison, value)], line)

    def test_comments_stay_comments(self) -> None:
        text = "# held: one press\n# except when @x is 3\n# expects of the game\nexpect f0 00 # expct @a 00\n#\n# \n#!x\n# exp @a 00\n"
        self.assertEqual(assertions.read(text.encode()), ((), ()))

    def test_nearly_an_assertion(self) -> None:
        for line, why in (
            ("# expct @lives 03", "is it `# expect`?"),
            ("# Expect @lives 03", "is it `# expect`?"),
            ("# expect: Shown/shots 03", "is it `# expect`?"),
            ("# allways #0300 03", "is it `# always`?"),
            ("# expcet f0 03", "is it `# expect`?"),
            ("#expect @lives 03", "with a blank after the sign"),
            ("# expect", "needs a place"),
            ("# expect @lives", "needs a value"),
            ("# expect @lives 3", "`3` is no value: it has two hexadecimal digits"),
            ("# expect @lives 0003", "a short has a star"),
            ("# expect @score* 03", "a byte has no star"),
            ("# expect @lives == 03", "`==` is no comparison: it is one of = != < <= > >="),
            ("# expect @lives < 01 02", "compares one number"),
            ('# expect @lives < "a"', "compares one number"),
            ('# expect @lives "a', "a text ends with a quote"),
            ('# expect @lives ""', "a text has a sign"),
            ("# expect @lives < -1", "from 0 on"),
            ("# expect @lives +256", "from -128 to 255"),
            ("# expect @score* -32769", "from -32768 to 65535"),
            ("# expect #300 03", "is no place"),
            ("# always hold left", "is no value"),
            ("# expect @score* 0001 0002", "one short"),
        ):
            found = self.faults(line)
            self.assertEqual(len(found), 1, line)
            self.assertIn(why, found[0], line)

    def test_every_changed_letter_is_noticed(self) -> None:
        """A line with one letter less, more, changed or swapped is no silent comment."""
        chosen = random.Random(3)
        for word in ("expect", "always"):
            for _ in range(200):
                at, sign = chosen.randrange(len(word)), chosen.choice("abcdefghijklmnopqrstuvwxyz")
                made = chosen.choice((word[:at] + word[at + 1 :], word[:at] + sign + word[at:], word[:at] + sign + word[at + 1 :],
                                      word[:at] + word[at : at + 2][::-1] + word[at + 2 :]))
                self.assertTrue(assertions.has_any(f"# {made} @lives 03\n".encode()), made)


class Game(ToolTest):
    def setUp(self) -> None:
        super().setUp()
        self.write("game.tal", GAME)

    def outcome(self, script: str, status: int, *words: str) -> str:
        self.write("tests/win.script", script)
        done = self.call("uxn-test", *words)
        said = (done.stdout + done.stderr).decode()
        self.assertEqual(done.returncode, status, said)
        self.assertNotIn("mistake of", said)
        return said


class Asserting(Game):
    def test_all_hold(self) -> None:
        script = """# always @lives <= 03
# always @score* < +50
# expect @lives 03
# expect Screen/vector* > 0100
frame 3
down a
up a
# expect @lives 02
# expect @score* 000a
# expect @score+0001 +10
# expect Shown/shots 01
# expect @text "abc"
# expect @text != "abd"
# expect Controller/button 00
# expect #0000 02 00 0a
down a
# expect Controller/button 01
"""
        self.assertIn("1 passed", self.outcome(script, 0))
        self.assertIn("0 of 13 assertions missed", self.succeed("uxn-misses", "game.tal", "--script", "tests/win.script"))

    def test_a_miss(self) -> None:
        script = "# always @lives > 01\nframe 2\ndown a\nup a\n# expect @lives 03\n# expect @score* < +9\ndown a\n# expect Shown/shots 03\nframe\n"
        said = self.outcome(script, 1)
        self.assertIn("script: 4 of 4 assertions missed", said)
        hit = "hit+0008 (game.tal:8) wrote it at moment"
        self.assertRegex(said, rf"win.script:1: always @lives > 01: it held 01 after event 5 in frame 2 \(tests/win.script:7\); hit\+0008 .*; 1 more vectors broke it")
        self.assertIn("win.script:5: expect @lives 03: it held 02 after event 4 in frame 2 (tests/win.script:4); " + hit, said)
        self.assertIn("win.script:6: expect @score* < +9: it held 000a (+10) after event 4", said)
        self.assertRegex(said, r"win.script:8: expect Shown/shots 03: it held 02 after event 5 .*; on-button\+0010 \(game.tal:6\) wrote it")
        self.assertEqual(self.call("uxn-misses", "game.tal", "--script", "tests/win.script").returncode, 1)

    def test_the_writer_is_that_of_a_trace(self) -> None:
        """The moment that is named is the last store before the end of the vector."""
        said = self.outcome("frame\ndown a\nframe 3\n# expect @lives 00\n", 1)
        moment = int(said.partition("wrote it at moment ")[2].split()[0])
        traced = self.succeed("uxn-watch", "game.tal", "lives", "--script", "tests/win.script", "--last-first", "--count", "1")
        self.assertEqual(int(traced.split()[0]), moment)

    def test_places_that_are_none(self) -> None:
        for line, why in (
            ("# expect @live 03", "there is no label live"),
            ("# expect Shown/shot 03", "there is no label Shown/shot"),
            ("# expect hit 03", "which is no port"),
            ("# expect @Shown/shots 03", "names a port"),
            ("# expct @lives 03", "is it `# expect`?"),
        ):
            said = self.outcome(f"frame\n# expect @lives 03\n{line}\n", 1)
            self.assertIn(why, said)
            self.assertIn("tests/win.script:3", said)

    def test_the_run_ends_before_it(self) -> None:
        self.write("game.tal", GAME.replace("hit BRK", "#80 #0f DEO BRK"))
        said = self.outcome("down a\n# expect @lives 03\nframe\n# expect @lives 03\n", 1)
        self.assertIn("1 of 2 assertions missed", said)
        self.assertIn("win.script:4: expect @lives 03: the run ended before it", said)

    def test_update_does_not_record_a_miss(self) -> None:
        said = self.outcome("frame\n# expect @lives 02\n", 1, "--update")
        self.assertIn("NOT RECORDED", said)
        self.assertIn("assertions missed", said)

    def test_kept_results_know_the_settings(self) -> None:
        self.assertIn("1 passed", self.outcome("frame\n# expect @lives 03\n", 0))
        self.assertIn("unchanged", self.outcome("frame\n# expect @lives 03\n", 0))
        self.write("uxn-test.toml", "frame = 10\n")
        self.assertIn("budget:", self.outcome("frame\n# expect @lives 03\n", 1))

    def test_ports_between_events(self) -> None:
        """What events set where no vector runs, and what goes on between vectors: the same as `expect` sees."""
        self.write("game.tal", "|80 @Controller &vector $2 &button $1 &key $1 |90 @Mouse &vector $2 &x $2 |c0 @Time &year $2 &month $2 &hour $1 &minute $1 &second $1 |0100 BRK")
        script = "script 2\nclock 0 0\ndown a\n# expect Controller/button 01\nexpect 82 01\nmouse 300 2\n# expect Mouse/x* +300\nkey 41\n# expect Controller/key 00\nexpect 83 00\nframe 60\n# expect Time/second 01\nexpect c6 01\n"
        self.assertIn("1 passed", self.outcome(script, 0))

    def test_voices_and_frames(self) -> None:
        """The vectors of voices come between those of frames: each expect sees the right one, whatever their addresses are."""
        own = "|20 @Screen &vector $2 |30 @Audio &vector $2 &position $2 &output $1 &pad $3 &adsr $2 &length $2 &addr $2 &volume $1 &pitch $1 |0000 @frames $1 @ends $1"
        for voice, count in ((";on-end", "02 03"), (";on-frame", "05 00")):
            self.write("game.tal", f"{own} |0100 ;on-frame .Screen/vector DEO2 {voice} .Audio/vector DEO2 #0001 .Audio/length DEO2 "
                       ";wave .Audio/addr DEO2 play BRK @play #0100 .Audio/adsr DEO2 #ff .Audio/volume DEO #bc .Audio/pitch DEO JMP2r "
                       "@on-frame .frames LDZ INC .frames STZ BRK @on-end .ends LDZ INC .ends STZ play BRK @wave ff")
            data = "script 2\n" + "frame 4\n" * 6
            self.write("s", data + "# expect @frames < 00\n# expect @ends < 00\n")
            said = self.call("uxn-misses", "game.tal", "--script", "s").stdout.decode()
            frames, ends = (int(part.split()[0], 16) for part in said.split("it held ")[1:])
            self.assertEqual((frames == 24, ends > 0), (voice == ";on-end", voice == ";on-end"), said)
            self.assertIn("frame 24", said)
            halfway = data.replace("frame 4\n", "frame 4\n# expect @frames < 00\n", 1)
            self.write("s", halfway)
            shorter = "script 2\nframe 4\n"
            self.write("t", shorter + "# expect @frames < 00\n")
            held = [self.call("uxn-misses", "game.tal", "--script", name).stdout.decode().split("it held ")[1][:2] for name in "st"]
            self.assertEqual(held[0], held[1], voice)

    def test_lines_of_machines_have_none(self) -> None:
        for name in ("numbered.setup", "words.tal", "squeeze.tal", "number.tal", "numbered.script"):
            shutil.copy(os.path.join(EXAMPLES, name), self.path(f"line/{name}") if os.makedirs(self.path("line"), exist_ok=True) is None else "")
        self.write("line/uxn-test.toml", 'program = "numbered.setup"\n')
        self.write("line/tests/a.script", 'input "a\nend\n# expect @x 00\n')
        self.assertIn("a line of machines has no assertions", self.call("uxn-test", "line").stdout.decode())

    def test_against_prefixes(self) -> None:
        """Random scripts: what is there at each place is what the debugger shows at the end of the run up to there."""
        chosen = random.Random(5)
        lines = [chosen.choice(("frame", "frame 3", "down a", "up a", "key 41", "shot", "mouse 3 4")) for _ in range(25)]
        script = "".join(f"{line}\n# expect @lives < 00\n# expect @score* < 0000\n" for line in lines)
        self.write("s", script)
        said = self.call("uxn-misses", "game.tal", "--script", "s").stdout.decode().splitlines()
        held = [line.partition("it held ")[2].split()[0] for line in said if "it held" in line]
        self.assertEqual(len(held), 50)
        for at in chosen.sample(range(25), 6):
            self.write("part", "\n".join(lines[: at + 1]) + "\n")
            self.write("c", "step 4294967295\nmem 0000 3\n")
            self.succeed("uxn", "debug", "game.tal", "--script", "part", "--commands", "c", "--log", "l")
            lives, high, low = self.read("l").decode().splitlines()[-1].split()[1:]
            self.assertEqual(held[2 * at : 2 * at + 2], [lives, high + low])


class Stacks(Game):
    def test_strict(self) -> None:
        self.assertIn("1 passed", self.outcome("frame 3\ndown a\n# expect @lives 02\n", 0, "--strict"))

    def test_a_byte_that_is_left(self) -> None:
        self.write("game.tal", GAME.replace("POP BRK", "BRK"))
        self.assertIn("1 passed", self.outcome("frame 3\n# expect @lives 03\n", 0))
        said = self.outcome("frame 3\n# expect @lives 03\n", 1, "--strict")
        self.assertIn("stack: the working stack was not empty at the end of the vector of frame 1 (tests/win.script:1): 1 byte left, "
                      "the first pushed by on-frame+0000 (game.tal:4) at moment", said)
        self.assertIn("2 more vectors ended so", said)

    def test_as_a_setting(self) -> None:
        self.write("game.tal", GAME.replace("POP BRK", "BRK"))
        self.write("uxn-test.toml", "[folder.tests]\nstrict = true\n")
        self.assertIn("stack:", self.outcome("frame 3\n# expect @lives 03\n", 1))
        self.write("uxn-test.toml", "[folder.tests]\nstrict = 1\n")
        self.assertIn("true or false", self.outcome("frame\n", 2))

    def test_an_empty_stack_that_is_popped(self) -> None:
        self.write("game.tal", GAME.replace("hit BRK", "hit POP BRK").replace("#0f DEO", ""))
        said = self.outcome("frame\ndown a\n# expect @lives 02\n", 1, "--strict")
        self.assertRegex(said, r"of event 2 in frame 1 .*: a byte was taken from it while it was empty by on-button\+0014 \(game.tal:7\)")
        self.write("game.tal", GAME.replace("hit BRK", "STHr POP BRK"))
        self.assertIn("the return stack was not empty", self.outcome("down a\n# expect @lives 03\n", 1, "--strict"))


class Budgets(Game):
    def test_kinds(self) -> None:
        script = "frame 3\ndown a\nup a\n# expect @lives 02\n"
        self.write("uxn-test.toml", "reset = 20\nframe = 200\ncontroller = 60\n")
        self.assertIn("1 passed", self.outcome(script, 0))
        for line, why in (
            ("frame = 80", r"budget: the frame vector, on-frame/loop\+\w+, ran \d+ instructions in frame 1 \(tests/win.script:1\); its budget is 80; 2 more were over it"),
            ("controller = 12", r"budget: the controller vector, on-button\+\w+, ran \d+ instructions in event 4 in frame 3 \(tests/win.script:2\); its budget is 12"),
            ("reset = 3", r"budget: the reset vector, on-reset\+\w+, ran 10 instructions in the start; its budget is 3"),
        ):
            self.write("uxn-test.toml", line + "\n")
            self.assertRegex(self.outcome(script, 1), why)
        self.write("uxn-test.toml", "frame = 0\n")
        self.assertIn("it has to be a number from 1 on", self.outcome(script, 2))


class Cuts(Game):
    def test_where(self) -> None:
        self.write("uxn-test.toml", "budget = 50\n")
        said = self.outcome("frame 5\n# expect @lives 03\n", 1)
        self.assertIn("5 vectors used up their budgets and were cut; wanted is 0", said)
        self.assertRegex(said, r"cut in frame 1 \(tests/win.script:1\) at on-frame/loop\+\w+ \(game.tal:4\)")
        self.assertIn(".. and 2 more", said)
        said = self.call("uxn-misses", "game.tal", "--script", "tests/win.script", "--budget", "50").stdout.decode()
        self.assertEqual(said.count("cut in frame"), 5)

    def test_memory_at_the_end_of_a_cut_vector(self) -> None:
        self.write("game.tal", "|20 @Screen &vector $2 |0000 @n $1 |0100 ;on-frame .Screen/vector DEO2 BRK @on-frame .n LDZ INC .n STZ !on-frame")
        self.write("uxn-test.toml", "[test.\"tests/win\"]\nbudget = 60\ncuts = 2\n")
        self.assertIn("1 passed", self.outcome("frame\n# expect @n 0a\nframe\n# expect @n 14\n# always @n < 15\n", 0))
