"""uxn-fuzz: scripts that break a program are found, made short and saved as tests that fail."""
import random
import sys

from support import EXTRAS, ToolTest

sys.path.insert(0, EXTRAS)
from uxntools.fuzzing.making import Maker  # noqa: E402
from uxntools.fuzzing.shrinking import Shrinker  # noqa: E402

GAME = """|10 @Console &vector $2 &read $1 &pad $5 &write $1 &error $1
|20 @Screen &vector $2
|80 @Controller &vector $2 &button $1 &key $1
|0000 @x $1
|0100 @on-reset ;on-frame .Screen/vector DEO2 ;on-button .Controller/vector DEO2 BRK
@on-frame .Controller/button DEI #40 AND ?left BRK
@left .x LDZ INC DUP .x STZ #05 EQU ?bad BRK
@bad BAD BRK
@on-button .Controller/key DEI LIT "q EQU ?{ BRK } &loop !&loop
"""
STACK = GAME.replace("BAD", "#01")
STATUS = GAME.replace("BAD", "#87 #0f DEO").replace("&loop !&loop", "")
FINE = GAME.replace("BAD", "").replace("&loop !&loop", "")


class Fuzz(ToolTest):
    def fuzz(self, source: str, *options: str, status: int = 1) -> str:
        self.write("a.tal", source)
        done = self.call("uxn-fuzz", "a.tal", "--budget", "5000", "--seconds", "100", *options, seconds=110)
        self.assertEqual(done.returncode, status, (done.stdout + done.stderr).decode())
        return done.stdout.decode()

    def test_a_stack_that_is_not_empty(self) -> None:
        """It takes a button and five frames: the least script has just these, and fails as a test."""
        self.fuzz(STACK.replace("&loop !&loop", ""), "--runs", "600")
        script = self.read("tests/fuzz-stack-frame.script").decode()
        self.assertEqual(
            script,
            "script 2\n# uxn-fuzz: a stack was not empty after an event\n"
            "down left\nexpect 04 00\nexpect 05 00\nframe 5\nexpect 04 00\nexpect 05 00\n",
        )
        self.assertIn("1 failed", self.call("uxn-test").stdout.decode())

    def test_a_vector_that_is_cut(self) -> None:
        said = self.fuzz(GAME.replace("BAD", ""), "--runs", "600")
        self.assertIn("tests/fuzz-cut-key.script: a vector used up its budget and was cut\n    key 71\n", said)
        self.assertIn(b"\nkey 71\n", self.read("tests/fuzz-cut-key.script"))

    def test_a_status_that_is_forbidden(self) -> None:
        said = self.fuzz(STATUS, "--runs", "600", "--forbid-status", "7", "--first")
        self.assertIn("fuzz-status-frame.script: the program ended with status 7", said)

    def test_another_program(self) -> None:
        self.write("b.tal", FINE.replace("INC DUP", 'LIT "! .Console/write DEO INC DUP'))
        said = self.fuzz(FINE, "--runs", "400", "--against", "b.tal", "--first")
        self.assertIn("fuzz-different-frame.script: out differs from the other program's", said)

    def test_an_assertion_that_does_not_hold(self) -> None:
        """Those of an option, and those of a test that hold from its start on."""
        said = self.fuzz(FINE, "--runs", "600", "--first", "--always", "@x < 05")
        self.assertIn("tests/fuzz-always-frame.script: always @x < 05 did not hold\n    down left\n    frame 5\n", said)
        self.assertIn(b"\n# always @x < 05\ndown left\n", self.read("tests/fuzz-always-frame.script"))
        self.assertIn("it held 05 after frame 5", self.call("uxn-test").stdout.decode())
        self.write("tests/fuzz-always-frame.script", "# always @x < 03\nframe\n# always @x < 01\n")
        said = self.fuzz(FINE, "--runs", "600", "--save", "more")
        self.assertIn("more/fuzz-always-frame.script: always @x < 03 did not hold\n    down left\n    frame 3\n", said)
        self.assertNotIn("@x < 01", said)
        self.assertIn("there is no label y", self.fuzz_refused("--always", "@y 00"))
        self.assertIn("needs a value", self.fuzz_refused("--always", "@x"))

    def fuzz_refused(self, *options: str) -> str:
        return self.refuse(2, "uxn-fuzz", "a.tal", "--runs", "10", *options)

    def test_nothing_is_found_and_nothing_is_written(self) -> None:
        said = self.fuzz(FINE, "--runs", "200", status=0)
        self.assertRegex(said, r"^\d+ runs, .* 0 found, 100\.0 % of the instructions were run\n$")
        self.assertFalse((self.call("ls", "tests").returncode) == 0)
        self.fuzz(STACK.replace("&loop !&loop", ""), "--runs", "200", "--allow", "stack", status=0)

    def test_the_same_seed_finds_the_same(self) -> None:
        said = [self.fuzz(STACK, "--runs", "300", "--save", name, "--seed", "5").replace(name, "") for name in ("one-1", "two-2")]
        self.assertEqual(*(text.rpartition("\n    ")[0] for text in said))

    def test_scripts_of_tests_are_seeds(self) -> None:
        """What a test shows once is found at once."""
        self.write("tests/left.script", "down left\nframe 4\n")
        self.write("tests/left.out", "")
        self.fuzz(STACK.replace("&loop !&loop", ""), "--runs", "150", "--first")

    def test_scripts_are_made_and_shrunk(self) -> None:
        maker = Maker(random.Random(1), ["console", "frame", "controller", "mouse"], [b"hello"])
        for _ in range(50):
            maker.known.append(maker.next())
        self.write("a.tal", "BRK")
        for number, lines in enumerate(maker.known):
            self.write("s", "script 2\n" + "".join(f"{line}\n" for line in lines))
            self.assertEqual(self.call("uxn", "play", "a.tal", "--script", "s").returncode, 0, number)
        tried = Shrinker(lambda lines: "key 41" in lines and any(line.startswith("frame") for line in lines))
        self.assertEqual(tried.shrink(("down a", "frame 60", "key 41", "end")), ("frame", "key 41"))

    def test_refusals_and_wrong_calls(self) -> None:
        self.write("a.tal", "#1")
        self.assertIn("BadNumber", self.refuse(131, "uxn-fuzz", "a.tal"))
        self.refuse(130, "uxn-fuzz", "gone.tal")
        self.refuse(2, "uxn-fuzz", "a.tal", "--allow", "nothing")
        self.refuse(2, "uxn-fuzz")
        self.assertIn("uxn-fuzz PROGRAM", self.succeed("uxn-fuzz", "--help"))
