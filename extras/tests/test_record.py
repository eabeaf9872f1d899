"""uxn-record: sessions at a pseudo-terminal that become tests."""
import os
import shutil
import struct

from support import EXAMPLES, EXTRAS, ToolTest
from terminal import Terminal

ECHO = ";on-read #10 DEO2 BRK @on-read #17 DEI #04 EQU ?{ #12 DEI #18 DEO } BRK"


class Recording(ToolTest):
    def terminal(self, *words: str) -> Terminal:
        terminal = Terminal(list(words), self.folder, self.environment)
        self.addCleanup(lambda: terminal.process.poll() is None and terminal.process.kill())
        return terminal

    def test_the_calculator(self) -> None:
        shutil.copy(os.path.join(EXAMPLES, "calculator.tal"), self.path("calculator.tal"))
        terminal = self.terminal("uxn-record", "calculator.tal", "--to", "tests/sum")
        for typed, shown in (
            ("3 4 + .", "\n7\n"),
            ("6 7 *", "\n42\n"),
            ("nonsense", "is not known"),
            ("+", "too few numbers"),
        ):
            terminal.wait_for("> ")
            terminal.type(typed + "\n")
            terminal.wait_for(shown)
        terminal.wait_for("> ")
        terminal.type("\x04")
        terminal.wait_for("the program has ended with status 1")
        terminal.wait_for("recorded tests/sum: err, out, script, status; uxn-test passes it")
        self.assertEqual(terminal.end(), 0)
        self.assertEqual(self.read("tests/sum.out"), b"7\n42\n42\n42\n")
        self.assertEqual(
            self.read("tests/sum.script").splitlines()[:2], [b"script 2", b'input "3 20 "4 20 "+ 20 ". 0a']
        )
        self.assertIn("1 passed", self.succeed("uxn-test"))

    def test_a_game(self) -> None:
        """The game of lights (169 lines) is played to its end; a planted bug makes the recorded test fail."""
        with open(os.path.join(EXTRAS, "tests", "programs", "lights.tal"), encoding="utf-8") as file:
            source = file.read()
        self.write("game.tal", source)
        terminal = self.terminal("uxn-record", "game.tal", "--to", "tests/win")
        pictures = []
        for command in (":tap a", ":tap right", ":frame 3", ":tap right", ":expect f0"):
            terminal.wait_for("> ")
            terminal.type(command + "\n")
            if command != ":expect f0":
                terminal.wait_for("the picture is in tests/win.png")
                pictures.append(self.read("tests/win.png"))
        terminal.wait_for("port f0 holds 04")
        self.assertEqual(struct.unpack(">II", pictures[0][16:24]), (64, 64))
        self.assertTrue(pictures[0] != pictures[1] and pictures[1] == pictures[2] != pictures[3])
        for command in (":shot", ":tap a"):
            terminal.wait_for("> ")
            terminal.type(command + "\n")
        terminal.wait_for("You won!")
        terminal.wait_for("recorded tests/win: out, ppm, script; uxn-test passes it")
        self.assertEqual(terminal.end(), 0)
        self.assertIn("1 passed", self.succeed("uxn-test"))
        self.write("game.tal", source.replace(".x LDZ #04 EQU ?{ .x LDZ INC", ".x LDZ #03 EQU ?{ .x LDZ INC"))
        self.assertEqual(self.call("uxn-test").returncode, 1)

    def test_done_writes_without_an_end(self) -> None:
        self.write("game.tal", ECHO)
        terminal = self.terminal("uxn-record", "game.tal", "--to", "tests/a")
        terminal.type("::x\n:text yz\n:nope\n:key\n:frame 0\n:undo\n:undo\n:undo\n:script\n:text q\n:done\n")
        for text in (
            ":x\n",
            "yz",
            "there is no command :nope",
            ":key needs a key",
            "script 4: BadValue",
            "taken back",
            "taken back",
            "nothing to take back",
        ):
            terminal.wait_for(text)
        terminal.wait_for("recorded tests/a: out, script")
        self.assertEqual(terminal.end(), 0)
        self.assertEqual(self.read("tests/a.script"), b'script 2\ninput "q\n')

    def test_quit_writes_nothing(self) -> None:
        self.write("game.tal", ECHO)
        terminal = self.terminal("uxn-record", "game.tal", "--to", "tests/a")
        terminal.type("x\n:help\n:quit\n")
        terminal.wait_for(":expect PP")
        terminal.wait_for("nothing is written")
        self.assertEqual(terminal.end(), 0)
        self.assertFalse(os.path.exists(self.path("tests")))


class FromAPipe(ToolTest):
    """Without a terminal the lines come from the standard input."""

    def record(self, text: str, *words: str) -> str:
        return self.succeed("uxn-record", *words, stdin=text.encode())

    def test_what_is_new_is_shown(self) -> None:
        self.write("game.tal", ECHO)
        self.assertEqual(
            self.record("one\ntwo\n", "game.tal", "--to", "tests/a"),
            "one\ntwo\nrecorded tests/a: out, script; uxn-test passes it\n",
        )
        self.assertEqual(self.read("tests/a.script"), b'script 2\ninput "one 0a\ninput "two 0a\nend\n')

    def test_a_line_that_cannot_be_done(self) -> None:
        """Then nothing is written, so that the session can be mended and run again."""
        self.write("game.tal", ECHO)
        for line, said in (
            (":nonsense", "[there is no command :nonsense; :help shows them]"),
            (":expect f0 77", "[port f0 holds 00: the expect is taken back]"),
        ):
            shown = self.refuse_lines(1, f"x\n{line}\n:done\n", "game.tal", "--to", "tests/a")
            last = "uxn-record: nothing is written: lines that could not be done: 1"
            self.assertEqual(shown.splitlines(), [said, last])
            self.assertFalse(os.path.exists(self.path("tests")))
        self.refuse_lines(1, ":nonsense\n:quit\n", "game.tal", "--to", "tests/a")
        self.record("x\n:help\n:done\n", "game.tal", "--to", "tests/a")

    def test_an_empty_root(self) -> None:
        self.write("game.tal", ECHO)
        os.mkdir(self.path("files"))
        done = self.call("uxn-record", "game.tal", "--to", "tests/a", "--root", "files", stdin=b"x\n")
        said = b"[tests/a.root is empty, and git leaves out empty folders: put a file in it]\n"
        self.assertEqual((done.returncode, done.stderr), (0, said))

    def test_arguments_root_and_clock(self) -> None:
        shutil.copy(os.path.join(EXAMPLES, "notes.tal"), self.path("notes.tal"))
        shutil.copytree(os.path.join(EXAMPLES, "notes.root"), self.path("files"))
        before = self.read("files/notes.txt")
        self.record(
            ":done\n", "notes.tal", "--to", "tests/a", "--root", "files", "--clock", "86400", "60", "hello world", "b"
        )
        self.assertEqual(self.read("tests/a.script"), b'script 2\nclock 86400 60\nargs 68656c6c6f20776f726c64 "b\n')
        self.assertEqual((self.read("files/notes.txt"), self.read("tests/a.root/notes.txt")), (before, before))
        self.assertIn("1 passed", self.succeed("uxn-test"))

    def test_the_program_is_named_where_it_has_to_be(self) -> None:
        self.write("game.tal", ECHO)
        self.write("other.tal", "BRK")
        self.record("x\n", "game.tal", "--to", "checks/a", "--budget", "1000")
        self.assertEqual(
            self.read("uxn-test.toml"), b'[folder."checks"]\n[test."checks/a"]\nprogram = "game.tal"\nbudget = 1000\n'
        )
        self.record(":done\n", "other.tal", "--to", "tests/b")
        self.assertIn("2 passed", self.succeed("uxn-test"))

    def test_a_cut_is_no_test(self) -> None:
        self.write("game.tal", ";on-read #10 DEO2 BRK @on-read !on-read")
        said = self.refuse_lines(1, "x\n:done\n", "game.tal", "--to", "tests/a")
        self.assertIn("a vector used up its budget and was cut", said)
        self.assertIn("not without --allow cut", said)

    def refuse_lines(self, status: int, text: str, *words: str) -> str:
        done = self.call("uxn-record", *words, stdin=text.encode())
        self.assertEqual(done.returncode, status, done.stderr.decode())
        self.assertNotIn(b"Traceback", done.stderr)
        return done.stderr.decode()

    def test_an_output_that_changes_is_found(self) -> None:
        """A program that does not give the same again: the output of the longer script is checked."""
        self.write("game.tal", ECHO)
        self.write("changes", f'#!/bin/sh\necho x >>n; wc -l <n; exec {self.program} "$@"\n')
        os.chmod(self.path("changes"), 0o755)
        done = self.call("uxn-record", "game.tal", "--to", "tests/a", stdin=b"x\n", UXN=self.path("changes"))
        self.assertIn(b"does not begin with that of the shorter one", done.stderr)
        self.assertEqual((done.returncode, os.path.exists(self.path("tests"))), (1, False))

    def test_wrong_calls(self) -> None:
        self.write("game.tal", ECHO)
        self.refuse(2, "uxn-record")
        self.refuse(2, "uxn-record", "game.tal")
        self.refuse(2, "uxn-record", "game.tal", "--to", "../a")
        self.refuse(2, "uxn-record", "game.tal", "--to", "a", "--budget", "0")
        self.refuse(2, "uxn-record", "a.setup", "--to", "a")
        self.assertIn("missing: gone.tal", self.refuse(1, "uxn-record", "gone.tal", "--to", "a"))
        self.assertIn("script 2: BadValue", self.refuse(1, "uxn-record", "game.tal", "--to", "a", "--clock", "x", "0"))
        self.write("a.script", "")
        self.assertIn("there already", self.refuse(1, "uxn-record", "game.tal", "--to", "a"))
        self.assertEqual(self.read("a.script"), b"")
