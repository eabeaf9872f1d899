"""uxn-debug: a debugger at the terminal."""
import os
import re
import shutil
import signal
import struct
import termios
import time

from support import EXAMPLES, ToolTest
from terminal import Terminal

PROGRAMS = os.path.join(os.path.dirname(os.path.realpath(__file__)), "programs")
PROMPT = "(uxn) "


class Session(Terminal):
    """The debugger at a terminal."""

    def read(self) -> str:
        """What comes up to the next prompt."""
        return self.wait_for(PROMPT, 60).removesuffix(PROMPT)

    def ask(self, line: str) -> str:
        """Types a line, and answers what comes behind it."""
        self.type(f"{line}\n")
        return self.read().partition("\n")[2]

    def quit(self) -> int:
        self.type("quit\n")
        return self.end()


class Debug(ToolTest):
    def example(self, name: str) -> str:
        shutil.copy(os.path.join(EXAMPLES, name), self.path(name))
        return name

    def ledger(self) -> list[str]:
        shutil.copytree(PROGRAMS, self.path("p"))
        return ["uxn-debug", "p/ledger.tal", "--script", "p/ledger.script"]

    def at_terminal(self, words: list[str]) -> Session:
        terminal = Session(words, self.folder, self.environment)
        self.addCleanup(lambda: terminal.process.poll() is None and terminal.process.kill())
        return terminal

    def session(self, *lines: str, words: list[str]) -> str:
        """A session whose commands come by a pipe."""
        return self.succeed(*words, stdin="".join(f"{line}\n" for line in lines).encode())

    def answers(self, *lines: str, words: list[str]) -> list[str]:
        """What each command shows; the answer of a command between them parts the answers."""
        marked = [part for line in lines for part in (line, "labels .a-mark.")]
        said = self.session("labels .a-mark.", *marked, words=words)
        return re.split(r"no label has .a-mark. in its name\n", said)[1:-1]


class AtTheTerminal(Debug):
    def test_finding_a_mistake(self) -> None:
        """The planted mistake: the balance is wrong. Who changed it last? A line that is too long, and no payment."""
        terminal = self.at_terminal(self.ledger())
        self.assertIn("moment 0: 0100 LIT2  on-reset+0000\np/ledger.tal:20: ;on-console", terminal.read())
        self.assertIn("break at 01", terminal.ask("break do-line/again"))
        shown = terminal.ask("run")
        self.assertIn("do-line/again+0000", shown)
        balance = terminal.ask("print balance")
        self.assertRegex(balance, r"^[0-9a-f]{4} .* = \d+\n$")
        store = terminal.ask("watch balance 2")
        self.assertIn("append+000a", terminal.ask("watch balance 1"))
        self.assertIn("p/ledger.tal:", store)
        moment = re.search(r"moment (\d+)", terminal.ask("watch balance 1"))
        assert moment
        self.assertIn(f"moment {moment[1]}: ", terminal.ask(f"goto {moment[1]}"))
        self.assertIn(".length LDZ #00 SWP ;line ADD2 STA", terminal.ask("list"))
        self.assertIn("on-console", terminal.ask("finish"))
        self.assertEqual(terminal.quit(), 0)

    def test_history_and_completion(self) -> None:
        """Tabulators complete a label and a command, and the second line above is done again."""
        terminal = self.at_terminal(self.ledger())
        terminal.read()
        for typed, wanted in (
            ("break print-d\t", "break at "),
            ("reve\t", "the first moment"),
            ("\x1b[A\x1b[A", "break at "),
        ):
            terminal.type(f"{typed}\n")
            terminal.wait_for(wanted, 60)
            terminal.read()
        terminal.type("\x04")
        self.assertEqual(terminal.end(), 0)

    def test_an_interrupt_at_the_prompt(self) -> None:
        terminal = self.at_terminal(self.ledger())
        terminal.read()
        terminal.type("run")
        terminal.wait_for("run", 60)
        terminal.type("\x03")
        terminal.read()
        self.assertIn("moment 1:", terminal.ask("step"))
        self.assertEqual(terminal.quit(), 0)


class Commands(Debug):
    def test_back_and_forth(self) -> None:
        words = ["uxn-debug", self.example("mistake.tal")]
        shown = self.answers(
            "break sum/loop",
            "run",
            "run",
            "step 2",
            "back 2",
            "reverse-run",
            "reverse-run",
            "goto 100",
            "run",
            "back",
            "delete sum/loop",
            "run",
            words=words,
        )
        moments = [re.match(r"(?:no earlier.*\n)?moment (\d+)", text) for text in shown]
        self.assertEqual(
            [int(found[1]) if found else None for found in moments],
            [None, 3, 15, 17, 15, 3, 0, 100, 129, 128, None, 129],
        )
        self.assertIn("the end of the run", shown[8])

    def test_goto_past_what_undo_holds(self) -> None:
        self.write("a.tal", "@loop ,&x LDR2 INC2 DUP2 ,&x STR2 #ffff NEQ2 ?loop BRK &x 0000")
        shown = self.answers(
            "goto 400000",
            "mem loop/x 2",
            "goto 40",
            "mem loop/x 2",
            "goto 400000",
            "mem loop/x 2",
            words=["uxn-debug", "a.tal"],
        )
        self.assertIn("moment 400000:", shown[0])
        self.assertEqual((shown[1], shown[2].split(":")[0]), (shown[5], "moment 40"))
        self.assertNotEqual(shown[1], shown[3])

    def test_next_and_finish_with_recursion(self) -> None:
        words = self.ledger()
        shown = self.answers(
            "break do-line/ask", "run", "delete do-line/ask", "step 3", "where", "next", "where", words=words
        )
        self.assertIn("print-decimal new-line"[:13], shown[4])
        self.assertIn("new-line", shown[6])
        shown = (
            self.answers(
                "break print-decimal",
                "run",
                "run",
                "calls",
                "delete print-decimal",
                "finish",
                "finish",
                words=[words[0], words[1], "--script", "s2"],
            )
            if self.write("s2", 'input "+123 0a\ninput "? 0a\n')
            else []
        )
        calls = shown[3].splitlines()
        self.assertEqual(
            ["print-decimal+" in calls[0], "do-line/ask+" in calls[1], "on-console/line+" in calls[2], len(calls)],
            [True, True, True, 3],
        )
        self.assertIn("print-decimal/last", shown[5])
        self.assertIn("do-line/ask", shown[6])

    def test_calls_far_back(self) -> None:
        """A loop of a subroutine that runs for long: its call is found by the return address."""
        self.write("a.tal", "@main long #01 BRK @long #0000 &loop INC2 DUP2 #4000 NEQ2 ?&loop POP2 JMP2r")
        shown = self.answers(
            "finish", "calls", "goto 60000", "calls", "finish", "step 2", "finish", words=["uxn-debug", "a.tal"]
        )
        self.assertIn("this is no subroutine", shown[0])
        self.assertEqual(shown[1], "no call of this vector is on the return stack\n")
        self.assertEqual(shown[3], "those of the last 30000 instructions, or the innermost 64:\n")
        self.assertRegex(shown[4], r"^its call is far back.*\nfrom the call at 0100 main\+0000\nmoment \d+: 0103 LIT")
        self.assertIn("the end of the run", shown[5])

    def test_a_lambda_is_no_subroutine(self) -> None:
        self.write("a.tal", "{ #01 POP JMP2r } STH2r JSR2 BRK")
        moments = [
            re.match(r"moment (\d+): (\S+)", text)
            for text in self.answers("next", "next", "next", words=["uxn-debug", "a.tal"])
        ]
        self.assertEqual([found[2] for found in moments if found], ["0107", "0108", "0109"])

    def test_what_is_shown(self) -> None:
        words = ["uxn-debug", self.example("mistake.tal")]
        shown = self.answers(
            "stacks",
            "mem numbers 6",
            "print numbers",
            "labels SUM",
            "ports",
            "list",
            "list",
            "step",
            "stacks",
            words=words,
        )
        self.assertEqual(shown[0], "WST 0:\nRST 0:\n")
        self.assertRegex(shown[1], r"^0140 01 02 03 04 05 73 +\.\.\.\.\.s\n$")
        self.assertEqual(shown[2], "0140 01 02 03 04 05\n")
        self.assertEqual([line.split()[1] for line in shown[3].splitlines()], ["sum", "sum/loop"])
        self.assertEqual(len(shown[4].splitlines()), 16)
        self.assertIn(">", shown[5])
        self.assertNotEqual(shown[5], shown[6])
        self.assertEqual(shown[8], "WST 2: 01 40\nRST 0:\n")

    def test_print_of_the_last_label(self) -> None:
        """It ends with the ROM, and is no longer than a row."""
        self.write("a.tal", "|f0 @shown |0100 @main BRK @first 0102 @last 0304 05")
        words = ["uxn-debug", "a.tal"]
        shown = self.answers("print first", "print last", words=words)
        self.assertEqual(shown, ["0101 01 02  = 258\n", "0103 03 04 05\n"])
        self.write("a.tal", f"@main BRK @last {'41' * 2} {'42' * 2} {'43 ' * 20}")
        self.assertTrue(self.answers("print last", words=words)[0].startswith(f"0101 41 41 42 42{' 43' * 12}  '"))
        self.write("a.tal", "|0100 BRK |f0 @shown $1")
        self.assertEqual(self.answers("print shown", words=words)[0].splitlines()[0], f"00f0{' 00' * 16}")

    def test_print_of_a_variable_beneath_devices(self) -> None:
        """The labels of devices do not end it."""
        self.write("a.tal", "|0000 @name $12 &end |10 @Console &vector $2 |20 @Screen &vector $2 |0100 #41 .name STZ #42 #11 STZ BRK")
        shown = self.answers("goto 3", "print name", words=["uxn-debug", "a.tal"])
        self.assertEqual(shown[1].split("  ")[0].split(), ["0000", "41", *["00"] * 17])

    def test_frames_and_lines_of_the_script(self) -> None:
        self.write("a.tal", "|20 @Screen &vector $2 |80 @Controller &vector $2 |0100 @main ;on-frame .Screen/vector DEO2 ;on-key .Controller/vector DEO2 BRK "
                   "@on-frame #01 POP BRK @on-key BRK")
        self.write("s", "# first\nframe 3\n\nkey 41\nframe 2\n")
        shown = self.answers("where", "goto frame 2", "where", "goto s:4", "where", "next-frame", "bf", "bf", "goto frame 9", "goto x:3", "goto s:1", "back-frame",
                             words=["uxn-debug", "a.tal", "--script", "s"])
        moments = [re.search(r"moment (\d+)", part) for part in shown]
        self.assertEqual([found and int(found[1]) for found in moments], [0, 10, 10, 16, 16, 17, 13, 10, None, None, 7, 0])
        self.assertIn("before the first event\n", shown[0])
        self.assertIn("frame 2, in event 2, s:2\n", shown[2])
        self.assertIn("frame 3, in event 4, s:4\n", shown[4])
        self.assertIn("the script has no frame 9", shown[8])
        self.assertIn("x is not the script of this run", shown[9])

    def test_watch_finds_the_last_store(self) -> None:
        self.write("a.tal", "#01 ;x STA\n#02 ;x STA\n#0000 @loop INC2 DUP2 #3000 NEQ2 ?loop\nBRK @x 00")
        shown = self.answers(
            "goto 5", "watch x", "goto 60000", "watch x", "goto 1", "watch x", words=["uxn-debug", "a.tal"]
        )
        self.assertIn("was 00, became 01 by\nmoment 2:", shown[1])
        self.assertIn("was 01, became 02 by\nmoment 5:", shown[3])
        self.assertIn("a.tal:2: #02 ;x STA", shown[3])
        self.assertIn("nothing changed", shown[5])

    def test_watch_says_that_a_port_is_none_of_memory(self) -> None:
        self.write("a.tal", "|28 @Screen/x $2 |f0 @shown $1 |0100 #0007 .Screen/x DEO2 #01 #29 STZ #02 .shown DEO BRK")
        shown = self.answers(
            "run", "watch Screen/x", "print Screen/x", "watch 0028 2", "watch shown", words=["uxn-debug", "a.tal"]
        )
        self.assertEqual(
            shown[1], "Screen/x is a port, and only memory is watched: `print Screen/x` in uxn-debug shows the port\n"
        )
        self.assertIn("port 28 00 07", shown[2])
        self.assertIn("0028 was 00 00, became 00 01 by\nmoment 5:", shown[3])
        self.assertEqual(
            shown[4], "shown is a port, and only memory is watched: `print shown` in uxn-debug shows the port\n"
        )

    def test_watch_where_instructions_are_stored(self) -> None:
        """A store by an instruction that the program itself put there; and one by a file device."""
        loop = "#0000 @loop INC2 DUP2 #3000 NEQ2 ?loop BRK"
        self.write("a.tal", f"#01 ;x STA #15 ;patch STA #09 ;x @patch POP2 {loop} @x 00")
        shown = self.answers("goto 60000", "watch x", words=["uxn-debug", "a.tal"])
        self.assertIn("was 01, became 09 by\nmoment 8: 0111 STA  patch+0000", shown[1])
        self.write("r/f", "z")
        self.write("b.tal", f';name #a8 DEO2 #0001 #aa DEO2 ;x #ac DEO2 {loop} @name "f 00 @x 00')
        shown = self.answers("goto 60000", "watch x", words=["uxn-debug", "b.tal", "--root", "r"])
        self.assertRegex(shown[1], r"was 00, became 7a by\nmoment 8: [0-9a-f]{4} DEO2\n")

    def test_a_file_and_a_line_as_a_place(self) -> None:
        shown = self.answers(
            "break p/ledger/digit.tal:2", "run", "list", "break :2", "break p/none.tal:2", words=self.ledger()
        )
        self.assertIn('p/ledger/digit.tal:2: LIT "0 ADD', shown[1])
        self.assertIn("*>    2 LIT", shown[2])
        self.assertIn("break at", shown[3])
        self.assertIn("there is no file p/none.tal", shown[4])

    def test_wrong_commands_change_nothing(self) -> None:
        lines = [
            "nothing",
            "step 0",
            "step x",
            "break",
            "break none",
            "goto",
            "back 1",
            "finish",
            "delete @sum",
            "run 3",
            "re",
            "mem",
            "mem 0100 0",
            "reverse-run",
        ]
        shown = self.answers(*lines, "where", words=["uxn-debug", self.example("mistake.tal")])
        self.assertTrue(all(text.count("\n") == 1 for text in shown[:-1]), shown)
        self.assertIn("moment 0:", shown[-1])

    def test_help(self) -> None:
        from_help = self.session("help", "help goto", words=["uxn-debug", self.example("mistake.tal")])
        for name in (
            "break",
            "delete",
            "run",
            "step",
            "next",
            "finish",
            "back",
            "reverse-run",
            "goto",
            "watch",
            "where",
            "list",
            "stacks",
            "mem",
            "ports",
            "print",
            "labels",
            "shot",
            "save",
        ):
            self.assertRegex(from_help, rf"(?m)^{name}\b")


class Shots(Debug):
    def shot(self, *lines: str, words: list[str]) -> str:
        return self.session(*lines, words=words).splitlines()[-1]

    def size(self, name: str) -> tuple[int, int]:
        return struct.unpack(">II", self.read(name)[16:24])

    def test_within_the_reset_vector(self) -> None:
        """One pixel after the other: each moment has its own picture."""
        self.write(
            "a.tal",
            "|20 @Screen &vector $2 &width $2 &height $2 &pad $2 &x $2 &y $2 &addr $2 &pixel $1 |0100\n"
            "#0008 .Screen/width DEO2 #0008 .Screen/height DEO2 #f00f #08 DEO2 #01 .Screen/pixel DEO "
            "#0001 .Screen/x DEO2 #01 .Screen/pixel DEO BRK",
        )
        words = ["uxn-debug", "a.tal"]
        self.session(
            "goto 12", "shot one", "goto 18", "shot two", "goto 12", "shot again", "run", "shot end", words=words
        )
        self.assertEqual(self.size("one.png"), (8, 8))
        self.assertEqual(self.read("one.png"), self.read("again.png"))
        self.assertEqual(self.read("two.png"), self.read("end.png"))
        self.assertNotEqual(self.read("one.png"), self.read("two.png"))

    def test_between_and_within_frames(self) -> None:
        """Between two frames it is the picture that `uxn play` takes there; within one these before and behind it."""
        self.example("bounce.tal")
        self.write("s", "frame 9\n")
        for frames in (1, 2, 9):
            self.write("p", f"frame {frames}\nshot\n")
            self.succeed("uxn", "play", "bounce.tal", "--script", "p", "--frames", "ppm")
            self.succeed("uxn-frames-to-png", "ppm", f"wanted{frames}")
        said = self.session(
            "break on-frame",
            "run",
            "run",
            "shot a",
            "step 20",
            "shot b",
            "delete on-frame",
            "run",
            "shot c",
            words=["uxn-debug", "bounce.tal", "--script", "s"],
        )
        self.assertRegex(said, r"a\.png: the screen at moment \d+\n")
        self.assertRegex(said, r"b-before\.png: the screen at moment \d+, before event 2 of the script\n")
        for got, frames in (("a", 1), ("b-before", 1), ("b-after", 2), ("c", 9)):
            self.assertEqual(self.read(f"{got}.png"), self.read(f"wanted{frames}-1.png"), got)

    def test_a_program_that_ends_its_run(self) -> None:
        self.write("a.tal", "#80 #0f DEO BRK")
        self.assertIn("no picture", self.shot("run", "shot x", words=["uxn-debug", "a.tal"]))


class Sessions(Debug):
    def test_a_session_becomes_a_test(self) -> None:
        words = self.ledger()
        said = self.session(
            "break do-line/again", "run", "stacks", "mem line 16", "back 3", "where", "run", "save t/again", words=words
        )
        self.assertIn("written: t/again.commands, t/again.log, t/again.script", said)
        self.assertEqual(
            self.read("t/again.commands").decode().splitlines(),
            ["break @do-line/again", "run", "stacks", "mem @line 16", "back 3", "where", "run"],
        )
        self.succeed(
            "uxn", "debug", "p/ledger.tal", "--script", "t/again.script", "--commands", "t/again.commands", "--log", "l"
        )
        self.assertEqual(self.read("l"), self.read("t/again.log"))

    def test_uxn_test_runs_a_session(self) -> None:
        """It passes over the program that it was made with, and fails over another one."""
        self.write("g/game.tal", "@main #01 ;score STA more BRK\n@more ;score LDA INC ;score STA JMP2r\n@score 00")
        os.mkdir(self.path("g/tests"))
        self.folder, top = self.path("g"), self.folder
        self.session(
            "break more",
            "run",
            "mem score 1",
            "finish",
            "mem score 1",
            "save tests/score",
            words=["uxn-debug", "game.tal"],
        )
        self.assertEqual(self.call("uxn-test").returncode, 0)
        self.write("game.tal", self.read("game.tal").replace(b"INC", b"INC INC"))
        self.assertEqual(self.call("uxn-test").returncode, 1)
        self.folder = top

    def test_a_session_that_went_far_back(self) -> None:
        self.write("a.tal", "@loop ,&x LDR2 INC2 DUP2 ,&x STR2 #ffff NEQ2 ?loop BRK &x 0000")
        self.session(
            "goto 200000",
            "mem loop/x 2",
            "goto 5",
            "mem loop/x 2",
            "stacks",
            words=["uxn-debug", "a.tal", "--save", "t"],
        )
        self.assertEqual(
            self.read("t.commands").decode().splitlines()[1:],
            ["step 5", "mem @loop/x 2", "stacks", "step 199995", "mem @loop/x 2"],
        )

    def test_commands_of_a_file(self) -> None:
        self.write("c", "# a session\nbreak @sum/loop\nrun\nquit\n")
        self.assertIn("moment 3:", self.succeed("uxn-debug", self.example("mistake.tal"), "--commands", "c"))

    def test_reload(self) -> None:
        self.write("a.tal", "@one #01 BRK")
        terminal = self.at_terminal(["uxn-debug", "a.tal"])
        terminal.read()
        terminal.ask("break one")
        self.write("a.tal", "#02 @one #01 BRK")
        self.assertIn("moment 0: 0100 LIT", terminal.ask("where"))
        self.assertIn("moment 0: 0100", terminal.ask("reload"))
        self.assertIn("moment 1: 0102", terminal.ask("run"))
        self.write("a.tal", "#1")
        self.assertIn("source 1:1: BadNumber: #1", terminal.ask("reload"))
        self.assertIn("moment 1: 0102", terminal.ask("where"))
        self.assertEqual(terminal.quit(), 0)


class Programs(Debug):
    def test_a_refused_source(self) -> None:
        self.assertEqual(
            self.refuse(131, "uxn-debug", self.write("a.tal", "BRK\n#1")), "uxn-debug: source 2:1: BadNumber: #1"
        )
        self.refuse(132, "uxn-debug", self.example("hello.tal"), "--script", self.write("s", "nothing"))
        self.refuse(130, "uxn-debug", "gone.tal")

    def test_a_rom_with_and_without_symbols(self) -> None:
        self.succeed("uxn", "asm", self.example("mistake.tal"), "--out", "m.rom", "--symbols", "m.sym")
        shown = self.answers(
            "break sum/loop", "run", "list", words=["uxn-debug", "m.rom", "--rom", "--symbols", "m.sym"]
        )
        self.assertIn("moment 3: 0112 LDAk  sum/loop+0000\nm.rom:", shown[1])
        self.assertIn("LDAk ( 0112 )", shown[2])
        self.assertIn("moment 3:", self.answers("break 0112", "run", words=["uxn-debug", "m.rom", "--rom"])[1])

    def test_the_root_stays_as_it_is(self) -> None:
        for name in ("notes.tal", "notes.script"):
            self.example(name)
        shutil.copytree(os.path.join(EXAMPLES, "notes.root"), self.path("notes.root"))
        before = self.read("notes.root/notes.txt")
        shown = self.answers(
            "run",
            "goto 10",
            "run",
            words=["uxn-debug", "notes.tal", "--script", "notes.script", "--root", "notes.root"],
        )
        self.assertEqual(shown[0], shown[2])
        self.assertEqual(self.read("notes.root/notes.txt"), before)

    def test_a_run_that_ends_itself(self) -> None:
        self.write("a.tal", "#83 #0f DEO BRK")
        shown = self.answers("run", "run", "step 5", "back", "output", words=["uxn-debug", "a.tal"])
        self.assertIn("moment 4: the end of the run", shown[0])
        self.assertEqual(shown[0], shown[2])
        self.assertIn("moment 3: 0105 BRK", shown[3])
        self.assertIn("the status 3", shown[4])

    def test_a_run_that_cannot_be_finished(self) -> None:
        """A folder that cannot be listed ends the call early with 136, and no log is written: the session ends before."""
        self.write("root/loop/\udcff", b"")
        self.write(
            "a.tal",
            ";on-key #80 DEO2 #01 BRK @on-key ;name #a8 DEO2 #0010 #aa DEO2 ;to #ac DEO2 BRK" ' @name "loop 00 @to',
        )
        self.write("s", "frame 3\nkey 41\nframe\n")
        said = self.session("run", words=["uxn-debug", "a.tal", "--script", "s", "--root", "root"])
        self.assertIn("the run ends early with 136, in event 4 of its script; this session ends behind event 3", said)
        self.assertIn("moment 5: the end of the run", said)
        self.write("s", "frame\n")
        self.write("b.tal", self.read("a.tal").replace(b";on-key #80 DEO2 #01 BRK", b""))
        self.assertIn("ends early", self.refuse(136, "uxn-debug", "b.tal", "--script", "s", "--root", "root"))

    def test_a_session_that_is_ended_leaves_no_folder(self) -> None:
        """The copies of its files go."""
        os.mkdir(self.path("tmp"))
        self.environment["TMPDIR"] = self.path("tmp")
        terminal = self.at_terminal(["uxn-debug", self.example("mistake.tal")])
        terminal.read()
        self.assertEqual(len(os.listdir(self.path("tmp"))), 1)
        terminal.process.send_signal(signal.SIGTERM)
        self.assertEqual(terminal.end(), 143)
        self.assertEqual(os.listdir(self.path("tmp")), [])

    def test_signals_in_the_instant_before_the_wait_for_a_key(self) -> None:
        """Each comes behind the last look for signals, since only functions of C run from there on. The tool ends,
        or goes on with the next line, and the terminal is as it was."""
        os.mkdir(self.path("tmp"))
        self.environment |= {"TMPDIR": self.path("tmp"), "PYTHONPATH": self.path("site")}
        for number in (signal.SIGTERM, signal.SIGHUP, signal.SIGINT):
            self.write(
                "site/sitecustomize.py",
                "import ctypes, functools, os, readline, sys\n"
                "strike = functools.partial(ctypes.CDLL(None)['raise'], %d)\n" % number
                + "if 'uxn-debug' in ''.join(sys.orig_argv): readline.set_pre_input_hook(strike)\n",
            )
            terminal = self.at_terminal(["uxn-debug", self.example("mistake.tal")])
            before = termios.tcgetattr(terminal.outer)[3]
            if number == signal.SIGINT:
                terminal.wait_for("(uxn) \n", 60)
                terminal.process.kill()
                terminal.end()
                continue
            self.assertEqual(terminal.process.wait(60), 128 + number)
            self.assertEqual(termios.tcgetattr(terminal.outer)[3], before)
            self.assertEqual(os.listdir(self.path("tmp")), [])

    def test_large_output(self) -> None:
        self.write("a.tal", "@loop #41 #18 DEO !loop")
        shown = self.answers("goto 2000000", "back 1000000", words=["uxn-debug", "a.tal"])
        self.assertIn("moment 1000000:", shown[1])

    def test_a_long_run_is_followed_as_far_as_it_has_to_be(self) -> None:
        """Ten million instructions of frames: what is shown is what `uxn debug` shows of the whole run."""
        self.write(
            "a.tal",
            "|20 @Screen &vector $2 |0100 ;frame .Screen/vector DEO2 BRK\n"
            "@frame ;n LDA2 INC2 ;n STA2 #0000 &loop INC2 DUP2 #1500 NEQ2 ?&loop POP2 BRK @n 0000",
        )
        self.write("s", "frame 400\n")
        moments = (4, 5_000_000, 26892)
        for at in moments:
            self.write("c", f"step {at}\nmem @n 2\n")
            self.call("uxn", "debug", "a.tal", "--script", "s", "--commands", "c", "--log", f"l{at}")
        lines = [line for at in moments for line in (f"goto {at}", "mem n 2")]
        shown = self.answers(
            *lines,
            "goto 4",
            "break frame",
            "run",
            "run",
            "rr",
            "goto 20000000",
            words=["uxn-debug", "a.tal", "--script", "s"],
        )
        for at, place, memory in zip(moments, shown[::2], shown[1::2]):
            log = self.read(f"l{at}").decode().splitlines()
            self.assertTrue(place.startswith(f"moment {at}: {log[0].split()[1]} {log[0].split()[3]}"), (place, log))
            self.assertTrue(memory.startswith(log[1]), (memory, log))
        self.assertEqual([text.split(":")[0] for text in shown[8:11]], ["moment 26892", "moment 53780", "moment 26892"])
        self.assertIn("the run ends after 10755204 instructions", shown[11])

    def counted(self) -> None:
        """Makes `uxn` one that notes how many instructions each call of `uxn debug` runs."""
        self.write(
            "counted",
            "#!/bin/sh\n"
            f'[ "$1" = debug ] || exec "{self.program}" "$@"\n'
            f'"{self.program}" "$@" --report=.uxn-tool-count; status=$?\n'
            f"""sed -n 's/^instructions //p' .uxn-tool-count >>"{self.path('counts')}"\n"""
            "exit $status\n",
        )
        os.chmod(self.path("counted"), 0o755)
        self.write("counts", "")
        self.environment["UXN"] = self.path("counted")

    def new_counts(self, before: int) -> list[int]:
        return [int(line) for line in self.read("counts").split()[before:]]

    def test_what_commands_run(self) -> None:
        """Four million instructions, back and forth: at most one run that goes to where the answer is, and what lies
        near is known without one. Each answer comes in a few times the time of one such run."""
        self.write(
            "a.tal", "@main &loop count ;y LDA2 INC2 ;y STA2 !&loop\n@count ;x LDA2 INC2 ;x STA2 JMP2r\n@x 0000 @y 0000"
        )
        self.write("c", "step 4000000\n")
        begin = time.monotonic()
        self.succeed("uxn", "debug", "a.tal", "--commands", "c", "--log", "l")
        one_run = time.monotonic() - begin
        self.counted()
        terminal = self.at_terminal(["uxn-debug", "a.tal"])
        terminal.read()
        self.assertLess(sum(self.new_counts(0)), 300_000)
        whole = 4_000_000
        for line, most in {
            "goto 3999900": whole,
            "break count": 0,
            "run": 0,
            "r": 0,
            "rr": 0,
            "step 20": 0,
            "back 30": 0,
            "ports": 0,
            "goto 2999900": 3_500_000,
            "mem x": 0,
            "print y": 0,
            "next": 0,
            "reverse-run": 0,
            "back": 0,
            "finish": 0,
            "calls": 0,
            "watch y 2": 3_500_000,
            "goto 5": 300_000,
            "goto 2000000": 2_400_000,
            "where": 0,
            "list": 0,
            "delete count": 0,
            "break 0000": 0,
            "run ": whole,
            "goto 1": 0,
        }.items():
            before = len(self.read("counts").split())
            begin = time.monotonic()
            self.assertIn("\n", terminal.ask(line))
            seconds = time.monotonic() - begin
            counts = self.new_counts(before)
            self.assertLessEqual((len(counts) > 1, sum(counts)), (False, most), line)
            self.assertLess(seconds, 4 * one_run + 2, line)
        self.assertEqual(terminal.quit(), 0)

    def test_a_long_vector_behind_others(self) -> None:
        """A vector of millions of instructions is followed up to the moment, unless one before it is as long."""
        self.write(
            "a.tal",
            "|80 @Controller &vector $2 |0100 ;on-key .Controller/vector DEO2 BRK\n"
            "@on-key ;n LDA2 INC2 ;n STA2 [ LIT2 &most 0100 ] #0000 &loop INC2 EQU2k #00 EQU ?&loop POP2 POP2\n"
            "#ffff ,&most STR2 BRK @n 0000",
        )
        for script, wanted in (("key 41\nkey 42\nkey 43\n", (2000, 30_000, 350_000)), ("key 41\n" * 4, (800_000,))):
            self.write("s", script)
            for at in wanted:
                self.write("c", f"step {at}\nmem @n 2\nstacks\n")
                self.succeed("uxn", "debug", "a.tal", "--script", "s", "--commands", "c", "--log", f"l{at}")
            shown = self.answers(
                *[line for at in wanted for line in (f"goto {at}", "mem n 2")],
                words=["uxn-debug", "a.tal", "--script", "s"],
            )
            for at, place, memory in zip(wanted, shown[::2], shown[1::2]):
                log = self.read(f"l{at}").decode().splitlines()
                self.assertTrue(place.startswith(f"moment {at}: {log[0].split()[1]} {log[0].split()[3]}"), (place, log))
                self.assertTrue(memory.startswith(log[1]), (memory, log))

    def test_wrong_calls(self) -> None:
        for words in ([], ["a.tal", "b.tal"], ["a.tal", "--nothing"], ["a.tal", "--script"]):
            self.refuse(2, "uxn-debug", *words)
        self.assertIn("uxn-debug SRC", self.succeed("uxn-debug", "--help"))
