"""uxn-explain: for each refusal why it is one, where, and what to write, which is then accepted."""
import os
import random
import re
import sys

from support import EXAMPLES, EXTRAS, TOP, ToolTest

sys.path.insert(0, EXTRAS)
from uxntools.explaining import arguments, lines, sources  # noqa: E402

# The rows of docs/coming-from.md: a source, the faulty word, a part of what is said of it, and a source that is right.
ROWS = (
    ("|0100 LIT 'A", "'A", 'LIT "A to push it', '|0100 LIT "A'),
    ("|0100 @l BRK :l", ":l", "=l for the address", "|0100 @l BRK =l"),
    ("@l |0100 BRK |l", "|l", "no label", "@l |0100 BRK |0200"),
    ("@l BRK $l", "$l", "no label", "@l BRK $2"),
    ("|0100 #AB", "#AB", "#ab", "|0100 #ab"),
    ("|0100 AB", "AB", "`AB` is the call of a subroutine", "|0100 ab"),
    ("#1", "#1", "Write: #01", "#01"),
    ("#123", "#123", "Write: #0123", "#0123"),
    ("|00100 BRK", "|00100", "Write: |0100", "|0100 BRK"),
    ("|0100 (comment) BRK", "(comment)", "Write: ( comment )", "|0100 ( comment ) BRK"),
    ("[#01]", "[#01]", "Write: [ #01 ]", "[ #01 ]"),
    ("%A{ INC } A", "%A{", "Write: %A { .. }", "%A { INC } A"),
    ("|0100 A %A { INC }", "A", "known only from its head on", "%A { INC } A"),
    ("\ufeff|0100 BRK", "\ufeff|0100", "byte-order mark", "|0100 BRK"),
    ("@face BRK", "@face", "four lowercase hexadecimal digits", "@Face BRK"),
    ("@c1 BRK", "@c1", "`c1` is two lowercase hexadecimal digits", "@C1 BRK"),
    ("@ADD BRK", "@ADD", "`ADD` is an opcode", "@add BRK"),
    ("%ADD2k { INC }", "%ADD2k", "`ADD2k` is an opcode", "%add2k { INC }"),
    ("brk", "brk", "Write: BRK", "BRK"),
    ("LZD", "LZD", "Write: LDZ", "LDZ"),
    ("SPW2r", "SPW2r", "Write: SWP2r", "SWP2r"),
    ("EQQU", "EQQU", "Write: EQU", "EQU"),
    ("STX2", "STX2", "STZ2", "STZ2"),
    ("~game/lib.tal", "~game/lib.tal", "Write: ~lib.tal", "~lib.tal"),
    ("~../lib.tal", "~../lib.tal", "leads out of the folder", "~lib.tal"),
    ("~/usr/lib.tal", "~/usr/lib.tal", "begins with `/`", "~lib.tal"),
    ("@far INC $100 ,far", ",far", ";far with JMP2", "@far INC $100 ;far"),
)
# The other faults of sources.
OTHERS = (
    ("@a BRK @a", "LabelTwice", "second time"),
    ("@a &b &b", "LabelTwice", "behind one label"),
    ("|0100 BRK |0100 INC", "Rewind", "one |0100"),
    ("|0010 BRK", "ZeroPage", "|0100 before"),
    ("|ffff BRK BRK", "Outside", "past ffff"),
    ("BRK )", "StrayParen", "closes no comment"),
    ("( BRK", "OpenComment", "a `)` that stands alone is missing"),
    ("@ BRK", "NoName", "no name"),
    ("%A { INC } %A { POP }", "MacroTwice", "already"),
    ("%A { A } A", "MacroDeep", "32 deep"),
    ("BRK }", "StrayBrace", "closes nothing"),
    ("{ BRK", "OpenBrace", "not closed"),
    ("?{x }", "BadName", "`?{` stands alone"),
    ("@print BRK pront", "UnknownName", "Write: print"),
    ("@a &loop ,&lop", "UnknownName", "&loop"),
    ("ADD22", "UnknownName", "at most once"),
    ("sub2", "UnknownName", "Write: SUB2"),
    ("123", "UnknownName", "two or four digits"),
    ("x" * 256, "LongWord", "255"),
    ("#xy", "BadNumber", "is no number"),
    ("# BRK", "BadNumber", "no digits"),
)

# Words of random calls, the commands first.
PIECES = [
    "play",
    "debug",
    "asm",
    "dis",
    "gen",
    "line",
    "a.tal",
    "b",
    "1",
    "8000",
    "8001",
    "--rom",
    "--script",
    "--script=s",
    "--root",
    "r",
    "--frames",
    "--frames=p",
    "--report",
    "--budget",
    "--budget=5",
    "--budget=05",
    "0",
    "--commands",
    "--commands=c",
    "--log=l",
    "--out",
    "--out=o",
    "--listing=t",
    "--symbols",
    "--symbols=y",
    "-x",
    "--",
    "",
    "--=",
    "--rom=",
    "--x",
    "--out=",
    "--out==",
    "4294967295",
    "4294967296",
    "-",
    "--help",
    "--script=-s",
]


class Sources(ToolTest):
    def explained(self, source: str, status: int = 131) -> str:
        self.write("a.tal", source)
        done = self.call("uxn-explain", "uxn", "asm", "a.tal", "--out", "a.rom")
        self.assertEqual(done.returncode, status, done.stderr.decode())
        return done.stderr.decode()

    def test_rows_of_coming_from(self) -> None:
        self.write("lib.tal", "( nothing )")
        for source, word, reason, right in ROWS:
            said = self.explained(source)
            first, place, text = said.split("\n")[:3]
            self.assertTrue(first.startswith("source 1:") and first.endswith(word), said)
            self.assertRegex(place, r"^a\.tal:1:\d+: ")
            self.assertTrue(text.startswith("    1 | "), said)
            self.assertIn(reason, said)
            self.assertEqual(self.explained(right, 0), "", right)

    def test_all_kinds_of_the_page_are_explained(self) -> None:
        for source, kind, reason in OTHERS:
            said = self.explained(source)
            self.assertRegex(said, rf"^source 1:\d+: {kind}: ")
            self.assertIn(reason, said)
        with open(os.path.join(TOP, "docs", "uxntal.md"), encoding="utf-8") as file:
            rows = re.findall(r"(?m)^\| [\d, ]+ \| ([A-Z][A-Za-z, ]+) \|", file.read())
        kinds = {kind for row in rows for kind in row.split(", ")}
        self.assertGreater(len(kinds), 20)
        for kind in kinds:
            self.assertIsNotNone(sources.reason(kind, "word"), kind)

    def test_the_word_is_marked(self) -> None:
        said = self.explained("|0100\n\t#18 DEO  #1g é\n")
        self.assertIn("a.tal:2:11: BadNumber: #1g\n    2 | \t#18 DEO  #1g é\n      | \t         ^^^\n", said)

    def test_included_files(self) -> None:
        self.write("lib/b.tal", "LIT\n  #1")
        self.assertIn("lib/b.tal:2:3: BadNumber: #1\n    2 |   #1\n      |   ^^\n", self.explained("BRK ~lib/b.tal"))

    def test_an_accepted_call_is_as_without_it(self) -> None:
        self.write("a.tal", 'LIT "h #18 DEO #83 #0f DEO BRK')
        done = self.call("uxn-explain", "uxn", "play", "a.tal")
        self.assertEqual((done.returncode, done.stdout, done.stderr), (3, b"h", b""))

    def test_a_program_with_planted_faults(self) -> None:
        """Each of these faults is planted into the game of lights (169 lines), and found at its line."""
        with open(os.path.join(EXTRAS, "tests", "programs", "lights.tal"), encoding="utf-8") as file:
            source = file.read()
        for right, wrong, reason in (
            ("@first-board", "@fade", "four lowercase"),
            ("?{ go-left }", "?{ go-lfet }", "Write: go-left"),
            ("#fa50 ", "#FA50 ", "Write: #fa50"),
            ('LIT "w NEQ', "LIT 'w NEQ", 'LIT "w to push'),
            ("( -- count )", "(-- count)", "not closed"),
            ("MUL SUB place", "MUL sub place", "Write: SUB"),
        ):
            self.assertIn(right, source)
            line = source[: source.index(right)].count("\n") + 1
            said = self.explained(source.replace(right, wrong, 1))
            self.assertIn(reason, said)
            self.assertIn(f"a.tal:{line}:", said)


class Words(ToolTest):
    def explained(self, *words: str, status: int = 128) -> str:
        done = self.call("uxn-explain", *words)
        self.assertEqual(done.returncode, status, done.stderr.decode())
        return done.stderr.decode()

    def test_which_word_and_why(self) -> None:
        self.write("a.tal", "BRK")
        for words, reason in (
            (
                "asm a.tal a.rom",
                "`a.rom` is one word too many: the ROM is named by an option.\nWrite: uxn asm a.tal --out a.rom",
            ),
            ("asm a.tal", "asm needs the option --out"),
            ("asm --out a.rom", "asm needs the source"),
            ("uxnasm a.tal a.rom", "Write: uxn asm a.tal --out a.rom --symbols a.rom.sym"),
            ("uxncli a.rom hello world", 'uxn play a.rom --rom --script S, where S has the line: args "hello "world'),
            ("uxncli a.rom", 'input "text 0a'),
            ("uxnemu a.rom", "Write: uxn play a.rom --rom --script S --frames P"),
            ("play a.tal --frame p", "There is no option `--frame`.\nWrite: --frames"),
            ("plya a.tal", "Write: uxn play"),
            ("a.tal", "is a file and no command"),
            ("play a.tal hello world", 'args "hello "world'),
            ("play a.tal -r x", "single `-`"),
            ("play a.tal --out x", "--out is an option of asm, not of play"),
            ("play a.tal --budget 0", "no decimal number from 1"),
            ("play a.tal --budget 007", "leading zeros"),
            ("play a.tal --script", "--script has no value"),
            ("play a.tal --script --rom", "`--rom` begins with `-`"),
            ("play a.tal --rom --rom", "stands twice"),
            ("play a.tal --rom=1", "takes no value"),
            ("play --help", "There is no --help"),
            ("--help", "There is no --help"),
            ("gen 9000", "from 1 to 8000"),
            ("debug a.tal --log l", "--commands"),
            ("dis a.rom a.tal", "uxn dis a.rom >a.tal"),
            ("play a.tal --", "`--` is no word"),
            ("play a.tal --script=", "is empty"),
        ):
            self.assertIn(reason, self.explained("uxn", *words.split()), words)
        self.assertIn("A word is empty", self.explained("uxn", "play", ""))

    def test_exactly_what_is_not_understood(self) -> None:
        """Random words: there is a reason just where `uxn` does not understand them."""
        chosen = random.Random(3)
        counts = {True: 0, False: 0}
        for _ in range(400):
            words = [chosen.choice(PIECES[:6])] if chosen.random() < 0.95 else []
            words += (
                chosen.choices(PIECES[6:], k=chosen.randrange(5))
                if chosen.random() < 0.5
                else [
                    *chosen.choice([["a.tal"], [], ["1"]]),
                    *chosen.sample([it for it in PIECES if "=" in it], chosen.randrange(4)),
                ]
            )
            is_legal = self.call("uxn", *words).returncode != 128
            self.assertEqual(not arguments.read(words).faults, is_legal, words)
            counts[is_legal] += 1
        self.assertGreater(min(counts.values()), 20)

    def test_paths(self) -> None:
        for path, reason in (
            ("/a.tal", "begins with `/`"),
            ("../a.tal", "leads out"),
            ("./a.tal", "the name `.`"),
            ("b//a.tal", "empty name"),
            ("b/", "ends with"),
            ("/".join("a" * 17), "17 names"),
            ("a" * 256, "256 bytes"),
            ("a\\b", "backslash"),
            ("a\nb", "control byte"),
        ):
            self.assertIn(reason, self.explained("uxn", "play", path, status=129), path)

    def test_missing_files_and_outputs(self) -> None:
        self.write("game.tal", "~lib/b.tal BRK")
        self.write("lib/b.tal", "INC")
        self.assertIn("Write: game.tal", self.explained("uxn", "play", "gmae.tal", status=130))
        self.assertIn("is a folder", self.explained("uxn", "play", "lib", status=130))
        self.assertIn("no folder `no`", self.explained("uxn", "play", "no/a.tal", status=130))
        for words, reason in (
            ("asm game.tal --out game.tal", "also an input"),
            ("asm game.tal --out a --symbols a", "also named by --"),
            ("asm game.tal --out lib/b.tal", "that the source includes"),
            ("asm game.tal --out lib", "is a folder"),
            ("asm game.tal --out no/a", "mkdir -p no"),
            ("play game.tal --root r --report r/p", "one beneath the other"),
        ):
            self.assertIn(reason, self.explained("uxn", *words.split(), status=135), words)


class Texts(ToolTest):
    def explained(self, status: int, *words: str) -> str:
        done = self.call("uxn-explain", "uxn", *words)
        self.assertEqual(done.returncode, status, done.stderr.decode())
        return done.stderr.decode()

    def test_scripts(self) -> None:
        self.write("a.tal", "BRK")
        for text, reason in (
            ("frame 2 # two\n", "a line of its own"),
            ("expect f0 01\n", "script 2 as the first line"),
            ("down a 2\n", "version 2"),
            ("frmae\n", "Write: frame"),
            ("key\n", "Write: key HH"),
            ("input hello\n", 'Write: "hello'),
            ('end\nargs "a\n', "before input"),
            ("frame 0\n", "1 to 1000000"),
            ("frame 1000000\nend\n", "1,000,000 events"),
            ("script 2\nscript 2\n", "second time"),
        ):
            self.write("s", text)
            said = self.explained(132, "play", "a.tal", "--script", "s")
            self.assertIn(reason, said)
            self.assertRegex(said, r"\ns:\d: \w+\n    \d \| ")

    def test_commands(self) -> None:
        self.write("a.tal", "@main &loop BRK")
        for text, reason in (
            ("brake 0100\n", "Write: break A"),
            ("break @loop\n", "break @scope/loop"),
            ("step\n", "Write: step N"),
            ("back 0\n", "1 to 65536"),
        ):
            self.write("c", text)
            self.assertIn(reason, self.explained(133, "debug", "a.tal", "--commands", "c", "--log", "l"))

    def test_which_machine(self) -> None:
        self.write("one.tal", "BRK")
        self.write("two.tal", "BRK\n #1")
        self.write("s.setup", "machine one.tal\nmachine two.tal\nmachine two.tal\n")
        self.assertIn(
            "machine 2, two.tal: two.tal:2:2: BadNumber: #1\n    2 |  #1\n", self.explained(131, "line", "s.setup")
        )
        self.write("two.tal", "BRK")
        self.write("s.setup", "machine one.tal\nmachine gone.tal\n")
        self.assertIn("machine 2 of s.setup", self.explained(130, "line", "s.setup"))
        for text, reason in (
            ("machine one.tal\n", "two machines at least"),
            ("machin one.tal\n", "Write: machine P"),
            ("turn 1 1\n", "No earlier line"),
        ):
            self.write("s.setup", text)
            self.assertIn(reason, self.explained(139, "line", "s.setup"))

    def test_symbols_and_roms(self) -> None:
        self.write("a.rom", "BRK")
        self.write("y", b"\x01")
        self.assertIn("y: entry 0: Torn", self.explained(134, "dis", "a.rom", "--symbols", "y"))
        self.write("a.rom", bytes(65281))
        self.assertIn("at most 65,280", self.explained(134, "dis", "a.rom"))

    def test_statuses_without_a_line(self) -> None:
        self.write("fails", "#!/bin/sh\nexit $3\n")
        os.chmod(self.path("fails"), 0o755)
        for status, reason in ((136, "A file failed"), (137, "output stream"), (138, "memory")):
            done = self.call("uxn-explain", "uxn", "play", "a.tal", str(status), UXN=self.path("fails"))
            self.assertEqual(done.returncode, status)
            self.assertIn(reason, done.stderr.decode())

    def test_all_kinds_have_a_reason(self) -> None:
        with open(os.path.join(TOP, "docs", "formats.md"), encoding="utf-8") as file:
            page = file.read()
        for title, of in (
            ("### Faults of scripts", "script"),
            ("## Setups", "setup"),
            ("## Debugger commands", "commands"),
        ):
            table = page.split(title + "\n")[1].split("| kind | what is wrong |\n")[1].split("\n\n")[0]
            kinds = [kind for row in table.splitlines() for kind in re.findall(r"`([A-Z]\w+)`", row.split("|")[1])]
            self.assertGreater(len(kinds), 6, title)
            for kind in kinds:
                self.assertIsNotNone(lines.reason(kind, lines.Line(of, 1, "x y", [])), kind)


class Lines(ToolTest):
    """A line alone, without its call."""

    def test_lines(self) -> None:
        self.assertIn("four lowercase", self.succeed("uxn-explain", "source 1:1: BadName: @face"))
        self.assertIn("version 1", self.succeed("uxn-explain", "script 3: Unknown"))
        self.assertIn("Write: #01", self.succeed("uxn-explain", stdin=b"building a.tal\nsource 1:1: BadNumber: #1\n"))

    def test_wrong_calls(self) -> None:
        for words in (["--nope"], ["nonsense"], [""]):
            self.refuse(2, "uxn-explain", *words)
        self.refuse(2, "uxn-explain", stdin=b"")
        self.assertIn("usage", self.succeed("uxn-explain", "--help"))
        self.assertIn("there is no program", self.refuse(127, "uxn-explain", "uxn", "gen", "1", UXN="no-such-uxn"))
