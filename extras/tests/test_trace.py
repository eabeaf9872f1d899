"""uxn-trace: the instructions of a run beneath the lines of the source."""
import os
import shutil

from support import EXAMPLES, ToolTest

PROGRAMS = os.path.join(os.path.dirname(os.path.realpath(__file__)), "programs")


class Trace(ToolTest):
    def example(self, name: str) -> str:
        shutil.copy(os.path.join(EXAMPLES, name), self.path(name))
        return name

    def trace(self, *words: str) -> list[str]:
        return self.succeed("uxn-trace", *words).splitlines()

    def test_lines_and_instructions(self) -> None:
        self.assertEqual(
            self.trace(self.example("hello.tal"), "--count", "3"),
            [
                "    6 \t;greeting print-text",
                "         0 0100 LIT2     0:                         |   0:                          on-reset+0000",
                "         1 0103 JSI      2: 01 12                   |   0:                          on-reset+0003",
                "   11 \t\tLDAk .Console/write DEO",
                "         2 0107 LDAk     2: 01 12                   |   2: 01 06                    print-text+0000",
            ],
        )

    def test_included_files(self) -> None:
        self.write("a.tal", "#41 print\nBRK ~lib/print.tal\n")
        self.write("lib/print.tal", "( a library )\n@print ( byte -- )\n    #18 DEO JMP2r\n")
        shown = [line.split(":")[0][:26].rstrip() for line in self.trace("a.tal")]
        self.assertEqual(
            shown,
            [
                "    1 #41 print",
                "         0 0100 LIT      0",
                "         1 0102 JSI      1",
                "lib/print.tal",
                "    3     #18 DEO JMP2r",
                "         2 0106 LIT      1",
                "         3 0108 DEO      2",
                "         4 0109 JMP2r    0",
                "a.tal",
                "    2 BRK ~lib/print.tal",
                "         5 0105 BRK      0",
                "      the run ends after 6 i"[:26].rstrip(),
            ],
        )

    def test_an_underflow_is_seen(self) -> None:
        self.write("a.tal", "POP #41 BRK")
        depths = [line.split(":")[0].split()[-1] for line in self.trace("a.tal") if " 01" in line]
        self.assertEqual(depths, ["0", "255", "0"])

    def test_at_the_first_address_and_a_label(self) -> None:
        name = self.example("mistake.tal")
        self.assertIn("         0 0100 ", self.trace(name, "--at", "0100", "--count", "1")[1])
        line = self.trace(name, "--at", "@sum/loop", "--count", "1")[1]
        self.assertTrue(line.startswith("         3 0112 LDAk") and line.endswith("sum/loop+0000"), line)
        line = self.trace(name, "--at", "sum/loop", "--from", "4", "--count", "1")[1]
        self.assertTrue(line.startswith("        15 0112 LDAk"), line)

    def test_an_address_that_is_never_reached(self) -> None:
        name = self.example("mistake.tal")
        self.assertEqual(
            self.refuse(1, "uxn-trace", name, "--at", "0101"),
            "uxn-trace: 0101 (0101) is never reached: the run ends after 129 instructions",
        )
        self.assertIn("from moment 100 on", self.refuse(1, "uxn-trace", name, "--at", "0100", "--from", "100"))
        self.assertIn("there is no label @nothing", self.refuse(1, "uxn-trace", name, "--at", "@nothing"))

    def test_first_and_last_moment(self) -> None:
        name = self.example("mistake.tal")
        moments = [
            int(line.split()[0])
            for line in self.trace(name, "--from", "10", "--to", "20")
            if line.startswith("     ") and line[5] == " "
        ]
        self.assertEqual(moments, list(range(10, 21)))
        self.assertEqual(
            self.trace(name, "--from", "128", "--to", "1000")[-1][:41], "      the run ends after 129 instructions"
        )

    def test_more_moments_than_one_session_shows(self) -> None:
        self.write("a.tal", "#0000 @loop INC2 DUP2 #3000 NEQ2 ?loop BRK")
        moments = [line.split()[0] for line in self.trace("a.tal", "--count", "60000") if line.startswith("     ")]
        self.assertEqual(moments[:60000], [str(count) for count in range(60000)])

    def test_a_stack_that_grows(self) -> None:
        """The planted mistake: each of two comments leaves its letter, so the stack of a later line is deeper."""
        shutil.copytree(PROGRAMS, self.path("p"))
        words = ["p/ledger.tal", "--script", "p/ledger.script", "--at", "do-line/in", "--count", "1"]
        self.assertIn(" POP      1: 2b ", self.trace(*words)[1])
        self.assertIn(" POP      3: 23 23 2b ", self.trace(*words, "--from", "1000")[1])

    def test_the_root_stays_as_it_is(self) -> None:
        for name in ("notes.tal", "notes.script"):
            self.example(name)
        shutil.copytree(os.path.join(EXAMPLES, "notes.root"), self.path("notes.root"))
        before = self.read("notes.root/notes.txt")
        self.trace("notes.tal", "--script", "notes.script", "--root", "notes.root", "--count", "5")
        self.assertEqual(self.read("notes.root/notes.txt"), before)
        self.assertEqual(sorted(os.listdir(self.folder)), [".bin", "notes.root", "notes.script", "notes.tal"])

    def test_refusals_and_wrong_calls(self) -> None:
        name = self.write("a.tal", "BRK\n#1")
        self.assertEqual(self.refuse(131, "uxn-trace", name), "uxn-trace: source 2:1: BadNumber: #1")
        self.refuse(130, "uxn-trace", "gone.tal")
        self.refuse(132, "uxn-trace", self.example("hello.tal"), "--script", self.write("s", "nothing"))
        for words in (
            [],
            [name, "--at"],
            [name, "--count", "x"],
            [name, "--count", "0"],
            [name, "--from", "3", "--to", "2"],
            [name, "--nothing"],
        ):
            self.refuse(2, "uxn-trace", *words)
        self.assertIn("uxn-trace SRC", self.succeed("uxn-trace", "--help"))
