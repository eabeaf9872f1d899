"""uxn-needs: a source and the files that it includes."""
import os

from support import EXAMPLES, TOP, ToolTest, needs

PROGRAMS = os.path.join(TOP, "extras", "tests", "programs")


class Needs(ToolTest):
    def setUp(self) -> None:
        super().setUp()
        self.write("src/main.tal", '( ~no ) "~no ~a.tal ~b.tal')
        self.write("src/a.tal", "~b.tal ( ( nested ) ~no )")
        self.write("src/b.tal", "~a.tal")

    def test_each_file_once(self) -> None:
        self.assertEqual(self.succeed("uxn-needs", "src/main.tal"), "src/main.tal\nsrc/a.tal\nsrc/b.tal\n")
        self.assertEqual(
            self.succeed("uxn-needs", os.path.join(EXAMPLES, "bill.tal")).splitlines(),
            [os.path.join(EXAMPLES, name) for name in ("bill.tal", "bill/print.tal", "bill/items.tal")],
        )

    def test_paths_begin_at_the_folder_of_the_source(self) -> None:
        found = self.succeed("uxn-needs", os.path.join(PROGRAMS, "ledger.tal")).splitlines()
        self.assertEqual(
            [os.path.relpath(path, PROGRAMS) for path in found], ["ledger.tal", "ledger/print.tal", "ledger/digit.tal"]
        )

    def test_a_rule(self) -> None:
        self.assertEqual(
            self.succeed("uxn-needs", "src/main.tal", "main.rom"), "main.rom: src/main.tal src/a.tal src/b.tal\n"
        )

    @needs("make")
    def test_make_reads_a_rule_with_blanks(self) -> None:
        self.write("a b.tal", "BRK")
        rule = self.succeed("uxn-needs", "a b.tal", "a b.rom")
        self.write("Makefile", rule + "\techo made\n")
        self.assertIn("made", self.succeed("make", "-s", "a b.rom"))

    def test_a_file_that_is_not_there(self) -> None:
        self.write("src/b.tal", "~gone.tal")
        done = self.call("uxn-needs", "src/main.tal")
        self.assertEqual(done.returncode, 1)
        self.assertEqual(done.stdout, b"src/main.tal\nsrc/a.tal\nsrc/b.tal\nsrc/gone.tal\n")
        self.assertEqual(done.stderr, b"uxn-needs: src/gone.tal: No such file or directory\n")

    def test_wrong_calls(self) -> None:
        self.refuse(2, "uxn-needs")
        self.refuse(2, "uxn-needs", "a", "b", "c")
        self.refuse(1, "uxn-needs", "gone.tal")
        self.assertIn("uxn-needs SRC", self.succeed("uxn-needs", "--help"))
