"""uxn-listing: the lines of the files of a source with includes."""
import os
import re
import shutil

from support import EXAMPLES, ToolTest

PROGRAMS = os.path.join(os.path.dirname(os.path.realpath(__file__)), "programs")


class Listing(ToolTest):
    def test_lines_of_the_files(self) -> None:
        self.write("a.tal", "( main )\n#41 print\nBRK ~lib/print.tal")
        self.write("lib/print.tal", "( a library )\n@print ( byte -- )\n    #18 DEO JMP2r\n")
        self.assertEqual(
            self.succeed("uxn-listing", "a.tal").splitlines(),
            [
                "0100 80 41  a.tal 2:1 #41",
                "0102 60 00 01  a.tal 2:5 print",
                "0105 00  a.tal 3:1 BRK",
                "0106 80 18  lib/print.tal 3:5 #18",
                "0108 17  lib/print.tal 3:9 DEO",
                "0109 6c  lib/print.tal 3:13 JMP2r",
            ],
        )

    def test_without_includes_it_is_that_of_uxn(self) -> None:
        for name in ("hello.tal", "fizzbuzz.tal"):
            shutil.copy(os.path.join(EXAMPLES, name), self.path(name))
            self.succeed("uxn", "asm", name, "--out", "o", "--listing", "l")
            wanted = re.sub(r"  (\d+:\d+) ", rf"  {name} \1 ", self.read("l").decode())
            self.assertEqual(self.succeed("uxn-listing", name), wanted)

    def test_every_word_stands_where_it_says(self) -> None:
        shutil.copytree(PROGRAMS, self.path("p"))
        self.succeed("uxn-listing", "p/ledger.tal", "--out", "l")
        rows = [
            re.fullmatch(r"([0-9a-f]{4}) ([0-9a-f ]+)  (\S+) (\d+):(\d+) (\S+)", line)
            for line in self.read("l").decode().splitlines()
        ]
        self.assertGreater(len(rows), 150)
        self.assertEqual({row[3] for row in rows if row}, {"p/ledger.tal", "p/ledger/print.tal", "p/ledger/digit.tal"})
        for row in rows:
            assert row
            line = self.read(row[3]).decode().split("\n")[int(row[4]) - 1]
            self.assertTrue(line[int(row[5]) - 1 :].startswith(row[6]), row[0])

    def test_the_use_of_a_macro(self) -> None:
        self.write("a.tal", "%two { #01 #02 }\n~b.tal")
        self.write("b.tal", "\n\n  two BRK")
        self.assertEqual(
            self.succeed("uxn-listing", "a.tal").splitlines(),
            ["0100 80 01  b.tal 3:3 #01", "0102 80 02  b.tal 3:3 #02", "0104 00  b.tal 3:7 BRK"],
        )

    def test_refusals_and_wrong_calls(self) -> None:
        self.write("a.tal", "BRK ~b.tal")
        self.write("b.tal", "#1")
        self.assertEqual(self.refuse(131, "uxn-listing", "a.tal"), "uxn-listing: source b.tal 1:1: BadNumber: #1")
        self.assertEqual(self.refuse(130, "uxn-listing", "gone.tal"), "uxn-listing: missing: gone.tal")
        self.assertEqual(self.refuse(129, "uxn-listing", "../a.tal"), "uxn-listing: path: ../a.tal")
        self.refuse(2, "uxn-listing")
        self.refuse(1, "uxn-listing", self.write("c.tal", "BRK"), "--out", "gone/l")
        self.assertIn("uxn-listing SRC", self.succeed("uxn-listing", "--help"))
