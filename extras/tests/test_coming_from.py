"""docs/coming-from.md: its lines are those of `uxn`, and what it says to write is accepted."""
import os
import re

from support import TOP, ToolTest

# Sources of lines that a word alone does not give.
SOURCES = {"TooFar: ,far": ",far $0100 @far", "Rewind: INC": "|0100 INC |0100 INC"}


class ComingFrom(ToolTest):
    def setUp(self) -> None:
        super().setUp()
        with open(os.path.join(TOP, "docs", "coming-from.md"), encoding="utf-8") as file:
            self.page = file.read()

    def test_lines_of_refusals(self) -> None:
        lines = set(re.findall(r"`source 1:(\d+): ((\w+): ([^`.]\S*))`", self.page.replace("\\|", "|")))
        self.assertGreater(len(lines), 12)
        for column, fault, _, word in lines:
            source = SOURCES.get(fault, " " * (int(column) - 1) + word)
            self.write("a.tal", source)
            self.assertEqual(self.refuse(131, "uxn", "asm", "a.tal", "--out", "o"), f"source 1:{column}: {fault}")

    def test_what_is_to_be_written(self) -> None:
        self.write("lib.tal", "")
        for source in (
            '|0100 LIT "A',
            "|0100 @l =l",
            "#ab #0a",
            "ab",
            "#01 |0200",
            "( comment )",
            "[ #01 ]",
            "%A { INC } A",
            "@Ab @abc @add",
            "BRK",
            "~lib.tal",
            ";far JMP2 !far $0100 @far",
        ):
            self.write("a.tal", source)
            self.succeed("uxn", "asm", "a.tal", "--out", "o")
        self.write("a.tal", b"\xef\xbb\xbfBRK")
        self.refuse(131, "uxn", "asm", "a.tal", "--out", "o")
        self.succeed("sed", "-i", r"1s/^\xef\xbb\xbf//", "a.tal")
        self.succeed("uxn", "asm", "a.tal", "--out", "o")
