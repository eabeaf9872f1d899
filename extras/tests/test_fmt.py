"""uxn-fmt: one layout for a source, which keeps its ROM; the examples and the sources of the cases have theirs or get
it."""
import glob
import os
import shutil
import sys

from support import EXAMPLES, EXTRAS, TOP, ToolTest, cases

sys.path.insert(0, EXTRAS)
from uxntools import source  # noqa: E402
from uxntools.layout import laid_out  # noqa: E402

PROGRAMS = os.path.join(EXTRAS, "tests", "programs")

LOOSE = """( A loose
   source. )


|10 @Console &vector $2   &pad $6 &write $1
%EMIT {
.Console/write   DEO
}
|0000
  @x $1 ( a place )
  @longer $2 ( a longer one )
|0100 @main ( -> )
\t#41 EMIT
#00\t\t( none )
#1234   ( two bytes )
&loop
INC DUP ?{
POP ( a comment
that goes on ) BRK
}
POP2 !&loop\r

@text
"text 00
   &end
"""
LAID_OUT = """( A loose
   source. )

|10 @Console &vector $2 &pad $6 &write $1
%EMIT {
  .Console/write DEO
}
|0000
  @x $1      ( a place )
  @longer $2 ( a longer one )
|0100 @main ( -> )
  #41 EMIT
  #00   ( none )
  #1234 ( two bytes )
  &loop
  INC DUP ?{
    POP ( a comment
    that goes on ) BRK
  }
  POP2 !&loop

@text
  "text 00
  &end
"""


class Layout(ToolTest):
    def laid_out(self, text: str | bytes, *words: str) -> bytes:
        done = self.call("uxn-fmt", *words, stdin=text if isinstance(text, bytes) else text.encode())
        self.assertEqual((done.returncode, done.stderr), (0, b""))
        return done.stdout

    def rom(self, name: str) -> bytes:
        self.succeed("uxn", "asm", name, "--out", "rom")
        return self.read("rom")

    def test_a_loose_source(self) -> None:
        self.assertEqual(self.laid_out(LOOSE).decode(), LAID_OUT)
        self.assertEqual(self.laid_out(LAID_OUT).decode(), LAID_OUT)
        self.assertEqual(self.laid_out(LOOSE, "--indent", "tab").decode().count("\n\t\tPOP ( a comment"), 1)

    def test_a_loop_within_braces(self) -> None:
        """What stands deeper than a sublabel stays so, also within braces; what stands beside it does too."""
        loop = "@a\n  #01 ?{\n    #05\n    &loop\n      #01 SUB {\n        INC }\n      DUP ?&loop\n    POP\n    &end\n    BRK\n  }\n  BRK\n"
        loop = loop.replace("        INC }\n", "        INC\n      }\n")
        self.assertEqual(self.laid_out(loop).decode(), loop)
        self.assertEqual(self.laid_out(loop.replace("      #01 SUB", "     #01   SUB")).decode(), loop.replace("    &end\n    BRK", "    &end\n    BRK"))
        flat = "@a\n  ?{\n    &loop\n    INC !&loop\n  }\n  BRK\n"
        self.assertEqual(self.laid_out(flat).decode(), flat)

    def test_in_place_and_check(self) -> None:
        self.write("a.tal", LOOSE)
        os.chmod(self.path("a.tal"), 0o640)
        before = self.rom("a.tal")
        done = self.call("uxn-fmt", "--check", "a.tal")
        self.assertEqual((done.returncode, done.stdout, self.read("a.tal")), (1, b"a.tal\n", LOOSE.encode()))
        self.succeed("uxn-fmt", "a.tal")
        self.assertEqual(self.read("a.tal").decode(), LAID_OUT)
        self.assertEqual(os.stat(self.path("a.tal")).st_mode & 0o777, 0o640)
        self.assertEqual(self.succeed("uxn-fmt", "--check", "a.tal"), "")
        self.assertEqual(self.rom("a.tal"), before)
        self.assertEqual(sorted(name for name in os.listdir(self.folder) if name != ".bin"), ["a.tal", "rom"])

    def test_a_program_without_layout(self) -> None:
        shutil.copytree(PROGRAMS, self.folder, dirs_exist_ok=True)
        self.assertEqual(self.succeed("uxn-fmt", "--check", "life.tal", "life/print.tal"), "")
        before = self.rom("life.tal")
        for name in ("life.tal", "life/print.tal"):
            words = self.read(name).decode().replace("\t", "").replace(" ", "   ")
            self.write(name, words)
            self.succeed("uxn-fmt", name)
            self.assertEqual(self.succeed("uxn-fmt", "--check", name), "")
        self.assertIn("\t&next\n\t\tprint-generation\n", self.read("life.tal").decode())
        self.assertEqual(self.rom("life.tal"), before)

    def test_the_examples_have_this_layout(self) -> None:
        files = sorted(glob.glob(os.path.join(EXAMPLES, "**", "*.tal"), recursive=True))
        self.assertGreater(len(files), 30)
        self.assertEqual(self.succeed("uxn-fmt", "--check", *files), "")

    def test_the_sources_of_the_cases(self) -> None:
        """Each has a layout that has itself as its layout and the same words; what each twentieth gives is compared."""
        found = [data for data in _sources_of_cases() if not source.line_tokens(data.replace(b"\n", b" "), 0)[1]]
        self.assertGreater(len(found), 500)
        for at, data in enumerate(found):
            new = laid_out(data)
            self.assertEqual(laid_out(new), new, data)
            self.assertEqual(
                [word.text for word, _ in source.tokens(new)], [word.text for word, _ in source.tokens(data)]
            )
            if at % 20 == 0:
                self.assertEqual(self.outcome(new), self.outcome(data), data)

    def outcome(self, data: bytes) -> tuple[bytes, str]:
        """The ROM of a source, or its refusal without the place."""
        self.write("case.tal", data)
        self.write("rom", "")
        done = self.call("uxn", "asm", "case.tal", "--out", "rom")
        return self.read("rom"), done.stderr.decode("latin-1").partition(": ")[2]

    def test_included_files_are_checked_in_their_source(self) -> None:
        shutil.copytree(PROGRAMS, self.folder, dirs_exist_ok=True)
        text = self.read("life/print.tal").decode()
        self.write("life/print.tal", text.replace("\t", "      "))
        self.succeed("uxn-fmt", "life/print.tal")
        self.assertEqual(self.read("life/print.tal").decode(), text.replace("\t", "      "))
        self.succeed("uxn-fmt", "--indent", "tab", "life/print.tal")
        self.assertEqual(self.read("life/print.tal").decode(), text)

    def test_faulty_sources(self) -> None:
        """A fault that leaves the words clear is kept; where it does not, the source stays as it is."""
        self.assertEqual(self.laid_out("@a\nnothing  BRK\n#123"), b"@a\n\tnothing BRK\n\t#123\n")
        self.assertEqual(self.laid_out("BRK  ~gone.tal"), b"BRK ~gone.tal\n")
        for text, said in [
            ("@a  ( b\n", "OpenComment: ("),
            ("  )\n", "StrayParen: )"),
            ("  " + "a" * 256, "LongWord: " + "a" * 256),
        ]:
            self.write("a.tal", text)
            line = self.refuse(131, "uxn-fmt", "a.tal")
            self.assertRegex(line, r"^uxn-fmt: a\.tal:1:\d: " + said.replace("(", r"\(").replace(")", r"\)"))
            self.assertEqual(self.read("a.tal").decode(), text)

    def test_odd_bytes_and_ends(self) -> None:
        self.assertEqual(self.laid_out(""), b"")
        self.assertEqual(self.laid_out("\n \n"), b"")
        self.assertEqual(
            self.laid_out(b'@a\r\n\x00\x0b"\xff\xfe\xc3   ( \xe9 )\r\n\r\n'),
            b'@a\n "\xff\xfe\xc3 ( \xe9 )\n'.replace(b' "', b'  "'),
        )

    def test_the_page_shows_what_it_gives(self) -> None:
        with open(os.path.join(TOP, "docs", "editors.md"), encoding="utf-8") as file:
            part = file.read().partition("    $ printf ")[2].partition("\n\n")[0]
        command, *shown = part.split("\n")
        self.assertEqual(self.succeed("sh", "-c", f"printf {command}").splitlines(), [line[4:] for line in shown])
        self.assertEqual(len(shown), 5)

    def test_wrong_calls(self) -> None:
        self.assertIn("gone.tal", self.refuse(1, "uxn-fmt", "gone.tal"))
        self.refuse(2, "uxn-fmt", "--indent", "0")
        self.refuse(2, "uxn-fmt", "--tabs", "a.tal")
        self.assertIn("put uxn into PATH", self.refuse(127, "uxn-fmt", self.write("a.tal", "BRK"), UXN="no-uxn"))


def _sources_of_cases() -> list[bytes]:
    """The sources of the cases, each once."""
    files = [file for case in cases() for file in case.tree.items()]
    found = dict.fromkeys(data for name, data in files if data is not None and name.endswith(b".tal"))
    return [data for data in found if len(data) < 1 << 16]
