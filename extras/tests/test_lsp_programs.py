"""uxn-lsp in a project of ten programs over shared files: names, meanings and warnings look at all programs."""
from __future__ import annotations

import os
import random
import re
import sys
from typing import Any

from lsp_client import Client, Json
from support import EXTRAS, ToolTest

sys.path.insert(0, EXTRAS)
from uxntools import assembly  # noqa: E402

SETTINGS = 'include-from = "."\n'
DEVICES = "%newline { #0a .Console/write DEO }\n|10 @Console &vector $8 &write $1\n|20 @here $2\n"
PRINT = """@print ( c -- )
	.Console/write DEO JMP2r
	&line ( c -- )
		print newline
		JMP2r
@twice ( c -- )
	DUP print print/line JMP2r
"""
# It depends on the program what `out` and `&end` are here.
LOOP = """@loop ( n -- )
	&on #01 SUB DUP LIT "x out DUP ?&on
	POP JMP2r
"""
OUTS = "@out ( c -- )\n\tprint JMP2r\n"
BODIES = (
    "LIT \"a twice #03 loop {quit}",
    "#02 loop LIT \"b print/line {quit}",
    ";text print-text {quit}",
    "LIT \"c print newline {quit}",
)


def program(number: int) -> str:
    name = f"main{number}"
    body = BODIES[number % 4].format(quit="#800f DEO BRK")
    own = "@out ( c -- )\n\tINC print JMP2r\n" if number % 2 else ""
    text = '@text "some $1\n@print-text ( a* -- )\n\tLDAk print INC2 LDAk ?print-text\n\tPOP2 JMP2r\n' if number % 4 == 2 else ""
    outs = "" if own else "~lib/outs.tal\n"
    return f"~lib/devices.tal\n|0100 @{name} ( -> )\n\t{body}\n{own}{text}~lib/print.tal\n~lib/loop.tal\n{outs}"


class TenPrograms(ToolTest):
    def setUp(self) -> None:
        super().setUp()
        self.folder = os.path.realpath(self.folder)
        self.texts = {f"src/p{number}.tal": program(number) for number in range(10)}
        self.texts |= {"lib/devices.tal": DEVICES, "lib/print.tal": PRINT, "lib/loop.tal": LOOP, "lib/outs.tal": OUTS}
        for name, text in self.texts.items():
            self.write(name, text)
        self.write("uxn-test.toml", SETTINGS)
        self.client = Client(["uxn-lsp"], self.folder, self.environment)
        self.addCleanup(self.client.close)
        self.client.initialize()

    def roms(self) -> list[bytes]:
        found = [assembly.assemble(self.path(name)) for name in sorted(self.texts) if name.startswith("src/")]
        self.assertEqual([one.fault for one in found], [None] * 10)
        return [one.rom for one in found]

    def at(self, name: str, text: str, inside: int = 0) -> Json:
        place = self.texts[name].index(text) + inside
        before = self.texts[name][:place]
        return self.client.at(name, before.count("\n"), place - (before.rfind("\n") + 1))

    def names_of(self, locations: list[Json]) -> dict[str, int]:
        """How many of the locations each file has."""
        names = [one["uri"].removeprefix(f"file://{self.folder}/") for one in locations]
        return {name: names.count(name) for name in sorted(set(names))}

    def apply(self, edit: Json) -> None:
        for uri, edits in edit["changes"].items():
            name = uri.removeprefix(f"file://{self.folder}/")
            lines = self.texts[name].split("\n")
            for one in sorted(edits, key=lambda one: (one["range"]["start"]["line"], one["range"]["start"]["character"]), reverse=True):
                start, end = one["range"]["start"], one["range"]["end"]
                line = lines[start["line"]]
                lines[start["line"]] = line[: start["character"]] + one["newText"] + line[end["character"] :]
            self.texts[name] = "\n".join(lines)
            self.write(name, self.texts[name])

    def rename(self, where: Json, new: str) -> Json:
        return self.client.ask("textDocument/rename", **where, newName=new)

    def test_references_of_all_programs(self) -> None:
        found = self.client.result("textDocument/references", **self.at("lib/print.tal", "@print"), context={"includeDeclaration": True})
        wanted = {"lib/outs.tal": 1, "lib/print.tal": 3}
        wanted |= {f"src/p{number}.tal": 1 for number in range(10)} | {"src/p7.tal": 2, "src/p3.tal": 2}
        del wanted["src/p0.tal"], wanted["src/p4.tal"], wanted["src/p8.tal"]
        self.assertEqual(self.names_of(found), wanted)
        from_program = self.client.result("textDocument/references", **self.at("src/p3.tal", "print newline"), context={"includeDeclaration": True})
        self.assertEqual(self.names_of(from_program), wanted)
        own = self.client.result("textDocument/references", **self.at("src/p1.tal", "@out"), context={"includeDeclaration": False})
        self.assertEqual(self.names_of(own), {"lib/loop.tal": 1})

    def test_the_meaning_in_all_programs(self) -> None:
        said = self.client.result("textDocument/hover", **self.at("lib/print.tal", "@print"))["contents"]["value"]
        self.assertRegex(said, r"^label \*\*print\*\* at `01..`, 12 references in 10 programs, in \.\./lib/print\.tal:1\n")
        self.assertRegex(said, r"\n`01..` in src/p0\.tal, `01..` in src/p1\.tal, .*, and 6 more\n")
        said = self.client.result("textDocument/hover", **self.at("lib/devices.tal", "%newline"))["contents"]["value"]
        self.assertIn("macro **newline**, 3 uses in 10 programs\n", said)
        said = self.client.result("textDocument/hover", **self.at("src/p0.tal", "@main0"))["contents"]["value"]
        self.assertIn("0 references, in p0.tal:2", said)

    def test_a_rename_changes_all_programs(self) -> None:
        before = self.roms()
        self.apply(self.rename(self.at("lib/print.tal", "@print"), "emit")["result"])
        self.assertIn("DUP emit emit/line JMP2r", self.texts["lib/print.tal"])
        self.assertIn('LIT "b emit/line', self.texts["src/p1.tal"])
        self.assertIn("@print-text", self.texts["src/p2.tal"])
        # `out` of loop.tal is another label in each second program: all of them get the name.
        self.apply(self.rename(self.at("src/p1.tal", "@out"), "put")["result"])
        self.assertEqual([name for name, text in self.texts.items() if "@put " in text], [*(f"src/p{number}.tal" for number in range(1, 10, 2)), "lib/outs.tal"])
        self.assertEqual(self.roms(), before)

    def test_a_name_that_another_program_has_is_refused(self) -> None:
        said = self.rename(self.at("lib/print.tal", "@twice"), "text")["error"]["message"]
        self.assertEqual(said, "text is defined already in src/p2.tal")
        said = self.rename(self.at("lib/print.tal", "@twice"), "out")["error"]["message"]
        self.assertIn("out is defined already in src/p", said)
        said = self.rename(self.at("lib/print.tal", "&line", 1), "loop/line")["error"]["message"]
        self.assertEqual(said[:31], "loop/line has another scope in ")

    def test_a_rename_that_would_change_a_rom_is_refused(self) -> None:
        """A reference that nothing defined is what the new name would define."""
        self.write("src/p0.tal", self.texts["src/p0.tal"] + "@more emit\n")
        said = self.rename(self.at("lib/print.tal", "@print"), "emit")["error"]["message"]
        self.assertEqual(said, "src/p0.tal would not be what it is")

    def test_a_full_name_with_the_old_scope(self) -> None:
        before = self.roms()
        edit = self.rename(self.at("lib/print.tal", "print/line JMP2r", 8), "print/end")["result"]
        self.assertEqual({one["newText"] for edits in edit["changes"].values() for one in edits}, {"end"})
        self.apply(edit)
        self.assertIn("DUP print print/end JMP2r", self.texts["lib/print.tal"])
        self.assertEqual(self.roms(), before)

    def test_a_hundred_renames(self) -> None:
        before, rng, done = self.roms(), random.Random(81), 0
        for count in range(100):
            name = rng.choice(sorted(self.texts))
            found = rng.choice([*re.finditer(r"(?<!\S)[@&%;?!]?&?[a-z]\S+", self.texts[name])])
            new = rng.choice([f"name{count}"] * 4 + ["print", "out", "loop", f"print/x{count}", "newline"])
            answer = self.rename(self.at_offset(name, found.end() - 1), new)
            if "result" in answer:
                self.apply(answer["result"])
                done += 1
                self.client.notify("workspace/didChangeWatchedFiles", changes=[])
        self.assertGreater(done, 50)
        self.assertEqual(self.roms(), before)

    def at_offset(self, name: str, place: int) -> Json:
        before = self.texts[name][:place]
        return self.client.at(name, before.count("\n"), place - (before.rfind("\n") + 1))

    def unused(self, found: list[Any]) -> list[str]:
        return [one["message"] for one in found if one["code"] == "unused-label"]

    def test_a_name_is_unused_if_no_program_uses_it(self) -> None:
        self.client.open("lib/print.tal", self.texts["lib/print.tal"])
        for _ in range(10):
            self.assertEqual(self.unused(self.client.diagnostics("lib/print.tal")), [])
        text = self.texts["src/p0.tal"]
        self.client.open("src/p0.tal", text)
        self.assertEqual(self.unused(self.client.diagnostics("lib/print.tal")), [])
        self.client.change("src/p0.tal", 2, {"text": text.replace("twice ", "print ")})
        self.assertEqual(self.unused(self.client.diagnostics("src/p0.tal", 2)), [])
        # p4 and p8 use it too, and no longer in the editor or on the disk.
        for name in ("src/p4.tal", "src/p8.tal"):
            self.client.open(name, self.texts[name].replace("twice ", "print "))
            self.client.diagnostics(name)
        while not (found := self.unused(self.client.diagnostics("lib/print.tal"))):
            pass
        self.assertEqual(found, ["nothing refers to twice"])
        self.client.change("src/p8.tal", 2, {"text": self.texts["src/p8.tal"]})
        while found := self.unused(self.client.diagnostics("lib/print.tal")):
            pass
        self.assertEqual(found, [])
