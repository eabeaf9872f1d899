"""uxn-lsp: symbols of all files, the layout of some lines, effects beside calls, and what to write for a fault."""
from __future__ import annotations

import os

from lsp_client import Client, Json
from support import ToolTest

MAIN = '( draws a line )\n@start\n\t#01 draw/line BRK\n( draws )\n@draw ( n -- )\n\tPOP JMP2r\n\t&line ( n -- )\n\t\t!draw\n'
OTHER = "|0100 @Other\n\t#02 POP BRK\n"
WHOLE = {"start": {"line": 0, "character": 0}, "end": {"line": 9, "character": 0}}


class Actions(ToolTest):
    def setUp(self) -> None:
        super().setUp()
        self.folder = os.path.realpath(self.folder)
        self.write("main.tal", MAIN)
        self.write("deep/other.tal", OTHER)
        self.client = Client(["uxn-lsp"], self.folder, self.environment)
        self.addCleanup(self.client.close)

    def of(self, name: str) -> Json:
        return {"textDocument": {"uri": self.client.uri(name)}}

    def test_symbols_of_the_workspace(self) -> None:
        self.client.initialize()
        for query, wanted in (("", 4), ("dw", 2), ("DRLN", 1), ("other", 1), ("zz", 0)):
            found = self.client.result("workspace/symbol", query=query)
            self.assertEqual(len(found), wanted, query)
        found = self.client.result("workspace/symbol", query="oth")[0]
        self.assertEqual((found["name"], found["location"]["uri"]), ("Other", self.client.uri("deep/other.tal")))

    def test_the_layout_of_a_range(self) -> None:
        self.client.initialize()
        self.client.open("main.tal", MAIN.replace("\tPOP JMP2r", "  POP   JMP2r").replace("\t#01", "#01"))
        options = {"tabSize": 4, "insertSpaces": False}
        where = {"start": {"line": 5, "character": 0}, "end": {"line": 5, "character": 3}}
        edits = self.client.result("textDocument/rangeFormatting", **self.of("main.tal"), range=where, options=options)
        self.assertEqual([(one["range"]["start"]["line"], one["newText"]) for one in edits], [(5, "\tPOP JMP2r\n")])
        where = {"start": {"line": 0, "character": 0}, "end": {"line": 2, "character": 0}}
        self.assertEqual(self.client.result("textDocument/rangeFormatting", **self.of("main.tal"), range=where, options=options), [])

    def test_effects_beside_calls_if_they_are_wanted(self) -> None:
        self.client.initialize()
        self.client.open("main.tal", MAIN)
        self.assertEqual(self.client.result("textDocument/inlayHint", **self.of("main.tal"), range=WHOLE), [])
        self.client.notify("workspace/didChangeConfiguration", settings={"uxn": {"inlayHints": True}})
        found = self.client.result("textDocument/inlayHint", **self.of("main.tal"), range=WHOLE)
        self.assertEqual([(one["position"]["line"], one["position"]["character"], one["label"]) for one in found], [(2, 14, "( n -- )"), (7, 7, "( n -- )")])

    def test_what_to_write_for_a_fault(self) -> None:
        self.client.initialize()
        for wrong, right in (("#AB", "#ab"), ("drow", "draw"), ("pop", "POP"), ("'A", '"A'), ("#1", "#01")):
            text = MAIN.replace("#01 draw/line", f"#01 draw/line {wrong}")
            self.client.open("main.tal", text)
            faults = self.client.diagnostics("main.tal")
            given = self.client.result("textDocument/codeAction", **self.of("main.tal"), range=WHOLE, context={"diagnostics": faults})
            self.assertEqual([one["title"] for one in given], [f"Write {right}"], wrong)
            edit = given[0]["edit"]["changes"][self.client.uri("main.tal")][0]
            self.assertEqual((edit["newText"], edit["range"]), (right, faults[0]["range"]))
        self.client.open("main.tal", MAIN.replace("#01 draw/line", "#01 nothing-alike"))
        faults = self.client.diagnostics("main.tal")
        self.assertEqual(self.client.result("textDocument/codeAction", **self.of("main.tal"), range=WHOLE, context={"diagnostics": faults}), [])

    def test_the_first_comment_is_about_the_file(self) -> None:
        self.client.initialize()
        self.client.open("main.tal", MAIN)
        said = self.client.result("textDocument/hover", **self.client.at("main.tal", 1, 2))["contents"]["value"]
        self.assertNotIn("draws a line", said)
        said = self.client.result("textDocument/hover", **self.client.at("main.tal", 4, 2))["contents"]["value"]
        self.assertIn("\n\ndraws", said)
