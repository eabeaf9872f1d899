"""The files for VS Code: they are JSON, and their patterns match what they are for. They are not tried in VS Code
itself."""
import json
import os
import re
import tomllib
import unittest

from support import EXTRAS
from test_vim import settings

FOLDER = os.path.join(EXTRAS, "vscode")


class VsCode(unittest.TestCase):
    def load(self, name: str) -> dict:
        with open(os.path.join(FOLDER, name), encoding="utf-8") as file:
            return json.load(file)

    def test_the_package_names_its_files(self) -> None:
        contributes = self.load("package.json")["contributes"]
        grammar = contributes["grammars"][0]
        self.assertEqual(grammar["scopeName"], self.load(grammar["path"])["scopeName"])
        self.assertIn("brackets", self.load(contributes["languages"][0]["configuration"]))

    def test_problem_matchers(self) -> None:
        own, included = (
            one["pattern"]["regexp"] for one in self.load("package.json")["contributes"]["problemMatchers"]
        )
        found = re.match(own, "/a b/c.tal:4:11: UnknownName: x:1")
        assert found
        self.assertEqual(found.groups(), ("/a b/c.tal", "4", "11", "UnknownName: x:1"))
        found = re.match(included, "source lib/c.tal 4:11: UnknownName: x:1")
        assert found
        self.assertEqual(found.groups(), ("lib/c.tal", "4", "11", "UnknownName: x:1"))
        self.assertIsNone(re.match(included, "source 4:11: UnknownName: x"))

    def test_the_grammar(self) -> None:
        words = self.load("syntaxes/uxntal.tmLanguage.json")["repository"]["word"]["patterns"]
        for word, kind in [
            ("ADD2k", "keyword"),
            ("BRK", "keyword"),
            ("BRK2", "support"),
            ("#1234", "constant"),
            ("ab", "constant"),
            ("@a", "entity"),
            ('"a(', "string"),
            (";a", "variable"),
            ("?{", "keyword"),
            ("|0100", "keyword"),
            ("draw", "support"),
        ]:
            found = next(one["name"].split(".")[0] for one in words if re.fullmatch(one["match"], word))
            self.assertEqual(found, kind, word)

    def test_the_settings_of_the_page(self) -> None:
        """Those of the generic client: a language server that the program uxn-lsp is."""
        given = json.loads(settings("VS Code", "json"))
        self.assertIn("uxn-lsp", json.dumps(given))
        self.assertIn("uxntal", json.dumps(given))

    def test_the_settings_of_helix_and_kakoune(self) -> None:
        """They can be read, and name the server. Neither editor is tried."""
        helix = tomllib.loads(settings("Helix", "toml"))
        self.assertEqual(helix["language-server"][helix["language"][0]["language-servers"][0]]["command"], "uxn-lsp")
        kakoune = tomllib.loads(settings("Kakoune", "toml"))
        self.assertEqual(kakoune["language_server"]["uxn-lsp"]["filetypes"], ["uxntal"])
