"""Kakoune: the settings of docs/editors.md, read by Kakoune itself. Its client kak-lsp is not in Debian: a stand-in
notes how it is called and defines the command that the settings call."""
import os

from support import TOP, ToolTest, needs

STAND_IN = """#!/bin/sh
echo "$1" >"$HOME/called"
echo 'define-command lsp-enable-window %{ echo -to-file "%val{config}/enabled" %opt{filetype} }'
"""


@needs("kak")
class Kakoune(ToolTest):
    def settings(self) -> str:
        """The lines of the page for kakrc."""
        with open(os.path.join(TOP, "docs", "editors.md"), encoding="utf-8") as file:
            part = file.read().partition("\n## Kakoune\n")[2].partition("\n## ")[0]
        lines = [line[4:] for line in part.splitlines() if line.startswith("    ")]
        self.assertTrue(lines)
        return "\n".join([*lines, ""])

    def test_the_settings(self) -> None:
        """A source has its kind, the client is started, and a source is laid out."""
        self.write(".config/kak/kakrc", self.settings())
        self.write(".bin/kak-lsp", STAND_IN)
        os.chmod(self.path(".bin/kak-lsp"), 0o755)
        self.write("a.tal", "@a\n    #00 BRK\n  ( b )\n")
        wanted = self.call("uxn-fmt", stdin=self.read("a.tal")).stdout
        self.assertNotEqual(wanted, self.read("a.tal"))
        home = {"HOME": self.folder, "XDG_CONFIG_HOME": self.path(".config"), "XDG_RUNTIME_DIR": self.folder}
        done = self.call("sh", "-c", "kak -ui dummy -e 'try %{ format; write }; quit!' a.tal </dev/null", **home)
        self.assertEqual(done.returncode, 0, done.stderr)
        self.assertEqual(self.read("called"), b"--kakoune\n")
        self.assertEqual(self.read(".config/kak/enabled").strip(), b"uxntal")
        self.assertEqual(self.read("a.tal"), wanted)
