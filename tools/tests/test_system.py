"""What stands below the program: memory.c by this machine's compiler, the trees of dist/uxn.mjs by Node, the cases on what is in dist/."""
from __future__ import annotations

import shutil
import subprocess
import tempfile
import unittest
from pathlib import Path

from making import otherhosts
from support import TOP

HERE = Path(__file__).resolve().parent


class Memory(unittest.TestCase):
    @unittest.skipUnless(shutil.which("cc"), "there is no cc")
    def test_what_memory_c_does(self) -> None:
        with tempfile.TemporaryDirectory() as folder:
            made = Path(folder) / "memory_test"
            words = ["cc", "-std=gnu17", "-O1", "-Wall", "-Wextra", "-Werror", "-fno-builtin", str(HERE / "memory_test.c"), "-o", str(made)]
            subprocess.run(words, check=True)
            done = subprocess.run([str(made)], capture_output=True, text=True, check=False)
        self.assertEqual((done.returncode, done.stdout), (0, ""))


class Host(unittest.TestCase):
    @unittest.skipUnless(shutil.which("node"), "there is no node")
    def test_the_trees_do_the_same(self) -> None:
        with tempfile.TemporaryDirectory() as folder:
            done = subprocess.run(["node", str(HERE / "host_test.mjs")], cwd=folder, capture_output=True, text=True, check=False)
        self.assertEqual((done.returncode, done.stdout), (0, ""), done.stderr)


class Cases(unittest.TestCase):
    """The tools that run the cases: a few cases, also on the disk, and what they say of a name that is none."""

    NAMES = ("words/words_version", "words/words_not_utf8", "files/list_with_name_of_no_text")

    def run_tool(self, tool: str, *words: str) -> subprocess.CompletedProcess[str]:
        command = [str(TOP / "tools" / tool), str(TOP / "dist"), *words]
        return subprocess.run(command, capture_output=True, text=True, check=False)

    def assert_last_line(self, tool: str, words: tuple[str, ...], status: int, line: str) -> None:
        done = self.run_tool(tool, *words)
        self.assertEqual((done.returncode, done.stdout.splitlines()[-1]), (status, line), done.stdout + done.stderr)

    def needs(self, name: str) -> None:
        if not (TOP / "dist" / name).exists():
            self.skipTest(f"there is no dist/{name}")

    @unittest.skipUnless(shutil.which("node"), "there is no node")
    def test_in_node(self) -> None:
        self.needs("uxn.wasm")
        for words in (self.NAMES, (*self.NAMES, "--disk")):
            self.assert_last_line("cases-wasm", words, 0, "2 passed, 0 failed, 1 skipped")
        self.assert_last_line("cases-wasm", ("no_such_case",), 1, "0 passed, 1 failed")

    @unittest.skipUnless(shutil.which(otherhosts.EMULATOR), f"there is no {otherhosts.EMULATOR}")
    def test_under_qemu(self) -> None:
        self.needs("uxn-linux-aarch64")
        self.assert_last_line("cases-aarch64", self.NAMES, 0, "3 passed, 0 failed")

    def test_what_is_missing_is_said(self) -> None:
        with tempfile.TemporaryDirectory() as folder:
            for tool in ("cases-aarch64", "cases-wasm"):
                done = subprocess.run([str(TOP / "tools" / tool), folder], capture_output=True, text=True, check=False)
                self.assertEqual(done.returncode, 0)
                self.assertRegex(done.stdout, r"^not tried: the cases on uxn\S+: there is no .*\n0 passed, 0 failed, 1 skipped\n$")


if __name__ == "__main__":
    unittest.main()
