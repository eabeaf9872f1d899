"""./uxn: it runs the program of dist/ while the sources are those of dist/, from anywhere, and says what is missing."""
from __future__ import annotations

import os
import re
import shutil
import subprocess
import time
import unittest
from pathlib import Path

from making import distribution
from support import TOP, Checkout, write

HELLO = ("play", "hello.tal")
CHOSEN = Path("crates/uxn_program/out/chosen")


class Launcher(Checkout):
    def setUp(self) -> None:
        super().setUp()
        self.fill_dist()

    def assert_runs(self, **how: object) -> None:
        done = self.run_uxn(*HELLO, **how)
        self.assertEqual((done.returncode, done.stdout, done.stderr), (0, "h", ""))

    def assert_not_built(self, done: subprocess.CompletedProcess[str], *lines: str) -> None:
        text = "uxn: the program has to be built, and the Rattle toolchain's command rt is not in PATH\n"
        self.assertEqual((done.returncode, done.stdout, done.stderr), (200, "", "".join(lines) + text))

    def settle(self) -> None:
        """Calls once, and lets the choice be older than the next change by more than its second."""
        self.assert_runs()
        self.assertEqual((self.top / CHOSEN).read_text(), "uxn-linux-x86_64\n")


class Runs(Launcher):
    def test_the_first_call_and_the_next(self) -> None:
        for _ in range(3):
            self.assert_runs()

    def test_what_the_program_returns(self) -> None:
        done = self.run_uxn("play", "none.tal")
        self.assertEqual((done.returncode, done.stderr), (130, "missing: none.tal\n"))

    def test_arguments_with_blanks_and_stars(self) -> None:
        write(self.beside / "a * b.tal", "|0100 BRK\n")
        self.assertEqual(self.run_uxn("play", "a * b.tal").returncode, 0)

    def test_a_link_to_it_and_a_link_to_that(self) -> None:
        (self.beside / "first").symlink_to("../a check out/uxn")
        (self.folder / "second").symlink_to(self.beside / "first")
        self.assert_runs(uxn=self.beside / "first")
        self.assert_runs(uxn=self.folder / "second")

    def test_from_its_own_folder(self) -> None:
        shutil.copy(self.beside / "hello.tal", self.top)
        self.assert_runs(uxn="./uxn", cwd=self.top)
        done = subprocess.run(["sh", "uxn", *HELLO], cwd=self.top, env=self.environment(), capture_output=True, text=True, check=False)
        self.assertEqual((done.returncode, done.stdout, done.stderr), (0, "h", ""))

    def test_by_a_relative_path(self) -> None:
        self.assert_runs(uxn="../a check out/uxn")

    def test_the_second_call_reads_no_source(self) -> None:
        self.settle()
        time.sleep(1.1)
        self.settle()
        # With nothing but find the checksum cannot be made again.
        few = self.folder / "few"
        few.mkdir()
        for name in ("find", "cat", "sh"):
            (few / name).symlink_to(shutil.which(name) or "")
        self.assert_runs(PATH=str(few))

    def test_a_find_that_reads_no_lists(self) -> None:
        find = 'case $* in *-files0-from*) echo unknown >&2; exit 1 ;; esac; exec /usr/bin/find "$@"'
        write(self.folder / "bin" / "find", f"#!/bin/sh\n{find}\n", 0o755)
        for _ in range(2):
            self.assert_runs(PATH=f"{self.folder / 'bin'}:/usr/bin:/bin")

    def test_in_a_read_only_checkout(self) -> None:
        if os.geteuid() == 0 and not shutil.which("setpriv"):
            self.skipTest("root writes everywhere, and there is no setpriv")
        self.folder.chmod(0o755)
        for folder in (self.home, self.beside):
            folder.chmod(0o777)
        before = sorted(map(str, self.top.rglob("*")))
        subprocess.run(["chmod", "-R", "a-w,a+rX", str(self.top)], check=True)
        self.addCleanup(subprocess.run, ["chmod", "-R", "u+w", str(self.top)], check=True)
        words = ["setpriv", "--reuid=65534", "--regid=65534", "--clear-groups"] if os.geteuid() == 0 else []
        for _ in range(2):
            command = [*words, str(self.top / "uxn"), *HELLO]
            done = subprocess.run(command, cwd=self.beside, env=self.environment(), capture_output=True, text=True, check=False)
            self.assertEqual((done.returncode, done.stdout, done.stderr), (0, "h", ""))
        self.assertEqual(sorted(map(str, self.top.rglob("*"))), before)
        kept = self.home / ".cache" / "uxn" / str(self.top.resolve()).lstrip("/") / "chosen"
        self.assertEqual(kept.read_text(), "uxn-linux-x86_64\n")


class Help(Launcher):
    def test_help(self) -> None:
        for word in ("--help", "-h", "help"):
            done = self.run_uxn(word)
            self.assertEqual((done.returncode, done.stderr), (0, ""))
            self.assertEqual(done.stdout, (TOP / "tools" / "help.txt").read_text())
            self.assertIn("uxn play SRC", done.stdout)

    def test_version(self) -> None:
        done = self.run_uxn("--version")
        self.assertEqual((done.returncode, done.stdout, done.stderr), (0, "uxn 7.3\n", ""))

    def test_the_program_is_given_such_words_after_the_first(self) -> None:
        self.assertEqual(self.run_uxn("play", "--help").returncode, 128)

    def test_help_names_each_command_of_the_program(self) -> None:
        text = (TOP / "tools" / "help.txt").read_text()
        page = (TOP / "docs" / "commands.md").read_text()
        for line in page.splitlines():
            if line.startswith("| `uxn "):
                command = line.split("`")[1]
                self.assertIn(f"  {command} ", text)


class Changes(Launcher):
    """A source that is not that of dist/ is always noticed, as the next call shows."""

    SOURCE = Path("crates/low/src/lib.rt")

    def assert_noticed(self) -> None:
        self.assert_not_built(self.run_uxn(*HELLO))

    def test_a_byte_before_the_first_call(self) -> None:
        write(self.top / self.SOURCE, "//! loW\n")
        self.assert_noticed()

    def test_a_byte_after_a_call(self) -> None:
        self.settle()
        write(self.top / self.SOURCE, "//! loW\n")
        self.assert_noticed()

    def test_a_byte_and_an_old_date(self) -> None:
        self.settle()
        write(self.top / self.SOURCE, "//! loW\n")
        os.utime(self.top / self.SOURCE, (1, 1))
        self.assert_noticed()

    def test_another_file_with_an_old_date_in_its_place(self) -> None:
        other = write(self.folder / "other", "//! loW\n")
        os.utime(other, (1, 1))
        self.settle()
        os.replace(other, self.top / self.SOURCE)
        self.assert_noticed()

    def test_a_file_more(self) -> None:
        self.settle()
        write(self.top / "crates/low/proofs/new.antt", "")
        self.assert_noticed()

    def test_a_file_less(self) -> None:
        self.settle()
        (self.top / "crates/low/specs/own.antt").unlink()
        self.assert_noticed()

    def test_a_file_with_another_name(self) -> None:
        self.settle()
        (self.top / "crates/low/specs/own.antt").rename(self.top / "crates/low/specs/other.antt")
        self.assert_noticed()

    def test_the_list_of_crates(self) -> None:
        self.settle()
        with open(self.top / "crates.txt", "a", encoding="utf-8") as file:
            file.write("# more\n")
        self.assert_noticed()

    def test_a_change_and_back(self) -> None:
        self.settle()
        before = (self.top / self.SOURCE).read_bytes()
        write(self.top / self.SOURCE, "//! loW\n")
        self.assert_noticed()
        (self.top / self.SOURCE).write_bytes(before)
        self.assert_runs()

    def test_what_is_no_source(self) -> None:
        write(self.top / "crates/low/README.md", "a page\n")
        write(self.top / "crates/low/out/old.rt", "what a tool left\n")
        self.assert_runs()

    def test_another_program_in_dist(self) -> None:
        self.settle()
        with open(self.top / "dist/uxn-linux-x86_64", "r+b") as file:
            file.seek(-1, os.SEEK_END)
            last = file.read(1)[0]
            file.seek(-1, os.SEEK_END)
            file.write(bytes([last ^ 1]))
        line = "uxn: dist/uxn-linux-x86_64 is not the file that dist/manifest.json names; 'git checkout dist' puts it right\n"
        self.assert_not_built(self.run_uxn(*HELLO), line)

    def test_no_dist(self) -> None:
        shutil.rmtree(self.top / "dist")
        self.assert_noticed()

    def test_a_program_that_was_built_of_them(self) -> None:
        write(self.top / self.SOURCE, "//! loW\n")
        built = self.top / "crates/uxn_program/out/uxn_program"
        write(built, "#!/bin/sh\necho built\n", 0o755)
        os.utime(built, (time.time() + 5,) * 2)
        self.assertEqual(self.run_uxn(*HELLO).stdout, "built\n")
        os.utime(built, (1, 1))
        self.assert_noticed()


class OtherMachines(Launcher):
    """Where the program of this machine does not run, or there is none."""

    def break_program(self) -> None:
        """What glibc says for a program that needs a later one."""
        broken = write(self.folder / "broken", "#!/bin/sh\necho 'version GLIBC_2.34 not found' >&2\nexit 1\n", 0o755)
        self.fill_dist(broken)

    def stand_in(self, name: str, text: str) -> str:
        """A PATH whose first folder has this command."""
        write(self.folder / "bin" / name, f"#!/bin/sh\n{text}\n", 0o755)
        return f"{self.folder / 'bin'}:/usr/bin:/bin"

    def without_node(self) -> str:
        return self.stand_in("node", "exit 127")

    def test_glibc_too_old_and_no_node(self) -> None:
        self.break_program()
        done = self.run_uxn(*HELLO, PATH=self.without_node())
        line = "uxn: dist/uxn-linux-x86_64 needs glibc 2.34 or later, and dist/uxn.wasm needs Node 20 or later\n"
        self.assertEqual((done.returncode, done.stdout, done.stderr), (200, "", line))

    def test_glibc_too_old_and_node(self) -> None:
        self.break_program()
        path = self.stand_in("node", 'shift; [ $# -gt 0 ] || exit 128; echo "node: $*"')
        for _ in range(2):
            self.assertEqual(self.run_uxn(*HELLO, PATH=path).stdout, "node: play hello.tal\n")

    def test_a_node_that_needs_its_flag(self) -> None:
        self.break_program()
        path = self.stand_in("node", '[ "$1" = --experimental-wasm-memory64 ] || exit 200; [ $# -gt 2 ] || exit 128; echo "$@"')
        done = self.run_uxn(*HELLO, PATH=path)
        self.assertEqual(done.stdout, f"--experimental-wasm-memory64 {self.top}/dist/uxn.mjs play hello.tal\n")

    @unittest.skipUnless((TOP / "dist/uxn.wasm").exists() and shutil.which("node"), "there is no dist/uxn.wasm, or no node")
    def test_glibc_too_old_and_the_node_that_is_here(self) -> None:
        self.break_program()
        shutil.copy(TOP / "dist/uxn.wasm", self.top / "dist")
        write(self.top / "dist/manifest.json", distribution.manifest_text(self.top, self.top / "dist", "x"))
        if not re.match(r"v[2-9]\d", subprocess.run(["node", "--version"], capture_output=True, text=True, check=False).stdout):
            self.skipTest("node is older than 20")
        self.assert_runs()
        self.assertTrue((self.top / CHOSEN).read_text().startswith("node"))

    def test_another_system(self) -> None:
        path = self.stand_in("uname", 'case $1 in -s) echo Darwin ;; *) echo arm64 ;; esac')
        write(self.folder / "bin" / "node", "#!/bin/sh\nexit 127\n", 0o755)
        line = "uxn: dist/ has no program for Darwin on arm64, and dist/uxn.wasm needs Node 20 or later\n"
        done = self.run_uxn(*HELLO, PATH=path)
        self.assertEqual((done.returncode, done.stderr), (200, line))

    def test_aarch64_has_its_own_file(self) -> None:
        write(self.top / "dist/uxn-linux-aarch64", "#!/bin/sh\n[ $# -gt 0 ] || exit 128\necho \"aarch64: $*\"\n", 0o755)
        manifest = self.top / "dist/manifest.json"
        write(manifest, distribution.manifest_text(self.top, self.top / "dist", "x"))
        path = self.stand_in("uname", 'case $1 in -s) echo Linux ;; *) echo aarch64 ;; esac')
        self.assertEqual(self.run_uxn(*HELLO, PATH=path).stdout, "aarch64: play hello.tal\n")


if __name__ == "__main__":
    unittest.main()
