"""The one reader and writer of the tools: what it takes, what it refuses, and that nothing else changes."""
from __future__ import annotations

import ast
import glob
import os
import socket
import time
from collections.abc import Iterator

from support import EXTRAS, ToolTest
from uxntools import files, plainfiles
from uxntools.dropins import player
from uxntools.facts import LIMITS

# What opens, makes, copies or deletes a file, by the module that has it; `*` is all of it.
ELSEWHERE = {
    "os": "open fdopen remove unlink rename replace mkdir makedirs rmdir removedirs symlink link truncate chmod mkfifo".split(),
    "io": ["open", "open_code", "FileIO"],
    "shutil": "copy copy2 copyfile copyfileobj copytree move rmtree".split(),
    "tempfile": ["*"],
    "pathlib": ["*"],
    "sqlite3": ["connect"],
    "tomllib": ["load"],
    "json": ["load"],
    "tarfile": ["*"],
    "zipfile": ["*"],
    "wave": ["open"],
}


def opened_elsewhere(text: str) -> Iterator[str]:
    """What of a tool's source opens, makes, copies or deletes a file by itself."""
    for node in ast.walk(ast.parse(text)):
        if isinstance(node, ast.Name) and node.id in ("open", "exec", "eval"):
            yield node.id
        if isinstance(node, ast.Attribute) and isinstance(node.value, ast.Name):
            names = ELSEWHERE.get(node.value.id, [])
            if node.attr in names or "*" in names:
                yield f"{node.value.id}.{node.attr}"
        if isinstance(node, ast.ImportFrom):
            yield from (f"{node.module}.{name.name}" for name in node.names if node.module in ELSEWHERE)
        if isinstance(node, ast.Import):
            yield from (f"{name.name} as {name.asname}" for name in node.names if name.name in ELSEWHERE and name.asname)
        if isinstance(node, ast.Attribute) and node.attr in ("read_text", "read_bytes", "write_text", "write_bytes"):
            yield node.attr


class Sources(ToolTest):
    def test_no_tool_opens_a_file_by_itself(self) -> None:
        paths = [
            path
            for pattern in ("bin/*", "dropins/*", "uxntools/**/*.py")
            for path in glob.glob(os.path.join(EXTRAS, pattern), recursive=True)
        ]
        self.assertGreater(len(paths), 80)
        found = []
        for path in paths:
            name = os.path.basename(path)
            if name not in ("files.py", "plainfiles.py"):
                found += [f"{name}: {one}" for one in opened_elsewhere(files.read(path).decode())]
        self.assertEqual(found, [])

    def test_the_limits_are_those_of_the_facts(self) -> None:
        """What drop-ins load does not load the facts, which takes longer."""
        texts = (plainfiles.SOURCE, plainfiles.SCRIPT, plainfiles.COMMANDS, plainfiles.SETUP)
        self.assertEqual({kind.most for kind in texts}, {LIMITS.text})
        self.assertEqual((plainfiles.ROM.most, plainfiles.SYMBOLS.most), (LIMITS.rom, LIMITS.symbols))
        self.assertEqual(player.MOST_INPUT, LIMITS.events - 1)

    def test_the_check_finds_each_way(self) -> None:
        for text, what in (
            ("open('a')", "open"),
            ("import os\nos.open('a', 0)", "os.open"),
            ("from os import unlink", "os.unlink"),
            ("import shutil as s", "shutil as s"),
            ("import pathlib\npathlib.Path('a')", "pathlib.Path"),
            ("from pathlib import Path", "pathlib.Path"),
            ("a.read_text()", "read_text"),
            ("import tempfile\ntempfile.mkdtemp()", "tempfile.mkdtemp"),
        ):
            self.assertIn(what, list(opened_elsewhere(text)))


class FilesTest(ToolTest):
    def setUp(self) -> None:
        super().setUp()
        before = os.getcwd()
        os.chdir(self.folder)
        self.addCleanup(os.chdir, before)
        self.write("outside/rc", b"mine\n")
        os.mkdir("in")

    def tearDown(self) -> None:
        self.assertEqual(self.read("outside/rc"), b"mine\n")
        self.assertEqual(os.listdir("outside"), ["rc"])

    def refused(self, what: str, call: object, *words: object, **named: object) -> files.Refused:
        with self.assertRaises(files.Refused) as caught:
            call(*words, **named)  # type: ignore[operator]
        self.assertIn(what, f"{caught.exception.filename}: {caught.exception.strerror}")
        return caught.exception


class Reads(FilesTest):
    def test_a_file_is_read_also_through_a_link(self) -> None:
        self.write("a.tal", b"BRK\n")
        os.symlink("a.tal", "b.tal")
        self.assertEqual(files.read("b.tal"), b"BRK\n")

    def test_what_is_no_file_is_refused_at_once(self) -> None:
        os.mkfifo("pipe")
        os.symlink("pipe", "to-pipe")
        os.symlink("/dev/zero", "zero")
        listening = socket.socket(socket.AF_UNIX)
        self.addCleanup(listening.close)
        listening.bind("socket")
        begun = time.monotonic()
        for name, what in (
            ("pipe", "a named pipe"),
            ("to-pipe", "a named pipe"),
            ("zero", "a device"),
            ("socket", "a socket"),
        ):
            self.assertEqual(self.refused(f"{name}: missing: it is {what}", files.read, name).status, 130)
        with self.assertRaises(IsADirectoryError):
            files.read("in")
        self.assertLess(time.monotonic() - begun, 5)

    def test_the_limit_is_that_of_the_kind(self) -> None:
        self.write("a.tal", b" " * files.SOURCE.most)
        self.assertEqual(len(files.read("a.tal")), files.SOURCE.most)
        self.write("b.tal", b" " * (files.SOURCE.most + 1))
        self.assertEqual(self.refused("LongSource", files.read, "b.tal").status, 131)
        self.assertEqual(len(files.read("b.tal", files.SYMBOLS)), files.SOURCE.most + 1)
        os.truncate("b.tal", 6 << 30)
        self.assertEqual(self.refused("Long", files.read, "b.tal", files.SYMBOLS).status, 134)

    def test_a_file_of_the_system_without_a_size_has_no_bytes(self) -> None:
        os.symlink("/proc/self/maps", "maps")
        self.assertEqual(files.read("maps"), b"")


class Writes(FilesTest):
    def test_a_file_is_made_and_written_over(self) -> None:
        files.write("in/a", b"one")
        os.chmod("in/a", 0o640)
        files.write("in/a", b"two")
        self.assertEqual(self.read("in/a"), b"two")
        self.assertEqual(os.stat("in/a").st_mode & 0o777, 0o640)
        self.assertEqual(os.listdir("in"), ["a"])

    def test_links_are_refused_as_the_file_and_on_the_way(self) -> None:
        os.symlink("../outside/rc", "in/a.out")
        os.symlink("../outside", "in/tests")
        os.symlink("none", "in/nothing")
        self.refused("it is a symbolic link", files.write, "in/a.out", b"theirs")
        self.refused("in/tests: it is a symbolic link", files.write, "in/tests/rc", b"theirs")
        self.refused("it is a symbolic link", files.write, "in/nothing", b"theirs")
        self.refused("it is a symbolic link", files.write, "tests/rc", b"theirs", beneath="in")
        self.refused("it is a symbolic link", files.make_folder, "in/tests/more")
        self.refused("is not written over", files.write, "in", b"theirs")
        self.assertFalse(os.path.lexists("none"))

    def test_a_second_name_keeps_its_bytes(self) -> None:
        os.link("outside/rc", "in/a.out")
        files.write("in/a.out", b"theirs")
        self.assertEqual(self.read("in/a.out"), b"theirs")

    def test_beneath_a_folder_nothing_leads_out(self) -> None:
        for path in ("../outside/rc", "a/../../outside/rc", "/etc/none", "", "."):
            self.refused("no path beneath in", files.write, path, b"theirs", beneath="in")

    def test_a_pipe_is_not_waited_for(self) -> None:
        os.mkfifo("in/pipe")
        self.refused("it is a named pipe", files.write, "in/pipe", b"theirs")

    def test_a_write_that_fails_leaves_the_old_file(self) -> None:
        files.write("in/a", b"one")
        with self.assertRaises(TypeError):
            files.write("in/a", "text")  # type: ignore[arg-type]
        self.assertEqual(self.read("in/a"), b"one")
        self.assertEqual(os.listdir("in"), ["a"])

    def test_a_linked_folder_is_not_deleted_through(self) -> None:
        os.symlink("../outside", "in/kept")
        self.refused("in/kept: it is a symbolic link", files.remove_folder, "in/kept")
        self.refused("in/kept: it is a symbolic link", files.remove, "in/kept/rc")
        self.refused("in/kept: it is a symbolic link", files.remove_folder, "in/kept/rc")
        os.mkdir("in/other")
        os.symlink("../../outside", "in/other/link")
        os.link("outside/rc", "in/other/name")
        files.remove_folder("in/other")
        files.remove_folder("in/none")
        files.remove("in/kept")
        self.assertEqual(os.listdir("in"), [])

    def test_a_database_takes_the_place_of_a_link(self) -> None:
        os.symlink("../outside/rc", "in/base")
        os.symlink("../outside/rc", "in/base-journal")
        base = files.database("base", "in")
        base.execute("CREATE TABLE a (b)")
        base.commit()
        base.close()
        self.assertEqual(files.read("in/base")[:6], b"SQLite")


class Roots(FilesTest):
    def setUp(self) -> None:
        super().setUp()
        self.write("in/root/a", b"1")
        self.write("in/root/b/c", b"2")

    def test_files_and_folders_are_copied(self) -> None:
        os.mkdir("in/root/empty")
        os.link("in/root/a", "in/root/d")
        os.chmod("in/root/a", 0o444)
        files.copy_root("in/root", "copy")
        self.assertEqual(files.read_all("copy"), {"a": b"1", "b/c": b"2", "d": b"1"})
        self.assertEqual(sorted(os.listdir("copy")), ["a", "b", "d", "empty"])
        self.assertEqual(os.stat("copy/a").st_mode & 0o777, 0o444)
        self.assertEqual(os.stat("copy/a").st_nlink, 1)
        self.assertEqual(files.read_all("none"), {})

    def test_what_leads_out_is_named(self) -> None:
        def make_socket() -> None:
            listening = socket.socket(socket.AF_UNIX)
            self.addCleanup(listening.close)
            listening.bind("in/root/b/x")

        for make, what in (
            (lambda: os.symlink("../../../outside/rc", "in/root/b/x"), "it is a symbolic link"),
            (lambda: os.mkfifo("in/root/b/x"), "it is a named pipe"),
            (lambda: os.link("outside/rc", "in/root/b/x"), "the file has a second name"),
            (make_socket, "it is a socket"),
        ):
            make()
            self.refused(f"in/root/b/x: {what}", files.copy_root, "in/root", "copy")
            self.refused(f"in/root/b/x: {what}", files.read_all, "in/root")
            self.assertFalse(os.path.exists("copy"))
            os.unlink("in/root/b/x")

    def test_a_root_that_is_or_lies_behind_a_link_is_refused(self) -> None:
        os.symlink("root", "in/link")
        self.refused("in/link: it is a symbolic link", files.copy_root, "in/link", "copy")
        self.refused("in/link: it is a symbolic link", files.copy_root, "in/link/b", "copy")
        self.refused("in/link: it is a symbolic link", files.copy_root, "in/link/b", "copy", beneath="in")
        self.refused("it is no path beneath in", files.copy_root, "in/../outside", "copy", beneath="in")

    def test_too_much_is_refused_before_it_is_copied(self) -> None:
        os.truncate("in/root/a", 6 << 30)
        begun = time.monotonic()
        self.refused("in/root/a: it has more than 67,108,864 bytes", files.copy_root, "in/root", "copy")
        self.assertLess(time.monotonic() - begun, 5)
        os.truncate("in/root/a", 0)
        for tree, what in (
            (files.Tree("in/root", most_files=2), "in/root: it has more than 2 files and folders"),
            (files.Tree("in/root", most_bytes=0), "in/root: its files have more than 0 bytes together"),
        ):
            self.refused(what, files.look_at_root, tree)
        self.assertEqual(files.look_at_root(files.Tree("in/root", most_files=3, most_bytes=1)).files, 3)

    def test_a_deep_root_is_refused(self) -> None:
        os.makedirs("in/root/" + "/".join("d" * 80))
        self.refused("over 64 folders deep", files.copy_root, "in/root", "copy")
        self.refused("over 64 folders deep", files.remove_folder, "in/root")
