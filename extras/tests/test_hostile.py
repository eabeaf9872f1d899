"""Folders made to harm whoever calls a tool in them: nothing outside changes, no tool waits, takes much memory, or ends
with an uncaught exception."""
from __future__ import annotations

import os
import random
import sqlite3
import time

import fuzzing
from support import ToolTest
from uxntools import lint
from uxntools.analysis import Analysis

# Writes `theirs` to the file rc of its root.
WRITES = b"""|a0 @File &vector $2 &success $2 &stat $2 &delete $1 &append $1 &name $2 &length $2 &read $2 &write $2
|0100 ;name .File/name DEO2 #0006 .File/length DEO2 ;text .File/write DEO2 BRK @name "rc 00 @text "theirs"""
FUZZED = float(os.environ.get("UXN_FUZZ_SECONDS", "12"))


class Hostile(ToolTest):
    """A test in a folder, beside another one that has to stay as it is."""

    # In KiB.
    most_memory = 200 * 1024

    def setUp(self) -> None:
        super().setUp()
        self.write("outside/rc", b"mine\n")
        self.write("outside/tests/t.script", b"end\n")
        self.write("here/game.tal", WRITES)
        self.environment["UXN"] = self.program
        self.folder = self.path("here")
        self.before = fuzzing.state_of(self.outside)

    @property
    def outside(self) -> str:
        return os.path.join(os.path.dirname(self.path("")), "..", "outside")

    def tearDown(self) -> None:
        self.assertEqual(fuzzing.state_of(self.outside), self.before)

    def link(self, target: str, name: str) -> None:
        os.makedirs(os.path.dirname(self.path(name)), exist_ok=True)
        os.symlink(target, self.path(name))

    def attack(self, *words: str, stdin: bytes = b"") -> tuple[int, str]:
        """Calls a tool, and answers its status and what it said on both outputs."""
        done = fuzzing.ended(list(words), fuzzing.World(self.folder, self.outside, self.environment), stdin)
        said = done.said.decode(errors="replace")
        for text in fuzzing.UNCAUGHT:
            self.assertNotIn(text.decode(), said)
        self.assertIsNotNone(done.status, words)
        self.assertGreaterEqual(done.status or 0, 0, said)
        self.assertLess(done.memory, self.most_memory, words)
        return done.status or 0, said

    def refused(self, what: str, *words: str, status: int = 1, stdin: bytes = b"") -> None:
        got, said = self.attack(*words, stdin=stdin)
        self.assertIn(what, said)
        self.assertEqual(got, status, said)


class Roots(Hostile):
    CALLS = (
        ("uxn-debug", "game.tal", "--root", "root"),
        ("uxn-trace", "game.tal", "--root", "root"),
        ("uxn-watch", "game.tal", "name", "--root", "root"),
        ("uxn-cover", "game.tal", "--root", "root"),
        ("uxn-film", "game.tal", "--root", "root", "--to", "made.png"),
        ("uxn-fuzz", "game.tal", "--root", "root", "--runs", "2"),
        ("uxn-profile", "game.tal", "--root", "root"),
        ("uxn-misses", "game.tal", "--script", "s", "--root", "root"),
        ("uxn-record", "game.tal", "--to", "tests/new", "--root", "root"),
    )

    def setUp(self) -> None:
        super().setUp()
        self.write("s", b"script 2\nexpect 0f 00\n")
        os.mkdir(self.path("root"))

    def test_a_link_in_a_root_is_named_by_every_tool(self) -> None:
        self.link("../../outside/rc", "root/rc")
        for words in self.CALLS:
            self.refused("root/rc: it is a symbolic link", *words)
        self.write("tests/t.script", b"end\n")
        os.rename(self.path("root"), self.path("tests/t.root"))
        self.refused("tests/t.root/rc: it is a symbolic link", "uxn-test")
        self.refused("tests/t.root/rc: it is a symbolic link", "uxn-test", "--update")
        self.refused("tests/t.root/rc: it is a symbolic link", "uxn-cover")

    def test_a_second_name_a_pipe_and_a_long_file_too(self) -> None:
        for make, what in (
            (lambda: os.link(os.path.join(self.outside, "rc"), self.path("root/rc")), "the file has a second name"),
            (lambda: os.mkfifo(self.path("root/rc")), "it is a named pipe"),
            (lambda: fuzzing.sparse(self.path("root/rc"), 6 << 30), "it has more than 67,108,864 bytes"),
        ):
            make()
            for words in self.CALLS:
                self.refused(f"root/rc: {what}", *words)
            os.unlink(self.path("root/rc"))

    def test_a_root_that_is_a_link(self) -> None:
        os.rmdir(self.path("root"))
        self.link("../outside", "root")
        for words in self.CALLS:
            self.refused("root: it is a symbolic link", *words)

    def test_uxncli_refuses_a_folder_with_a_way_out(self) -> None:
        uxncli = os.path.join(fuzzing.EXTRAS, "dropins", "uxncli")
        self.succeed("uxn-check", "game.tal", "--out", "a.rom")
        self.link("../outside/rc", "rc")
        self.refused("rc: it is a symbolic link out of this folder", uxncli, "a.rom")
        os.unlink(self.path("rc"))
        os.link(os.path.join(self.outside, "rc"), self.path("rc"))
        self.refused("rc: the file has a second name", uxncli, "a.rom")
        os.unlink(self.path("rc"))
        self.link("here", "rc")
        self.assertEqual(self.attack(uxncli, "a.rom")[0], 0)
        self.assertEqual(self.read("here"), b"theirs")

    def test_the_own_files_of_a_root_stay_as_they_are(self) -> None:
        self.write("root/rc", b"ours\n")
        for words in self.CALLS:
            self.attack(*words)
        self.assertEqual(self.read("root/rc"), b"ours\n")


class Outputs(Hostile):
    def setUp(self) -> None:
        super().setUp()
        self.write("tests/t.script", b"end\n")

    def test_update_writes_through_no_link(self) -> None:
        self.write("game.tal", b'|0100 LIT "x #18 DEO BRK')
        self.link("../../outside/rc", "tests/t.out")
        self.refused("tests/t.out: it is a symbolic link, and is not written over", "uxn-test", "--update")
        os.unlink(self.path("tests/t.out"))
        os.link(os.path.join(self.outside, "rc"), self.path("tests/t.out"))
        self.assertEqual(self.attack("uxn-test", "--update")[0], 0)
        self.assertEqual(self.read("tests/t.out"), b"x")

    def test_a_linked_folder_of_tests_is_none(self) -> None:
        os.rename(self.path("tests"), self.path("mine"))
        self.link("../outside/tests", "tests")
        self.attack("uxn-test", "--update")
        self.write("uxn-test.toml", b'program = "game.tal"\n')
        self.refused("tests: it is no folder of tests", "uxn-test", "--update", status=2)

    def test_settings_lead_nowhere_else(self) -> None:
        for text in (
            '[folder."../outside/tests"]',
            '[folder."/"]',
            'root = "../outside"',
            'program = "../outside/rc"',
            '[test."../x"]',
            'symbols = "/dev/zero"',
            'root = "a\\u0000b"',
        ):
            self.write("uxn-test.toml", f"{text}\n".encode())
            self.refused("it has to be a path beneath this folder", "uxn-test", "--update", status=2)

    def test_the_folder_of_results(self) -> None:
        self.link("../outside", ".uxn-test")
        self.refused(".uxn-test: it is a symbolic link", "uxn-test")
        self.refused(".uxn-test: it is a symbolic link", "uxn-record", "game.tal", "--to", "tests/new")
        os.unlink(self.path(".uxn-test"))
        for name in ("failed", "results.sqlite", "results.sqlite-journal", ".gitignore"):
            self.link("../../outside" if name == "failed" else "../../outside/rc", f".uxn-test/{name}")
        self.refused(".uxn-test/failed: it is a symbolic link", "uxn-test")
        os.unlink(self.path(".uxn-test/failed"))
        self.link("../../../outside", ".uxn-test/failed/tests.t")
        self.refused(".uxn-test/failed/tests.t: it is a symbolic link", "uxn-test")
        os.unlink(self.path(".uxn-test/failed/tests.t"))
        self.link("../../../../outside", ".uxn-test/failed/tests.t/more")
        self.attack("uxn-test")

    def test_a_base_of_results_from_elsewhere(self) -> None:
        os.mkdir(self.path(".uxn-test"))
        endless = "WITH RECURSIVE n(a) AS (SELECT 1 UNION ALL SELECT a + 1 FROM n) SELECT a, a, a, a FROM n"
        for words in (
            f"CREATE VIEW files AS {endless}",
            "CREATE TABLE files (path, stamp, digest, includes)",
            "CREATE TABLE files (path BLOB PRIMARY KEY, stamp TEXT, digest BLOB, includes TEXT)",
        ):
            base = sqlite3.connect(self.path(".uxn-test/results.sqlite"))
            base.execute(words)
            if "PRIMARY" in words:
                base.execute("INSERT INTO files VALUES ('a', 'no stamp', 'b', '[[[')")
            base.commit()
            base.close()
            got, said = self.attack("uxn-test")
            self.assertIn("0 passed, 1 failed", said)
            os.unlink(self.path(".uxn-test/results.sqlite"))

    def test_other_outputs(self) -> None:
        self.write("frames", fuzzing.PICTURES)
        self.write("samples", bytes(4000))
        for name in ("a-1.png", "a.wav", "list", "lcov", "shot.png", "new.commands", "n.script", "junit"):
            self.link("../outside/rc", name)
        refusal = "it is a symbolic link, and is not written over"
        self.refused(refusal, "uxn-frames-to-png", "frames", "a")
        self.refused(refusal, "uxn-samples-to-wav", "samples", "a.wav")
        self.refused(refusal, "uxn-listing", "game.tal", "--out", "list")
        self.refused(refusal, "uxn-cover", "game.tal", "--lcov", "lcov")
        self.refused(refusal, "uxn-debug", "game.tal", status=0, stdin=b"shot shot\nsave new\n")
        self.refused(refusal, "uxn-test", "--junit", "junit")
        self.refused("n.script is there already", "uxn-record", "game.tal", "--to", "n")
        self.link("../outside/rc", "uxn-test.toml")
        self.attack("uxn-record", "game.tal", "--to", "new/test", stdin=b":done\n")
        self.link("../outside/rc", "linked.tal")
        self.attack("uxn-fmt", "linked.tal")
        self.link("../outside", "folder")
        self.refused("folder: it is a symbolic link", "uxn-listing", "game.tal", "--out", "folder/list")
        self.refused(refusal, os.path.join(fuzzing.EXTRAS, "dropins", "uxnasm"), "game.tal", "list")


class Inputs(Hostile):
    """Files that have no end, or that wait."""

    TOOLS = (
        ("uxn-check", "x.tal"),
        ("uxn-cover", "x.tal"),
        ("uxn-debug", "x.tal"),
        ("uxn-explain", "uxn", "asm", "x.tal", "--out", "o"),
        ("uxn-fmt", "x.tal"),
        ("uxn-frames-to-png", "x.tal", "made"),
        ("uxn-lint", "x.tal"),
        ("uxn-listing", "x.tal"),
        ("uxn-misses", "game.tal", "--script", "x.tal"),
        ("uxn-misses", "x.tal", "--script", "x.tal"),
        ("uxn-needs", "x.tal"),
        ("uxn-samples-to-wav", "x.tal", "made"),
        ("uxn-sandbox", "play", "x.tal"),
        ("uxn-sandbox", "line", "x.tal"),
        ("uxn-trace", "x.tal", "--rom"),
        ("uxn-watch", "game.tal", "name", "--symbols", "x.tal"),
        ("uxn-debug", "game.tal", "--script", "x.tal", "--commands", "x.tal"),
        (os.path.join(fuzzing.EXTRAS, "dropins", "uxnasm"), "x.tal", "o"),
        (os.path.join(fuzzing.EXTRAS, "dropins", "uxncli"), "x.tal"),
        (os.path.join(fuzzing.EXTRAS, "dropins", "uxnemu"), "x.tal"),
    )

    def try_all(self) -> None:
        for words in self.TOOLS:
            self.assertNotEqual(self.attack(*words)[0], 0, words)

    def test_a_pipe(self) -> None:
        os.mkfifo(self.path("x.tal"))
        self.try_all()

    def test_a_link_to_a_device(self) -> None:
        self.link("/dev/zero", "x.tal")
        self.try_all()

    def test_a_long_file(self) -> None:
        fuzzing.sparse(self.path("x.tal"), 6 << 30)
        self.try_all()

    def test_a_loop_of_links(self) -> None:
        self.link("y.tal", "x.tal")
        self.link("x.tal", "y.tal")
        self.try_all()

    def test_includes(self) -> None:
        os.mkfifo(self.path("pipe"))
        self.link("/dev/zero", "zero")
        fuzzing.sparse(self.path("long"), 6 << 30)
        self.write("x.tal", b"~pipe ~zero ~long\n" + b"~x.tal " * 1000)
        for words in self.TOOLS:
            self.attack(*words)

    def test_tests(self) -> None:
        self.write("tests/a.script", b"end\n")
        for name in ("tests/t.script", "tests/u.commands", "tests/v.setup"):
            os.mkfifo(self.path(name))
        for name in ("tests/a.out", "tests/a.ppm", "tests/a.report"):
            self.link("/dev/zero", name)
        fuzzing.sparse(self.path("tests/a.samples"), 6 << 30)
        for words in ([], ["--update"], ["--seconds", "5", "--fresh"]):
            self.attack("uxn-test", *words)
        self.attack("uxn-cover")
        os.mkfifo(self.path("uxn-test.toml"))
        self.attack("uxn-test")
        os.unlink(self.path("uxn-test.toml"))
        self.write("uxn-test.toml", b"a = " + b"[" * 100_000)
        self.refused("nested too deeply", "uxn-test", status=2)

    def test_a_language_server_in_such_a_folder(self) -> None:
        os.mkfifo(self.path("pipe.tal"))
        self.link("/dev/zero", "zero.tal")
        for number in range(300):
            self.link("big.tal", f"l{number}.tal")
        self.write("big.tal", b"~none.tal ;a\n" * 300_000)
        world = fuzzing.World(self.folder, self.outside)
        self.attack("uxn-lsp", stdin=fuzzing.messages(random.Random(1), world))

    def test_deep_folders_and_strange_names(self) -> None:
        self.write("tests/\x1b[2J\n.script", b"end\n")
        self.write("tests/\udcff.script".encode("utf-8", "surrogateescape").decode("latin-1"), b"end\n")
        got, said = self.attack("uxn-test")
        path = self.path("deep")
        for _ in range(80):
            path = os.path.join(path, "d")
        os.makedirs(path)
        self.refused("over 64 folders deep", "uxn-test", status=2)


class Long(Hostile):
    """Words and lines that are as long as a source may be."""

    def test_a_fault_in_a_long_word_has_its_place(self) -> None:
        for size in (70_000, 4_000_000):
            self.write("x.tal", b"|0100 BRK\n " + b"b" * size)
            for words in (
                ("uxn-check", "x.tal"),
                ("uxn-listing", "x.tal"),
                ("uxn-lint", "x.tal"),
                ("uxn-fmt", "x.tal"),
                ("uxn-explain", "uxn", "asm", "x.tal", "--out", "o"),
                (os.path.join(fuzzing.EXTRAS, "dropins", "uxnasm"), "x.tal", "o"),
            ):
                got, said = self.attack(*words)
                self.assertEqual(got, 1 if words[0].endswith("uxnasm") else 131, said[:300])
                self.assertRegex(said[:80], r"2:2: LongWord: bbb")
                self.assertLess(len(said), 10_000)

    def test_the_lint_takes_time_in_proportion(self) -> None:
        """Sublabels in one line, one name in many scopes, and comments without words between them."""
        for unit in ("&s%x ", "@x%x &main ;main POP2 ", "( lint-allow unused-label )\n"):
            took = []
            for count in (2_000, 16_000):
                text = "|0100 @main " + "".join(unit % at if "%" in unit else unit for at in range(count)) + "BRK\n"
                self.write("x.tal", text.encode())
                begun = time.process_time()
                lint.alarms(Analysis(self.path("x.tal"), expand=True))
                took.append(time.process_time() - begun)
            self.assertLess(took[1], 8 * 4 * took[0] + 0.5, unit)

    def test_uxn_explain_says_who_writes_long_symbol_files(self) -> None:
        fuzzing.sparse(self.path("y"), 17_000_000)
        self.write("a.rom", b"\0")
        got, said = self.attack("uxn-explain", "uxn", "dis", "a.rom", "--symbols", "y")
        self.assertEqual(got, 134)
        self.assertIn("`asm --symbols` writes longer ones", said)


class Faulty(Hostile):
    def test_a_faulty_script_is_refused_as_by_uxn(self) -> None:
        for line, kind in (("frame x", "BadValue"), ("input 0", "BadValue"), ("key", "Missing"), ("key 41 1 1", "Extra")):
            self.write("s", f"{line}\n".encode())
            for words in (("uxn-trace", "game.tal"), ("uxn-watch", "game.tal", "name"), ("uxn-debug", "game.tal")):
                self.refused(f"script 1: {kind}", *words, "--script", "s", status=132)

    def test_a_name_with_a_zero_byte(self) -> None:
        self.write("tests/t.setup", b"machine a\0b\nmachine game.tal\nscript \0\n")
        self.refused("setup 1: BadValue", "uxn-test")
        self.refused("setup 1: BadValue", "uxn-sandbox", "line", "tests/t.setup", status=139)
        self.refused("setup 1: BadValue", "uxn-explain", "uxn", "line", "tests/t.setup", status=139)


class Closed(Hostile):
    def test_every_tool_with_closed_streams(self) -> None:
        calls = (*Inputs.TOOLS, ("uxn-lsp",), ("uxn-text-to-script",), ("uxn-manual",), ("uxn-test",), ("uxn-fmt",))
        self.write("x.tal", WRITES)
        for words in calls:
            for closed in ("<&-", ">&-", "<&- >&- 2>&-", ">/dev/full 2>&1"):
                self.attack("sh", "-c", f'exec "$0" "$@" {closed}', *words)


class Fuzz(ToolTest):
    def test_random_calls(self) -> None:
        seed = int(time.time()) << 16
        tried, found = fuzzing.run(self.program, FUZZED, seed)
        self.assertEqual(found, [], f"from seed {seed} on")
        self.assertGreater(tried, 1)

    def test_a_fault_is_found(self) -> None:
        world = fuzzing.World(self.path("in"), self.path("outside"), self.environment)
        for name in ("in", "outside"):
            os.mkdir(self.path(name))
        before = fuzzing.state_of(world.outside)
        self.assertEqual(fuzzing.fault_of(fuzzing.Call(["uxn-needs", "none.tal"]), world, before), "")
        self.write("outside/new", b"theirs")
        changed = fuzzing.fault_of(fuzzing.Call(["uxn-needs", "none.tal"]), world, before)
        self.assertEqual(changed, "a file outside of its folder was changed")
