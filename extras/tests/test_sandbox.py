"""uxn-sandbox: runs as by `uxn` where nothing leads out, and the ways out that it closes."""
import contextlib
import os
import shutil
import socket
import subprocess
import sys
import tempfile
import threading
import time
import unittest
import unittest.mock

from support import EXAMPLES, EXTRAS, ToolTest, needs

sys.path.insert(0, EXTRAS)
from uxntools import plainfiles, sandbox
from uxntools.cli import Failure

# Reads the file that the argument names, and writes it to the console.
READER = """|00 @System &pad $f &state $1
|10 @Console &vector $2 &read $1 &pad $4 &type $1 &write $1
|a0 @File1 &vector $2 &success $2 &stat $2 &delete $1 &append $1 &name $2 &length $2 &read $2 &write $2
|0000 @end $2
|0100 ;name .end STZ2 ;on-byte .Console/vector DEO2 BRK
@on-byte .Console/type DEI #02 NEQ ?read
    .Console/read DEI .end LDZ2 STA .end LDZ2k INC2 ROT STZ2 BRK
@read ;name .File1/name DEO2 #0100 .File1/length DEO2 ;data .File1/read DEO2
    .File1/success DEI2 #0000 EQU2 ?{ ;data &next LDAk #18 DEO INC2 LDAk ?&next }
    #80 .System/state DEO BRK
@name $100 @data"""
# Writes the file `big` for as long as its budget goes.
WRITER = '|0100 ;name #a8 DEO2 #ffff #aa DEO2 &on #0000 #ae DEO2 #a2 DEI2 ORA ?&on #81 #0f DEO BRK @name "big 00'
# Makes the files `a`, `b`, .. up to `z`.
MANY = """|0100 &on ;name #a8 DEO2 #0001 #aa DEO2 ;name #ae DEO2
    ;name LDA INC DUP ;name STA LIT "z INC NEQ ?&on BRK @name "a 00"""


def sandboxing() -> bool:
    """Whether bubblewrap works here."""
    if shutil.which("bwrap") is None:
        return False
    return (
        subprocess.run(
            ["bwrap", "--unshare-all", "--ro-bind", "/", "/", "true"], capture_output=True, check=False
        ).returncode
        == 0
    )


IN_BUBBLEWRAP = unittest.skipUnless(sandboxing(), "bubblewrap is not installed, or makes no namespaces here")


class SandboxTest(ToolTest):
    def setUp(self) -> None:
        super().setUp()
        os.mkdir(self.path("root"))
        self.write("secret", "secret")
        self.write("root/own", "own")

    def words(self, *words: str) -> list[str]:
        """A call in bubblewrap if that works here, or else without it and without the line that says so."""
        return ["uxn-sandbox", "--isolation", "need" if sandboxing() else "none", *words]

    def sandbox(self, *words: str) -> subprocess.CompletedProcess[bytes]:
        return self.call(*self.words(*words))

    def refuse_in_sandbox(self, status: int, *words: str) -> str:
        return self.refuse(status, *self.words(*words))

    def read_by_program(self, name: str) -> bytes:
        """What a program beneath the root `root` reads of a file."""
        self.write("reader.tal", READER)
        self.write("script", f"args {name.encode().hex()}\n")
        done = self.sandbox("play", "reader.tal", "--root", "root", "--script", "script")
        self.assertEqual((done.returncode, done.stderr), (0, b""))
        return done.stdout

    def assert_refused(self, why: str, *words: str) -> None:
        self.assertIn(why, self.refuse(201, "uxn-sandbox", *words))


class WaysOut(SandboxTest):
    """What an untrusted archive, source or ROM may try."""

    def test_01_the_root_is_a_link(self) -> None:
        os.symlink(".", self.path("link"))
        self.write("reader.tal", READER)
        self.assert_refused("root link: it is a symbolic link", "play", "reader.tal", "--root", "link")
        self.assert_refused("root link: it is a symbolic link", "play", "reader.tal", "--root=link/root")

    def test_02_the_root_holds_a_link(self) -> None:
        self.assertEqual(self.read_by_program("own"), b"own")
        os.makedirs(self.path("root/a/b"))
        os.symlink("/etc/passwd", self.path("root/a/b/c"))
        self.assert_refused("root/a/b/c: it is a symbolic link", "play", "reader.tal", "--root", "root")

    def test_03_the_root_holds_a_file_with_a_second_name(self) -> None:
        os.link(self.path("secret"), self.path("root/other"))
        self.write("reader.tal", READER)
        self.assert_refused("root/other: the file has a second name", "play", "reader.tal", "--root", "root")

    def test_04_the_root_holds_a_pipe(self) -> None:
        os.mkfifo(self.path("root/pipe"))
        self.write("reader.tal", READER)
        self.assert_refused("root/pipe: it is neither", "play", "reader.tal", "--root", "root")

    def test_05_names_that_lead_out(self) -> None:
        for name in (
            "../secret",
            "/etc/passwd",
            "./../secret",
            "root/../../secret",
            "..\\secret",
            "/proc/self/environ",
            ".",
        ):
            self.assertNotIn(b"secret", self.read_by_program(name))
        self.assertEqual(self.read_by_program(self.path("secret")), b"")

    def test_06_an_include_word_over_a_link(self) -> None:
        os.symlink(self.folder, self.path("root/up"))
        self.write("theirs/main.tal", "BRK ~lib/x.tal")
        os.symlink("..", self.path("theirs/lib"))
        self.write("x.tal", '"secret')
        self.assert_refused("theirs/lib: it is a symbolic link", "asm", "theirs/main.tal", "--out", "o")
        os.remove(self.path("theirs/lib"))
        os.mkdir(self.path("theirs/lib"))
        os.link(self.path("x.tal"), self.path("theirs/lib/x.tal"))
        self.assert_refused("theirs/lib/x.tal: the file has a second name", "asm", "theirs/main.tal", "--out", "o")
        self.write("setup", "machine theirs/main.tal\nmachine theirs/main.tal\n")
        self.assert_refused("theirs/lib/x.tal: the file has a second name", "line", "setup")

    def test_07_an_output_is_a_link_or_a_second_name(self) -> None:
        self.write("a.tal", "BRK")
        os.symlink("secret", self.path("report"))
        self.assert_refused("output report: it is a symbolic link", "play", "a.tal", "--report", "report")
        os.link(self.path("secret"), self.path("frames"))
        self.assert_refused("output frames: the file has a second name", "play", "a.tal", "--frames=frames")
        self.assertEqual(self.read("secret"), b"secret")

    def test_08_it_does_not_end(self) -> None:
        self.write("loop.tal", "|0100 ;loop #20 DEO2 @loop !loop")
        self.write("script", "frame 1000000\n")
        begun = time.monotonic()
        line = self.refuse_in_sandbox(
            202, "--seconds", "1", "play", "loop.tal", "--script", "script", "--budget", "4294967295"
        )
        self.assertIn("after 1 seconds of processor time", line)
        self.assertLess(time.monotonic() - begun, 30)

    def test_09_a_file_grows(self) -> None:
        self.write("writer.tal", WRITER)
        line = self.refuse_in_sandbox(202, "--size", "2", "play", "writer.tal", "--root", "root")
        self.assertIn("root/big: it has reached 2097152 bytes", line)
        self.assertEqual(os.path.getsize(self.path("root/big")), 2 << 20)
        self.write("noise.tal", "|0100 BRK")
        self.write("script", "frame 5000\n")
        self.assertIn(
            "w: it has reached",
            self.refuse_in_sandbox(
                202, "--size", "1", "play", "noise.tal", "--samples", "w", "--script", "script"
            ),
        )

    def test_10_it_makes_many_files(self) -> None:
        self.write("many.tal", MANY)
        self.assertEqual(self.sandbox("--files", "30", "play", "many.tal", "--root", "root").returncode, 0)
        self.assertEqual(len(os.listdir(self.path("root"))), 27)
        shutil.rmtree(self.path("root"))
        os.mkdir(self.path("root"))
        self.assertIn(
            "26 files and folders, more than 20",
            self.refuse_in_sandbox(202, "--files", "20", "play", "many.tal", "--root", "root"),
        )
        self.assert_refused("more than 20", "--files", "20", "play", "many.tal", "--root", "root")

    def test_11_it_wants_memory(self) -> None:
        self.write("a.tal", "BRK")
        self.write("commands", "back 1\n")
        words = ("debug", "a.tal", "--commands", "commands", "--log", "log")
        self.assertEqual(self.sandbox(*words).returncode, 0)
        done = self.call("uxn-sandbox", "--isolation", "none", "--memory", "32", *words)
        self.assertEqual((done.returncode, done.stdout), (138, b""))

    def test_12_a_source_that_includes_without_end(self) -> None:
        self.write("a.tal", "~a.tal ~b.tal " * 200)
        self.write("b.tal", "~a.tal")
        self.assertIn("IncludeDeep", self.refuse_in_sandbox(131, "play", "a.tal"))
        self.write("c.tal", "\n".join(f"~lib/{number}.tal" for number in range(200_000)))
        self.assertIn("IncludeMissing: ~lib/0.tal", self.refuse_in_sandbox(131, "play", "c.tal"))


class Amounts(SandboxTest):
    """What a run reads, prints and writes at most."""

    def setUp(self) -> None:
        super().setUp()
        self.write("flood.tal", '|0100 @on LIT "x #18 DEO !on')
        self.write("fill.tal", '|0100 ;name #a8 DEO2 #8000 #aa DEO2 #01 #a7 DEO @on ;name #ae DEO2 !on @name "big 00')
        self.budget = ("--budget", "4000000000")

    def sandboxed(self, status: int, *words: str) -> tuple[bytes, str]:
        done = self.call("uxn-sandbox", "--isolation", "none", *words)
        said = done.stderr.decode()
        self.assertEqual(done.returncode, status, said)
        return done.stdout, said

    def test_a_flood_ends(self) -> None:
        out, said = self.sandboxed(202, "--print", "1", "play", "flood.tal", *self.budget)
        self.assertEqual(len(out), 1 << 20)
        self.assertIn("it has printed more than 1048576 bytes", said)

    def test_an_output_of_the_caller_has_no_limit_of_size(self) -> None:
        self.succeed("sh", "-c", "uxn-sandbox --isolation none --size 1 play flood.tal --budget 4000000 >out")
        self.assertEqual(len(self.read("out")), 1_000_000)

    def test_files_are_too_much_together(self) -> None:
        _, said = self.sandboxed(202, "--size", "9999", "--total", "4", "play", "fill.tal", *self.budget, "--root", "root")
        self.assertIn("the root and the outputs have more than 4194304 bytes together", said)

    def test_a_long_input_is_not_copied(self) -> None:
        self.write("a.tal", "~long.tal")
        with open(self.path("long.tal"), "wb") as file:
            file.truncate(6 << 30)
        before = time.monotonic()
        _, said = self.sandboxed(201, "play", "a.tal")
        self.assertLess(time.monotonic() - before, 30)
        said = self.call("uxn-sandbox", "play", "a.tal").stderr.decode()
        self.assertIn("input long.tal: it has more than 16,777,216 bytes\n", said)

    def test_names_have_no_control_bytes(self) -> None:
        os.symlink("/etc", self.path("root/\x1b[2J\n"))
        said = self.call("uxn-sandbox", "play", "flood.tal", "--root", "root").stderr.decode()
        self.assertEqual(said, "uxn-sandbox: root root/\\x1b[2J\\n: it is a symbolic link\n")

    def test_a_mount_is_found_by_the_mount_table(self) -> None:
        there = os.path.join(os.path.realpath(self.path("root")), "in ner")
        with unittest.mock.patch.object(plainfiles, "_mount_points", lambda: frozenset({"/proc", there})):
            with self.assertRaises(sandbox.Refused) as caught:
                self.look_at_root()
        self.assertIn("in ner: it is another file system", caught.exception.line)
        self.assertIn("/proc", plainfiles._mount_points())

    def look_at_root(self) -> None:
        before = os.getcwd()
        os.chdir(self.folder)
        try:
            sandbox.look_at_root("root")
        finally:
            os.chdir(before)


@IN_BUBBLEWRAP
class FromWithin(SandboxTest):
    """What `uxn` itself could do if it had a hole: a shell stands in its place."""

    def within(self, command: str, limits: sandbox.Limits | None = None) -> subprocess.CompletedProcess[bytes]:
        """Runs a command of a shell as `uxn` would be run, in the folder `work`."""
        os.makedirs(self.path("work/root"), exist_ok=True)
        shell = os.path.realpath(shutil.which("bash") or "/bin/sh")
        words = sandbox.bubblewrap(shell, self.path("work"), (self.path("root"), "root"))
        before = limits.apply if limits else None
        return subprocess.run(
            [*words, "-c", command],
            env={**self.environment, "SECRET": "secret"},
            capture_output=True,
            timeout=60,
            check=False,
            preexec_fn=before,
        )

    def test_it_can_do_what_it_should(self) -> None:
        done = self.within("read line <root/own; echo $line; echo new >root/new; echo out >out; echo $PWD")
        self.assertEqual(
            (done.stdout, self.read("root/new"), self.read("work/out")),
            (b"own\n/work\n", b"new\n", b"out\n"),
            done.stderr,
        )

    def test_13_other_files(self) -> None:
        done = self.within(
            "echo /*; echo /etc/* /home/* /root/* /tmp/* /proc/* /dev/*;"
            f" read line <{self.path('secret')} && echo $line"
        )
        self.assertEqual(
            sorted(set(done.stdout.split()) - {b"/lib", b"/lib64", b"/usr"}),
            sorted(
                [
                    b"/uxn",
                    b"/work",
                    *(b"/%s/*" % name for name in (b"etc", b"home", b"root", b"tmp", b"proc", b"dev")),
                ]
            ),
        )

    def test_14_writes_elsewhere(self) -> None:
        done = self.within(
            f"echo bad >{self.path('secret')}; echo bad >/uxn; cd ..; echo bad >root/own;"
            " for file in /lib/*/libc.so* /lib64/ld*; do echo bad >$file; done"
        )
        self.assertEqual(self.read("secret"), b"secret")
        self.assertEqual(self.read("root/own"), b"own")
        self.assertEqual(done.stdout, b"")

    def test_15_the_environment(self) -> None:
        self.assertNotIn(b"secret", self.within("declare -p").stdout)

    def test_16_the_network(self) -> None:
        with contextlib.closing(socket.create_server(("127.0.0.1", 0))) as server:
            server.settimeout(5)
            port = server.getsockname()[1]
            done = self.within(f"echo reached >/dev/tcp/127.0.0.1/{port} && echo reached")
            self.assertEqual(done.stdout, b"")
            threading.Thread(target=lambda: socket.create_connection(("127.0.0.1", port)).close()).start()
            server.accept()[0].close()

    def test_17_other_processes(self) -> None:
        with subprocess.Popen(["sleep", "60"]) as other:
            done = self.within(
                f"kill -0 {other.pid} && echo seen; kill -9 {other.pid}; kill -9 {os.getpid()}; echo $$"
            )
            self.assertNotIn(b"seen", done.stdout)
            self.assertIsNone(other.poll())
            other.kill()

    def test_18_limits_hold_for_what_it_starts(self) -> None:
        limits = sandbox.Limits(1, 1 << 30, 1 << 20, 10, 1 << 30, 1 << 20)
        self.assertEqual(self.within("while :; do :; done", limits).returncode, 152)
        self.within("while echo 0123456789abcdef; do :; done >big", sandbox.Limits(20, 1 << 30, 1 << 16, 10, 1 << 30, 1 << 20))
        self.assertEqual(os.path.getsize(self.path("work/big")), 1 << 16)


class Calls(SandboxTest):
    """Runs that are as without the sandbox."""

    def test_examples(self) -> None:
        for isolation in ("need", "none") if sandboxing() else ("none",):
            with self.subTest(isolation=isolation):
                shutil.copytree(EXAMPLES, self.path("examples"))
                try:
                    self.try_examples("uxn-sandbox", "--isolation", isolation)
                finally:
                    shutil.rmtree(self.path("examples"))

    def try_examples(self, *sandboxed: str) -> None:
        for name, option, made in (
            ("bounce", "--frames", "ppm"),
            ("chord", "--samples", "samples"),
            ("echo", "--report", "report"),
        ):
            script = f"examples/{name}.script"
            self.succeed(*sandboxed, "play", f"examples/{name}.tal", "--script", script, option, "made")
            self.assertEqual(self.read("made"), self.read(f"examples/{name}.{made}"), name)
        self.assertEqual(self.succeed(*sandboxed, "play", "examples/bill.tal"), self.read("examples/bill.out").decode())
        words = ("--script", "examples/notes.script", "--root", "examples/notes.root")
        self.succeed(*sandboxed, "play", "examples/notes.tal", *words)
        self.succeed("diff", "-r", "examples/notes.root", "examples/notes.after")
        words = ("--commands", "examples/mistake.commands", "--log", "log")
        self.succeed(*sandboxed, "debug", "examples/mistake.tal", *words)
        self.assertEqual(self.read("log"), self.read("examples/mistake.log"))
        folder, self.folder = self.folder, self.path("examples")
        self.assertTrue(self.succeed(*sandboxed, "line", "numbered.setup").startswith("1 the\n2 quick\n"))
        self.folder = folder

    def test_refusals_are_those_of_uxn(self) -> None:
        self.write("a.tal", "BRK")
        os.mkdir(self.path("folder"))
        for words in (
            ["play"],
            ["play", "a.tal", "--no"],
            ["play", "a.tal", "--report"],
            ["asm", "a.tal"],
            ["play", "../a.tal"],
            ["play", "gone.tal"],
            ["play", "folder"],
            ["asm", "a.tal", "--out", "a.tal"],
            ["asm", "a.tal", "--out", "folder"],
            ["asm", "a.tal", "--out", "no/o"],
            ["play", "a.tal", "--root", "root", "--report", "root/own"],
            ["dis", "gone.rom"],
            ["line", "a.tal"],
            ["gen", "0"],
            ["version"],
        ):
            plain, done = self.call("uxn", *words), self.sandbox(*words)
            self.assertEqual(
                (done.returncode, done.stdout, done.stderr), (plain.returncode, plain.stdout, plain.stderr), words
            )
            self.assertGreaterEqual(done.returncode, 128)
        self.assertEqual((self.read("root/own"), self.read("a.tal")), (b"own", b"BRK"))

    def test_statuses_and_outputs_pass(self) -> None:
        self.write("a.tal", '|0100 LIT "o #18 DEO LIT "e #19 DEO #85 #0f DEO BRK')
        done = self.sandbox("play", "a.tal")
        self.assertEqual((done.returncode, done.stdout, done.stderr), (5, b"o", b"e"))

    def test_wrong_calls(self) -> None:
        self.refuse(2, "uxn-sandbox")
        self.refuse(2, "uxn-sandbox", "--seconds", "0", "play", "a.tal")
        self.assertIn("no folder", self.refuse(201, "uxn-sandbox", "play", "a.tal", "--root", "gone"))
        script = self.write("script", "#!/bin/sh\nexit 0\n")
        os.chmod(self.path(script), 0o755)
        self.write("a.tal", "BRK")
        if sandboxing():
            self.assertIn("it is a script", self.refuse(201, "uxn-sandbox", "play", "a.tal", UXN=self.path(script)))

    def test_without_bubblewrap_it_says_so(self) -> None:
        self.write("a.tal", "BRK")
        tools = self.path("tools")
        os.mkdir(tools)
        os.symlink(sys.executable, os.path.join(tools, "python3"))
        os.symlink(shutil.which("env") or "", os.path.join(tools, "env"))
        path = os.pathsep.join([tools, os.path.join(EXTRAS, "bin"), self.path(".bin")])
        self.assertIn("not installed", self.call("uxn-sandbox", "play", "a.tal", PATH=path).stderr.decode())
        self.assertEqual(self.call("uxn-sandbox", "play", "a.tal", PATH=path).returncode, 0)
        self.assertIn(
            "nothing was run", self.refuse(201, "uxn-sandbox", "--isolation", "need", "play", "a.tal", PATH=path)
        )
        self.assertEqual(self.call("uxn-sandbox", "--isolation", "none", "play", "a.tal", PATH=path).stderr, b"")

    def test_it_leaves_nothing_behind(self) -> None:
        self.write("a.tal", "BRK")
        with tempfile.TemporaryDirectory() as scratch:
            self.call("uxn-sandbox", "play", "a.tal", TMPDIR=scratch)
            self.call("uxn-sandbox", "play", "gone.tal", TMPDIR=scratch)
            self.assertEqual(os.listdir(scratch), [])


class Reading(unittest.TestCase):
    def test_what_a_call_names(self) -> None:
        with tempfile.TemporaryDirectory() as folder:
            before = os.getcwd()
            os.chdir(folder)
            self.addCleanup(os.chdir, before)
            call = sandbox.read_call(
                [
                    "debug",
                    "--commands",
                    "c",
                    "r.rom",
                    "--rom",
                    "--log=l",
                    "--symbols",
                    "y",
                    "--root",
                    "a/b",
                    "--frames",
                    "p",
                ]
            )
            self.assertEqual(([*call.inputs], call.outputs, call.root), (["c", "r.rom", "y"], ["l", "p"], "a/b"))
            call = sandbox.read_call(["asm", "a.tal", "--symbols", "y", "--out", "../o"])
            self.assertEqual((call.inputs, call.outputs, call.root), ({"a.tal": "a.tal"}, ["y"], None))
            with self.assertRaises(Failure):
                sandbox.look_at_root("gone")
