"""uxnasm and uxncli of extras/dropins: three projects with the Makefiles that they have anyway, and each by itself."""
import os
import pty
import resource
import shutil
import signal
import subprocess
import tempfile
import time

from support import EXAMPLES, EXTRAS, ToolTest, needs

PROJECTS = os.path.join(EXTRAS, "tests", "projects")
ECHO = b"""|00 @System &pad $f &state $1 |10 @Console &vector $2 &read $1 &pad $4 &type $1 &write $1
|0100 ;on-console .Console/vector DEO2 BRK
@on-console .Console/type DEI #30 ADD .Console/write DEO .Console/read DEI .Console/write DEO BRK"""


def programs_of_children(process: int) -> list[str]:
    """The programs that run in the processes that a process has started."""
    with open(f"/proc/{process}/task/{process}/children", encoding="ascii") as file:
        children = file.read().split()
    found = []
    for child in children:
        try:
            found.append(os.readlink(f"/proc/{child}/exe"))
        except OSError:
            # It has ended meanwhile.
            continue
    return found


def wait_for_child(process: int, program: str) -> None:
    """Waits until a process has started this program. What starts a tool may have had other children before."""
    for _ in range(20_000):
        if program in programs_of_children(process):
            return
        time.sleep(0.001)
    raise AssertionError(f"it does not start {program}")


class DropinTest(ToolTest):
    def setUp(self) -> None:
        super().setUp()
        self.environment["PATH"] = os.pathsep.join([os.path.join(EXTRAS, "dropins"), self.environment["PATH"]])
        # uxncli refuses a folder with a link out of it, so `uxn` lies elsewhere.
        tools = tempfile.mkdtemp(prefix="uxn-test-")
        self.addCleanup(shutil.rmtree, tools)
        os.rename(self.path(".bin/uxn"), os.path.join(tools, "uxn"))
        self.environment["PATH"] = os.pathsep.join([tools, self.environment["PATH"]])


@needs("make", "cmp", "diff")
class Projects(DropinTest):
    def project(self, name: str) -> None:
        """Goes to a copy of the project."""
        shutil.copytree(os.path.join(PROJECTS, name), self.path(name))
        self.folder = self.path(name)

    def test_one_program_with_assets(self) -> None:
        self.project("teletext")
        self.assertRegex(
            self.succeed("make"),
            r"^Assembled bin/teletext.rom in \d+ bytes\(0\.\d\d% used\), 25 labels, 1 macros\.\n$",
        )
        self.assertIn("teletext is right", self.succeed("make", "test"))
        self.assertEqual(self.succeed("make", "-q"), "")
        self.succeed("make", "install", f"DIR={self.path('roms')}")
        self.assertEqual(self.read("roms/teletext.rom"), self.read("bin/teletext.rom"))
        self.succeed("make", "clean")
        self.assertFalse(os.path.exists(self.path("bin")))

    def test_one_program_fails_where_it_should(self) -> None:
        self.project("teletext")
        self.write("test/lines.want", "= P100 =\nGOOD EVENING.\n")
        self.assertIn(b"differ", self.call("make", "test").stdout)
        self.assertEqual(self.call("make", "test").returncode, 2)
        self.write("src/text.tal", b"( broken )\n\t#123\n" + self.read("src/text.tal"))
        done = self.call("make")
        self.assertEqual((done.returncode, done.stderr.split(b"\n")[0]), (2, b"src/text.tal:2:2: BadNumber: #123"))

    def test_tools_with_a_library(self) -> None:
        self.project("toolbox")
        self.succeed("make", "-j2")
        self.assertEqual(self.read("manual/manual.txt"), b"1 Pipes\n2 Lines\n")
        self.succeed("make", "-j2", "check")
        self.succeed("make", "install", f"DESTDIR={self.path('to')}", "PREFIX=/usr")
        self.assertEqual(sorted(os.listdir(self.path("to/usr/share/roms"))), ["number.rom", "squeeze.rom"])
        self.write("lib/stream.tal", self.read("lib/stream.tal") + b"%BYTE { #00 }\n")
        self.assertIn("2 macros", self.succeed("make"))
        self.write("test/number-two.out", "1 x\n")
        self.assertEqual(self.call("make", "check").returncode, 2)

    def test_a_program_that_makes_a_source(self) -> None:
        self.project("rooms")
        self.succeed("make", "test")
        self.assertEqual(self.read("src/rooms.tal")[:32], b"@line-a 41 20 64 61 72 6b 20 63 ")
        time.sleep(0.02)
        self.write("data/rooms.txt", "A cave.\nA garden.\n")
        self.assertEqual(self.call("make", "test").returncode, 2)
        self.assertEqual(self.succeed("uxncli", "bin/rooms.rom", stdin=b"d"), "A cave.\n")
        self.write("lib/print.tal", "@print-text nothing")
        self.assertIn(b"../lib/print.tal:1:13: UnknownName: nothing\n", self.call("make").stderr)


class Assembler(DropinTest):
    def test_files_anywhere(self) -> None:
        for name in ("b.tal", "a folder/b.tal", "deep/" * 20 + "b.tal", "back\\slash.tal"):
            path = self.path(self.write(name, "|0100 @main #18 DEO"))
            self.succeed("uxnasm", path, self.path("out.rom"))
            self.assertEqual((self.read("out.rom"), self.read("out.rom.sym")), (b"\x80\x18\x17", b"\x01\x00main\0"))
        self.assertEqual(
            self.succeed("uxnasm", "b.tal", "b.rom"), "Assembled b.rom in 3 bytes(0.00% used), 1 labels, 0 macros.\n"
        )

    def test_includes_begin_at_the_current_folder(self) -> None:
        self.write(
            "src/main.tal", "~src/a.tal ~./here.tal\n~sub//b.tal ~%s ~sub/../here.tal BRK" % self.path("c.tal")
        )
        for name, text in (("src/a.tal", "01"), ("here.tal", "02"), ("sub/b.tal", "03"), ("c.tal", "04")):
            self.write(name, text)
        self.succeed("uxnasm", "src/main.tal", "a.rom")
        self.assertEqual(self.read("a.rom"), b"\1\2\3\4\2")
        os.mkdir(self.path("other"))
        self.folder = self.path("other")
        self.write("main.tal", "( in another folder )\n  ~../here.tal ~../gone.tal")
        self.assertEqual(
            self.refuse(1, "uxnasm", "main.tal", "a.rom"), "main.tal:2:16: IncludeMissing: ~../gone.tal"
        )
        self.write("../gone.tal", "05\n nothing")
        self.assertEqual(self.refuse(1, "uxnasm", "main.tal", "a.rom"), "../gone.tal:2:2: UnknownName: nothing")

    def test_examples_are_as_by_uxn(self) -> None:
        shutil.copytree(EXAMPLES, self.path("examples"))
        self.folder = self.path("examples")
        for name in ("hello", "bill", "banks", "chord"):
            self.succeed("uxnasm", f"{name}.tal", "1.rom")
            self.succeed("uxn", "asm", f"{name}.tal", "--out", "2.rom", "--symbols", "2.sym")
            self.assertEqual(
                (self.read("1.rom"), self.read("1.rom.sym")), (self.read("2.rom"), self.read("2.sym")), name
            )

    def test_refusals_change_nothing(self) -> None:
        self.write("a.tal", "@main\n main nothing")
        self.write("a.rom", "before")
        self.assertEqual(self.refuse(1, "uxnasm", "a.tal", "a.rom"), "a.tal:2:7: UnknownName: nothing")
        self.assertEqual((self.read("a.rom"), os.path.exists(self.path("a.rom.sym"))), (b"before", False))
        self.assertIn("gone.tal", self.refuse(1, "uxnasm", "gone.tal", "a.rom"))
        self.assertIn("required", self.refuse(2, "uxnasm", "a.tal"))
        self.write("b.tal", "BRK")
        self.refuse(1, "uxnasm", "b.tal", "b.tal")
        self.refuse(1, "uxnasm", "b.tal", "./b.tal")
        self.assertEqual(self.read("b.tal"), b"BRK")
        self.refuse(1, "uxnasm", "b.tal", "no/folder.rom")
        self.assertIn("uxn", self.refuse(127, "uxnasm", "b.tal", "b.rom", UXN="/gone"))


class Player(DropinTest):
    def setUp(self) -> None:
        super().setUp()
        self.write("echo.tal", ECHO)
        self.succeed("uxnasm", "echo.tal", "echo.rom")

    def test_arguments_and_input(self) -> None:
        self.assertEqual(
            self.succeed("uxncli", "echo.rom", "a b", "", "--x", stdin=b"\0\xffz\n"),
            self.succeed("uxncli", self.path("echo.rom"), "a b", "", "--x", stdin=b"\0\xffz\n"),
        )
        got = self.call("uxncli", "echo.rom", "a b", "", "-h", stdin=b"\0\xff").stdout
        self.assertEqual(got, b"2a2 2b3\n3\n2-2h4\n1\x001\xff4\0")
        self.assertEqual(self.call("uxncli", "echo.rom").stdout, b"4\0")

    def test_a_terminal_is_not_read(self) -> None:
        outer, inner = pty.openpty()
        done = subprocess.run(
            ["uxncli", "echo.rom"],
            cwd=self.folder,
            env=self.environment,
            stdin=inner,
            capture_output=True,
            timeout=20,
        )
        os.close(inner)
        os.close(outer)
        self.assertEqual(done.stdout, b"4\0")

    def test_input_has_an_end(self) -> None:
        self.write(
            "count.tal",
            "|0100 ;on-byte #10 DEO2 BRK @on-byte ,&n LDR2 INC2 DUP2 ,&n STR2 #17 DEI #04 EQU ?{ POP2 BRK }"
            " SWP #18 DEO #18 DEO BRK &n $2",
        )
        self.succeed("uxnasm", "count.tal", "count.rom")
        self.assertEqual(
            self.call("uxncli", "count.rom", stdin=b"x" * 999_999).stdout, (1_000_000 % 65536).to_bytes(2, "big")
        )
        self.assertIn("999,999", self.refuse(1, "uxncli", "count.rom", stdin=b"x" * 1_000_000))

    def test_files_of_the_current_folder(self) -> None:
        self.write(
            "save.tal",
            "|0100 ;name #a8 DEO2 #0002 #aa DEO2 ;text #ae DEO2 ;up #a8 DEO2 ;text #ac DEO2 #a3 DEI #0f DEO BRK"
            ' @name "made 00 @text "ok @up "../secret 00',
        )
        self.write("secret", "secret")
        os.mkdir(self.path("in here"))
        self.succeed("uxnasm", "save.tal", "save.rom")
        self.folder = self.path("in here")
        self.succeed("uxncli", "../save.rom")
        self.assertEqual(os.listdir(self.folder), ["made"])
        self.assertEqual(self.read("made"), b"ok")

    def test_the_clock_is_that_of_the_call(self) -> None:
        self.write("year.tal", "|0100 #c0 DEI2 #18 DEO #18 DEO #c4 DEI #18 DEO BRK")
        self.succeed("uxnasm", "year.tal", "year.rom")
        for zone in ("UTC", "XXX-12", "XXX+11:30"):
            before, got, after = time.time(), self.call("uxncli", "year.rom", TZ=zone).stdout, time.time()
            shift = {"UTC": 0, "XXX-12": 12 * 3600, "XXX+11:30": -11.5 * 3600}[zone]
            moments = [time.gmtime(moment + shift) for moment in (before, after)]
            self.assertIn(got, [bytes([it.tm_year % 256, it.tm_year // 256, it.tm_hour]) for it in moments])

    def test_statuses(self) -> None:
        for state, status in (("00", 0), ("85", 5), ("ff", 127)):
            self.write("a.tal", f"|0100 #{state} #0f DEO BRK")
            self.succeed("uxnasm", "a.tal", "a.rom")
            self.assertEqual(self.call("uxncli", "a.rom").returncode, status)
        self.assertIn("gone.rom", self.refuse(1, "uxncli", "gone.rom"))
        self.assertEqual(self.refuse(1, "uxncli", self.write("long.rom", bytes(1_048_321))), "rom: 1048321 bytes")
        self.assertIn("is required", self.refuse(2, "uxncli"))
        self.assertIn("no option -x", self.refuse(2, "uxncli", "-x", "a.rom"))
        self.assertIn("Frames of a ROM", self.succeed("uxnemu", "--help"))
        self.assertIn("The assembler", self.succeed("uxnasm", "-v"))

    def test_a_call_takes_little(self) -> None:
        """A call of a drop-in takes little more than to start Python. What it loads is compiled by the first call."""
        self.write("a.tal", "|0100 #41 #18 DEO BRK")

        def cost(*words: str) -> float:
            """The processor time of a call, in seconds: the least of some."""
            spent = []
            for _ in range(8):
                before = resource.getrusage(resource.RUSAGE_CHILDREN)
                self.succeed(*words)
                after = resource.getrusage(resource.RUSAGE_CHILDREN)
                spent.append(after.ru_utime + after.ru_stime - before.ru_utime - before.ru_stime)
            return min(spent)

        bare = cost("python3", "-S", "-E", "-c", "0")
        dropins = os.path.join(EXTRAS, "dropins")
        for words in (["uxnasm", "a.tal", "a.rom"], ["uxncli", "a.rom"]):
            taken = cost("python3", "-S", "-E", os.path.join(dropins, words[0]), *words[1:])
            self.assertLess(taken, bare + 0.030, words)


class Emulator(DropinTest):
    def setUp(self) -> None:
        super().setUp()
        self.write("white.tal", "|0100 #0fff #08 DEO2 #000f #22 DEO2 #0010 #24 DEO2 ;on-frame #20 DEO2 BRK @on-frame LIT \"f #18 DEO BRK")
        self.succeed("uxnasm", "white.tal", "white.rom")

    def test_frames_and_what_it_cannot_do(self) -> None:
        done = self.call("uxnemu", "-f", "--frames", "5", "white.rom")
        self.assertEqual((done.returncode, done.stdout), (0, b"fffff"))
        self.assertEqual(done.stderr, b"uxnemu: no window, keys, mouse or sound: it ran 5 frames; --to FILE.png keeps the last picture\n")
        self.assertEqual(self.call("uxnemu", "white.rom").stdout, b"f" * 60)

    def test_the_last_picture(self) -> None:
        self.assertIn(b"is in a.png", self.call("uxnemu", "-2x", "--to", "a.png", "white.rom").stderr)
        data = self.read("a.png")
        self.assertEqual((data[:4], data[16:24]), (b"\x89PNG", (30).to_bytes(4, "big") + (32).to_bytes(4, "big")))

    def test_its_status_and_wrong_calls(self) -> None:
        self.write("ends.tal", "|0100 #85 #0f DEO BRK")
        self.succeed("uxnasm", "ends.tal", "ends.rom")
        self.assertEqual(self.call("uxnemu", "ends.rom").returncode, 5)
        self.refuse(1, "uxnemu", "--to", "none/a.png", "ends.rom")
        for words, why in ((["--frames", "0", "a.rom"], "no number from 1"), (["-z", "a.rom"], "no option -z"), ([], "a ROM is required")):
            self.assertIn(why, self.refuse(2, "uxnemu", *words))
        self.assertIn("gone.rom", self.refuse(1, "uxnemu", "gone.rom"))

    def test_it_ends_with_the_call(self) -> None:
        self.write("loop.tal", "|0100 @loop !loop")
        self.succeed("uxnasm", "loop.tal", "loop.rom")
        for number in (signal.SIGTERM, signal.SIGINT):
            scratch = self.path(f"scratch-{number}")
            os.mkdir(scratch)
            running = subprocess.Popen(
                ["uxncli", "loop.rom"],
                cwd=self.folder,
                env={**self.environment, "TMPDIR": scratch},
                stdin=subprocess.DEVNULL,
                start_new_session=True,
            )
            wait_for_child(running.pid, self.program)
            os.killpg(running.pid, number) if number == signal.SIGINT else running.terminate()
            self.assertEqual(running.wait(20), 128 + number)
            self.assertEqual(os.listdir(scratch), [])
            with self.assertRaises(ProcessLookupError):
                os.killpg(running.pid, 0)

    def test_a_call_in_the_background_ignores_interrupts(self) -> None:
        """So does the program that it has started; both end with the call."""
        self.write("loop.tal", "|0100 @loop !loop")
        self.succeed("uxnasm", "loop.tal", "loop.rom")
        running = subprocess.Popen(
            ["uxncli", "loop.rom"],
            cwd=self.folder,
            env=self.environment,
            stdin=subprocess.DEVNULL,
            start_new_session=True,
            preexec_fn=lambda: signal.signal(signal.SIGINT, signal.SIG_IGN),
        )
        wait_for_child(running.pid, self.program)
        os.killpg(running.pid, signal.SIGINT)
        with self.assertRaises(subprocess.TimeoutExpired):
            running.wait(0.5)
        self.assertEqual(programs_of_children(running.pid), [self.program])
        running.terminate()
        self.assertEqual(running.wait(20), 128 + signal.SIGTERM)
        with self.assertRaises(ProcessLookupError):
            os.killpg(running.pid, 0)
