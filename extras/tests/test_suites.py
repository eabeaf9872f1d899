"""Large suites: tables of tests, choosing among tests, sources that are refused, tests that are skipped or expected to fail, and reports."""
import base64
import os
import re
import shutil
import xml.etree.ElementTree as ElementTree

from support import EXAMPLES, ToolTest, needs

# Prints what it is given, and counts it in the port f0 and at @count.
ECHO = "|10 @Console &vector $2 |f0 @Shown &count $1 |0000 @count $2 |0100 ;on-read .Console/vector DEO2 BRK @on-read #17 DEI #04 EQU ?{ #12 DEI #18 DEO .count LDZ2 INC2 DUP2 .count STZ2 NIP .Shown/count DEO } BRK"
TABLE = """# what is printed
| name  | input    | out   | Shown/count | @count* | status |
| none  |          |       | 00          | 0000    |        |
| two   | "ab      | "ab   | 02          | 0002    | 0      |
|       | "a 20 "b | 612062 | >= 03      | +3      |        |
"""


class Suite(ToolTest):
    def setUp(self) -> None:
        super().setUp()
        self.write("game.tal", ECHO)

    def outcome(self, status: int, *words: str) -> str:
        done = self.call("uxn-test", *words)
        said = (done.stdout + done.stderr).decode()
        self.assertEqual(done.returncode, status, said)
        self.assertNotIn("mistake of", said)
        return said


class Tables(Suite):
    def test_rows_are_tests(self) -> None:
        self.write("tests/echo.table", TABLE)
        self.assertEqual(self.outcome(0, "-l").split(), ["tests/echo:5", "tests/echo:none", "tests/echo:two"])
        self.assertIn("3 passed, 0 failed", self.outcome(0))
        self.assertIn("(3 unchanged", self.outcome(0))
        for words, count in ((["echo"], 3), (["tests/echo.table"], 3), (["two"], 1), (["tests/echo:two"], 1), (["*:none"], 1), (["tests"], 3)):
            self.assertEqual(len(self.outcome(0, "-l", *words).split()), count, words)

    def test_a_row_that_fails(self) -> None:
        self.write("tests/echo.table", TABLE.replace('"ab   | 02', '"ax   | 03'))
        said = self.outcome(1)
        self.assertIn("FAILED tests/echo:two (tests/echo.table:4)\n    out: it differs from tests/echo.table:4\n", said)
        self.assertIn("tests/echo.table:4: expect Shown/count 03: it held 02", said)
        self.assertIn("2 passed, 1 failed", said)
        self.assertNotIn(".uxn-test/tables", said)

    def test_a_changed_row(self) -> None:
        self.write("tests/echo.table", TABLE)
        self.outcome(0)
        self.write("tests/echo.table", TABLE.replace("none ", "nothing "))
        self.assertIn("tests/echo:nothing", self.outcome(0, "-l"))
        self.assertFalse(os.path.exists(self.path(".uxn-test/tables/tests.echo/none.script")))

    def test_events_arguments_and_files(self) -> None:
        self.write("game.tal", "|80 @Controller &vector $2 &button $1 |0000 @n $1 |0100 ;on-button .Controller/vector DEO2 ;on-read #10 DEO2 ;name #a8 DEO2 #0004 #aa DEO2 ;text #ac DEO2 BRK "
                   "@on-button .n LDZ INC .n STZ BRK @on-read #12 DEI #18 DEO BRK @name \"f 00 @text $8")
        self.write("tests/a.root/f", "text")
        self.write("tests/a.table", '| args | events | @n | @text | out |\n| "hi | down a; up a; frame 2 | 02 | "text" | "hi0a |\n'.replace('"hi0a', '"hi 0a'))
        self.assertIn("1 passed", self.outcome(0))

    def test_what_is_nearly_right(self) -> None:
        for table, line, why in (
            ("| name | out |\n| a | \"x | y |\n", 2, "it has 3 cells, and the first line 2"),
            ("| name | otu |\n| a | \"x |\n", 1, "`otu` is no column"),
            ("| name | out | out |\n| a | \"x | \"x |\n", 1, "two columns have the name out"),
            ("| name | input |\n| a | \"x |\n", 1, "no column says what is wanted"),
            ("| name | out |\n| a | \"x\n", 2, "begins and ends with |"),
            ("| name | out |\n| a | x |\n", 2, "`x` is no bytes"),
            ("| name | out |\n| a | \"x |\n| a | \"y |\n", 3, "line 2 has the name a too"),
            ("| name | out |\n| a b | \"x |\n", 2, "`a b` is no name"),
            ("| status |\n| one |\n", 2, "`one` is no status"),
            ("| f0 |\n| 3 |\n", 2, "no byte for the port f0"),
            ("| @count |\n| 0003 |\n", 2, "a short has a star"),
        ):
            self.write("tests/a.table", table)
            self.assertIn(f"uxn-test: tests/a.table:{line}: ", self.refuse(2, "uxn-test"), table)
            self.assertIn(why, self.refuse(2, "uxn-test"))
        self.write("tests/a.table", "| out |\n")
        self.assertIn("it has no rows", self.refuse(2, "uxn-test"))
        self.write("tests/a.table", "| out |\n| |\n")
        self.write("tests/a.out", "")
        self.assertIn("beside a table", self.refuse(2, "uxn-test"))

    def test_update_leaves_a_table(self) -> None:
        self.write("tests/echo.table", TABLE.replace('"ab   |', '"ax   |'))
        said = self.outcome(1, "--update")
        self.assertIn("NOT RECORDED tests/echo:two\n    it is a row of a table: write what is wanted at tests/echo.table:4", said)
        self.assertIn(b'"ax   |', self.read("tests/echo.table"))

    def test_many_rows(self) -> None:
        rows = "".join(f'| "{number} | "{number} |\n' for number in range(150))
        self.write("tests/echo.table", "| input | out |\n" + rows)
        self.assertIn("150 passed", self.outcome(0))


class Refused(Suite):
    def setUp(self) -> None:
        super().setUp()
        self.write("game.tal", "#1")
        self.write("other.tal", "BRK")
        self.write("uxn-test.toml", '[folder.tests]\nprogram = "game.tal"\n[folder.more]\nprogram = "other.tal"\n[test."tests/d"]\n')
        for name in "abc":
            self.write(f"tests/{name}.out", "")
        self.write("tests/d.status", "131\n")
        self.write("tests/d.err", "source 1:1: BadNumber: #1\n")
        self.write("more/x.out", "")

    def test_once(self) -> None:
        said = self.outcome(1)
        self.assertTrue(said.startswith("REFUSED game.tal is refused (source 1:1: BadNumber: #1): 3 tests not run\n2 passed, 0 failed, 3 not run"), said)

    def test_in_reports(self) -> None:
        said = self.outcome(1, "--tap", "--junit", "j.xml")
        self.assertEqual(said.count("\nnot ok"), 1)
        self.assertEqual(said.count("# SKIP game.tal is refused"), 2)
        suites = ElementTree.fromstring(self.read("j.xml"))
        self.assertEqual((suites.get("errors"), suites.get("failures"), suites.get("skipped"), suites.get("tests")), ("1", "0", "2", "5"))
        self.assertEqual(len(suites.findall(".//error")), 1)
        self.assertEqual(len(suites.findall(".//skipped")), 2)
        said = self.outcome(1, "--format", "github")
        self.assertEqual(said.count("::error"), 1)
        self.assertIn("::error file=game.tal,line=1,title=game.tal is refused::", said)

    def test_the_last_failed(self) -> None:
        self.outcome(1)
        self.assertEqual(self.outcome(0, "--last-failed", "-l").split(), ["tests/a", "tests/b", "tests/c"])


class Choosing(Suite):
    def setUp(self) -> None:
        super().setUp()
        for name in "abcd":
            self.write(f"tests/{name}.script", f'input "{name}\n')
            self.write(f"tests/{name}.out", name)

    def test_tags(self) -> None:
        self.write("uxn-test.toml", '[test."tests/a"]\ntags = ["slow", "sound"]\n[test."tests/b"]\ntags = ["slow"]\n')
        for words, wanted in (("--tag slow", "ab"), ("--tag slow --tag sound", "a"), ("--no-tag sound", "bcd"), ("--tag slow --no-tag sound", "b")):
            self.assertEqual(self.outcome(0, "-l", *words.split()).split(), [f"tests/{name}" for name in wanted], words)
        self.assertIn("no test has these tags", self.refuse(1, "uxn-test", "--tag", "slwo"))
        self.write("uxn-test.toml", 'tags = "slow"\n')
        self.assertIn("a list of texts", self.refuse(2, "uxn-test"))

    def test_a_program(self) -> None:
        self.write("other.tal", "BRK")
        self.write("uxn-test.toml", '[folder.tests]\nprogram = "game.tal"\n[test."tests/d"]\nprogram = "other.tal"\n')
        self.assertEqual(self.outcome(0, "-l", "other.tal"), "tests/d\n")
        self.assertEqual(len(self.outcome(0, "-l", "game.tal").split()), 3)

    def test_the_last_failed_and_the_first_failures(self) -> None:
        for name in "bcd":
            self.write(f"tests/{name}.out", "no")
        said = self.outcome(1)
        self.assertIn("failed: tests/b tests/c tests/d\n1 passed, 3 failed", said)
        self.assertIn("1 passed, 2 failed", self.outcome(1, "--max-failures", "2"))
        self.write("tests/b.out", "b")
        self.assertIn("1 passed, 2 failed", self.outcome(1, "--last-failed"))
        self.assertEqual(self.outcome(0, "--last-failed", "-l").split(), ["tests/c", "tests/d"])

    def test_skipped_and_expected_to_fail(self) -> None:
        self.write("tests/b.out", "no")
        self.write("uxn-test.toml", '[test."tests/a"]\nskip = "it needs a clock"\n[test."tests/b"]\nfails = "a known bug"\n')
        said = self.outcome(0, "-v", "--junit", "j.xml")
        self.assertIn("skipped tests/a: it needs a clock\nfailed as expected tests/b: a known bug\n", said)
        self.assertIn("2 passed, 0 failed, 1 skipped, 1 failed as expected", said)
        self.assertEqual(ElementTree.fromstring(self.read("j.xml")).get("skipped"), "2")
        self.assertEqual(self.outcome(0, "--last-failed", "-l"), "")
        tap = self.outcome(0, "--tap")
        self.assertIn("ok 1 - tests/a # SKIP it needs a clock\nnot ok 2 - tests/b # TODO a known bug\n", tap)
        self.write("tests/b.out", "b")
        self.assertIn("test: it passes, and is expected to fail: a known bug", self.outcome(1))
        self.write("uxn-test.toml", "skip = true\n")
        self.assertIn("it has to be a reason", self.refuse(2, "uxn-test"))

    def test_durations(self) -> None:
        said = self.outcome(0, "--durations", "2")
        self.assertEqual(len([line for line in said.splitlines() if " s  tests/" in line]), 2)

    def test_colours_on_a_terminal_alone(self) -> None:
        self.write("tests/b.out", "no")
        self.assertNotIn("\x1b[3", self.outcome(1))
        for no_colour, has_them in (("", True), ("1", False)):
            done = self.call("script", "-qec", "uxn-test", "/dev/null", NO_COLOR=no_colour, TERM="xterm")
            self.assertEqual(b"\x1b[31mFAILED\x1b[0m tests/b" in done.stdout, has_them, done.stdout)

    def test_github(self) -> None:
        self.write("tests/b.script", 'input "b\n# expect @count* 0009\n')
        said = self.outcome(1, "--format", "github")
        self.assertIn("::error file=tests/b.script,line=2,title=tests/b failed::script: 1 of 1 assertions missed%0A", said)

    def test_the_debugger_at_the_first_miss(self) -> None:
        self.write("tests/b.script", 'input "bcd\n# expect @count* 0003\ninput "ef\n# expect @count* 0004\ninput "g\n')
        done = self.call("uxn-test", "--debug", "b", stdin=b"print count\n")
        said = done.stdout.decode()
        self.assertIn("uxn-debug game.tal --script=tests/b.script", said)
        self.assertIn("\n0000 00 05 00", said)

    def test_a_run_that_takes_too_long(self) -> None:
        self.write("game.tal", "@loop !loop")
        self.write("tests/a.script", "frame 900000\n")
        self.write("uxn-test.toml", "budget = 4000000000\n")
        self.assertIn("it did not end within 1 seconds", self.outcome(1, "--seconds", "1", "a"))
        self.assertIn("a test that runs longer fails (60)", self.succeed("uxn-test", "--help").replace("\n", " ").replace("  ", " "))

    def test_settings_without_tests(self) -> None:
        for name in "abcd":
            os.remove(self.path(f"tests/{name}.script"))
            os.remove(self.path(f"tests/{name}.out"))
        os.rmdir(self.path("tests"))
        self.write("uxn-test.toml", 'program = "game.tal"\n')
        self.assertEqual(self.refuse(2, "uxn-test"), "uxn-test: tests: it is no folder of tests")


class Page(Suite):
    """uxn-test --html: one page, which has all in itself."""

    def page(self, *words: str) -> str:
        self.outcome(1, "--html", "p.html", *words)
        return self.read("p.html").decode()

    def test_a_page(self) -> None:
        self.write("tests/a.script", 'input "a<b\n')
        self.write("tests/a.out", "a<c")
        self.write("tests/b.script", 'input "b\n')
        self.write("tests/b.out", "b")
        page = self.page("--cover")
        self.assertIn("1 passed, 1 failed", page)
        self.assertIn("<h3>tests/a</h3>", page)
        self.assertIn("-a&lt;c", page)
        self.assertIn("<summary>game.tal</summary>", page)
        self.assertIn("% of", page)
        self.assertEqual(re.findall(r'(?:src|href)="(?!data:)', page), [], "nothing from elsewhere")

    def test_pictures_and_sounds(self) -> None:
        for name in ("bounce", "chord"):
            shutil.copy(os.path.join(EXAMPLES, f"{name}.tal"), self.path(f"{name}.tal"))
        self.write("uxn-test.toml", '[folder.tests]\nprogram = "*.tal"\n')
        self.write("tests/bounce.script", "frame 3\nshot\n")
        shutil.copy(os.path.join(EXAMPLES, "chord.script"), self.path("tests/chord.script"))
        self.write("tests/chord.samples", b"")
        self.outcome(0, "--update")
        self.write("tests/bounce.script", "frame 9\nshot\n")
        self.write("tests/chord.samples", self.read("tests/chord.samples")[:400] + bytes(4000))
        page = self.page()
        self.assertEqual(page.count('<input type="range"'), 1)
        self.assertEqual(page.count("<audio controls"), 2)
        found = re.findall(r'src="data:image/png;base64,([^"]*)"', page)
        self.assertEqual([base64.b64decode(data)[:8] for data in found], [b"\x89PNG\r\n\x1a\n"] * 4)

    def test_refused_skipped_and_wrong_calls(self) -> None:
        self.write("game.tal", "#1")
        self.write("tests/a.out", "")
        self.write("tests/b.out", "")
        self.write("uxn-test.toml", '[test."tests/b"]\nskip = "not <yet>"\n')
        page = self.page()
        self.assertIn("game.tal is refused (source 1:1: BadNumber: #1): 1 test not run", page)
        self.assertIn("<td>not &lt;yet&gt;</td>", page)
        self.assertIn("--cover goes with --html", self.refuse(2, "uxn-test", "--cover"))

    @needs("chromium")
    def test_in_a_browser(self) -> None:
        """The page is no wider than a phone, and the slider moves the picture."""
        self.write("tests/a.script", 'input "' + 200 * "a" + "\n")
        self.write("tests/a.out", 300 * "b")
        self.page()
        self.write("frame.html", '<iframe id=f src=p.html style="width:360px"></iframe><pre id=o></pre><script>f.onload=()=>{const d=f.contentDocument;'
                   "o.textContent=`width ${d.documentElement.scrollWidth} ${d.documentElement.clientWidth}`}</script>")
        said = self.succeed("chromium", "--headless=new", "--no-sandbox", "--disable-gpu", "--allow-file-access-from-files", "--virtual-time-budget=3000",
                            f"--user-data-dir={self.path('profile')}", "--dump-dom", f"file://{self.path('frame.html')}")
        found = re.search(r"width (\d+) (\d+)", said)
        self.assertTrue(found and int(found[1]) <= int(found[2]), said[-300:])
