"""The include root of a project: `include-from` of uxn-test.toml, as each tool reads it; and files that programs share."""
import os
import subprocess

from support import EXTRAS, ToolTest, needs

HELLO = "|0100 @main #41 print #800f DEO BRK\n~lib/print.tal\n"
BYE = "|0100 @main #42 print end #800f DEO BRK\n~lib/print.tal\n"
PRINT = "@print ( c -- )\n\t#18 DEO JMP2r\n@end ( -- )\n\t#0a print JMP2r\n"
FAULTY = PRINT.replace("JMP2r", "foo JMP2r", 1)
SETTINGS = 'include-from = "."\n[folder."tests/hello"]\nprogram = "src/hello.tal"\n'


class IncludeRoot(ToolTest):
    def setUp(self) -> None:
        super().setUp()
        self.write("p/src/hello.tal", HELLO)
        self.write("p/src/bye.tal", BYE)
        self.write("p/lib/print.tal", PRINT)
        self.write("p/uxn-test.toml", SETTINGS)
        self.folder = self.path("p")

    def said(self, status: int, *words: str) -> str:
        done = self.call(*words)
        self.assertEqual(done.returncode, status, done.stderr.decode())
        return (done.stdout + done.stderr).decode()

    def test_check_from_each_folder_and_by_each_name(self) -> None:
        for name in ("src/hello.tal", "lib/print.tal", self.path("src/hello.tal")):
            self.assertEqual(self.said(0, "uxn-check", name), "")
        self.write("lib/print.tal", FAULTY)
        fault = "lib/print.tal:2:10: UnknownName: foo\n"
        self.assertEqual(self.said(131, "uxn-check", "src/hello.tal"), fault)
        self.assertEqual(self.said(131, "uxn-check", "lib/print.tal"), fault)
        self.assertEqual(self.said(131, "uxn-check", self.path("src/hello.tal")), self.path(fault))
        self.folder = self.path("src")
        self.assertEqual(self.said(131, "uxn-check", "hello.tal"), f"../{fault}")

    def test_without_the_setting_includes_begin_at_the_source(self) -> None:
        self.write("uxn-test.toml", SETTINGS.partition("\n")[2])
        self.assertEqual(self.said(131, "uxn-check", "src/hello.tal"), "src/hello.tal:2:1: IncludeMissing: ~lib/print.tal\n")

    def test_a_root_in_another_folder(self) -> None:
        self.write("uxn-test.toml", 'include-from = "deep/er"\n')
        self.write("deep/er/lib/print.tal", PRINT)
        os.remove(self.path("lib/print.tal"))
        self.assertEqual(self.said(0, "uxn-needs", "src/hello.tal"), "src/hello.tal\ndeep/er/lib/print.tal\n")
        self.assertEqual(self.said(0, "uxn-check", "src/hello.tal"), "")

    def test_needs_listing_trace_profile_and_cover(self) -> None:
        self.assertEqual(self.said(0, "uxn-needs", "src/hello.tal"), "src/hello.tal\nlib/print.tal\n")
        self.assertIn("lib/print.tal 2:2 #18\n", self.said(0, "uxn-listing", "src/hello.tal"))
        self.assertIn("\nlib/print.tal\n    2 \t#18 DEO", self.said(0, "uxn-trace", "src/hello.tal"))
        self.assertIn("print\n", self.said(0, "uxn-profile", "src/hello.tal"))
        self.assertIn("never reached: lib/print.tal:4: end\n", self.said(0, "uxn-cover", "src/hello.tal"))

    def test_a_fault_of_an_included_file_has_its_path(self) -> None:
        self.write("lib/print.tal", FAULTY)
        for tool in ("uxn-trace", "uxn-listing", "uxn-profile"):
            self.assertIn("source lib/print.tal 2:10: UnknownName: foo\n", self.said(131, tool, "src/hello.tal"))

    def test_lint_and_fmt(self) -> None:
        self.write("lib/print.tal", PRINT + "@nobody ( -- )\n\tJMP2r\n")
        alarm = "lib/print.tal:5:1: unused-label: nothing refers to nobody\n"
        for names in (["src/hello.tal"], ["src/bye.tal", "src/hello.tal"], ["lib/print.tal"]):
            self.assertEqual(self.said(1, "uxn-lint", *names), alarm)
        self.assertEqual(self.said(0, "uxn-fmt", "--check", "src/hello.tal", "lib/print.tal"), "")

    def test_a_label_that_no_program_uses_any_more(self) -> None:
        self.assertEqual(self.said(0, "uxn-lint", "src/hello.tal"), "")
        self.write("src/bye.tal", BYE.replace(" end", ""))
        self.assertEqual(self.said(1, "uxn-lint", "src/hello.tal"), "lib/print.tal:3:1: unused-label: nothing refers to end\n")

    def test_tests_of_programs_and_of_machines(self) -> None:
        self.write("tests/hello/a.out", "A")
        self.write("tests/line/both.setup", "machine src/hello.tal\nmachine src/bye.tal\n")
        self.write("tests/line/both.out", "B\n")
        self.write("uxn-test.toml", SETTINGS + '[folder."tests/line"]\n')
        self.assertIn("2 passed, 0 failed", self.said(0, "uxn-test"))
        self.assertIn("2 passed, 0 failed (2 unchanged", self.said(0, "uxn-test"))
        self.write("lib/print.tal", PRINT.replace("#18 DEO", "INC #18 DEO"))
        self.assertIn("0 passed, 2 failed", self.said(1, "uxn-test"))
        self.write("lib/print.tal", FAULTY)
        refused = "src/hello.tal is refused (source lib/print.tal 2:10: UnknownName: foo): 1 test not run\n"
        self.assertIn(refused, self.said(1, "uxn-test"))
        self.assertEqual(sorted(os.listdir(self.path("src"))), ["bye.tal", "hello.tal"])

    def test_a_part_of_programs_is_not_run(self) -> None:
        why = "lib/print.tal has no |0100 and is a part of src/bye.tal and src/hello.tal: name a program\n"
        self.write("a.script", "expect 18 42\n")
        for words in ("trace", "listing", "profile", "cover", "debug", "watch 0100 1", "misses --script a.script", "fuzz --runs 1"):
            tool, *rest = words.split()
            self.assertEqual(self.said(2, f"uxn-{tool}", "lib/print.tal", *rest), f"uxn-{tool}: {why}")
        self.assertEqual(self.said(2, "uxn-record", "lib/print.tal", "--to", "tests/a"), f"uxn-record: {why}")
        self.assertEqual(self.said(2, "uxn-film", "lib/print.tal", "--to", "a.png"), f"uxn-film: {why}")
        for number in range(4):
            self.write(f"src/more{number}.tal", HELLO)
        self.assertIn("src/bye.tal, src/hello.tal, src/more0.tal and 3 more: name", self.said(2, "uxn-trace", "lib/print.tal"))

    def test_a_program_that_another_one_includes_runs(self) -> None:
        self.write("all.tal", "~src/hello.tal\n")
        self.assertIn("#41 print", self.said(0, "uxn-trace", "src/hello.tal"))
        self.assertIn("#41 print", self.said(0, "uxn-trace", "all.tal"))

    def test_the_sandbox(self) -> None:
        words = ["uxn-sandbox", "--isolation", "none"]
        self.assertEqual(self.said(0, *words, "play", "src/hello.tal"), "A")
        self.write("both.setup", "machine src/hello.tal\nmachine src/bye.tal\n")
        self.assertEqual(self.said(0, *words, "line", "both.setup"), "B\n")
        self.assertEqual(self.said(0, *words, "asm", "src/hello.tal", "--out", "src/a.rom"), "")
        self.assertEqual(self.said(0, "uxn", "play", "src/a.rom", "--rom"), "A")
        beneath = "lies beneath the root"
        self.assertIn(f"src/lib/print.tal, {beneath}", self.said(201, *words, "play", "src/hello.tal", "--root", "src"))
        self.assertEqual(self.said(0, *words, "play", "src/hello.tal", "--root", "lib"), "A")
        self.write("lib/print.tal", FAULTY)
        fault = "source lib/print.tal 2:10: UnknownName: foo\n"
        self.assertEqual(self.said(131, *words, "play", "src/hello.tal"), fault)
        self.assertEqual(self.said(131, *words, "line", "both.setup"), fault)
        os.remove(self.path("lib/print.tal"))
        os.symlink("/etc/passwd", self.path("lib/print.tal"))
        self.assertIn("input lib/print.tal: it is a symbolic link", self.said(201, *words, "play", "src/hello.tal"))

    def test_the_sandbox_hands_on_what_looks_like_a_refusal(self) -> None:
        self.write("src/odd.tal", '|0100 ;text &on LDAk #19 DEO INC2 LDAk ?&on BRK @text "source 20 "x 00 ~lib/print.tal')
        self.assertEqual(self.said(0, "uxn-sandbox", "--isolation", "none", "play", "src/odd.tal"), "source x")

    def test_what_explain_says(self) -> None:
        said = self.said(131, "uxn-explain", "uxn", "play", "src/hello.tal")
        self.assertIn("Only the tools read include-from of uxn-test.toml.", said)
        self.assertIn("Write: uxn-check src/hello.tal --out hello.rom, and uxn play src/hello.rom --rom\n", said)
        self.said(0, "uxn-check", "src/hello.tal", "--out", "hello.rom")
        self.assertEqual(self.said(0, "uxn", "play", "src/hello.rom", "--rom"), "A")
        self.write("lib/print.tal", FAULTY)
        said = self.said(131, "uxn-explain", "uxn", "asm", "lib/print.tal", "--out", "a.rom")
        self.assertIn("`lib/print.tal` has no |0100 and is a part of src/bye.tal and src/hello.tal.", said)
        os.remove(self.path("uxn-test.toml"))
        said = self.said(131, "uxn-explain", "uxn", "asm", "src/hello.tal", "--out", "a.rom")
        self.assertIn('Write: uxn-test.toml with the line include-from = ".", and uxn-check src/hello.tal --out', said)

    def test_misses(self) -> None:
        self.write("src/hello.tal", HELLO.replace("#800f DEO ", ""))
        self.write("a.script", "script 2\nexpect 18 42\n")
        self.assertIn("port 18 held 41", self.said(1, "uxn-misses", "src/hello.tal", "--script", "a.script"))

    def test_the_drop_in(self) -> None:
        uxnasm = os.path.join(EXTRAS, "dropins", "uxnasm")
        self.folder = self.path("src")
        self.assertIn("Assembled a.rom", self.said(0, uxnasm, "hello.tal", "a.rom"))
        self.write("../lib/print.tal", FAULTY)
        self.assertEqual(self.said(1, uxnasm, "hello.tal", "b.rom"), "../lib/print.tal:2:10: UnknownName: foo\n")
        self.assertFalse(os.path.exists(self.path("b.rom")))

    def test_wrong_settings(self) -> None:
        self.write("tests/hello/a.out", "A")
        for value, why in (("3", "it has to be a text"), ('"../p"', "it has to be a path beneath this folder")):
            self.write("uxn-test.toml", f"include-from = {value}\n")
            self.assertIn(f"include-from: {why}", self.said(2, "uxn-test"))
        self.assertIn("goes with --out", self.said(2, "uxn-check", "a.tal", "--symbols", "a.sym"))

    def test_two_files_with_one_name(self) -> None:
        self.write("src/print.tal", "~print.tal\n")
        self.write("print.tal", "BRK\n")
        for tool in ("uxn-check", "uxn-lint", "uxn-trace"):
            self.assertIn("need different names", self.said(131, tool, "src/print.tal"))

    @needs("make")
    def test_make(self) -> None:
        words = ["make", "-f", os.path.join(EXTRAS, "project", "Makefile")]
        done = subprocess.run(words, cwd=self.folder, env=self.environment, capture_output=True, check=False)
        self.assertEqual(done.returncode, 0, done.stderr.decode())
        made = ["bye.lst", "bye.rom", "bye.rom.sym", "bye.tal", "hello.lst", "hello.rom", "hello.rom.sym", "hello.tal"]
        self.assertEqual(sorted(os.listdir(self.path("src"))), made)
        self.write("lib/print.tal", FAULTY)
        done = subprocess.run(words, cwd=self.folder, env=self.environment, capture_output=True, check=False)
        self.assertEqual(done.returncode, 2)
        self.assertIn(b"lib/print.tal:2:10: UnknownName: foo", done.stdout + done.stderr)
