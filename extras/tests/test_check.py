"""uxn-check: a refusal as editors read it."""
import os
import shutil

from support import ToolTest

PROGRAMS = os.path.join(os.path.dirname(os.path.realpath(__file__)), "programs")


class Check(ToolTest):
    def check(self, path: str, status: int = 131, **more: str) -> str:
        done = self.call("uxn-check", path, **more)
        self.assertEqual(done.returncode, status, done.stderr.decode())
        return done.stdout.decode()

    def test_the_source_in_any_folder_by_any_name(self) -> None:
        self.write("a folder/a b.tal", "@main ok\n  nothing BRK")
        self.assertEqual(self.check("a folder/a b.tal"), "a folder/a b.tal:1:7: UnknownName: ok\n")
        self.assertEqual(
            self.check(self.path("a folder/a b.tal")), self.path("a folder/a b.tal") + ":1:7: UnknownName: ok\n"
        )
        os.mkdir(self.path("b"))
        self.folder, top = self.path("b"), self.folder
        self.assertEqual(self.check("../a folder/a b.tal"), "../a folder/a b.tal:1:7: UnknownName: ok\n")
        self.folder = top

    def test_it_leaves_a_rom_where_one_is_asked_for(self) -> None:
        self.write("b/b.tal", "#18 ~lib/c.tal")
        self.write("b/lib/c.tal", "DEI")
        before = os.listdir(self.path("b"))
        os.chmod(self.path("b"), 0o555)
        self.addCleanup(os.chmod, self.path("b"), 0o755)
        self.assertEqual(self.check("b/b.tal", 0), "")
        self.assertEqual(os.listdir(self.path("b")), before)
        os.chmod(self.path("b"), 0o755)
        self.assertEqual(self.call("uxn-check", "b/b.tal", "--out", "c.rom").returncode, 0)
        self.assertEqual(self.read("b/c.rom"), b"\x80\x18\x16")

    def test_included_files(self) -> None:
        self.write("a folder/a.tal", "BRK\n~lib/c.tal")
        self.write("a folder/lib/c.tal", "LIT\n #1")
        self.assertEqual(self.check("a folder/a.tal"), "a folder/lib/c.tal:2:2: BadNumber: #1\n")
        self.write("a folder/lib/c.tal", "LIT ~lib/d.tal")
        self.assertEqual(self.check("a folder/a.tal"), "a folder/lib/c.tal:1:5: IncludeMissing: ~lib/d.tal\n")
        self.write("b.tal", "~../c.tal")
        self.assertEqual(self.check("b.tal"), "b.tal:1:1: IncludePath: ~../c.tal\n")

    def test_a_slip_in_a_long_program(self) -> None:
        shutil.copytree(PROGRAMS, self.path("p"))
        data = self.read("p/ledger/digit.tal")
        self.write("p/ledger/digit.tal", data.replace(b"ADD", b"ADDD"))
        self.assertEqual(self.check("p/ledger.tal"), "p/ledger/digit.tal:2:8: UnknownName: ADDD\n")

    def test_wrong_calls(self) -> None:
        self.refuse(2, "uxn-check")
        self.refuse(2, "uxn-check", "a.tal", "b.tal")
        self.assertEqual(self.refuse(130, "uxn-check", "gone.tal"), "missing: gone.tal")
        self.assertIn("gone", self.refuse(1, "uxn-check", "gone/a.tal"))
        self.assertIn("no program", self.refuse(127, "uxn-check", "gone.tal", UXN="./none"))
        self.assertIn("uxn-check FILE", self.succeed("uxn-check", "--help"))
