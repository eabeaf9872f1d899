"""tools/dist: what it makes, and that --check finds each change, by a toolchain of the tests."""
from __future__ import annotations

import base64
import json
import os
import re
import shutil
import subprocess
import sys
import tempfile
import unittest
import zlib
from pathlib import Path

import fake_toolchain
from making import distribution, machines
from support import IDENTITY, TOP, Checkout, write


def part_of_page(page: str, name: str) -> bytes:
    """The bytes that the page carries under a name."""
    found = re.search(rf'<script type="application/octet-stream" id="data-{name}">([^<]*)<', page)
    return zlib.decompress(base64.b64decode(found[1]), -15) if found else b""


class Dist(Checkout):
    def setUp(self) -> None:
        super().setUp()
        self.kit = self.folder / "a kit"
        self.path = f"{fake_toolchain.install(self.kit, IDENTITY)}:/usr/bin:/bin"
        self.program = self.top / "crates/uxn_program/out/uxn_program"
        self.dist = self.top / "dist"
        self.dist.mkdir()
        shutil.copy(TOP / "dist/uxn.mjs", self.dist)
        self.fill_page()
        self.build()

    def build(self) -> None:
        done = self.tool("build", PATH=self.path)
        self.assertEqual(done.returncode, 0, done.stderr)

    def make(self, *words: str) -> subprocess.CompletedProcess[str]:
        return self.tool("dist", *words, str(self.program), PATH=self.path)

    def assert_made(self) -> None:
        done = self.make()
        self.assertEqual((done.returncode, done.stdout, done.stderr), (0, "", ""))

    def files(self) -> dict[str, bytes]:
        return {path.name: path.read_bytes() for path in self.dist.iterdir()}


class Makes(Dist):
    def test_the_files_and_the_manifest(self) -> None:
        self.assert_made()
        self.assertEqual(sorted(self.files()), sorted([*distribution.FILES, "manifest.json"]))
        self.assertEqual((self.dist / "uxn-linux-x86_64").read_bytes(), self.program.read_bytes())
        manifest = json.loads((self.dist / "manifest.json").read_text())
        self.assertEqual((manifest["version"], manifest["toolchain"]), ("7.3", IDENTITY))
        self.assertEqual(manifest["sources"], self.checksum())
        said = subprocess.run(["sha256sum", *distribution.FILES], cwd=self.dist, capture_output=True, text=True, check=True).stdout
        self.assertEqual({line.split()[1]: line.split()[0] for line in said.splitlines()}, manifest["files"])

    def test_the_launcher_runs_it(self) -> None:
        self.assert_made()
        shutil.rmtree(self.top / "crates/uxn_program/out")
        self.assertEqual(self.run_uxn("play", "x").stdout, "built: play x\n")

    def test_each_machine_has_its_own_module(self) -> None:
        self.assert_made()
        arm = (self.dist / "uxn-linux-aarch64").read_text()
        wasm = (self.dist / "uxn.wasm").read_text()
        self.assertTrue(arm.startswith("ld.lld") and wasm.startswith("wasm-ld"))
        self.assertTrue(os.access(self.dist / "uxn-linux-aarch64", os.X_OK))

    def test_the_page_has_the_module_and_the_examples(self) -> None:
        self.assert_made()
        page = (self.dist / "uxn.html").read_text(encoding="utf-8")
        self.assertEqual(part_of_page(page, "module"), (self.dist / "uxn.wasm").read_bytes())
        listed = json.loads(part_of_page(page, "examples"))
        self.assertEqual([(each["name"], each["about"]) for each in listed], [("numbered", "three machines in a line"), ("one", "one example")])

    def test_the_page_alone(self) -> None:
        self.assert_made()
        first = self.files()
        write(self.top / "examples/one.tal", "( another )\n")
        done = self.tool("dist", "--page", PATH=self.path)
        self.assertEqual((done.returncode, done.stdout, done.stderr), (0, "", ""))
        made = self.files()
        self.assertEqual({name for name in made if made[name] != first[name]}, {"uxn.html", "manifest.json"})
        self.assertEqual(self.make("--check").stdout, "5 passed, 0 failed\n")

    def test_the_page_alone_where_it_cannot_be_made(self) -> None:
        self.assert_made()
        first = self.files()
        (self.top / "web/style.css").unlink()
        done = self.tool("dist", "--page", PATH=self.path)
        self.assertEqual((done.returncode, done.stdout, done.stderr.count("\n")), (1, "", 1), done.stderr)
        self.assertTrue(done.stderr.startswith("tools/dist: the page is not made: web/build: "), done.stderr)
        self.assertEqual(self.files(), first)

    def test_the_same_bytes_in_another_folder(self) -> None:
        self.assert_made()
        first = self.files()
        deeper = self.folder / "one" / "two" / "three"
        deeper.parent.mkdir(parents=True)
        shutil.rmtree(self.top / "crates/uxn_program/out")
        self.top = self.top.rename(deeper)
        self.program = self.top / "crates/uxn_program/out/uxn_program"
        self.dist = self.top / "dist"
        self.build()
        self.assert_made()
        self.assertEqual(self.files(), first)

    def test_libraries_where_rt_leaves_them(self) -> None:
        for path in (self.top / "crates/uxn_program/out/libs").glob("*.rlib"):
            target = self.top / "crates" / path.stem / "out/rlib" / path.name
            target.parent.mkdir(parents=True)
            path.rename(target)
        self.assert_made()

    def test_libraries_of_a_folder(self) -> None:
        (self.top / "crates/uxn_program/out/libs").rename(self.folder / "libraries")
        self.assertEqual(self.make().returncode, 1)
        self.assertEqual(self.make("--libraries", str(self.folder / "libraries")).returncode, 0)


class Refuses(Dist):
    def assert_refused(self, text: str) -> None:
        before = self.files()
        done = self.make()
        self.assertEqual((done.returncode, done.stdout), (1, ""))
        self.assertTrue(done.stderr.startswith(f"tools/dist: {text}"), done.stderr)
        self.assertEqual(done.stderr.count("\n"), 1)
        self.assertEqual(self.files(), before)

    def test_a_source_that_is_newer(self) -> None:
        write(self.top / "crates/low/src/lib.rt", "another\n")
        os.utime(self.top / "crates/low/src/lib.rt", (1, 1))
        self.assert_refused(f"a source is newer than {self.program}: run `rt ci` or tools/build first")

    def test_another_program(self) -> None:
        with open(self.program, "ab") as file:
            file.write(b"#\n")
        self.assert_refused(f"{self.program} is not what its libraries give")

    def test_no_library(self) -> None:
        shutil.rmtree(self.top / "crates/uxn_program/out/libs/middle.rlib")
        self.assert_refused("there is no proved library of middle: run `rt ci` or tools/build first")

    def test_a_module_of_another_form(self) -> None:
        write(self.kit / "layout", fake_toolchain.MODULE.replace("@main()", "@begin()"))
        self.assert_refused("the module of this toolchain has another form")

    def test_no_toolchain(self) -> None:
        self.path = "/usr/bin:/bin"
        self.assert_refused("the Rattle toolchain's command rt is not in PATH")

    def test_wrong_calls(self) -> None:
        for words in ([], ["/no/program"], [str(self.program), "more"], ["--other", str(self.program)], ["--page", str(self.program)]):
            done = self.tool("dist", *words, PATH=self.path)
            self.assertEqual((done.returncode, done.stdout, done.stderr.count("\n")), (2, "", 1), done.stderr)

    def test_help(self) -> None:
        for tool in ("build", "dist", "cases-wasm", "cases-aarch64"):
            done = subprocess.run([str(TOP / "tools" / tool), "--help"], capture_output=True, text=True, check=False)
            self.assertEqual((done.returncode, done.stderr), (0, ""))
            self.assertIn(f"tools/{tool}", done.stdout)


class Checks(Dist):
    def setUp(self) -> None:
        super().setUp()
        self.assert_made()

    def test_what_is_as_it_was_made(self) -> None:
        before = self.files()
        done = self.make("--check")
        self.assertEqual((done.returncode, done.stdout, done.stderr), (0, "5 passed, 0 failed\n", ""))
        self.assertEqual(self.files(), before)

    def assert_found(self, name: str, how: str) -> None:
        done = self.make("--check")
        lines = [f"FAILED dist/{name}: {how}", f"This puts it right: tools/dist {self.program}", "4 passed, 1 failed"]
        self.assertEqual((done.returncode, done.stdout.splitlines()), (1, lines))

    def test_a_byte_of_each_file(self) -> None:
        for name in (*distribution.MADE, "manifest.json"):
            path = self.dist / name
            right = path.read_bytes()
            path.write_bytes(right[:20] + bytes([right[20] ^ 1]) + right[21:])
            self.assert_found(name, f"it has {len(right)} bytes in place of {len(right)}, and differs from byte 20 on")
            path.write_bytes(right)

    def test_a_file_that_is_shorter(self) -> None:
        path = self.dist / "uxn.wasm"
        right = path.read_bytes()
        path.write_bytes(right[:-1])
        self.assert_found("uxn.wasm", f"it has {len(right) - 1} bytes in place of {len(right)}, and differs from byte {len(right) - 1} on")

    def test_a_file_that_is_missing(self) -> None:
        (self.dist / "uxn-linux-aarch64").unlink()
        self.assert_found("uxn-linux-aarch64", "it is missing")

    def test_another_version(self) -> None:
        write(self.top / "VERSION", "7.4\n")
        self.assertEqual(self.make("--check").returncode, 1)

    def test_another_host(self) -> None:
        with open(self.dist / "uxn.mjs", "a", encoding="utf-8") as file:
            file.write("// more\n")
        done = self.make("--check")
        self.assertTrue(done.stdout.startswith("FAILED dist/manifest.json: "), done.stdout)

    def test_an_example_that_changed(self) -> None:
        write(self.top / "examples/one.tal", "( another )\n")
        done = self.make("--check")
        self.assertEqual([line.partition(":")[0] for line in done.stdout.splitlines()[:2]], ["FAILED dist/uxn.html", "FAILED dist/manifest.json"])

    def test_sources_that_changed(self) -> None:
        write(self.top / "crates/side/src/lib.rt", "another\n")
        self.build()
        done = self.make("--check")
        self.assertEqual((done.returncode, done.stdout.splitlines()[-1]), (1, "0 passed, 5 failed"))


class Modules(unittest.TestCase):
    TEXT = fake_toolchain.MODULE.format(layout="e-m:e", body=0)

    def test_what_is_put_right(self) -> None:
        text = machines.for_machine(self.TEXT, machines.WASM)
        self.assertIn(f'target datalayout = "{machines.WASM.layout}"\ntarget triple = "wasm64-unknown-unknown"\n', text)
        self.assertIn("define i32 @uxn_main() #0", text)
        self.assertIn("attributes #0 = { nounwind }", text)

    def test_what_a_machine_keeps(self) -> None:
        text = machines.for_machine(self.TEXT, machines.AARCH64)
        self.assertIn('attributes #0 = { nounwind "frame-pointer"="all" "probe-stack"="inline-asm" }', text)

    def test_what_is_there_twice(self) -> None:
        with self.assertRaisesRegex(machines.NotMade, "another form: 2 times"):
            machines.for_machine(self.TEXT * 2, machines.WASM)


class Made(unittest.TestCase):
    """dist/ as it is here."""

    MANIFEST = TOP / "dist/manifest.json"

    @unittest.skipUnless(MANIFEST.exists(), "there is no dist/manifest.json")
    def test_it_is_what_its_manifest_says(self) -> None:
        manifest = json.loads(self.MANIFEST.read_text())
        for name, digest in manifest["files"].items():
            self.assertEqual(distribution.sum_of((TOP / "dist" / name).read_bytes()), digest, name)
        self.assertEqual(manifest["version"], (TOP / "VERSION").read_text().strip())
        self.assertLess(sum(Path(TOP / "dist" / name).stat().st_size for name in manifest["files"]), 4_000_000)

    @unittest.skipUnless((TOP / "dist" / distribution.PAGE).exists(), "there is no dist/uxn.html")
    def test_the_page_is_what_its_sources_give(self) -> None:
        with tempfile.TemporaryDirectory() as folder:
            made = Path(folder) / distribution.PAGE
            subprocess.run([sys.executable, str(TOP / "web/build"), "--out", str(made)], check=True)
            self.assertEqual(made.read_bytes(), (TOP / "dist" / distribution.PAGE).read_bytes(), "tools/dist --page makes it again")
            self.assertLess(made.stat().st_size, 1_000_000)


if __name__ == "__main__":
    unittest.main()
