"""A small checkout to try the launcher and the tools on: two crates, the tools, and a dist/ whose program is the one that is tried."""
from __future__ import annotations

import json
import os
import shutil
import subprocess
import sys
import tempfile
import unittest
from pathlib import Path

from making import distribution, sources

TOP = Path(__file__).resolve().parent.parent.parent
PROGRAM = Path(os.environ.get("UXN", ""))
CRATES = {"low": [], "middle": ["low", "hex"], "side": ["low"], "uxn_program": ["middle", "side"]}
IDENTITY = "a toolchain of the tests"


def write(path: Path, text: str, mode: int = 0o644) -> Path:
    path.parent.mkdir(parents=True, exist_ok=True)
    path.write_text(text, encoding="utf-8")
    path.chmod(mode)
    return path


class Checkout(unittest.TestCase):
    """Each test has a checkout of its own in `top`, with a blank in its path, beside the folder `beside`."""

    def setUp(self) -> None:
        self.folder = Path(tempfile.mkdtemp())
        self.addCleanup(shutil.rmtree, self.folder, ignore_errors=True)
        self.top = self.folder / "a check out"
        self.beside = self.folder / "beside"
        self.home = self.folder / "home"
        for folder in (self.top, self.beside, self.home):
            folder.mkdir()
        self.fill()

    def fill(self) -> None:
        shutil.copy(TOP / "uxn", self.top / "uxn")
        shutil.copytree(TOP / "tools", self.top / "tools", ignore=shutil.ignore_patterns("__pycache__", "tests"))
        write(self.top / "VERSION", "7.3\n")
        write(self.top / "crates.txt", "# a list\n" + "".join(f"{name}: {' '.join(below)}\n" for name, below in CRATES.items()))
        for name in CRATES:
            root = "main.rt" if name == "uxn_program" else "lib.rt"
            write(self.top / "crates" / name / "src" / root, f"//! {name}\n")
            write(self.top / "crates" / name / "specs" / "own.antt", f"-- {name}\n")
        write(self.beside / "hello.tal", "|0100 LIT \"h #18 DEO BRK\n")

    def fill_page(self) -> None:
        """Puts the sources of the page there, with one example."""
        shutil.copytree(TOP / "web", self.top / "web", ignore=shutil.ignore_patterns("__pycache__", "tests"))
        write(self.top / "examples/README.md", "| `one.tal` | one example |\n")
        for name in ("one.tal", "numbered.setup", "words.tal", "squeeze.tal", "number.tal", "numbered.script", "numbered.out"):
            write(self.top / "examples" / name, f"( {name} )\n")

    def fill_dist(self, program: Path = PROGRAM) -> None:
        """Puts the program and stand-ins for the others into dist/, with their manifest."""
        dist = self.top / "dist"
        dist.mkdir(exist_ok=True)
        for name in ("uxn-linux-x86_64", "uxn-linux-aarch64"):
            shutil.copy(program, dist / name)
        write(dist / "uxn.wasm", "no module\n")
        write(dist / "uxn.html", "no page\n")
        shutil.copy(TOP / "dist" / "uxn.mjs", dist / "uxn.mjs")
        write(dist / "manifest.json", distribution.manifest_text(self.top, dist, IDENTITY))

    def manifest(self) -> dict[str, object]:
        return json.loads((self.top / "dist" / "manifest.json").read_text())

    def environment(self, **more: str) -> dict[str, str]:
        """That of this process, without the toolchain and with a home of its own."""
        return {"PATH": "/usr/bin:/bin", "HOME": str(self.home), "LANG": "C.UTF-8", **more}

    def run_uxn(self, *words: str, uxn: str | Path | None = None, cwd: Path | None = None, **more: str) -> subprocess.CompletedProcess[str]:
        words = (str(uxn or self.top / "uxn"), *words)
        return subprocess.run(
            words, cwd=cwd or self.beside, env=self.environment(**more), stdin=subprocess.DEVNULL,
            capture_output=True, text=True, check=False,
        )  # fmt: skip

    def tool(self, name: str, *words: str, **more: str) -> subprocess.CompletedProcess[str]:
        return subprocess.run(
            [sys.executable, str(self.top / "tools" / name), *words], cwd=self.beside, env=self.environment(**more),
            stdin=subprocess.DEVNULL, capture_output=True, text=True, check=False,
        )  # fmt: skip

    def checksum(self) -> str:
        return sources.checksum(self.top)
