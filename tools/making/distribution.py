"""Makes dist/: the program for three machines, the page and the manifest, from the sources and their proved libraries."""
from __future__ import annotations

import json
import shutil
import subprocess
import sys
import time
from concurrent.futures import ThreadPoolExecutor
from pathlib import Path

from . import machines
from .machines import NotMade
from .proving import Places
from .sources import PROGRAM, Crates, checksum, is_newer_than_all, sum_of
from .toolchain import Toolchain

X86_FILE = "uxn-linux-x86_64"
HOST = "uxn.mjs"
PAGE = "uxn.html"
MANIFEST = "manifest.json"
MADE = (X86_FILE, *(machine.file for machine in machines.MACHINES), PAGE)
FILES = (*MADE, HOST)
POLL = 0.2


def manifest_text(top: Path, folder: Path, identity: str) -> str:
    """The manifest of the files in a folder. Each key has a line of its own, since ./uxn reads it in shell."""
    whole = {
        "version": (top / "VERSION").read_text(encoding="utf-8").strip(),
        "toolchain": identity,
        "sources": checksum(top),
        "files": {name: sum_of((folder / name).read_bytes()) for name in FILES},
    }
    return json.dumps(whole, indent=2) + "\n"


def library(top: Path, name: str, folders: list[Path]) -> Path:
    """The proved library of a crate: in one of the folders, where `rt ci` leaves it, or where tools/build does."""
    places = [*(folder / f"{name}.rlib" for folder in folders), top / "crates" / name / "out" / "rlib" / f"{name}.rlib"]
    for place in [*places, Places(top).library(name)]:
        if (place / "format").exists():
            return place
    raise NotMade(f"there is no proved library of {name}: run `rt ci` or tools/build first")


def link_libraries(top: Path, crates: Crates, toolchain: Toolchain, folders: list[Path], into: Path) -> dict[str, Path]:
    """Makes links to the libraries that the program needs in one folder; returns those that it names, by name."""
    into.mkdir()
    for name in crates.needed():
        if name != PROGRAM:
            (into / f"{name}.rlib").symlink_to(library(top, name, folders).resolve())
    named = crates.below[PROGRAM]
    return {each: into / f"{each}.rlib" if each in crates.below else toolchain.library(each) for each in named}


def make_page(top: Path, folder: Path) -> None:
    """Makes the page in a folder, of the module and the host there."""
    words = [sys.executable, str(top / "web" / "build"), "--dist", str(folder), "--out", str(folder / PAGE)]
    machines.run("the page is not made", words)


class Compilation:
    """The last step of a build: the program out of its libraries, for x86-64, which also gives the module for the others."""

    def __init__(self, top: Path, toolchain: Toolchain, folders: list[Path], folder: Path) -> None:
        self.toolchain = toolchain
        self.module = folder / "module.bc"
        self.object = folder / "x86.o"
        self.program = folder / X86_FILE
        self.log = folder / "x86.log"
        below = link_libraries(top, Crates.read(top), toolchain, folders, folder / "libraries")
        llvm = toolchain.with_kept_module(folder / "llvm", self.module)
        words = toolchain.build_words(PROGRAM, below, self.object, ["--toolchain", str(llvm)])
        with open(self.log, "wb") as log:
            how = {"cwd": top / "crates" / PROGRAM, "stdin": subprocess.DEVNULL, "stdout": log, "stderr": log}
            self.started = subprocess.Popen([*words, "src/main.rt"], **how)

    def wait_for_module(self) -> Path:
        while not self.module.exists():
            if self.started.poll() is not None and not self.module.exists():
                raise NotMade(f"the program is not built of its libraries: {self.log.read_text(errors='replace').strip()[-2000:]}")
            time.sleep(POLL)
        return self.module

    def wait_for_program(self) -> Path:
        if self.started.wait():
            raise NotMade(f"the program is not built of its libraries: {self.log.read_text(errors='replace').strip()[-2000:]}")
        machines.run("the program is not linked", self.toolchain.link_words(self.program, self.object))
        return self.program

    def stop(self) -> None:
        if self.started.poll() is None:
            self.started.terminate()
            self.started.wait()


def make(top: Path, program: Path, folders: list[Path], folder: Path) -> None:
    """Makes the files of dist/ in an empty folder. The program has to be what its sources and libraries give."""
    if not is_newer_than_all(top, program):
        raise NotMade(f"a source is newer than {program}: run `rt ci` or tools/build first")
    toolchain = Toolchain.find()
    work = folder / "work"
    work.mkdir()
    compilation = Compilation(top, toolchain, folders, work)
    try:
        text = machines.text_of_module(toolchain, compilation.wait_for_module(), work)
        with ThreadPoolExecutor() as pool:
            others = [pool.submit(machines.make, toolchain, machine, text, work) for machine in machines.MACHINES]
            made = [compilation.wait_for_program(), *(other.result() for other in others)]
    finally:
        compilation.stop()
    if made[0].read_bytes() != program.read_bytes():
        raise NotMade(f"{program} is not what its libraries give: run `rt ci` or tools/build again")
    for path in made:
        path.chmod(0o644 if path.suffix == ".wasm" else 0o755)
        shutil.move(path, folder / path.name)
    shutil.rmtree(work)
    shutil.copy(top / "dist" / HOST, folder / HOST)
    make_page(top, folder)
    (folder / MANIFEST).write_text(manifest_text(top, folder, toolchain.identity), encoding="utf-8")


def difference(kept: Path, made: Path) -> str | None:
    """How a file of dist/ differs from what was made; None if it does not."""
    if not kept.is_file():
        return "it is missing"
    old, new = kept.read_bytes(), made.read_bytes()
    if old == new:
        return None
    at = next((at for at, (left, right) in enumerate(zip(old, new)) if left != right), min(len(old), len(new)))
    return f"it has {len(old)} bytes in place of {len(new)}, and differs from byte {at} on"


def compare(dist: Path, folder: Path) -> list[str]:
    """A line for each file of dist/ that is not as it was made in the folder."""
    found = ((name, difference(dist / name, folder / name)) for name in (*MADE, MANIFEST))
    return [f"dist/{name}: {how}" for name, how in found if how]


def replace(dist: Path, folder: Path) -> None:
    """Puts what was made in the folder into dist/, the manifest last."""
    for name in (*MADE, MANIFEST):
        # A program that runs keeps its file.
        (dist / name).unlink(missing_ok=True)
        shutil.move(folder / name, dist / name)


def renew_page(top: Path, folder: Path) -> None:
    """Makes the page of dist/ again in an empty folder, of the module and the host of dist/; puts it and its manifest there."""
    dist = top / "dist"
    for name in ("uxn.wasm", HOST):
        shutil.copy(dist / name, folder / name)
    make_page(top, folder)
    manifest = json.loads((dist / MANIFEST).read_text(encoding="utf-8"))
    manifest["files"].update({name: sum_of((folder / name).read_bytes()) for name in (HOST, PAGE)})
    (folder / MANIFEST).write_text(json.dumps(manifest, indent=2) + "\n", encoding="utf-8")
    for name in (PAGE, MANIFEST):
        shutil.move(folder / name, dist / name)
