"""The Rattle toolchain: where its parts are and how they are called. Nothing else here knows."""
from __future__ import annotations

import os
import shutil
import subprocess
from dataclasses import dataclass
from pathlib import Path

X86 = "x86_64-unknown-linux-gnu"
# The name of the file in which the toolchain gives the whole program, as LLVM bitcode, to its clang.
MODULE = "module.bc"
# What a check that was killed ends with: the toolchain's own status, and a signal's.
KILLED = (247, -9)


class Missing(Exception):
    """There is no toolchain."""


@dataclass(frozen=True)
class Toolchain:
    folder: Path
    identity: str

    @classmethod
    def find(cls) -> Toolchain:
        """The toolchain whose command rt is in PATH."""
        if not shutil.which("rt"):
            raise Missing("the Rattle toolchain's command rt is not in PATH")
        said = [subprocess.run(["rt", word], capture_output=True, text=True, check=False) for word in ("doc", "version")]
        if any(done.returncode for done in said):
            raise Missing("the Rattle toolchain's command rt does not answer")
        page, identity = (done.stdout.strip() for done in said)
        return cls(Path(page).parent, identity)

    def llvm(self) -> Path:
        """The folder with clang and the C library of x86-64."""
        return self.folder / "toolchain"

    def clang(self) -> Path:
        return self.llvm() / "bin" / "clang"

    def library(self, name: str) -> Path:
        """A library of the toolchain, proved."""
        return self.folder / "rlibs" / f"{name}.rlib"

    def build_words(self, crate: str, below: dict[str, Path], made: Path, flags: list[str]) -> list[str]:
        """The command that proves a crate, over libraries by their names, and makes its library or its object file. It is run in
        the crate's folder."""
        words = [str(self.folder / "bin" / "rattle"), "build", *flags, "--crate-name", crate, "--links", f"{crate}=", "-o", str(made)]
        for name, folder in {"std": self.library("std"), **below}.items():
            words += ["--extern", f"{name}={folder}"]
        for folder in dict.fromkeys([self.folder / "rlibs", *(each.parent for each in below.values())]):
            words += ["-L", f"dependency={folder}"]
        words += ["--antt-project", str(self.folder / "rattle" / "logic" / "antt-project.json")]
        return [*words, "--logic-built", str(self.folder / "logic_built")]

    def link_words(self, program: Path, made: Path) -> list[str]:
        """The command that links an object file of x86-64 into a program."""
        archives = [str(self.folder / "c" / name) for name in ("libos_c.a", "liblibc_c.a")]
        words = [str(self.folder / "bin" / "rattle-link"), "--target", X86, "--toolchain", str(self.llvm())]
        return [*words, "-o", str(program), str(made), *archives]

    def with_kept_module(self, folder: Path, kept: Path) -> Path:
        """Makes a folder that takes the place of `llvm()`: its clang does the same, and copies the whole program to `kept` first."""
        (folder / "bin").mkdir(parents=True)
        (folder / "lib").symlink_to(self.llvm() / "lib")
        for part in (self.llvm() / "bin").iterdir():
            if part.name != "clang":
                (folder / "bin" / part.name).symlink_to(part.resolve() if part.name == "rattle-x64" else self.clang())
        clang = folder / "bin" / "clang"
        clang.write_text(
            "#!/bin/sh\n"
            f"for word; do\n    if [ \"$word\" = {MODULE} ] && [ ! -e '{kept}' ]; then\n"
            f"        cp {MODULE} '{kept}.part' && mv '{kept}.part' '{kept}'\n    fi\ndone\n"
            f"exec '{self.clang()}' \"$@\"\n"
        )
        os.chmod(clang, 0o755)
        return folder

    def linker(self, kind: str, folder: Path) -> Path:
        """LLVM's linker of this kind: ld.lld for Linux, wasm-ld for WebAssembly. It is clang, by another name."""
        link = folder / kind
        if not link.exists():
            link.symlink_to(self.clang())
        return link
