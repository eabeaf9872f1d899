"""A toolchain of the tests: it takes the calls of the real one, proves nothing, and notes what it was asked for.

A crate's sources may have lines for it: `status N..` is what its checks end with, one after the other, `waits PATH` that a check goes on
once there is such a file in the toolchain's folder, `says TEXT` what a check prints. The program that it builds is a script."""
from __future__ import annotations

import hashlib
import os
import shutil
import subprocess
import sys
import tempfile
import time
from pathlib import Path

LAYOUT = "e-m:e-i64:64"
MODULE = """target datalayout = "{layout}"
target triple = "x86_64-unknown-linux-gnu"
define i32 @main() #0 {{ ret i32 {body} }}
attributes #0 = {{ nounwind "frame-pointer"="all" "probe-stack"="inline-asm" "target-cpu"="x86-64-v2" }}
"""


def install(folder: Path, identity: str) -> Path:
    """Makes the toolchain in a folder; returns the folder with its command rt."""
    this = Path(__file__).resolve()
    for name in ("bin/rattle", "bin/rattle-link", "toolchain/bin/clang", "rt/rt"):
        path = folder / name
        path.parent.mkdir(parents=True, exist_ok=True)
        path.write_text(f'#!/bin/sh\nexec "{sys.executable}" -S -E "{this}" "{folder}" "${{0##*/}}" "$@"\n')
        path.chmod(0o755)
    for name in ("ld.lld", "rattle-x64"):
        (folder / "toolchain/bin" / name).symlink_to("clang")
    for name in ("toolchain/lib", "rlibs/std.rlib", "rlibs/hex.rlib", "events", "tries"):
        (folder / name).mkdir(parents=True)
    (folder / "identity").write_text(identity + "\n")
    return folder / "rt"


def after(words: list[str], flag: str) -> str:
    return words[words.index(flag) + 1]


def note(kit: Path, text: str) -> None:
    with open(kit / "log", "a", encoding="utf-8") as log:
        log.write(f"{text}\n")
    (kit / "events" / text.replace(" ", "-")).touch()


def digest(paths: list[str | Path]) -> str:
    return hashlib.sha256(b"".join(Path(path).read_bytes() for path in paths)).hexdigest()


def obey(kit: Path, crate: str) -> int:
    """Does what the lines of a crate's sources say; returns the status of the check."""
    status = 0
    for line in Path("src").glob("*.rt"):
        for word, _, rest in (each.removeprefix("// ").partition(" ") for each in line.read_text().splitlines()):
            if word == "waits":
                end = time.time() + 20
                while not (kit / rest).exists() and time.time() < end:
                    time.sleep(0.02)
            elif word == "says":
                print(rest.replace("|", "\n"), flush=True)
            elif word == "status":
                done = len(list((kit / "tries").glob(f"{crate}.*")))
                (kit / "tries" / f"{crate}.{done}").touch()
                status = int(([*rest.split(), "0"])[min(done, len(rest.split()))])
    return status


def build(kit: Path, words: list[str]) -> int:
    crate, made = after(words, "--crate-name"), Path(after(words, "-o"))
    note(kit, f"begin {crate}")
    note(kit, f"pid {os.getpid()}")
    status = obey(kit, crate)
    if status:
        return status
    below = [Path(word.partition("=")[2]) / "format" for flag, word in zip(words, words[1:]) if flag == "--extern" and "rlibs" not in word]
    if any(not path.exists() for path in below):
        print("a library is missing")
        return 2
    text = digest([*sorted(Path("src").glob("*.rt")), *below])
    if "--toolchain" in words:
        with tempfile.TemporaryDirectory() as folder:
            Path(folder, "module.bc").write_text(text)
            subprocess.run([f"{after(words, '--toolchain')}/bin/clang", "-c", "-x", "ir", "module.bc", "-o", made], cwd=folder, check=True)
    else:
        shutil.rmtree(made, ignore_errors=True)
        made.mkdir(parents=True)
        (made / "format").write_text(text)
    note(kit, f"end {crate}")
    return 0


def clang(kit: Path, name: str, words: list[str]) -> int:
    made = Path(after(words, "-o"))
    inputs = [word for word in words if word.endswith((".bc", ".ll", ".c", ".o")) and word != str(made)]
    if "-emit-llvm" in words:
        layout = (kit / "layout").read_text() if (kit / "layout").exists() else MODULE
        made.write_text(layout.format(layout=LAYOUT, body=digest(inputs)))
    else:
        target = next((word for word in words if word.startswith("--target=")), "")
        shown = "".join(Path(path).read_text() for path in inputs if path.endswith(".ll"))
        made.write_text(f"{name} {target} {digest(inputs)}\n{shown}")
    return 0


def main() -> int:
    kit, name, words = Path(sys.argv[1]), sys.argv[2], sys.argv[3:]
    if name == "rt":
        print((kit / "identity").read_text().strip() if words == ["version"] else kit / "page.md")
        return 0
    if name == "rattle":
        return build(kit, words)
    if name == "rattle-link":
        made, objects = Path(after(words, "-o")), [word for word in words if word.endswith(".o")]
        made.write_text(f"#!/bin/sh\n# {digest(objects)}\n[ $# -gt 0 ] || exit 128\necho \"built: $*\"\n")
        made.chmod(0o755)
        return 0
    return clang(kit, name, words)


if __name__ == "__main__":
    sys.exit(main())
