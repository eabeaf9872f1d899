"""Compiles the whole program for Linux on aarch64 and for WebAssembly.

The toolchain gives the whole program to its clang as one module of LLVM, for x86-64. The text of the module names that machine in a
few places alone, which are put right here. tools/system has the functions that the module calls."""
from __future__ import annotations

import re
import subprocess
from dataclasses import dataclass
from pathlib import Path

from .toolchain import Toolchain

SYSTEM = Path(__file__).resolve().parent.parent / "system"
COMMON = ("memory.c", "calls.c")
# The program's entry in the module, and what tools/system calls it.
ENTRY = ("define i32 @main()", "define i32 @uxn_main()")
COMPILE = ["--no-default-config", "-ffunction-sections", "-fdata-sections", "-c"]
FREESTANDING = ["-O2", "-std=c17", "-Wall", "-Wextra", "-Werror", "-ffreestanding", "-fno-builtin"]


class NotMade(Exception):
    """A step failed. The text says which and why."""


@dataclass(frozen=True)
class Machine:
    file: str
    triple: str
    layout: str
    # What the module says of x86-64 in its functions' attributes, and the machine does not have.
    dropped: tuple[str, ...]
    flags: tuple[str, ...]
    # The file of tools/system for this machine.
    system: str
    linker: str
    link: tuple[str, ...]


AARCH64 = Machine(
    file="uxn-linux-aarch64",
    triple="aarch64-unknown-linux-gnu",
    layout="e-m:e-p270:32:32-p271:32:32-p272:64:64-i8:8:32-i16:16:32-i64:64-i128:128-n32:64-S128-Fn32",
    dropped=("target-cpu", "target-features", "tune-cpu"),
    flags=("-fno-pic", "-mno-outline-atomics"),
    system="linux_aarch64.c",
    linker="ld.lld",
    link=("-static", "--build-id=none", "-z", "noexecstack"),
)
# Memory and tables of 64 bits need a late engine; a table is left out, since the program calls no function by a pointer. The stack
# lies first: what is too deep for it leaves the memory, and is trapped.
WASM = Machine(
    file="uxn.wasm",
    triple="wasm64-unknown-unknown",
    layout="e-m:e-p:64:64-p10:8:8-p20:8:8-i64:64-i128:128-n32:64-S128-ni:1:10:20",
    dropped=("target-cpu", "target-features", "tune-cpu", "probe-stack", "stack-probe-size", "frame-pointer"),
    flags=("-mcpu=mvp", "-mbulk-memory", "-msign-ext", "-mnontrapping-fptoint", "-msimd128"),
    system="wasm.c",
    linker="wasm-ld",
    link=("-mwasm64", "--no-entry", "--export=run", "--stack-first", "-z", f"stack-size={8 << 20}"),
)
MACHINES = (AARCH64, WASM)


def run(what: str, words: list[str]) -> None:
    done = subprocess.run(words, stdin=subprocess.DEVNULL, capture_output=True, text=True, check=False)
    if done.returncode:
        raise NotMade(f"{what}: {(done.stderr or done.stdout).strip()[-2000:]}")


def text_of_module(toolchain: Toolchain, module: Path, folder: Path) -> str:
    """The module as text, with no change by the compiler."""
    made = folder / "module.ll"
    words = [str(toolchain.clang()), "-x", "ir", str(module), "-S", "-emit-llvm", "-O0", "-Xclang", "-disable-llvm-passes"]
    run("the module is no text", [*words, "-o", str(made)])
    return made.read_text(encoding="utf-8", errors="surrogateescape")


def replaced(text: str, pattern: str, to: str) -> str:
    """The text with what the pattern finds replaced, which has to be there once."""
    text, count = re.subn(pattern, lambda _: to, text, flags=re.MULTILINE)
    if count != 1:
        raise NotMade(f"the module of this toolchain has another form: {count} times {pattern!r}")
    return text


def for_machine(text: str, machine: Machine) -> str:
    """The module's text for another machine."""
    text = replaced(text, r"^target datalayout = .*$", f'target datalayout = "{machine.layout}"')
    text = replaced(text, r"^target triple = .*$", f'target triple = "{machine.triple}"')
    text = replaced(text, "^" + re.escape(ENTRY[0]), ENTRY[1])
    names = "|".join(map(re.escape, machine.dropped))
    attribute = re.compile(rf' "(?:{names})"="[^"]*"')
    return re.sub(r"^attributes .*$", lambda line: attribute.sub("", line[0]), text, flags=re.MULTILINE)


def compile_system(toolchain: Toolchain, machine: Machine, folder: Path) -> list[Path]:
    """The object files of tools/system for a machine."""
    made = []
    for name in (*COMMON, machine.system):
        words = [str(toolchain.clang()), f"--target={machine.triple}", *COMPILE, *FREESTANDING, *machine.flags]
        made.append(folder / f"{machine.file}.{name}.o")
        run(f"tools/system/{name} does not compile for {machine.triple}", [*words, str(SYSTEM / name), "-o", str(made[-1])])
    return made


def make(toolchain: Toolchain, machine: Machine, text: str, folder: Path) -> Path:
    """Makes the program for a machine out of the module's text, in the folder."""
    source, made = folder / f"{machine.file}.ll", folder / f"{machine.file}.o"
    source.write_text(for_machine(text, machine), encoding="utf-8", errors="surrogateescape")
    words = [str(toolchain.clang()), f"--target={machine.triple}", *COMPILE, "-O3", *machine.flags]
    run(f"the program does not compile for {machine.triple}", [*words, "-x", "ir", str(source), "-o", str(made)])
    source.unlink()
    objects = [str(made), *map(str, compile_system(toolchain, machine, folder))]
    program = folder / machine.file
    linker = [str(toolchain.linker(machine.linker, folder)), *machine.link, "--gc-sections", "--strip-all"]
    run(f"the program is not linked for {machine.triple}", [*linker, *objects, "-o", str(program)])
    return program
