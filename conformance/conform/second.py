"""The second emulator and assembler, and the commands of these and of `uxn`."""
from __future__ import annotations

import filecmp
import os
import shutil
import subprocess
import sys
from dataclasses import dataclass

from conform import tests
from conform.cli import Failure
from conform.execute import Command

SECONDS = 60
FOLDER = os.path.join(tests.TOP, "second")


@dataclass(frozen=True)
class Tools:
    """The programs that make the suite."""

    uxn: str
    emulator: Command
    assembler: Command
    folder: str


def second_command(path: str) -> Command:
    return Command((path, "--events", "{events}", "--frames", "{frames}", "--samples", "{samples}", "{rom}", "{args}"))


def uxn_command() -> Command:
    return Command((os.path.join(tests.TOP, "adapters", "uxn"), "{rom}", "{events}", "{frames}", "{samples}", "{args}"))


def second_assembler(path: str) -> Command:
    return Command((sys.executable, "-IS", path, "{source}", "{rom}", "{symbols}"))


def write_file(folder: str, name: str, data: bytes) -> str:
    path = os.path.join(folder, name)
    os.makedirs(os.path.dirname(path), exist_ok=True)
    with open(path, "wb") as file:
        file.write(data)
    return name


def path_of_uxn() -> str:
    """The program that $UXN names, or that of the PATH."""
    name = os.environ.get("UXN", "uxn")
    found = shutil.which(name)
    if found is None:
        raise Failure(f"there is no program {name}: put uxn into PATH, or its path into UXN", 2)
    return os.path.abspath(found)


def gcc(*words: str) -> None:
    try:
        done = subprocess.run(["gcc", "-O2", *words], capture_output=True, text=True, check=False)
    except FileNotFoundError:
        raise Failure("there is no gcc, which builds the second emulator", 2) from None
    if done.returncode:
        raise Failure(f"gcc: {(done.stderr.strip().splitlines() or ['it failed'])[0]}")


def build_second(folder: str, sources: str | None = None, built: str | None = None) -> str:
    """Builds the second emulator into a folder; files that are not changed are taken as they were built."""
    original = os.path.join(tests.TOP, "second")
    sources = sources or original
    objects = []
    for name in sorted(name for name in os.listdir(sources) if name.endswith(".c")):
        source = os.path.join(sources, name)
        done = os.path.join(built, name + ".o") if built else ""
        if not done or not filecmp.cmp(source, os.path.join(original, name), shallow=False):
            done = os.path.join(folder, name + ".o")
            gcc("-c", "-o", done, source)
        objects.append(done)
    path = os.path.join(folder, "second")
    gcc("-o", path, *objects)
    return path
