"""The built programs of dist/: whether they are what their manifest says, and the one of this machine."""
from __future__ import annotations

import hashlib
import json
import os
import platform
from pathlib import Path

from making import sources

MANIFEST = "dist/manifest.json"
# The names of processors, by what systems call them.
PROCESSORS = {"x86_64": "x86_64", "amd64": "x86_64", "aarch64": "aarch64", "arm64": "aarch64"}


def has_manifest(top: str) -> bool:
    return os.path.exists(os.path.join(top, MANIFEST))


def manifest(top: str) -> tuple[str, dict[str, str]]:
    """The checksum of the sources, and the SHA-256 sums of the files by their names; nothing where it is not in its form."""
    try:
        with open(os.path.join(top, MANIFEST), encoding="utf-8") as file:
            found = json.load(file)
        return str(found["sources"]), {str(name): str(value) for name, value in found["files"].items()}
    except (OSError, ValueError, LookupError, TypeError, AttributeError):
        return "", {}


def sum_of(path: str) -> str:
    """The SHA-256 sum of a file; nothing if it is not there."""
    try:
        with open(path, "rb") as file:
            return hashlib.sha256(file.read()).hexdigest()
    except OSError:
        return ""


def check(top: str, with_sources: bool) -> tuple[int, list[str]]:
    """How much of dist/ is what the manifest says, and what is wrong: of the files and, if they matter, of the sources."""
    source, files = manifest(top)
    if not files:
        return 0, [f"{MANIFEST}: it names no file"]
    faults = [
        f"dist/{name}: it is not the file that {MANIFEST} names: `git checkout dist` or `tools/dist` mends it"
        for name, value in sorted(files.items())
        if sum_of(os.path.join(top, "dist", name)) != value
    ]
    passed = len(files) - len(faults)
    if with_sources and source != sources.checksum(Path(top)):
        faults.append("dist/: it is made of other sources: build these by tools/build, and name the program by --program")
    elif with_sources:
        passed += 1
    return passed, faults


def name_of_machine() -> str:
    """The name of this machine's program in dist/."""
    processor = platform.machine().lower()
    return f"uxn-{platform.system().lower()}-{PROCESSORS.get(processor, processor)}"


def program(top: str) -> str | None:
    """The path of this machine's program, if dist/ has it."""
    path = os.path.join(top, "dist", name_of_machine())
    return path if os.access(path, os.X_OK) else None
