"""The checksum of all that conformance/make reads, so that the gate makes the suite again only where that changed."""
from __future__ import annotations

import hashlib
import json
import os
from collections.abc import Iterator

from conform import tests

TOP = os.path.dirname(tests.TOP)
SUMS = os.path.join(tests.TOP, "suite.sums")
TRIED = os.path.join(tests.TOP, "tried.sum")
# What the suite is made from and by, beside the program, on which the suite is run in each gate.
MADE_FROM = ("cases/parts", "cases/stored.py", "examples", "conformance/sources", "conformance/second", "conformance/adapters/uxn")
MADE_BY = (
    "bugs cases cli degenerates differences drafts execute from_cases gather instructions language making scripts sdl second sweeps "
    "tests twins"
).split()
# What lies there and does not go into the suite.
NOT_READ = ("conformance/second/planted.json", "conformance/second/bugs.json", "examples/README.md")


def case_folders() -> list[str]:
    """The folders of cases that tests are made of."""
    with open(os.path.join(tests.TOP, "sources", "cases.json"), encoding="utf-8") as file:
        patterns = [rule["pattern"] for rule in json.load(file)]
    return sorted({f"cases/{pattern.split('/')[0]}" for pattern in patterns if "/" in pattern})


def paths() -> Iterator[str]:
    """The files that the suite is made from, as paths from the top."""
    for name in (*case_folders(), *MADE_FROM):
        place = os.path.join(TOP, name)
        if os.path.isfile(place):
            yield name
        for folder, folders, names in os.walk(place):
            folders[:] = sorted(other for other in folders if other != "__pycache__")
            yield from (os.path.relpath(os.path.join(folder, other), TOP) for other in sorted(names))
    yield from (f"conformance/conform/{name}.py" for name in MADE_BY)
    yield from ("conformance/make", "conformance/VERSION")


def sum_of(names: Iterator[str]) -> str:
    digest = hashlib.sha256()
    for name in sorted(set(names)):
        with open(os.path.join(TOP, name), "rb") as file:
            data = file.read()
        digest.update(f"{name} {len(data)}\n".encode() + data)
    return digest.hexdigest()


def of_inputs() -> str:
    return sum_of(name for name in paths() if name not in NOT_READ)


def of_suite(suite: str = tests.SUITE) -> str:
    digest = hashlib.sha256()
    for path, data in tests.tree_of(suite).items():
        digest.update(f"{path} {data}\n".encode())
    return digest.hexdigest()


def write() -> None:
    with open(SUMS, "w", encoding="ascii") as file:
        file.write(f"{of_inputs()}  inputs\n{of_suite()}  suite\n")


def stored() -> tuple[str, str]:
    """The sums of the inputs and of the suite as it was made."""
    try:
        with open(SUMS, encoding="ascii") as file:
            lines = [line.split() for line in file]
        return lines[0][0], lines[1][0]
    except (OSError, IndexError):
        return "", ""


def of_all() -> str:
    """The sum of what the steps of conformance/test depend on that need no PROGRAM: the suite, the second programs, the tools."""
    digest = hashlib.sha256(f"{of_inputs()} {of_suite()}".encode())
    names = [f"conformance/conform/{name}" for name in sorted(os.listdir(os.path.join(tests.TOP, "conform"))) if name.endswith(".py")]
    names += ["conformance/COVERAGE.md", "conformance/second/bugs.json", "conformance/run", "conformance/coverage", "conformance/test"]
    digest.update(sum_of(iter(names)).encode())
    return digest.hexdigest()


def write_tried() -> None:
    with open(TRIED, "w", encoding="ascii") as file:
        file.write(of_all() + "\n")


def is_tried() -> bool:
    """Whether nothing changed since all steps passed."""
    try:
        with open(TRIED, encoding="ascii") as file:
            return file.read().strip() == of_all()
    except OSError:
        return False
