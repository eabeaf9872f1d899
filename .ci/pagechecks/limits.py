"""The limits of docs/limits.md: each is that of the code, with cases on both sides (cases/limits.txt)."""
from __future__ import annotations

import os
import re
from collections.abc import Iterator
from dataclasses import dataclass

from pagechecks.console import Report
from pagechecks.names import Repository, read

PAGE = "docs/limits.md"
TABLE = "cases/limits.txt"
CRATE = "uxn_limits"
NUMBERS = f"crates/{CRATE}/src/limits.rt"


@dataclass
class Limit:
    """A limit by its name, with its constants and the cases within and past it."""

    name: str
    constants: list[str]
    within: list[str]
    past: list[str]


def limits_of_cases() -> list[Limit]:
    limits: list[Limit] = []
    for line in read(TABLE).splitlines():
        first, _, rest = line.partition(" ")
        if line.startswith("#") or not line:
            continue
        if first == "within":
            limits[-1].within += rest.split()
        elif first == "past":
            limits[-1].past += rest.split()
        else:
            name, _, constants = line.partition(":")
            limits.append(Limit(name, constants.split(), [], []))
    return limits


def limits_of_page() -> dict[str, str]:
    """The second cell of each row of the page's table, by the first."""
    rows = re.findall(r"(?m)^\| (.+?) \| (.+?) \|", read(PAGE))
    return dict(rows[1:])


def values_of(constant: str, there: Repository) -> set[int]:
    """The numbers that a constant has in the sources of its crate, which is that of the numbers if none is named."""
    crate, _, name = constant.rpartition("::")
    sources = [file for file in there.files if re.fullmatch(rf"crates/{crate or CRATE}/src/.*\.rt", file)]
    found = (re.findall(rf"const {name}: \w+ = ([0-9_]+);", read(file)) for file in sources)
    return {int(number.replace("_", "")) for numbers in found for number in numbers}


def faults_of(limit: Limit, cell: str, there: Repository) -> Iterator[str]:
    for constant in limit.constants:
        values = values_of(constant, there)
        if len(values) != 1:
            yield f"{TABLE}: {limit.name}: no constant {constant}"
        elif f"{min(values):,}" not in re.findall(r"[\d,]*\d", cell):
            yield f"{PAGE}: {limit.name}: {constant} is {min(values):,}"
    for case in limit.within + limit.past:
        if not os.path.isfile(f"cases/{case}.case"):
            yield f"{TABLE}: {limit.name}: no case {case}"
    if not limit.within or not limit.past:
        yield f"{TABLE}: {limit.name}: no case on one of its sides"


def check(there: Repository) -> Report:
    cells = limits_of_page()
    limits = limits_of_cases()
    faults = []
    if list(cells) != [limit.name for limit in limits]:
        differing = sorted(set(cells) ^ {limit.name for limit in limits})
        faults.append(f"{PAGE} and {TABLE} have not the same limits in the same order: {differing}")
    named = {constant for limit in limits for constant in limit.constants}
    unnamed = sorted(set(re.findall(r"const (\w+):", read(NUMBERS))) - named)
    faults += [f"{TABLE}: no limit has the constant {constant} of {NUMBERS}" for constant in unnamed]
    passed = 0
    for limit in limits:
        found = list(faults_of(limit, cells.get(limit.name, ""), there))
        faults += found
        passed += not found
    return Report(passed, faults, [])
