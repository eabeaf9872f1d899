"""Programs that do hardly anything: each test has to be failed by one of its level, and each of them has to fail a test."""
from __future__ import annotations

import os
from collections.abc import Iterator
from concurrent.futures import ThreadPoolExecutor

from conform import bugs, execute
from conform.bugs import Bug
from conform.execute import Command
from conform.tests import Test

# When a run counts as one that does not end.
LATE = 5


def is_for(bug: Bug, test: Test) -> bool:
    return bug.is_of_assembler == test.is_of_assembler and test.kind != "disassembler"


def built(folder: str, objects: str) -> list[tuple[Bug, Command]]:
    place = os.path.join(folder, "degenerates")
    os.makedirs(place, exist_ok=True)
    return [(bug, bugs.command_of(bug, bugs.planted(bug, place, objects))) for bug in bugs.read("degenerates.json")]


def fails(test: Test, command: Command, suite: str) -> bool:
    return execute.run_test(test, command, suite, LATE).state == execute.FAILED


def first_failing(test: Test, programs: list[tuple[Bug, Command]], suite: str) -> str | None:
    """The first program of the test's level that fails it."""
    for bug, command in programs:
        if test.level in bug.levels and is_for(bug, test) and fails(test, command, suite):
            return bug.name
    return None


def faults(all_tests: list[Test], suite: str, folder: str, objects: str, jobs: int) -> Iterator[str]:
    """The tests that no degenerate program of their level fails, and the programs that fail none."""
    programs = built(folder, objects)
    tried = [test for test in all_tests if test.kind != "disassembler"]
    found = set()
    with ThreadPoolExecutor(jobs) as pool:
        for test, name in zip(tried, pool.map(lambda test: first_failing(test, programs, suite), tried)):
            found.add(name)
            if name is None:
                yield f"{test.name}: no degenerate program of the level {test.level} fails it"
        for bug, command in programs:
            if bug.name in found:
                continue
            mine = (test for test in tried if is_for(bug, test))
            if not any(fails(test, command, suite) for test in mine):
                yield f"no test fails the degenerate program {bug.name}: {bug.about}"
