"""Results as a file, the failures that are expected, and what changed between two runs."""
from __future__ import annotations

import fnmatch
import json
from dataclasses import dataclass

from conform import tests
from conform.cli import Failure
from conform.execute import FAILED, NOT_RUN, PASSED, Result
from conform.tests import Test


@dataclass(frozen=True)
class Entry:
    """A test of a run: its state, how long it took, and the first line that it said."""

    state: str
    seconds: float
    said: str


def write(results: list[Result], path: str) -> None:
    rows = {
        result.test.name: [result.state, round(result.seconds, 3), result.said[0] if result.said else ""] for result in results
    }
    lines = ",\n".join(f"{json.dumps(name)}: {json.dumps(row)}" for name, row in rows.items())
    with open(path, "w", encoding="utf-8") as file:
        file.write(f'{{"version": "{tests.version()}", "results": {{\n{lines}\n}}}}\n')


def read(path: str) -> dict[str, Entry]:
    try:
        with open(path, encoding="utf-8") as file:
            rows = json.load(file)["results"]
        return {name: Entry(*row) for name, row in rows.items()}
    except (ValueError, KeyError, TypeError, AttributeError):
        raise Failure(f"{path} is no file of results", 2) from None


def changes(old: dict[str, Entry], new: dict[str, Entry]) -> list[tuple[str, list[str]]]:
    """What changed, by kinds: the tests of each."""

    def of(state: str, before: tuple[str, ...]) -> list[str]:
        return [name for name, entry in new.items() if name in old and entry.state == state and old[name].state in before]

    slow = [
        f"{name} {old[name].seconds:.2f} s, then {entry.seconds:.2f} s"
        for name, entry in new.items()
        if name in old and entry.seconds > 3 * old[name].seconds + 1
    ]
    return [
        ("fail now", of(FAILED, (PASSED, NOT_RUN))),
        ("pass now", of(PASSED, (FAILED, NOT_RUN))),
        ("are not run now", of(NOT_RUN, (PASSED, FAILED))),
        ("fail in another way", [name for name in of(FAILED, (FAILED,)) if new[name].said != old[name].said]),
        ("are new", [name for name in new if name not in old]),
        ("are gone", [name for name in old if name not in new]),
        ("take three times as long", slow),
    ]


def expected_failures(path: str, all_tests: list[Test]) -> list[str]:
    """The names of a file of known failures, which may have `*`; each has to name a test."""
    with open(path, encoding="utf-8") as file:
        names = [line.split("#")[0].strip() for line in file]
    names = [name for name in names if name]
    for name in names:
        if not any(fnmatch.fnmatchcase(test.name, name) for test in all_tests):
            raise Failure(f"{path}: no test is called {name}", 2)
    return names


def is_expected(name: str, expected: list[str]) -> bool:
    return any(fnmatch.fnmatchcase(name, pattern) for pattern in expected)


def surprises(results: list[Result], expected: list[str]) -> list[str]:
    """The failures that were not expected, and what passes although its failure was."""
    found = []
    for result in results:
        if result.state == FAILED and not is_expected(result.test.name, expected):
            found.append(f"new failure: {result.test.name}")
        if result.state == PASSED and is_expected(result.test.name, expected):
            found.append(f"unexpected pass: {result.test.name}")
    return found
