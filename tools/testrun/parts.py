"""The parts of the tests: what each one calls, and what share of the processors it can use."""
from __future__ import annotations

import glob
import os
from dataclasses import dataclass

# The tests of the tools that take longest begin first.
LONGEST = (
    "test_debug_watch", "test_test", "test_package", "test_install", "test_lsp", "test_debug", "test_explain", "test_watch", "test_manual",
)


@dataclass(frozen=True)
class Part:
    """A part of the tests. A wide one runs things side by side itself, as many as $UXN_JOBS says."""

    name: str
    command: tuple[str, ...]
    is_wide: bool = False
    # Its folders may be in memory: the others also show how a disk behaves, or need devices.
    is_in_memory: bool = False
    # What each line of a result has, if the part prints no counts. A line that has FAILED too is a failure.
    row: str = ""
    # The option whose value is what is named of the part, if names are no words of their own.
    option: str = ""


@dataclass(frozen=True)
class Job:
    """A call of a part, which ends with its count."""

    part: Part
    words: tuple[str, ...]
    name: str


PARTS = (
    Part("cases", ("cases/run",), is_wide=True),
    Part("conformance", ("conformance/test",), is_wide=True, is_in_memory=True),
    Part("isolation", ("cases/isolation",), is_wide=True, is_in_memory=True),
    Part("pages", (".ci/pages",), is_wide=True, is_in_memory=True),
    Part("cases-aarch64", ("tools/cases-aarch64",), is_wide=True, is_in_memory=True),
    Part("cases-wasm", ("tools/cases-wasm",), is_wide=True, is_in_memory=True),
    Part("faults", ("cases/faults",)),
    Part("extras", ("extras/tests/run",)),
    Part("tools", ("tools/tests/run",)),
    Part("page", ("web/tests/run",)),
    Part("memory", ("bench/memory",), is_in_memory=True, row=" MB of ", option="--only"),
    Part("counts", ("bench/run",), is_in_memory=True, row=" instructions of ", option="--only"),
    Part("conditions", (".ci/conditions",), is_in_memory=True),
    Part("lines", (".ci/lines",), is_in_memory=True),
    Part("facts", ("tools/facts", "--check"), is_in_memory=True),
)

# What ./test checks by itself before all parts.
DIST = Part("dist", ())


def named(name: str) -> Part | None:
    return next((part for part in PARTS if part.name == name), None)


def parted(words: list[str]) -> tuple[Part | None, list[str]]:
    """The part that the words of a call name, and what they name of it: `cases/screen` is `cases screen`."""
    name, _, first = words[0].partition("/")
    rest = [word.removeprefix(f"{name}/") for word in words[1:]]
    return named(name), [first] * bool(first) + rest


def modules(top: str, folder: str) -> list[str]:
    """The modules with tests in a folder, those that take long first."""
    found = [os.path.basename(path).removesuffix(".py") for path in glob.glob(os.path.join(top, folder, "test_*.py"))]
    return sorted(found, key=lambda name: (LONGEST.index(name) if name in LONGEST else len(LONGEST), name))


def jobs_of_extras(top: str, part: Part, names: list[str]) -> list[Job]:
    """A job for each module of tests of extras/, and one for those that are written in shell."""
    chosen = names or [*modules(top, "extras/tests"), "shell"]
    jobs = []
    for name in chosen:
        is_shell = name == "shell"
        test = name if name.startswith("test_") else f"test_{name}"
        command = ("extras/tests/shell",) if is_shell else part.command
        jobs.append(Job(Part(part.name, command), () if is_shell else (test,), f"extras {name.removeprefix('test_')}"))
    return jobs


def jobs(top: str, part: Part, names: list[str]) -> list[Job]:
    """The jobs of a part, or of what is named of it."""
    if part.name == "extras":
        return jobs_of_extras(top, part, names)
    words = (part.option, " ".join(names)) if part.option and names else tuple(names)
    return [Job(part, words, " ".join([part.name, *names]))]
