"""Opening the debugger on a failed test, at its first miss."""
from __future__ import annotations

import os
import sys
from typing import NoReturn

from uxntools import assertions, events, files, misses
from uxntools.checking import Checker, Rules, known
from uxntools.cli import Failure
from uxntools.horizon import Horizon
from uxntools.misses import Run
from uxntools.target import Workspace
from uxntools.testing import comparing
from uxntools.testing.discovery import Test
from uxntools.testing.keeping import kept_folder
from uxntools.testing.running import Result, target_of
from uxntools.vectors import Loaded


def first_miss(test: Test, result: Result) -> int:
    """The moment of the first expect or assertion that missed; 0 without one."""
    found = []
    with Workspace(target_of(test)) as workspace:
        data = comparing.script_bytes(test)
        found += _of_assertions(data, test, result, workspace)
        if result.count("misses"):
            words = (test.program, *(["--rom"] if test.is_rom else []))
            budget = () if test.settings.budget is None else ("--budget", str(test.settings.budget))
            run = Run(test.folder, (*words, *budget), test.root, test.has_root)
            horizon = Horizon(workspace)
            for miss in misses.find(run, data, kept_folder(test.folder))[0]:
                found.append(horizon.end(events.before(data, miss.expect.line)))
    return min(found, default=0)


def _of_assertions(data: bytes, test: Test, result: Result, workspace: Workspace) -> list[int]:
    loaded = Loaded(workspace.program(), workspace.rom())
    rules = Rules(known(loaded.program, assertions.read(data)[0])[0])
    if rules.is_empty:
        return []
    return Checker(workspace, loaded, result.report, rules, test.path("script")).moments()


def debug(test: Test, result: Result | None) -> NoReturn:
    """Goes on as `uxn-debug`."""
    if test.kind == "line":
        raise Failure(f"{test.name}: a line of machines is not debugged")
    if result is None or not result.is_done:
        raise Failure(f"{test.name}: its run did not come to its end")
    moment = first_miss(test, result)
    target = target_of(test)
    commands = os.path.join(kept_folder(test.folder), "debug")
    files.put(commands, f"goto {moment}\n".encode())
    words = [target.source, *target.options(), "--commands", os.path.relpath(commands, test.folder)]
    if target.root is not None and not os.path.isdir(os.path.join(test.folder, target.root)):
        words.remove(f"--root={target.root}")
    tool = os.path.join(os.path.dirname(os.path.realpath(sys.argv[0])), "uxn-debug")
    print(f"{test.name}: {os.path.basename(tool)} {' '.join(words)}", flush=True)
    os.chdir(test.folder)
    os.execv(sys.executable, [sys.executable, tool, *words])
