"""The assertions of a test: those of its script, and what `uxn-test.toml` says of stacks and of the budgets of
vectors."""
from __future__ import annotations

import threading

from uxntools import assertions, checking
from uxntools.checking import Checker, Rules
from uxntools.cli import Failure
from uxntools.target import Workspace
from uxntools.testing import comparing
from uxntools.testing.comparing import Fault
from uxntools.testing.discovery import Test
from uxntools.testing.running import Result, target_of
from uxntools.vectors import Loaded

# The kind of a fault that nothing records.
ASSERTION = "assertion"
# How many misses and cuts are shown.
MOST, MOST_CUTS = 10, 3


class Programs:
    """The programs of tests, each assembled once."""

    def __init__(self) -> None:
        self._lock = threading.Lock()
        self._loaded: dict[tuple[str, str], Loaded] = {}

    def forget(self) -> None:
        self._loaded.clear()

    def of(self, test: Test, workspace: Workspace) -> Loaded:
        key = test.folder, test.program
        with self._lock:
            if key not in self._loaded:
                self._loaded[key] = Loaded(workspace.program(), workspace.rom())
            return self._loaded[key]


def faults(test: Test, result: Result, programs: Programs) -> list[Fault]:
    """What is wrong by the assertions, the stacks and the budgets of a test."""
    asserted, wrong = assertions.read(comparing.script_bytes(test))
    found = [Fault("script", f"{test.path('script')}:{it.line}: {it.why}", kind=ASSERTION, at=it.line) for it in wrong]
    rules = Rules(asserted, test.settings.strict, test.settings.budgets)
    if rules.is_empty or not result.is_done:
        return found
    if test.kind == "line":
        return found + ([_of_line(test)] if asserted else [])
    try:
        with Workspace(target_of(test)) as workspace:
            return found + _checked(test, result, rules, workspace, programs.of(test, workspace))
    except Failure as failure:
        return [*found, Fault("script", f"its assertions cannot be looked at: {failure.line}", kind=ASSERTION)]


def _of_line(test: Test) -> Fault:
    return Fault("script", f"{test.path('script')}: a line of machines has no assertions", kind=ASSERTION)


def _checked(test: Test, result: Result, rules: Rules, workspace: Workspace, loaded: Loaded) -> list[Fault]:
    known, wrong = checking.known(loaded.program, rules.assertions)
    name = test.path("script")
    found = [Fault("script", f"{name}:{it.line}: {it.text}", kind=ASSERTION, at=it.line or 0) for it in wrong]
    rules = Rules(known, rules.is_strict, rules.budgets)
    if rules.is_empty:
        return found
    checker = Checker(workspace, loaded, result.report, rules, name)
    missed = checker.misses()
    if missed:
        lines = [f"{name}:{it.line}: {it.text}" for it in missed[:MOST]]
        lines += [f".. and {len(missed) - MOST} more"] if len(missed) > MOST else []
        head = f"{len(missed)} of {len(known)} assertions missed"
        found.append(Fault("script", head, kind=ASSERTION, more=tuple(lines), at=missed[0].line or 0))
    found += [Fault("stack", it.text, kind=ASSERTION, at=it.line or 0) for it in checker.stacks()]
    return found + [Fault("budget", it.text, kind=ASSERTION, at=it.line or 0) for it in checker.over_budget()]


def cuts(test: Test, result: Result, programs: Programs) -> list[str]:
    """Where the vectors of a test were cut."""
    if test.kind == "line" or not result.is_done:
        return []
    try:
        with Workspace(target_of(test)) as workspace:
            checker = Checker(workspace, programs.of(test, workspace), result.report, Rules(), test.path("script"))
            return checker.cuts(MOST_CUTS)
    except Failure as failure:
        return [f"where is not known: {failure.line}"]
