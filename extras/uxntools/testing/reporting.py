"""What a session of tests says: failures and a summary, and a progress line on a terminal."""
from __future__ import annotations

import os
import sys
import time
from collections.abc import Sequence
from dataclasses import dataclass, field
from typing import TextIO

from uxntools.cli import shown
from uxntools.testing.session import Outcome

RED, GREEN, YELLOW, PLAIN = "\x1b[31m", "\x1b[32m", "\x1b[33m", "\x1b[0m"
# How many names a line has that lists those of failed tests.
MOST_NAMES = 20


@dataclass
class Counts:
    """How many tests went in which way. `refused` has the tests of each program whose source was refused."""

    passed: int = 0
    failed: int = 0
    skipped: int = 0
    expected: int = 0
    old: int = 0
    refused: dict[tuple[str, str], list[str]] = field(default_factory=dict)

    def add(self, outcome: Outcome) -> None:
        self.old += outcome.is_old
        if outcome.refused:
            key = os.path.relpath(os.path.join(outcome.test.folder, outcome.test.program)), outcome.refused
            self.refused.setdefault(key, []).append(outcome.test.name)
        elif outcome.is_skipped:
            self.skipped += 1
        elif outcome.is_expected:
            self.expected += 1
        elif outcome.has_passed:
            self.passed += 1
        else:
            self.failed += 1

    @property
    def not_run(self) -> int:
        return sum(map(len, self.refused.values()))

    @property
    def has_failures(self) -> bool:
        return bool(self.failed or self.refused)

    def refusals(self) -> list[str]:
        """A line for each program that was refused."""
        return [
            f"{program} is refused ({line}): {_tests(len(names))} not run" for (program, line), names in self.refused.items()
        ]

    def text(self) -> str:
        more = [
            f"{count} {what}"
            for count, what in (
                (self.not_run, "not run"),
                (self.skipped, "skipped"),
                (self.expected, "failed as expected"),
            )
            if count
        ]
        old = f" ({self.old} unchanged, not run again)" if self.old else ""
        return ", ".join([f"{self.passed} passed, {self.failed} failed", *more]) + old


def _tests(count: int) -> str:
    return f"{count} test{'s' if count != 1 else ''}"


class Reporter:
    """Says each failure as it comes, and at the end how many tests passed and failed."""

    def __init__(self, total: int, is_verbose: bool = False, out: TextIO = sys.stdout, is_quiet: bool = False) -> None:
        self.total = total
        self.is_verbose = is_verbose
        self.out = out
        self.start = time.monotonic()
        self.outcomes: list[Outcome] = []
        self.counts = Counts()
        self.durations = 0
        self.has_line = not is_quiet and out.isatty()
        self.has_colours = self.has_line and not os.environ.get("NO_COLOR")
        self.drawn = 0.0

    def progress(self, finished: int) -> None:
        """Draws the progress line, at most some times a second."""
        if self.has_line and time.monotonic() - self.drawn > 0.1:
            self.drawn = time.monotonic()
            failed = self.counts.failed + self.counts.not_run
            self._write(f"\r\x1b[K{finished} of {self.total} tests" + (f", {failed} failed" if failed else ""))

    def clear(self) -> None:
        if self.has_line and self.drawn:
            self._write("\r\x1b[K")
            self.drawn = 0.0

    def _write(self, text: str) -> None:
        self.out.write(text)
        self.out.flush()

    def _coloured(self, colour: str, text: str) -> str:
        return f"{colour}{text}{PLAIN}" if self.has_colours else text

    def add(self, outcome: Outcome) -> None:
        self.outcomes.append(outcome)
        self.counts.add(outcome)
        is_silent = outcome.has_passed and not self.is_verbose or outcome.refused
        if not is_silent:
            self.clear()
            self._say(outcome)

    def _say(self, outcome: Outcome) -> None:
        test, name = outcome.test, shown(outcome.test.name)
        if outcome.is_skipped:
            self._write(self._coloured(YELLOW, "skipped") + f" {name}: {shown(test.settings.skip or '')}\n")
        elif outcome.is_expected:
            self._write(self._coloured(YELLOW, "failed as expected") + f" {name}: {shown(test.settings.fails or '')}\n")
        elif outcome.has_passed:
            self._write(self._coloured(GREEN, "passed") + f" {name}{' (unchanged)' if outcome.is_old else ''}\n")
        else:
            row = f" ({test.row})" if test.row else ""
            lines = [f"{test.name}{row}", *("    " + line for line in outcome.lines)]
            if outcome.kept:
                lines.append(f"    what came is kept in {outcome.kept}")
            self._write(self._coloured(RED, "FAILED") + " " + "".join(shown(line) + "\n" for line in lines))

    def end(self) -> int:
        """Says the refused sources, the names of failed tests, the longest runs and the summary, and answers the
        status."""
        self.clear()
        failed = [outcome.test.name for outcome in self.outcomes if not outcome.has_passed and not outcome.refused]
        lines = [self._coloured(RED, "REFUSED") + f" {shown(line)}" for line in self.counts.refusals()]
        if len(failed) > 2:
            more = f" and {len(failed) - MOST_NAMES} more" if len(failed) > MOST_NAMES else ""
            lines.append(shown(f"failed: {' '.join(failed[:MOST_NAMES])}{more}"))
        lines += self._longest()
        colour = RED if self.counts.has_failures else GREEN
        lines.append(self._coloured(colour, self.counts.text()) + f", {time.monotonic() - self.start:.1f} s")
        self._write("".join(line + "\n" for line in lines))
        return 1 if self.counts.has_failures else 0

    def _longest(self) -> list[str]:
        """The tests whose runs took longest."""
        run = sorted((it for it in self.outcomes if it.seconds), key=lambda it: -it.seconds)
        return [f"{it.seconds:8.3f} s  {shown(it.test.name)}" for it in run[: self.durations]]


def failures(outcomes: Sequence[Outcome]) -> int:
    """How many tests failed, those of refused sources among them."""
    return sum(not outcome.has_passed for outcome in outcomes)
