"""The outcomes of tests for other programs: the Test Anything Protocol, JUnit's XML, and annotations for GitHub. Of the
tests of a refused source the first says so, and the others are skipped."""
from __future__ import annotations

import html
import os
import re
import sys
from collections.abc import Sequence
from typing import TextIO

from uxntools.cli import shown
from uxntools.testing.reporting import Counts, Reporter
from uxntools.testing.session import Outcome


class Refusals:
    """Which refused sources were said already."""

    def __init__(self) -> None:
        self._said: set[tuple[str, str]] = set()

    def is_again(self, outcome: Outcome) -> bool:
        """Whether the source of a test was refused, and that was said of an earlier test."""
        key = os.path.join(outcome.test.folder, outcome.test.program), outcome.refused
        if not outcome.refused:
            return False
        is_again = key in self._said
        self._said.add(key)
        return is_again


def _why_skipped(outcome: Outcome) -> str:
    return outcome.test.settings.skip or f"{outcome.test.program} is refused"


class TapReporter(Reporter):
    """Says each test in the Test Anything Protocol, version 13."""

    def __init__(self, total: int, out: TextIO = sys.stdout) -> None:
        super().__init__(total, out=out, is_quiet=True)
        self.refusals = Refusals()
        self._write(f"TAP version 13\n1..{total}\n")

    def add(self, outcome: Outcome) -> None:
        self.outcomes.append(outcome)
        self.counts.add(outcome)
        name = f"{len(self.outcomes)} - " + shown(outcome.test.name).replace("#", "\\#")
        if outcome.is_skipped or self.refusals.is_again(outcome):
            self._write(f"ok {name} # SKIP {shown(_why_skipped(outcome))}\n")
            return
        if outcome.is_expected:
            self._write(f"not ok {name} # TODO {shown(outcome.test.settings.fails or '')}\n")
            return
        lines = [f"{'ok' if outcome.has_passed else 'not ok'} {name}"]
        if not outcome.has_passed:
            lines += ["  ---", "  message: |", *("    " + shown(line) for line in outcome.lines)]
            lines += [f"  kept: {shown(outcome.kept)}", "  ..."]
        self._write("".join(line + "\n" for line in lines))

    def end(self) -> int:
        return 1 if self.counts.has_failures else 0


class GithubReporter(Reporter):
    """Says failures as annotations that GitHub shows beside the lines of a change, and then the summary."""

    def __init__(self, total: int, out: TextIO = sys.stdout) -> None:
        super().__init__(total, out=out, is_quiet=True)
        self.refusals = Refusals()

    def _say(self, outcome: Outcome) -> None:
        self._annotate(outcome)

    def add(self, outcome: Outcome) -> None:
        super().add(outcome)
        if outcome.refused and not self.refusals.is_again(outcome):
            self._annotate(outcome)

    def _annotate(self, outcome: Outcome) -> None:
        file, line = _refused_place(outcome) if outcome.refused else outcome.place
        title = f"{outcome.test.program} is refused" if outcome.refused else f"{outcome.test.name} failed"
        text = "\n".join(map(shown, outcome.lines))
        self._write(f"::error file={_property(file)},line={line},title={_property(title)}::{_escaped(text)}\n")


def _refused_place(outcome: Outcome) -> tuple[str, int]:
    """Where a source was refused: the file and the line of the line that says so."""
    found = re.match(r"source (?:(?P<path>.*) )?(?P<line>\d+):\d+: ", outcome.refused)
    path = found["path"] if found and found["path"] else outcome.test.program
    return os.path.relpath(os.path.join(outcome.test.folder, path)), int(found["line"]) if found else 1


def _escaped(text: str) -> str:
    return text.replace("%", "%25").replace("\r", "%0D").replace("\n", "%0A")


def _property(text: str) -> str:
    return _escaped(text).replace(":", "%3A").replace(",", "%2C")


def _xml_text(text: str) -> str:
    """Text without the signs that XML does not take."""
    return re.sub(r"[^\t\n\r\x20-\ud7ff\ue000-\ufffd\U00010000-\U0010ffff]", "?", text)


def _attribute(text: str) -> str:
    return '"' + html.escape(_xml_text(text)) + '"'


def _case(outcome: Outcome, is_again: bool) -> str:
    folder, name = os.path.split(outcome.test.name)
    file, line = outcome.place
    head = (
        f"    <testcase classname={_attribute(folder or '.')} name={_attribute(name)} file={_attribute(file)} "
        f"line=\"{line}\" time=\"{outcome.seconds:.3f}\""
    )
    if outcome.is_skipped or outcome.is_expected or is_again:
        why = outcome.test.settings.fails if outcome.is_expected else _why_skipped(outcome)
        return f"{head}>\n      <skipped message={_attribute(why or '')}/>\n    </testcase>\n"
    if outcome.has_passed:
        return head + "/>\n"
    kind = "error" if outcome.refused else "failure"
    message = _attribute(outcome.lines[0] if outcome.lines else "")
    text = html.escape(_xml_text("\n".join(outcome.lines)), quote=False)
    return f"{head}>\n      <{kind} message={message}>{text}</{kind}>\n    </testcase>\n"


def junit(outcomes: Sequence[Outcome], seconds: float) -> str:
    """The outcomes as the XML that CI services read."""
    counts, refusals = Counts(), Refusals()
    for outcome in outcomes:
        counts.add(outcome)
    errors = len(counts.refused)
    skipped = counts.skipped + counts.expected + counts.not_run - errors
    numbers = f'tests="{len(outcomes)}" failures="{counts.failed}" errors="{errors}" skipped="{skipped}" time="{seconds:.3f}"'
    return (
        f'<?xml version="1.0" encoding="UTF-8"?>\n<testsuites {numbers}>\n  <testsuite name="uxn-test" {numbers}>\n'
        + "".join(_case(outcome, refusals.is_again(outcome)) for outcome in outcomes)
        + "  </testsuite>\n</testsuites>\n"
    )
