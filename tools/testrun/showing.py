"""What `./test` prints: a line of progress, what failed, and the counts and times of each part."""
from __future__ import annotations

import shutil
import sys
import time

from testrun.parts import DIST, PARTS
from testrun.running import Result, Runner


class Screen:
    """The line of progress, which a terminal shows in place; without one each finished part is a line."""

    def __init__(self, count: int) -> None:
        self.count, self.results = count, list[Result]()
        self.began = time.monotonic()
        self.is_terminal = sys.stdout.isatty()
        self.runner: Runner | None = None

    def erase(self) -> None:
        if self.is_terminal:
            print("\r\x1b[K", end="")

    def progress(self) -> None:
        """Shows how far the tests are."""
        if not self.is_terminal or self.runner is None:
            return
        passed = sum(result.passed for result in self.results)
        failed = sum(result.failed for result in self.results)
        names = ", ".join(self.runner.running)
        line = f"{time.monotonic() - self.began:.0f} s: {len(self.results)} of {self.count}, {passed} passed, {failed} failed; {names}"
        print("\r\x1b[K" + line[:shutil.get_terminal_size().columns - 1], end="", flush=True)

    def notice(self, result: Result) -> None:
        """Shows a result: its counts, and all that it printed if something failed."""
        self.results.append(result)
        self.erase()
        if result.failed:
            print(*result.lines, sep="\n")
        if result.failed or not self.is_terminal:
            counts = f"{result.passed} passed, {result.failed} failed"
            times = f"{result.ended - result.began:.1f} s, {result.processor:.1f} s of processors"
            print(f"[{len(self.results)} of {self.count}] {result.job.name}: {counts}, {times}", flush=True)
        self.progress()


def row(name: str, results: list[Result]) -> list[str]:
    """The counts of a part, its time from the first start to the last end, and that of all processors."""
    counts = [sum(it.passed for it in results), sum(it.failed for it in results), sum(it.count_of_skipped for it in results)]
    began, ended = [it.began for it in results if it.began], [it.ended for it in results if it.began]
    seconds = max(ended) - min(began) if began else 0
    return [name, *map(str, counts), f"{seconds:.1f}", f"{sum(it.processor for it in results):.1f}"]


def table(results: list[Result]) -> str:
    """The counts and times of each part."""
    rows = [["part", "passed", "failed", "skipped", "seconds", "of processors"]]
    for part in (DIST, *PARTS):
        if own := [result for result in results if result.job.part.name == part.name]:
            rows.append(row(part.name, own))
    widths = [max(map(len, column)) for column in zip(*rows)]
    lines = [[row[0].ljust(widths[0]), *(cell.rjust(width) for cell, width in zip(row[1:], widths[1:]))] for row in rows]
    return "\n".join("  ".join(line) for line in lines)


def last_line(passed: int, failed: int, skipped: int) -> str:
    return f"{passed} passed, {failed} failed" + (f", {skipped} skipped" if skipped else "")
