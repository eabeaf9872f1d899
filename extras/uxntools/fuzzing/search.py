"""The search: batches of scripts, run side by side and judged in their order, so that a seed gives the same finds."""
from __future__ import annotations

import os
import time
from collections.abc import Callable, Iterator, Sequence
from concurrent.futures import ThreadPoolExecutor
from contextlib import ExitStack, contextmanager
from dataclasses import dataclass, field
from queue import SimpleQueue

from uxntools import files
from uxntools.fuzzing.making import Lines, Maker
from uxntools.fuzzing.running import Outcome, Runner, Task
from uxntools.fuzzing.shrinking import Shrinker

BATCH = 64
MOST_KNOWN = 2_000


@dataclass(frozen=True)
class Find:
    """A script that breaks the program, why, and the assertion that did not hold."""

    lines: Lines
    kind: str
    reason: str
    asserted: str = ""

    @property
    def place(self) -> tuple[str, str]:
        """The kind, and the first word of the last event."""
        return self.kind, self.lines[-1].split(" ")[0] if self.lines else ""

    @property
    def key(self) -> tuple[str, str, str]:
        """What finds are told apart by: the place, and the assertion."""
        return (*self.place, self.asserted)


@dataclass
class Bounds:
    """When the search ends: after so many seconds or runs, or at the first find."""

    seconds: float
    runs: int | None = None
    is_first: bool = False


@dataclass
class Search:
    """A search: what was found, and how many scripts were run."""

    runners: Sequence[Runner]
    maker: Maker
    bounds: Bounds
    note: Callable[[str], None]
    covers: Callable[[Lines], bool] | None = None
    finds: list[Find] = field(default_factory=list)
    runs: int = 0
    marks: set[tuple[int, ...]] = field(default_factory=set)
    began: float = field(default_factory=time.monotonic)

    def __post_init__(self) -> None:
        self.free: SimpleQueue[Runner] = SimpleQueue()
        for runner in self.runners:
            self.free.put(runner)

    def run(self) -> None:
        """Searches up to the bounds. What was found before an interrupt stays."""
        with ThreadPoolExecutor(len(self.runners)) as pool:
            self._judge(pool, [((), self._run(())), *((lines, self._run(lines)) for lines in list(self.maker.known))])
            while not self._is_over():
                size = BATCH if self.bounds.runs is None else min(BATCH, self.bounds.runs - self.runs)
                scripts = [self.maker.next() for _ in range(size)]
                self._judge(pool, list(zip(scripts, pool.map(self._run, scripts))))
                self.note(self.progress())

    def _is_over(self) -> bool:
        if self.bounds.is_first and self.finds:
            return True
        if self.bounds.runs is not None and self.runs >= self.bounds.runs:
            return True
        return time.monotonic() - self.began >= self.bounds.seconds

    def _run(self, lines: Lines) -> Outcome:
        runner = self.free.get()
        try:
            return runner.run(lines)
        finally:
            self.free.put(runner)

    def _judge(self, pool: ThreadPoolExecutor, results: list[tuple[Lines, Outcome]]) -> None:
        self.runs += len(results)
        for lines, outcome in results:
            if outcome.kind:
                self._take(lines, outcome)
            elif outcome.mark not in self.marks and len(self.maker.known) < MOST_KNOWN:
                self.marks.add(outcome.mark)
                if self.covers is None or self.covers(lines):
                    self.maker.known.append(lines)

    def _take(self, lines: Lines, outcome: Outcome) -> None:
        """Shrinks a script that breaks the program, if none like it was found."""
        keys = {find.key for find in self.finds}
        if Find(lines, outcome.kind, "", outcome.asserted).key in keys:
            return
        shrunk = Shrinker(lambda tried: self._is_same(self._run(tried), outcome)).shrink(lines)
        find = Find(shrunk, outcome.kind, self._run(shrunk).reason, outcome.asserted)
        if find.key not in keys:
            self.finds.append(find)
            self.note(f"found: {find.reason}, with {len(find.lines)} lines")

    @staticmethod
    def _is_same(one: Outcome, other: Outcome) -> bool:
        return (one.kind, one.asserted) == (other.kind, other.asserted)

    def progress(self) -> str:
        seconds = max(time.monotonic() - self.began, 0.001)
        return f"{self.runs:,} runs, {self.runs / seconds:,.0f} a second, {len(self.maker.known):,} kept, {len(self.finds)} found"


@contextmanager
def runners(task: Task, count: int) -> Iterator[list[Runner]]:
    """So many runners, each with a folder of its own."""
    with ExitStack() as stack:
        yield [Runner(task, stack.enter_context(files.scratch_folder("uxn-fuzz-"))) for _ in range(count)]


def processors() -> int:
    return len(os.sched_getaffinity(0))
