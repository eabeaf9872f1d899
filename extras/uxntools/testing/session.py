"""A session of tests: which of them need a run, the runs side by side, and the outcome of each in order."""
from __future__ import annotations

import re
import time
from collections.abc import Callable, Iterator, Sequence
from concurrent.futures import Future, ThreadPoolExecutor
from concurrent.futures import TimeoutError as NotYet
from dataclasses import dataclass, field

from uxntools import files, misses, program
from uxntools.cli import Failure, line_of
from uxntools.testing import asserting, comparing, running, showing
from uxntools.testing.caching import Keys, Store
from uxntools.testing.comparing import Fault
from uxntools.testing.discovery import Test
from uxntools.testing.keeping import kept_folder
from uxntools.testing.running import Result


@dataclass
class Outcome:
    """How a test went: its faults as they are shown, the folder of what is kept of it, whether a kept result answered,
    and whether it was not run at all or failed as expected."""

    test: Test
    result: Result | None = None
    faults: list[Fault] = field(default_factory=list)
    lines: list[str] = field(default_factory=list)
    kept: str = ""
    is_old: bool = False
    is_skipped: bool = False
    is_expected: bool = False

    @property
    def has_passed(self) -> bool:
        return not self.faults

    @property
    def refused(self) -> str:
        """The line with which the source was refused, where that is all that is wrong."""
        is_refused = self.result is not None and self.result.status == comparing.REFUSED_SOURCE
        is_all = len(self.faults) == 1 and self.faults[0].kind == comparing.REFUSAL
        return self.result.line if self.result and is_refused and is_all else ""

    @property
    def place(self) -> tuple[str, int]:
        """The file and the line that a failure is shown at."""
        file, _, line = self.test.row.rpartition(":")
        if file:
            return file, int(line)
        stem = self.test.name + ("/" if self.test.is_folder else ".")
        part = next((part for part in ("script", "commands", "setup", "out") if self.test.has(part)), "out")
        return f"{stem}{part}", next((fault.at for fault in self.faults if fault.at), 1)

    @property
    def seconds(self) -> float:
        return self.result.seconds if self.result else 0.0


@dataclass
class Options:
    """How a session runs its tests."""

    jobs: int = 1
    is_fresh: bool = False
    seconds: float | None = None


class Session:
    """Runs tests, and keeps their results beneath the folder of each project."""

    def __init__(self, options: Options) -> None:
        self.options = options
        self.uxn = program.path_of_uxn()
        self.stores: dict[str, Store] = {}
        self.keys: dict[str, Keys] = {}
        self.programs = asserting.Programs()
        self.keeps = not _is_script(self.uxn)
        self.finished = 0

    def close(self) -> None:
        for store in self.stores.values():
            store.close()

    def keys_of(self, test: Test) -> Keys:
        if test.folder not in self.keys:
            store = self.stores[test.folder] = Store(test.folder)
            self.keys[test.folder] = Keys(store.digests, self.uxn)
        return self.keys[test.folder]

    def look_anew(self) -> None:
        """Looks at all files anew from now on."""
        self.programs.forget()
        for keys in self.keys.values():
            keys.forget()

    def outcomes(self, tests: Sequence[Test], tick: Callable[[], None] = lambda: None) -> Iterator[Outcome]:
        """The outcome of each test in order. While one is waited for, `tick` is called now and then."""
        self.finished = 0
        running.ENDING.clear()
        pool = ThreadPoolExecutor(self.options.jobs)
        try:
            for outcome, key, wanted in [self._begin(test, pool) for test in tests]:
                if isinstance(outcome, Outcome):
                    yield outcome
                    continue
                found = self._waited(outcome, tick)
                self._keep(found, key, wanted)
                yield found
        finally:
            pool.shutdown(wait=False, cancel_futures=True)
            running.end_all()
            pool.shutdown(wait=True)
            self.close()

    def _waited(self, future: Future[Outcome], tick: Callable[[], None]) -> Outcome:
        while True:
            try:
                return future.result(0.2)
            except NotYet:
                tick()

    def _begin(self, test: Test, pool: ThreadPoolExecutor) -> tuple[Outcome | Future[Outcome], bytes, bytes]:
        """The outcome of a test that a kept result answers, or the future one of its run."""
        if test.settings.skip is not None:
            self.finished += 1
            return Outcome(test, is_skipped=True), b"", b""
        outputs = running.usual_outputs(test)
        if not self.keeps or test.settings.fails is not None:
            return self._later(pool, test, None), b"", b""
        try:
            keys = self.keys_of(test)
            key, wanted = keys.of_run(test, outputs), keys.of_wanted(test)
        except OSError:
            return self._later(pool, test, None), b"", b""
        if self.options.is_fresh:
            return self._later(pool, test, None), key, wanted
        store = self.stores[test.folder]
        if store.has_passed(key, wanted):
            self.finished += 1
            return Outcome(test, is_old=True), key, wanted
        return self._later(pool, test, store.result(key)), key, wanted

    def _later(self, pool: ThreadPoolExecutor, test: Test, old: Result | None) -> Future[Outcome]:
        future = pool.submit(self._outcome, test, old)
        future.add_done_callback(lambda _: self._count())
        return future

    def _count(self) -> None:
        self.finished += 1

    def _outcome(self, test: Test, old: Result | None) -> Outcome:
        """Runs a test, unless its result is known, and compares. Of one that is expected to fail a failure is none."""
        outcome = self._compared(test, old)
        why = test.settings.fails
        if why is None:
            return outcome
        if outcome.has_passed:
            return self._failed(test, outcome.result, [Fault("test", f"it passes, and is expected to fail: {why}")])
        showing.forget(test)
        return Outcome(test, outcome.result, is_expected=True)

    def _compared(self, test: Test, old: Result | None) -> Outcome:
        try:
            result = old or self.result(test)
            found = self.faults(test, result)
        except Failure as failure:
            return self._failed(test, None, [Fault("test", failure.line)])
        except OSError as error:
            return self._failed(test, None, [Fault("test", line_of(error))])
        if found:
            outcome = self._failed(test, result, found)
        else:
            outcome = Outcome(test, result)
            showing.forget(test)
        outcome.is_old = old is not None
        return outcome

    def faults(self, test: Test, result: Result) -> list[Fault]:
        """All that is wrong with what came of a test, its assertions among it."""
        return comparing.faults(test, result) + asserting.faults(test, result, self.programs)

    def result(self, test: Test, outputs: frozenset[str] | None = None) -> Result:
        start = time.monotonic()
        result = running.run(test, outputs, self.options.seconds, self.uxn)
        return Result(result.status, result.parts, result.after, time.monotonic() - start)

    def _failed(self, test: Test, result: Result | None, found: list[Fault]) -> Outcome:
        shown = []
        for fault in found:
            one = showing.show(fault)
            if fault.kind == comparing.MISS:
                one.lines += ["  " + line for line in misses.lines_of_test(test, kept_folder(test.folder))]
            if fault.kind == comparing.CUT and result:
                one.lines += ["  " + line for line in asserting.cuts(test, result, self.programs)]
            shown.append(one)
        kept = showing.keep(test, result, shown)
        return Outcome(test, result, found, [_at_row(test, line) for one in shown for line in one.lines], kept)

    def _keep(self, outcome: Outcome, key: bytes, wanted: bytes) -> None:
        """Keeps a result that depends on the files alone: not one that ended early, and not one of a call that was
        none."""
        result = outcome.result
        if not self.keeps or result is None or not key:
            return
        if outcome.is_old and not outcome.has_passed:
            return
        is_result = result.is_done or result.status in comparing.REFUSED_STATUSES
        if is_result and self.keys_of(outcome.test).are_as_read(outcome.test):
            self.stores[outcome.test.folder].keep(key, result, wanted if outcome.has_passed else None)


def _at_row(test: Test, line: str) -> str:
    """A line with the place of a row of a table where it names a file that was made of it."""
    return re.sub(re.escape(test.stem) + r"\.\w+(:\d+)?", test.row, line) if test.row else line


def _is_script(path: str) -> bool:
    """Whether the program is a script: what it starts may change without a change of its own, so its results are not
    kept."""
    return files.read_start(path, 2) == b"#!"
