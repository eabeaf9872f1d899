"""Runs jobs side by side: as many as there are processors, of which each wide job is given a share."""
from __future__ import annotations

import os
import queue
import re
import signal
import subprocess
import threading
import time
from collections.abc import Callable
from dataclasses import dataclass, field

from testrun.parts import Job

LAST = re.compile(r"(\d+) passed, (\d+) failed(?:, (\d+) skipped)?")
# How many seconds a job that is ended may take.
PATIENCE = 10
SKIPPED = re.compile(r"\s*not tried: (.*)")


@dataclass
class Result:
    """What a job gave: its counts, the lines that it printed before them, and its times."""

    job: Job
    passed: int = 0
    failed: int = 0
    skipped: list[str] = field(default_factory=list)
    more_skipped: int = 0
    lines: list[str] = field(default_factory=list)
    began: float = 0
    ended: float = 0
    processor: float = 0

    @property
    def count_of_skipped(self) -> int:
        return max(len(self.skipped), self.more_skipped)


def counts_of(job: Job, lines: list[str]) -> tuple[int, int, int] | None:
    """How much passed, failed and was skipped: what the last line says, or, of a part without counts, its rows."""
    if job.part.row:
        rows = [line for line in lines if job.part.row in line]
        failed = sum("FAILED" in line for line in rows)
        return len(rows) - failed, failed, 0
    found = LAST.fullmatch(lines[-1]) if lines else None
    return (int(found[1]), int(found[2]), int(found[3] or 0)) if found else None


def take(result: Result, said: str, status: int) -> None:
    """Reads what a job printed."""
    result.lines = said.splitlines()
    result.skipped = [skip[1] for line in result.lines if (skip := SKIPPED.match(line))]
    counts = counts_of(result.job, result.lines)
    why = ""
    if counts is None:
        why = f"it did not come to its end (status {status})"
    else:
        result.passed, result.failed, result.more_skipped = counts
        if not result.job.part.row:
            result.lines.pop()
        if status and not result.failed:
            why = f"it ended with status {status}"
        elif not (result.passed or result.failed or result.count_of_skipped):
            why = "no test ran"
    if why:
        result.failed = 1
        result.lines.append(f"FAILED {result.job.name}: {why}")


class Runner:
    """Jobs that run, and those that wait. What a job needs of the processors is taken from `free`."""

    def __init__(self, top: str, program: str, slots: int, memory: str | None, notice: Callable[[Result], None]) -> None:
        self.top, self.program, self.memory, self.notice = top, program, memory, notice
        self.free = slots
        self.done: queue.Queue[tuple[Result, int]] = queue.Queue()
        self.running: dict[str, Result] = {}
        self.processes: dict[int, Job] = {}
        self.lock = threading.Lock()
        self.is_ended = False

    def environment(self, job: Job, share: int) -> dict[str, str]:
        found = {**os.environ, "UXN_JOBS": str(share)}
        if self.memory is not None and job.part.is_in_memory:
            found["TMPDIR"] = self.memory
        return found

    def call(self, job: Job, share: int) -> tuple[str, int, float]:
        """What a job prints, its status, and the seconds of processors that it took."""
        command = [os.path.join(self.top, job.part.command[0]), *job.part.command[1:], self.program, *job.words]
        with self.lock:
            if self.is_ended:
                return "", -1, 0
            process = subprocess.Popen(
                command, cwd=self.top, env=self.environment(job, share), stdin=subprocess.DEVNULL,
                stdout=subprocess.PIPE, stderr=subprocess.STDOUT, start_new_session=True,
            )
            self.processes[process.pid] = job
        assert process.stdout is not None
        said = process.stdout.read().decode(errors="backslashreplace")
        process.stdout.close()
        _, status, usage = os.wait4(process.pid, 0)
        process.returncode = os.waitstatus_to_exitcode(status)
        with self.lock:
            del self.processes[process.pid]
        return said, process.returncode, usage.ru_utime + usage.ru_stime

    def work(self, result: Result, share: int) -> None:
        """Runs a job in a thread of its own."""
        try:
            said, status, result.processor = self.call(result.job, share)
            take(result, said, status)
        except OSError as error:
            result.failed, result.lines = 1, [f"FAILED {result.job.name}: {error}"]
        result.ended = time.monotonic()
        self.done.put((result, share))

    def start(self, job: Job, share: int) -> None:
        result = Result(job, began=time.monotonic())
        self.free -= share
        self.running[job.name] = result
        threading.Thread(target=self.work, args=(result, share), daemon=True).start()

    def start_ready(self, wide: list[Job], narrow: list[Job]) -> None:
        """Starts what there are processors for. One wide job runs at a time; beside it one processor is for the others."""
        is_wide = any(result.job.part.is_wide for result in self.running.values())
        if wide and not is_wide and self.free:
            is_beside = len(self.running) > 0
            self.start(wide.pop(0), max(1, self.free - (bool(narrow) and not is_beside)))
        while narrow and self.free and (not wide or any(it.job.part.is_wide for it in self.running.values())):
            self.start(narrow.pop(0), 1)

    def run(self, jobs: list[Job], tick: Callable[[], None]) -> list[Result]:
        """The results of all jobs; `tick` is called once a second."""
        wide = [job for job in jobs if job.part.is_wide]
        narrow = [job for job in jobs if not job.part.is_wide]
        results: list[Result] = []
        self.start_ready(wide, narrow)
        while self.running:
            try:
                result, share = self.done.get(timeout=1)
            except queue.Empty:
                tick()
                continue
            del self.running[result.job.name]
            self.free += share
            results.append(result)
            self.notice(result)
            self.start_ready(wide, narrow)
        return results

    def end(self) -> None:
        """Ends what still runs, each with all that it started, and gives it time to delete its folders."""
        with self.lock:
            self.is_ended = True
            for process in self.processes:
                try:
                    os.killpg(process, signal.SIGTERM)
                except ProcessLookupError:
                    pass
        until = time.monotonic() + PATIENCE
        while self.processes and time.monotonic() < until:
            time.sleep(0.05)
