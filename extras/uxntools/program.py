"""Calls of `uxn`: the program that `$UXN` names, or `uxn` of the PATH."""
from __future__ import annotations

import os
import re
import resource
import signal
import subprocess
import threading
from collections.abc import Iterator, Mapping, Sequence
from contextlib import contextmanager, suppress
from dataclasses import dataclass
from typing import IO

from uxntools import files, locating
from uxntools.cli import Failure
from uxntools.facts import REFUSED, STOPPED_EARLY

FAULT = re.compile(
    r"source (?:(?P<path>.*) )?(?P<line>\d+):(?P<column>\d+): (?P<kind>[A-Za-z]+): (?P<word>.*)", re.DOTALL
)

# How many bytes a file has at most that a call writes, and an output that a tool reads.
MOST_WRITTEN = files.OUTPUT.most
# How much of an error output is kept where the output itself is not wanted. Of a refusal that is all: its line may
# have a word as long as a source.
LAST_OF_ERRORS, LAST_OF_REFUSAL = 70_000, 5_000_000


@dataclass(frozen=True)
class Fault:
    """A refused source: the file of the faulty word (None for the source itself), its place, the kind, and the
    word."""

    path: str | None
    line: int
    column: int
    kind: str
    word: str


@dataclass(frozen=True)
class Done:
    """What a call gave: its status, and the bytes on both outputs."""

    status: int
    out: bytes
    err: bytes

    @property
    def line(self) -> str:
        """The line of a refused call."""
        return self.err.decode(errors="replace").rstrip("\n").rpartition("\n")[2]

    @property
    def fault(self) -> Fault | None:
        """The faulty word, where a source was refused."""
        found = FAULT.fullmatch(os.fsdecode(self.err).rstrip("\n")) if self.status == 131 else None
        return (
            Fault(found["path"], int(found["line"]), int(found["column"]), found["kind"], found["word"])
            if found
            else None
        )


def told(done: Done, names: Mapping[str, str]) -> Done:
    """What a call gave, with the path of the file where the line of a refused source has the name of a copy."""
    fault = done.fault
    path = None if fault is None or fault.path is None else names.get(fault.path, fault.path)
    if fault is None or path is None or path == fault.path:
        return done
    line = f"source {path} {fault.line}:{fault.column}: {fault.kind}: {fault.word}\n"
    return Done(done.status, done.out, os.fsencode(line))


def path_of_uxn() -> str:
    """The program: an absolute path, so that it can be called in any folder."""
    found = locating.uxn()
    if found is None:
        raise Failure(locating.missing(), 127)
    return found


def limit_files(process: subprocess.Popen[bytes]) -> None:
    """Limits the length of each file that a process writes: past it a signal ends the process."""
    with suppress(OSError, ValueError):
        resource.prlimit(process.pid, resource.RLIMIT_FSIZE, (MOST_WRITTEN, MOST_WRITTEN))


def call(*words: str, folder: str | None = None, seconds: float | None = None) -> Done:
    """Runs `uxn` in a folder (the current one without it) until it ends."""
    with files.scratch_file() as out, files.scratch_file() as err:
        started = subprocess.Popen(
            [path_of_uxn(), *words], cwd=folder, stdin=subprocess.DEVNULL, stdout=out, stderr=err
        )
        try:
            limit_files(started)
            status = started.wait(seconds)
        except subprocess.TimeoutExpired:
            raise Failure(f"uxn {' '.join(words)}: it did not end within {seconds} seconds") from None
        finally:
            if started.poll() is None:
                started.kill()
                started.wait()
        return Done(status, *(_bytes_of(file) for file in (out, err)))


def _bytes_of(file: IO[bytes]) -> bytes:
    file.seek(0)
    return file.read()


class Calls:
    """Calls of `uxn` that several threads make, and that one of them can end."""

    def __init__(self) -> None:
        self._lock = threading.Lock()
        self._running: set[subprocess.Popen[bytes]] = set()
        self._is_ended = False

    def wait(self, words: Sequence[str], folder: str, errors: IO[bytes]) -> int:
        """Runs `uxn`, and answers its status."""
        with self._lock:
            if self._is_ended:
                raise Failure("uxn was ended")
            started = subprocess.Popen(
                [path_of_uxn(), *words],
                cwd=folder,
                stdin=subprocess.DEVNULL,
                stdout=subprocess.DEVNULL,
                stderr=errors,
            )
            self._running.add(started)
        limit_files(started)
        try:
            return started.wait()
        except BaseException:
            started.kill()
            started.wait()
            raise
        finally:
            with self._lock:
                self._running.remove(started)

    def end(self) -> None:
        """Ends the running calls, and lets none begin."""
        with self._lock:
            self._is_ended = True
            for started in self._running:
                started.kill()


def call_for_files(*words: str, folder: str, calls: Calls) -> Done:
    """The same where only the files matter that it writes: what it puts out is not kept, however much it is, but
    for the last line."""
    with files.scratch_file() as errors:
        status = calls.wait(words, folder, errors)
        most = LAST_OF_REFUSAL if status in REFUSED else LAST_OF_ERRORS
        errors.seek(max(0, errors.seek(0, os.SEEK_END) - most))
        return Done(status, b"", errors.read())


def need(*words: str, folder: str | None = None) -> Done:
    """The same of a call that has to be accepted: another one ends the tool with the line and the status of `uxn`."""
    return accepted(call(*words, folder=folder))


def accepted(done: Done) -> Done:
    """What a call gave that was not refused and did not end early; another one ends the tool with its line and
    status."""
    if done.status in STOPPED_EARLY:
        raise Failure(f"the run ended early with {done.status} (docs/ended.md says why)", done.status)
    if done.status >= 128:
        raise Failure(done.line or f"uxn ended with {done.status}", done.status)
    if done.status == -signal.SIGXFSZ:
        raise Failure(f"uxn was ended: it has written a file of {MOST_WRITTEN:,} bytes")
    if done.status < 0:
        raise Failure(f"uxn was ended by signal {-done.status}")
    return done


@contextmanager
def scratch_folder(beside: str = ".") -> Iterator[str]:
    """A folder beneath `beside`, named as `uxn` can name it (relative), that is gone at the end."""
    with files.scratch_folder("uxn-", beside) as folder:
        yield os.path.relpath(folder, beside) if beside == "." else folder


def words_of(arguments: Sequence[str]) -> list[str]:
    """The options for `uxn` behind a tool's own arguments, without the `--` that may part them."""
    return [word for at, word in enumerate(arguments) if word != "--" or at]
