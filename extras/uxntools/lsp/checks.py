"""Diagnostics: what `uxn asm` names and what the lint alarms about, found beside the requests by a thread."""
from __future__ import annotations

import os
import sys
import threading
import time
from collections.abc import Callable, Iterable
from functools import lru_cache

from uxntools import assembly, fragments, lint, source
from uxntools.analysis import Analysis
from uxntools.cli import Failure, shown
from uxntools.fragments import Key, Read
from uxntools.lsp.documents import range_of, uri_of
from uxntools.lsp.protocol import Json
from uxntools.lsp.workspace import top_of
from uxntools.sharing import Finder
from uxntools.source import Word

ERROR, WARNING, UNNECESSARY = 1, 2, 1
PAUSE = 0.1
# The diagnostics of each file; those about what a program does not use have a key, as other programs may use it.
Found = dict[str, list[tuple[Key | None, Json]]]


def of_source(main: str, buffers: dict[str, bytes]) -> Found:
    """The diagnostics of a source by the files that have them; of each of its files, also where it has none."""
    read = reader(buffers)
    faults = assembly.faults(main, read)
    found = Analysis(main, read, expand=not faults)
    given: Found = {os.path.normpath(path): [] for path in found.rows}
    for fault in faults:
        given.setdefault(os.path.normpath(fault.path), []).append((None, _of_fault(found, fault)))
    for alarm in [] if faults else lint.alarms(found):
        key = fragments.key_of(alarm) if alarm.name in lint.UNUSED else None
        given[os.path.normpath(alarm.word.path)].append((key, _of_alarm(found, alarm)))
    return given


def reader(buffers: dict[str, bytes]) -> Read:
    """Reads files as the editor has them, each once."""

    @lru_cache(maxsize=None)
    def read(path: str) -> bytes:
        path = os.path.normpath(path)
        return buffers[path] if path in buffers else source.read(path)

    return read


def _of_fault(found: Analysis, fault: assembly.Fault) -> Json:
    lines = found.lines.get(fault.path, [b""])
    line = lines[fault.line - 1] if fault.line <= len(lines) else b""
    text = line[fault.column - 1 :].split(None, 1)[0] if line[fault.column - 1 :].strip() else b""
    word = Word(text, fault.path, fault.line, fault.column, 0)
    return {
        "range": range_of(word, lines),
        "severity": ERROR,
        "source": "uxn",
        "code": fault.kind,
        "message": fault.meaning(),
    }


def _of_alarm(found: Analysis, alarm: lint.Alarm) -> Json:
    word = alarm.word._replace(text=alarm.word.text.split(b"\n")[0])
    said: Json = {
        "range": range_of(word, found.lines[word.path]),
        "severity": WARNING,
        "source": "uxn-lint",
        "code": alarm.name,
        "message": alarm.message,
    }
    return {**said, "tags": [UNNECESSARY]} if alarm.name in lint.UNUSED else said


class Checker:
    """Checks sources one after the other, the last state of each, a moment after the last change. `top` is the folder
    of the editor's workspace."""

    def __init__(self, publish: Callable[[str, list[Json], int | None], None], fail: Callable[[str], None]) -> None:
        self._publish, self._fail = publish, fail
        self.top: str | None = None
        self._waiting: dict[str, dict[str, int]] = {}
        self._dropped: list[str] = []
        self._buffers: dict[str, bytes] = {}
        self._changed = threading.Condition()
        self._given: dict[str, Found] = {}
        self._unused = fragments.Unused()
        self._wanted: set[str] = set()
        self._is_over = False
        self._thread = threading.Thread(target=self._work, daemon=True)

    def start(self) -> None:
        self._thread.start()

    def ask(self, mains: list[str], buffers: dict[str, bytes], versions: dict[str, int]) -> None:
        """Checks these sources, with the buffers as they are now."""
        with self._changed:
            self._buffers = buffers
            for main in mains:
                self._waiting[main] = versions
                self._wanted.add(main)
            self._changed.notify()

    def forget(self, main: str, buffers: dict[str, bytes]) -> None:
        """Drops what was said of a source that is no longer open."""
        with self._changed:
            self._buffers = buffers
            self._waiting.pop(main, None)
            self._wanted.discard(main)
            self._dropped.append(main)
            self._changed.notify()

    def stop(self) -> None:
        with self._changed:
            self._is_over = True
            self._changed.notify()

    def _work(self) -> None:
        while self._wait():
            with self._changed:
                buffers, dropped, self._dropped = self._buffers, self._dropped, []
                main = next(iter(self._waiting), "")
                versions = self._waiting.pop(main, {})
            try:
                self._drop(dropped, reader(buffers))
                if main:
                    self._check(main, buffers, versions)
            except (Failure, OSError) as failure:
                self._fail(shown(failure.line if isinstance(failure, Failure) else f"{main}: {failure.strerror}"))
            except Exception as error:  # a mistake of the server's own, which has to go on
                print(shown(f"uxn-lsp: {main}: {error!r}"), file=sys.stderr)

    def _wait(self) -> bool:
        """Waits until there is work, and a moment longer; False once it is over."""
        with self._changed:
            while not self._waiting and not self._dropped and not self._is_over:
                self._changed.wait()
        time.sleep(PAUSE)
        return not self._is_over

    def _drop(self, mains: list[str], read: Read) -> None:
        for main in mains:
            if main not in self._wanted:
                self._say(self._given.pop(main, {}), read, {})

    def _check(self, main: str, buffers: dict[str, bytes], versions: dict[str, int]) -> None:
        found = of_source(main, buffers)
        if main in self._wanted:
            before, self._given[main] = self._given.get(main, {}), found
            self._say({**before, **found}, reader(buffers), versions)

    def _say(self, paths: Iterable[str], read: Read, versions: dict[str, int]) -> None:
        """Publishes what is now said of these files."""
        finders: dict[str, Finder] = {}
        for path in paths:
            top = top_of(path, self.top)
            finder = finders.setdefault(top, Finder(read, top))
            self._publish(uri_of(path), self._of_file(path, finder, read), versions.get(path))

    def _of_file(self, path: str, finder: Finder, read: Read) -> list[Json]:
        """What was found in a file, by all sources that include it, each once; of unused names those that no program
        uses."""
        said = [one for found in self._given.values() for one in found.get(path, [])]
        left = self._unused.everywhere([key for key, _ in said if key], finder, read)
        given: list[Json] = []
        for key, one in said:
            if one not in given and (key is None or key in left):
                given.append(one)
        return given
