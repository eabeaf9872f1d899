"""Files that several programs share: a file that others include is checked in these, and a name in it is unused only
if none of them uses it."""
from __future__ import annotations

import os
from collections.abc import Callable, Iterable, Sequence
from typing import NamedTuple

from uxntools import assembly, files, lint, source
from uxntools.analysis import Analysis
from uxntools.cli import Failure
from uxntools.lint import UNUSED, Alarm
from uxntools.sharing import Finder

Read = Callable[[str], bytes]
# The file, the place and the name of an alarm.
Key = tuple[str, int, int, str]


def mains_of(path: str) -> list[str]:
    """The sources that are assembled to check a file: those that include it, or itself."""
    found = Finder().including(path) if files.is_file(path) else []
    return [one if os.path.isabs(path) else os.path.relpath(one) for one in found] or [path]


def key_of(alarm: Alarm) -> Key:
    return os.path.abspath(alarm.word.path), alarm.word.line, alarm.word.column, alarm.name


class _Program(NamedTuple):
    """What was found of a program: the state of its files, these, and what it does not use of them."""

    state: int
    files: frozenset[str]
    unused: frozenset[Key]


class Unused:
    """What programs do not use of the files that they share. A program is analysed anew only if a file of it has
    changed."""

    def __init__(self) -> None:
        self._kept: dict[str, _Program] = {}

    def everywhere(self, keys: Iterable[Key], finder: Finder, read: Read) -> set[Key]:
        """Those of the alarms about unused names that each program has which includes their file."""
        programs = {path: [self._program(main, read) for main in finder.including(path)] for path, *_ in keys}
        return {key for key in keys if all(key in one.unused or key[0] not in one.files for one in programs[key[0]])}

    def _program(self, main: str, read: Read) -> _Program:
        state = hash(tuple((path, data if isinstance(data, bytes) else None) for path, data in source.closure(main, read)))
        kept = self._kept.get(main)
        if kept is None or kept.state != state:
            kept = self._kept[main] = _Program(state, *_unused_of(main, read))
        return kept


def _unused_of(main: str, read: Read) -> tuple[frozenset[str], frozenset[Key]]:
    """The files of a program, and the alarms about names that it does not use. One that cannot be read has none."""
    try:
        found = Analysis(main, read, expand=True)
    except OSError:
        return frozenset(), frozenset()
    keys = frozenset(key_of(alarm) for alarm in lint.alarms(found, lint.UNUSED_CHECKS))
    return frozenset(os.path.abspath(name) for name in found.rows), keys


def _alarms_of(main: str) -> list[Alarm]:
    """The alarms of a program. A refused one is a failure."""
    if fault := assembly.assemble(main).fault:
        raise Failure(fault.text(), 131)
    return lint.alarms(Analysis(main, expand=True))


def alarms(paths: Sequence[str], allowed: Sequence[str] = ()) -> list[Alarm]:
    """The alarms about some files, each once: of a program also those in the files that it includes."""
    found: dict[tuple[Key, str], Alarm] = {}
    of_programs: dict[str, list[Alarm]] = {}
    for path in paths:
        mains = mains_of(path)
        whole = None if mains == [path] else os.path.abspath(path)
        for main in mains:
            if main not in of_programs:
                of_programs[main] = _alarms_of(main)
            for alarm in of_programs[main]:
                if alarm.name not in allowed and whole in (None, os.path.abspath(alarm.word.path)):
                    found.setdefault((key_of(alarm), alarm.message), alarm)
    keys = [key for key, _ in found if key[3] in UNUSED]
    left = Unused().everywhere(keys, Finder(), source.read)
    return [alarm for (key, _), alarm in found.items() if key[3] not in UNUSED or key in left]
