"""Watching the files of tests: which tests a changed file concerns."""
from __future__ import annotations

import os
import time
from collections.abc import Iterable

from uxntools.testing import configuration
from uxntools.testing.discovery import Test
from uxntools.testing.session import Session

PAUSE = 0.2
Stamp = tuple[int, int, int] | None


def stamp(path: str) -> Stamp:
    """What tells a change of a file; None where it is not there."""
    try:
        found = os.stat(path)
    except (OSError, ValueError):
        return None
    return found.st_size, found.st_mtime_ns, found.st_ino


def _files_of(test: Test, session: Session) -> set[str]:
    """The files that a test depends on: its program with includes, its parts, the files beneath its folders, and
    `uxn-test.toml`."""
    found = {os.path.join(test.folder, configuration.NAME)}
    if test.row:
        found.add(os.path.abspath(test.row.rpartition(":")[0]))
    for path in session.keys_of(test).files(test) + ([os.path.join(test.folder, test.root)] if test.root else []):
        found.add(path)
        for folder, _, names in os.walk(path) if os.path.isdir(path) else ():
            found.add(folder)
            found.update(os.path.join(folder, name) for name in names)
    return found


class Watch:
    """The state of all files of some tests, and the folders in which tests may come and go."""

    def __init__(self, tests: Iterable[Test], session: Session) -> None:
        session.look_anew()
        self.files = {test.name: _files_of(test, session) for test in tests}
        places = {os.path.dirname(test.full_path("out")) for test in tests}
        self.stamps = {path: stamp(path) for path in set().union(places, *self.files.values())}

    def changed(self) -> set[str]:
        return {path for path, old in self.stamps.items() if stamp(path) != old}

    def wait(self) -> set[str]:
        """Waits until a file changes, and answers which did. It looks as often as costs little."""
        while True:
            start = time.monotonic()
            changed = self.changed()
            if changed:
                return changed
            time.sleep(max(PAUSE, 10 * (time.monotonic() - start)))

    def concerned(self, tests: Iterable[Test], changed: set[str]) -> list[Test]:
        """The tests that depend on a changed file, and those that are new."""
        return [test for test in tests if test.name not in self.files or self.files[test.name] & changed]
