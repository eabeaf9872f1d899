"""Which sources include a file, and whether a file is only a part of programs."""
from __future__ import annotations

import os
from collections.abc import Callable, Iterator, Sequence

from uxntools import files, includes, source
from uxntools.cli import Failure

# How many bytes are read to find the sources that include one, and how many of these a line names.
MOST_SEARCHED, MOST_NAMED = 8_388_608, 3
# The pads to the address at which a program begins.
START = (b"|0100", b"|100")


class Finder:
    """Finds the sources near a file that include it: of its folder and of those above it, up to `top` or four folders
    up. Where the file has a project with an include root, they are those of the whole project. What a source includes
    is looked at once."""

    def __init__(self, read: Callable[[str], bytes] = source.read, top: str | None = None) -> None:
        self._read, self._top = read, top
        self._closures: dict[str, tuple[set[str], int]] = {}

    def including(self, path: str) -> list[str]:
        """The sources that include a file, but for those that others of them include."""
        path = os.path.abspath(path)
        closures: dict[str, set[str]] = {}
        size = 0
        for candidate in _candidates(path, self._top):
            closures[candidate], read = self._closure(candidate)
            size += read
            if size > MOST_SEARCHED:
                break
        found = [one for one, names in closures.items() if path in names]
        return [one for one in found if not any(one != other and one in closures[other] for other in found)]

    def _closure(self, path: str) -> tuple[set[str], int]:
        """The files that a source includes, and how many bytes they have with it."""
        if path not in self._closures:
            parts = list(source.closure(path, self._read))
            names = {os.path.normpath(name) for name, _ in parts if name != path}
            self._closures[path] = names, sum(len(data) for _, data in parts if isinstance(data, bytes))
        return self._closures[path]


def _candidates(path: str, top: str | None) -> Iterator[str]:
    """The sources that may include a file."""
    folder = os.path.dirname(path)
    if project := includes.project_of(folder):
        yield from (one for one in includes.sources_of(project) if one != path)
        return
    for _ in range(5):
        for name in sorted(os.listdir(folder)) if os.path.isdir(folder) else []:
            candidate = os.path.join(folder, name)
            if name.endswith(".tal") and candidate != path and os.path.isfile(candidate):
                yield candidate
        if folder in (top, os.path.dirname(folder)):
            break
        folder = os.path.dirname(folder)


def named(paths: Sequence[str]) -> str:
    """Some paths as a part of a sentence, as they are from the current folder."""
    shown = [os.path.relpath(path) for path in paths[:MOST_NAMED]]
    rest = len(paths) - len(shown)
    shown += [f"{rest} more"] * bool(rest)
    return " and ".join([", ".join(shown[:-1]), shown[-1]] if len(shown) > 1 else shown)


def programs_of_part(path: str) -> list[str]:
    """The programs that include a file, if it is no program: then neither it nor what it includes has a pad to
    `0100`."""
    if not files.is_file(path):
        return []
    parts = [data for _, data in source.closure(path) if isinstance(data, bytes)]
    has_start = any(word.text in START for data in parts for word in source.words(data))
    return [] if has_start else Finder().including(path)


def look_at_program(path: str) -> str:
    """Answers the path of a program that is to run. A file that is only a part of programs is refused."""
    if programs := programs_of_part(path):
        raise Failure(f"{path} has no |0100 and is a part of {named(programs)}: name a program", 2)
    return path
