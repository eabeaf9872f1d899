"""The sources that the editor works on: which source includes a file, and the analysis of it, as fresh as the buffers
are."""
from __future__ import annotations

import os
from contextlib import suppress

from uxntools import source
from uxntools.analysis import Analysis
from uxntools.lsp.documents import Files, bytes_of, path_of
from uxntools.lsp.protocol import INVALID_PARAMS, Json, Refusal
from uxntools.sharing import Finder
from uxntools.source import Word

# How many programs are looked at that share a file, and of how many the analyses are kept.
MOST_MAINS, MOST_KEPT = 64, 128


class Spot:
    """A place that a request is about: the analysis of the source, the file, and the line and the column, from 1; and
    the workspace, which has the other programs that include a file."""

    def __init__(self, workspace: Workspace, found: Analysis, path: str, line: int, column: int) -> None:
        self.workspace, self.found, self.path, self.line, self.column = workspace, found, path, line, column

    def word(self) -> Word | None:
        return self.found.word_at(self.path, self.line, self.column)


def top_of(path: str, top: str | None) -> str:
    """The folder up to which sources are looked for that include a file: that of the editor's workspace, where the file
    lies in it, or two folders."""
    folder = os.path.dirname(path)
    is_below = top and (folder + "/").startswith(top.rstrip("/") + "/")
    return top if top and is_below else os.path.dirname(folder)


class Workspace:
    def __init__(self) -> None:
        self.files = Files()
        self.top: str | None = None
        self._mains: dict[str, list[str]] = {}
        self._kept: dict[str, tuple[int, dict[str, tuple[int, int]], Analysis]] = {}

    def forget_mains(self) -> None:
        """Looks anew which sources include what: after a file was opened or saved."""
        self._mains.clear()

    def mains_of(self, path: str) -> list[str]:
        """The sources that are assembled to check a file: those that include it, or itself."""
        path = os.path.normpath(path)
        if path not in self._mains:
            finder = Finder(self.files.read, top_of(path, self.top))
            self._mains[path] = finder.including(path)[:MOST_MAINS] or [path]
        return self._mains[path]

    def programs_of(self, path: str) -> list[Analysis]:
        """The analyses of all programs that include a file."""
        found = []
        for main in self.mains_of(path):
            with suppress(Refusal):
                found.append(self.analysis(main))
        return [one for one in found if one.path_of(path) is not None]

    def analysis(self, main: str) -> Analysis:
        """The analysis of a program."""
        kept = self._kept.get(main)
        if (
            kept
            and kept[0] == self.files.generation
            and all(self.files.stamp(one) == stamp for one, stamp in kept[1].items())
        ):
            return kept[2]
        try:
            found = Analysis(main, self.files.read)
        except OSError as error:
            raise Refusal(INVALID_PARAMS, f"{main}: {error.strerror}") from None
        missing = (source.included(main, one.word.text) for one in found.missing)
        stamps = {one: self.files.stamp(one) for one in (*found.rows, *filter(None, missing))}
        if len(self._kept) >= MOST_KEPT:
            self._kept.clear()
        self._kept[main] = (self.files.generation, stamps, found)
        return found

    def file(self, params: Json) -> tuple[Analysis, str]:
        """The analysis for a request about a file, and the file as the analysis names it."""
        path = path_of(params["textDocument"]["uri"])
        for main in self.mains_of(path):
            found = self.analysis(main)
            if (named := found.path_of(path)) is not None:
                return found, named
        self.forget_mains()
        self._mains[path] = [path]
        return self.analysis(path), path

    def spot(self, params: Json) -> Spot:
        """The place that a request is about."""
        found, path = self.file(params)
        number, character = params["position"]["line"], params["position"]["character"]
        lines = found.lines[path]
        line = lines[number] if number < len(lines) else b""
        return Spot(self, found, path, number + 1, bytes_of(line, character) + 1)
