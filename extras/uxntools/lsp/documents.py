"""The files as the editor has them: its open buffers over what is on the disk, and the places in them."""
from __future__ import annotations

import os
from itertools import count
from urllib.parse import quote, unquote, urlsplit

from uxntools import source
from uxntools.lsp.protocol import INVALID_PARAMS, Json, Refusal
from uxntools.source import Word


# How many bytes of files that are not open are kept.
MOST_KEPT = 33_554_432
# Each state of a buffer has a number of its own.
STATES = count(1)


def path_of(uri: str) -> str:
    """The path of a file's URI."""
    parts = urlsplit(uri)
    if parts.scheme != "file":
        raise Refusal(INVALID_PARAMS, f"{uri} is no file")
    return os.path.normpath(os.fsdecode(unquote(parts.path, errors="surrogateescape")))


def uri_of(path: str) -> str:
    return "file://" + quote(os.path.abspath(path), errors="surrogateescape")


def units(line: bytes, end: int | None = None) -> int:
    """How many UTF-16 units the first bytes of a line are, as positions of the protocol count."""
    part = line[:end]
    return (
        len(part) if part.isascii() else len(part.decode("utf-8", "replace").encode("utf-16-le", "surrogatepass")) // 2
    )


def bytes_of(line: bytes, character: int) -> int:
    """The place in a line, in bytes, of a character of the protocol; the line's end where it lies behind that."""
    if line.isascii():
        return min(character, len(line))
    text = line.decode("utf-8", "replace").encode("utf-16-le", "surrogatepass")[: 2 * character]
    return min(len(text.decode("utf-16-le", "replace").encode("utf-8", "replace")), len(line))


class Document:
    """An open buffer: its lines as bytes."""

    def __init__(self, uri: str, text: str, version: int) -> None:
        self.uri, self.version = uri, version
        self.lines = _encoded(text)
        self.state = next(STATES)

    def change(self, change: Json) -> None:
        """Takes over a change: a range with its new text, or the whole text."""
        self.state = next(STATES)
        if change.get("range") is None:
            self.lines = _encoded(change["text"])
            return
        start, end = change["range"]["start"], change["range"]["end"]
        first, last = min(start["line"], len(self.lines) - 1), min(end["line"], len(self.lines) - 1)
        head = (
            self.lines[first][: bytes_of(self.lines[first], start["character"])]
            if start["line"] < len(self.lines)
            else self.lines[first]
        )
        tail = (
            self.lines[last][bytes_of(self.lines[last], end["character"]) :] if end["line"] < len(self.lines) else b""
        )
        new = _encoded(change["text"])
        new[0] = head + new[0]
        new[-1] += tail
        self.lines[first : last + 1] = new

    def data(self) -> bytes:
        return b"\n".join(self.lines)


def _encoded(text: str) -> list[bytes]:
    return text.encode("utf-8", "surrogatepass").split(b"\n")


class Files:
    """All files by their paths. `generation` grows where the editor says that files changed."""

    def __init__(self) -> None:
        self.open: dict[str, Document] = {}
        self.generation = 0
        self._kept: dict[str, tuple[tuple[int, int], bytes]] = {}
        self._size = 0

    def read(self, path: str) -> bytes:
        """The bytes of a file: of its buffer where it is open."""
        path = os.path.normpath(path)
        document = self.open.get(path)
        if document:
            return document.data()
        stamp = self.stamp(path)
        kept = self._kept.get(path)
        if kept and kept[0] == stamp:
            return kept[1]
        data = source.read(path)
        self._size += len(data)
        if self._size > MOST_KEPT:
            self._kept, self._size = {}, len(data)
        self._kept[path] = (stamp, data)
        return data

    def stamp(self, path: str) -> tuple[int, int]:
        """What changes where the buffer of a file does, or else the file on the disk."""
        document = self.open.get(os.path.normpath(path))
        if document:
            return -1, document.state
        try:
            found = os.stat(path)
        except (OSError, ValueError):
            return 0, -1
        return found.st_mtime_ns, found.st_size

    def snapshot(self) -> dict[str, bytes]:
        """The bytes of all open buffers."""
        return {path: document.data() for path, document in self.open.items()}


def position(line: bytes, number: int, column: int) -> Json:
    """The position of a column, from 1, in a line."""
    return {"line": number - 1, "character": units(line, column - 1)}


def range_of(word: Word, lines: list[bytes]) -> Json:
    """The range of a word in the lines of its file."""
    line = lines[word.line - 1] if word.line <= len(lines) else b""
    return {
        "start": position(line, word.line, word.column),
        "end": position(line, word.line, word.column + len(word.text)),
    }
