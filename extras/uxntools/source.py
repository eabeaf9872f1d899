"""The words of an Uxntal source with their places, and those of the files that it includes."""
from __future__ import annotations

import os
import re
from collections.abc import Callable, Iterator
from typing import NamedTuple

from uxntools import files, includes
from uxntools.cli import Failure
from uxntools.facts import LIMITS

# How many files and bytes a source is read with: more than `uxn` takes.
MOST_FILES, MOST_BYTES = 600, 8_388_608
# A word that opens, nests or closes a comment, or may include a file.
NOTED = re.compile(rb"(?<![^\x00-\x20])(?:\([^\x00-\x20]*|\)(?![^\x00-\x20])|~[^\x00-\x20]+)")
WORD = re.compile(rb"[^\x00-\x20]+")


class Word(NamedTuple):
    """A word of a source: its bytes, the file that it stands in, and the line and the column of its first byte, from 1."""

    text: bytes
    path: str
    line: int
    column: int
    start: int

    @property
    def end(self) -> int:
        """The place behind its last byte in the file, from 0."""
        return self.start + len(self.text)


def line_tokens(line: bytes, depth: int) -> tuple[list[tuple[int, bytes, bool]], int]:
    """The words of a line that begins at a comment depth: the place of each in the line, from 0, itself, and whether it is part of a
    comment; and the depth behind the line. Any byte up to 20 is a blank; a word that begins with `(` opens a comment, in which `(` and
    `)` that stand alone nest."""
    if not depth and b"(" not in line:
        return [(found.start(), found.group(), False) for found in WORD.finditer(line)], 0
    tokens = []
    for found in WORD.finditer(line):
        text = found.group()
        is_comment = depth > 0 or text.startswith(b"(")
        if depth:
            depth += (text == b"(") - (text == b")")
        elif is_comment:
            depth = 1
        tokens.append((found.start(), text, is_comment))
    return tokens, depth


def tokens(data: bytes, path: str = "") -> Iterator[tuple[Word, bool]]:
    """All words of a source in order, each with whether it is part of a comment."""
    depth = start = 0
    for number, line in enumerate(data.split(b"\n"), 1):
        found, depth = line_tokens(line, depth)
        for at, text, is_comment in found:
            yield Word(text, path, number, at + 1, start + at), is_comment
        start += len(line) + 1


def words(data: bytes, path: str = "") -> Iterator[Word]:
    """The words of a source without its comments."""
    return (word for word, is_comment in tokens(data, path) if not is_comment)


def included(source: str, word: bytes) -> str | None:
    """The path that an include word names. It begins at the folder of the source or at the include root of its
    project, in whatever file the word is."""
    return included_from(includes.folder_of(source), word)


def included_from(folder: str, word: bytes) -> str | None:
    """The path that an include word names, where the includes begin at this folder."""
    if not word.startswith(b"~") or not 2 <= len(word) <= LIMITS.word:
        return None
    return os.path.join(folder, os.fsdecode(word[1:]))


def read(path: str) -> bytes:
    """The bytes of a source."""
    return files.read(path, files.SOURCE)


def flat_words(path: str, folder: str | None = None, depth: int = 15) -> Iterator[Word]:
    """The words of a source, with the words of included files in place of the words that include them. The includes
    begin at the given folder."""
    folder = includes.folder_of(path) if folder is None else folder
    for word in words(read(path), path):
        inner = included_from(folder, word.text)
        if inner and depth:
            yield from flat_words(inner, folder, depth - 1)
        else:
            yield word


def include_words(data: bytes) -> Iterator[bytes]:
    """The words of a source that include a file, without its comments."""
    depth = 0
    for found in NOTED.finditer(data) if b"~" in data else ():
        text = found.group()
        if depth:
            depth += (text == b"(") - (text == b")")
        elif text[:1] == b"(":
            depth = 1
        elif text[:1] == b"~":
            yield text


def closure(path: str, read: Callable[[str], bytes] = read) -> Iterator[tuple[str, bytes | OSError]]:
    """A source and the files that it includes, each once, in order of reading, with its bytes or why it cannot be
    read. Past what `uxn` takes it ends early."""
    found, known, size, folder = [path], {path}, 0, includes.folder_of(path)
    for name in found:
        try:
            data = read(name)
        except OSError as error:
            yield name, error
            continue
        yield name, data
        size += len(data)
        for word in include_words(data) if size <= MOST_BYTES else ():
            inner = included_from(folder, word)
            if inner and inner not in known and len(found) < MOST_FILES:
                found.append(inner)
                known.add(inner)
        if size > MOST_BYTES:
            return


def linked(name: str, scratch: str, folder: str = "") -> tuple[str, dict[str, str]]:
    """The name of a source for a call of `uxn` in a folder, and the paths of the files that such a call may name. It
    is its own, unless its includes begin at another folder: then that of a link in a scratch folder of the tool's
    own, which has links to what the source includes too. All paths begin at the folder of the call."""
    main = os.path.join(folder, name)
    if not includes.is_moved(main):
        return name, {}
    made: dict[str, str] = {}
    for path, _ in closure(main):
        inner = os.path.basename(name) if path == main else includes.name_of(main, path)
        if not files.is_file(path) or {"", ".", ".."} & set(inner.split("/")):
            continue
        shown = os.path.relpath(path, folder or ".")
        if made.setdefault(f"{scratch}/{inner}", shown) != shown:
            raise Failure(f"{name} and {shown}, which it includes, need different names", 131)
        files.link(os.path.abspath(path), files.make_inner(os.path.join(folder, scratch), inner))
    return f"{scratch}/{os.path.basename(name)}" if made else name, made


def files_of(source: str) -> tuple[list[str], list[OSError]]:
    """The source and the files that it includes, each once, in order of reading; and why some of them could not be read."""
    found = list(closure(source))
    return [path for path, _ in found], [data for _, data in found if isinstance(data, OSError)]
