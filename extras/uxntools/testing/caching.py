"""Results that are kept: a run depends on its files alone, so one with the same files is not run again.

The digests of files are kept beside what the system says of them (length, times, inode), so that a file that did
not change is not read. A digest is trusted only if the file was at rest for some time when it was read: a later
change then shows in its times."""
from __future__ import annotations

import hashlib
import json
import os
import sqlite3
import time
import zlib
from collections.abc import Sequence
from dataclasses import dataclass
from typing import Any

from uxntools import files, includes, source
from uxntools.testing.discovery import WANTED, Test
from uxntools.testing.keeping import KEPT, kept_folder
from uxntools.testing.running import Result

FORMAT = 2
# How long a file has to be at rest, in nanoseconds, and how many bytes of a result are kept.
REST = 50_000_000
MOST = 4_000_000
# Results that no run asked for in so many days are dropped.
DAYS = 30
RESULTS = os.path.join(KEPT, "results.sqlite")
TABLES = {
    "files": "(path BLOB PRIMARY KEY, stamp TEXT, digest BLOB, includes TEXT)",
    "results": "(key BLOB PRIMARY KEY, passed BLOB, data BLOB, used INTEGER)",
}
# What rows give that no tool has written.
BAD_ROWS = (ValueError, TypeError, KeyError, AttributeError, RecursionError)


@dataclass
class FileDigest:
    """What is known of a file: what the system says of it, the digest of its bytes, and the include words of a
    source."""

    stamp: tuple[int, int, int, int]
    digest: bytes
    includes: tuple[str, ...] | None = None
    is_at_rest: bool = True


def _hash(parts: Sequence[bytes | str]) -> bytes:
    """The digest of some parts, each apart from the next."""
    return hashlib.sha256(repr(parts).encode()).digest()


def _stamp(path: str) -> tuple[int, int, int, int] | None:
    """What the system says of a file; None where it is not there."""
    try:
        found = os.stat(path)
    except (OSError, ValueError):
        return None
    return found.st_size, found.st_mtime_ns, found.st_ctime_ns, found.st_ino


class Digests:
    """The digests of files, each read once a session, and not at all where a former session has read it as it is."""

    def __init__(self, known: dict[str, FileDigest]) -> None:
        self.known = known
        self.current: dict[str, FileDigest | None] = {}
        self.changed: dict[str, FileDigest] = {}

    def of(self, path: str, is_source: bool = False) -> FileDigest | None:
        """What is known of a file; None of one that is not there or cannot be read."""
        if path in self.current:
            found = self.current[path]
            if found is None or found.includes is not None or not is_source:
                return found
        self.current[path] = found = self._look(path, is_source)
        return found

    def forget(self) -> None:
        """Looks at the files anew from now on."""
        self.current.clear()

    def is_as_read(self, path: str) -> bool:
        """Whether a file is still as it was when its digest was made, and so is all that lies beneath a folder."""
        if os.path.isdir(path):
            files = (os.path.join(folder, name) for folder, _, names in os.walk(path) for name in names)
            return all(map(self.is_as_read, files))
        known = self.current.get(path)
        return (known.stamp if known else None) == _stamp(path)

    def _look(self, path: str, is_source: bool) -> FileDigest | None:
        stamp = _stamp(path)
        known = self.known.get(path)
        if known and known.is_at_rest and known.stamp == stamp and not (is_source and known.includes is None):
            return known
        now = time.time_ns()
        try:
            data = files.read(path, files.SOURCE if is_source else files.OUTPUT)
        except OSError:
            return None
        if stamp is None:
            return None
        includes = tuple(_included(path, data)) if is_source else None
        found = FileDigest(stamp, hashlib.sha256(data).digest(), includes, now - max(stamp[1], stamp[2]) > REST)
        self.known[path] = self.changed[path] = found
        return found

    def of_sources(self, path: str) -> list[tuple[str, bytes]]:
        """A source and all that it includes: each path from the source's folder with its digest, one that is not
        there with none."""
        top = includes.folder_of(path)
        found: dict[str, bytes] = {}
        waiting, size = [path], 0
        while waiting and len(found) < source.MOST_FILES and size <= source.MOST_BYTES:
            file = waiting.pop()
            if file in found:
                continue
            known = self.of(file, is_source=True)
            found[file] = known.digest if known else b""
            size += known.stamp[0] if known else 0
            waiting += [os.path.join(top, name) for name in (known.includes or () if known else ())]
        return sorted(found.items())

    def of_tree(self, folder: str, beneath: str) -> bytes:
        """The digest of all that lies beneath a root, which is refused where it cannot be copied."""
        parts: list[bytes | str] = []
        for path in files.list_root(folder, beneath):
            known = None if path.endswith("/") else self.of(os.path.join(folder, path))
            parts += [path, known.digest if known else b""]
        return _hash(parts)


def _included(path: str, data: bytes) -> list[str]:
    """The paths of the include words of a source, as they stand there."""
    return [os.fsdecode(word[1:]) for word in source.include_words(data) if source.included_from("", word)]


class Keys:
    """The keys of tests: the hash of all that a run depends on, and the hash of what is wanted of it."""

    def __init__(self, digests: Digests, uxn: str) -> None:
        self.digests = digests
        known = digests.of(uxn)
        self.path_of_uxn = uxn
        self.uxn = known.digest if known else b""
        self.programs: dict[tuple[str, str], bytes] = {}

    def forget(self) -> None:
        self.digests.forget()
        self.programs.clear()

    def files(self, test: Test) -> list[str]:
        """All files that the run of a test depends on, and those that say what is wanted."""
        paths = [self.path_of_uxn, *(path for path, _ in self._program_files(test))]
        named = [path for path in (test.settings.symbols, test.root) if path]
        return paths + [test.full_path(part) for part in test.parts] + [os.path.join(test.folder, it) for it in named]

    def are_as_read(self, test: Test) -> bool:
        """Whether no file of a test has changed since its keys were made, so that its result is one of these keys."""
        return all(map(self.digests.is_as_read, self.files(test)))

    def _program_files(self, test: Test) -> list[tuple[str, bytes]]:
        path = os.path.join(test.folder, test.program)
        if test.is_setup:
            return self._setup_files(path, test.folder)
        if test.is_rom:
            known = self.digests.of(path)
            return [(path, known.digest if known else b"")]
        return self.digests.of_sources(path)

    def _setup_files(self, path: str, folder: str) -> list[tuple[str, bytes]]:
        """A setup, the sources of its machines, and its script."""
        known = self.digests.of(path)
        found = [(path, known.digest if known else b"")]
        for line in _lines(path):
            if len(line) == 2 and line[0] == "machine":
                found += self.digests.of_sources(os.path.join(folder, line[1]))
            elif len(line) == 2 and line[0] == "script":
                script = self.digests.of(os.path.join(folder, line[1]))
                found.append((os.path.join(folder, line[1]), script.digest if script else b""))
        return found

    def _program(self, test: Test) -> bytes:
        place = (test.folder, test.program)
        if place not in self.programs:
            parts: list[bytes | str] = []
            for path, digest in self._program_files(test):
                parts += [os.path.relpath(path, test.folder), digest]
            self.programs[place] = _hash(parts)
        return self.programs[place]

    def of_run(self, test: Test, outputs: frozenset[str]) -> bytes:
        """The hash of the program, the source with its includes or the ROM, the script, the options, and the files
        beneath the root."""
        settings = test.settings
        options = [
            test.kind,
            str(test.is_rom),
            str(settings.budget),
            settings.symbols or "",
            test.script or "",
            *sorted(outputs),
        ]
        parts: list[bytes | str] = [str(FORMAT), self.uxn, self._program(test), *options]
        paths = [test.full_path(part) for part in ("script", "commands") if test.has(part)]
        if settings.symbols:
            paths.append(os.path.join(test.folder, settings.symbols))
        for path in paths:
            known = self.digests.of(path)
            parts.append(known.digest if known else b"")
        if test.has_root:
            root = os.path.join(test.folder, test.root) if test.root else ""
            parts.append(self.digests.of_tree(root, test.folder) if os.path.lexists(root) else b"empty")
        return _hash(parts)

    def of_wanted(self, test: Test) -> bytes:
        """The hash of all that decides whether a result passes."""
        settings = test.settings
        parts: list[bytes | str] = [str(FORMAT), str((settings.ignore, settings.cuts, settings.misses, settings.strict, settings.budgets))]
        for part in WANTED:
            if part == "after" and test.has(part):
                parts += [part, self.digests.of_tree(test.full_path(part), test.folder)]
            elif test.has(part):
                known = self.digests.of(test.full_path(part))
                parts += [part, known.digest if known else b""]
        return _hash(parts)


def _lines(path: str) -> list[list[str]]:
    try:
        lines = files.read(path, files.SETUP).split(b"\n")
        return [[os.fsdecode(word) for word in line.split()] for line in lines]
    except OSError:
        return []


def packed(result: Result) -> bytes:
    """A result as bytes: a line that has the status and the length of each part, and then the parts."""
    parts, after = result.parts, result.after
    lengths = {name: len(data) for name, data in parts.items()}, None if after is None else {
        name: len(data) for name, data in after.items()
    }
    head = json.dumps([result.status, *lengths]).encode()
    return zlib.compress(b"\n".join([head, b"".join([*parts.values(), *(after or {}).values()])]), 1)


def unpacked(data: bytes) -> Result:
    """The result that was packed; a ValueError of bytes that are none."""
    head, _, rest = zlib.decompressobj().decompress(data, 2 * MOST).partition(b"\n")
    status, lengths, after_lengths = json.loads(head)
    at, found = 0, []
    for table in (lengths, after_lengths or {}):
        taken = {}
        for name, length in table.items():
            taken[name] = rest[at : at + length]
            at += length
        found.append(taken)
    if not isinstance(status, int) or not {"out", "err"} <= set(found[0]) or at > len(rest):
        raise ValueError("it is no result")
    return Result(status, found[0], None if after_lengths is None else found[1])


class Store:
    """The results and digests of a project, in a file that several calls may use at a time. Where it cannot be used
    nothing is kept."""

    def __init__(self, folder: str) -> None:
        self.folder = folder
        kept_folder(folder)
        self.base = self._open()
        self.today = int(time.time() // 86400)
        self.passed: dict[bytes, bytes] = {}
        self.used: list[bytes] = []
        self.old: set[bytes] = set()
        try:
            self.digests = self._load()
        except BAD_ROWS:
            # It was written by something else.
            self._remove()
            self.base, self.digests = self._open(), Digests({})

    def _load(self) -> Digests:
        """Reads the kept digests, and which results have passed."""
        rows = self._rows("SELECT path, stamp, digest, includes FROM files")
        known = {os.fsdecode(path): _file_digest(stamp, digest, includes) for path, stamp, digest, includes in rows}
        self.old = {key for key, used in self._rows("SELECT key, used FROM results") if used < self.today}
        self.passed.update(self._rows("SELECT key, passed FROM results WHERE passed IS NOT NULL"))
        return Digests(known)

    def _open(self) -> sqlite3.Connection | None:
        for _ in range(2):
            try:
                base = files.database(RESULTS, self.folder)
                _make_tables(base)
                return base
            except (sqlite3.DatabaseError, ValueError):
                self._remove()
            except OSError:
                return None
        return None

    def _remove(self) -> None:
        try:
            files.remove(RESULTS, self.folder)
        except OSError:
            pass

    def _rows(self, question: str, *values: object) -> list[Any]:
        try:
            return self.base.execute(question, values).fetchall() if self.base else []
        except sqlite3.DatabaseError:
            return []

    def has_passed(self, key: bytes, wanted: bytes) -> bool:
        """Whether this run has passed with just this wanted of it."""
        if self.passed.get(key) != wanted:
            return False
        if key in self.old:
            self.used.append(key)
        return True

    def result(self, key: bytes) -> Result | None:
        """The result of a run that was kept."""
        for (data,) in self._rows("SELECT data FROM results WHERE key = ? AND data IS NOT NULL", key):
            try:
                return unpacked(data)
            except (zlib.error, *BAD_ROWS):
                return None
        return None

    def keep(self, key: bytes, result: Result, passed: bytes | None) -> None:
        """Keeps a result, and what was wanted of it where it has passed."""
        if self.base is None:
            return
        size = sum(map(len, result.parts.values())) + sum(map(len, (result.after or {}).values()))
        data = packed(result) if size <= MOST else None
        self._change("INSERT OR REPLACE INTO results VALUES (?, ?, ?, ?)", [(key, passed, data, self.today)])
        if passed is not None:
            self.passed[key] = passed

    def _change(self, words: str, rows: Sequence[tuple[object, ...]]) -> None:
        try:
            if self.base and rows:
                self.base.executemany(words, rows)
        except sqlite3.DatabaseError:
            self.base = None

    def close(self) -> None:
        """Writes what is new."""
        files = [
            (
                os.fsencode(path),
                json.dumps(it.stamp),
                it.digest,
                None if it.includes is None else json.dumps(it.includes),
            )
            for path, it in self.digests.changed.items()
            if it.is_at_rest
        ]
        self._change("INSERT OR REPLACE INTO files VALUES (?, ?, ?, ?)", files)
        self._change("UPDATE results SET used = ? WHERE key = ?", [(self.today, key) for key in self.used])
        self._change("DELETE FROM results WHERE used < ?", [(self.today - DAYS,)])
        self.digests.changed.clear()
        self.used.clear()
        try:
            if self.base:
                self.base.commit()
        except sqlite3.DatabaseError:
            self.base = None


def _file_digest(stamp: str, digest: bytes, includes: str | None) -> FileDigest:
    size, modified, changed, inode = map(int, stamp.strip("[]").split(","))
    return FileDigest(
        (size, modified, changed, inode), digest, None if includes is None else tuple(json.loads(includes))
    )


def _make_tables(base: sqlite3.Connection) -> None:
    """Makes the tables where they are not there. A base with anything else, as a view in the place of a table, was
    written by something else, and is a ValueError."""
    base.execute("PRAGMA trusted_schema = OFF")
    base.execute("PRAGMA synchronous = OFF")
    for name, kind, words in base.execute("SELECT name, type, sql FROM sqlite_master WHERE sql IS NOT NULL"):
        if kind != "table" or words != f"CREATE TABLE {name} {TABLES.get(name)}":
            raise ValueError(f"{name} is no table of uxn-test")
    for name, columns in TABLES.items():
        base.execute(f"CREATE TABLE IF NOT EXISTS {name} {columns}")
