"""The files that tools read and write. Nothing else in the tools opens, makes, copies or deletes one.

A file is read if it is a regular one, also through a link, up to the limit of its kind: the open of a pipe does not
wait. What is written, copied as a root or deleted is reached without following a link. A path is taken apart for
that: an absolute one, and `..` at the beginning, name a folder that the user trusts; no later name may be a link.
With `beneath` that folder is trusted, and the whole path lies in it."""
from __future__ import annotations

import hashlib
import os
import shutil
import sqlite3
import stat
import tempfile
from collections.abc import Iterator
from contextlib import contextmanager, suppress
from dataclasses import dataclass, field
from typing import IO

# The other modules know all of this as parts of `files`.
from uxntools.plainfiles import (
    COMMANDS as COMMANDS,
    MADE as MADE,
    MEBIBYTE as MEBIBYTE,
    MOST_BYTES as MOST_BYTES,
    MOST_DEPTH as MOST_DEPTH,
    MOST_FILES as MOST_FILES,
    MOST_INPUT as MOST_INPUT,
    OUTPUT as OUTPUT,
    ROM as ROM,
    SCRIPT as SCRIPT,
    SETTINGS as SETTINGS,
    SETUP as SETUP,
    SOURCE as SOURCE,
    SYMBOLS as SYMBOLS,
    Kind as Kind,
    Parent as Parent,
    Refused as Refused,
    copy_file as copy_file,
    is_file as is_file,
    is_long as is_long,
    kind_of as kind_of,
    link as link,
    look_at_folder as look_at_folder,
    look_at_output as look_at_output,
    make_folder as make_folder,
    make_inner as make_inner,
    mounts_beneath as mounts_beneath,
    move as move,
    open_folder as open_folder,
    open_streams as open_streams,
    opened as opened,
    parts as parts,
    put as put,
    put_long as put_long,
    read as read,
    read_handle as read_handle,
    read_input as read_input,
    refuse_kind as refuse_kind,
    remove as remove,
    remove_folder as remove_folder,
    silence as silence,
    write as write,
)


def digest(path: str) -> bytes:
    """The digest of a file, of any size, in a folder that the tool has made for itself."""
    with open(path, "rb") as file:
        return hashlib.file_digest(file, "sha256").digest()


def read_start(path: str, count: int) -> bytes:
    """The first bytes of a regular file of any size."""
    refuse_kind(path, os.stat(path).st_mode)
    handle = os.open(path, os.O_RDONLY | os.O_NONBLOCK | os.O_CLOEXEC)
    try:
        return os.read(handle, count)
    finally:
        os.close(handle)


# Roots.


@dataclass
class Tree:
    """A root as it is walked: how many files and folders and bytes it may have, and what was found. Of a file with
    several names each has to lie in it."""

    path: str
    most_files: int = MOST_FILES
    most_bytes: int = MOST_BYTES
    most_of_file: int = OUTPUT.most
    device: int = 0
    files: int = 0
    bytes: int = 0
    named: dict[int, tuple[int, str, int]] = field(default_factory=dict)

    def begin(self, handle: int) -> None:
        self.device = os.fstat(handle).st_dev
        for inner in mounts_beneath(self.path):
            raise Refused(os.path.join(self.path, inner), "it is another file system")

    def look_at(self, path: str, found: os.stat_result) -> None:
        """Refuses what is neither a file nor a folder, what leads out, and what is too much."""
        if not stat.S_ISREG(found.st_mode) and not stat.S_ISDIR(found.st_mode):
            raise Refused(path, f"it is {kind_of(found.st_mode)}")
        if found.st_dev != self.device:
            raise Refused(path, "it is another file system")
        self.files += 1
        if self.files > self.most_files:
            raise Refused(self.path, f"it has more than {self.most_files:,} files and folders")
        if stat.S_ISREG(found.st_mode):
            self._look_at_file(path, found)

    def _look_at_file(self, path: str, found: os.stat_result) -> None:
        if found.st_size > self.most_of_file:
            raise Refused(path, f"it has more than {self.most_of_file:,} bytes")
        self.bytes += found.st_size
        if self.bytes > self.most_bytes:
            raise Refused(self.path, f"its files have more than {self.most_bytes:,} bytes together")
        if found.st_nlink > 1:
            names, first, links = self.named.get(found.st_ino, (0, path, found.st_nlink))
            self.named[found.st_ino] = names + 1, first, links

    def end(self) -> None:
        for names, first, links in self.named.values():
            if names < links:
                raise Refused(first, "the file has a second name")


def _walk(tree: Tree, handle: int, shown: str, depth: int = 0) -> Iterator[tuple[int, str, str, os.stat_result]]:
    """Each file and folder beneath an opened folder: the handle of the folder that it lies in, its name, its path
    beneath the root, and what the system says of it."""
    if depth > MOST_DEPTH:
        raise Refused(os.path.join(tree.path, shown), f"it is over {MOST_DEPTH} folders deep")
    for name in sorted(os.listdir(handle)):
        path = f"{shown}/{name}" if shown else name
        found = os.stat(name, dir_fd=handle, follow_symlinks=False)
        tree.look_at(os.path.join(tree.path, path), found)
        yield handle, name, path, found
        if stat.S_ISDIR(found.st_mode):
            inner = open_folder(name, handle, os.path.join(tree.path, path))
            try:
                yield from _walk(tree, inner, path, depth + 1)
            finally:
                os.close(inner)


def _walk_root(tree: Tree, beneath: str | None) -> Iterator[tuple[int, str, str, os.stat_result]]:
    root = tree.path if beneath is None else os.path.relpath(tree.path, beneath)
    with Parent(root, beneath) as (above, name):
        handle = open_folder(name, above, tree.path)
        try:
            tree.begin(handle)
            yield from _walk(tree, handle, "")
            tree.end()
        finally:
            os.close(handle)


def list_root(root: str, beneath: str | None = None) -> list[str]:
    """The paths of the files and folders of a root, a folder with a `/` at its end."""
    return [
        path + "/" * stat.S_ISDIR(found.st_mode) for _, _, path, found in _walk_root(_tree(root, beneath), beneath)
    ]


def _tree(root: str, beneath: str | None) -> Tree:
    """A root, with its path as the user sees it."""
    return Tree(root if beneath is None else os.path.relpath(root))


def look_at_root(tree: Tree, beneath: str | None = None) -> Tree:
    """Refuses a root that is no folder, or has what leads out of it or is too much."""
    for _ in _walk_root(tree, beneath):
        pass
    return tree


def _read_in(above: int, name: str, path: str, kind: Kind) -> bytes:
    flags = os.O_RDONLY | os.O_NOFOLLOW | os.O_NONBLOCK | os.O_NOCTTY | os.O_CLOEXEC
    try:
        handle = os.open(name, flags, dir_fd=above)
    except OSError as error:
        raise OSError(error.errno, error.strerror, path) from None
    try:
        return read_handle(handle, path, kind)
    finally:
        os.close(handle)


def copy_root(root: str, target: str, beneath: str | None = None) -> None:
    """Copies a root, which is a folder, to a new folder. What fails leaves none. `beneath` is a folder above the
    root."""
    with Parent(target, None) as (above, name):
        os.mkdir(name, dir_fd=above)
    try:
        _copy_into(root, target, beneath)
    except BaseException:
        shutil.rmtree(target, ignore_errors=True)
        raise


def _copy_into(root: str, target: str, beneath: str | None) -> None:
    kind = Kind(OUTPUT.most)
    for above, name, path, found in _walk_root(_tree(root, beneath), beneath):
        there, mode = os.path.join(target, path), stat.S_IMODE(found.st_mode) & 0o777
        if stat.S_ISDIR(found.st_mode):
            os.mkdir(there, mode | 0o700)
            continue
        data = _read_in(above, name, os.path.join(root, path), kind)
        with open(os.open(there, os.O_WRONLY | os.O_CREAT | os.O_EXCL | os.O_CLOEXEC, mode), "wb", buffering=0) as file:
            file.write(data)


def read_all(root: str, beneath: str | None = None) -> dict[str, bytes]:
    """The files of a root with their bytes, by their paths in it. One that is not there has none."""
    kind, found = Kind(OUTPUT.most), {}
    try:
        for above, name, path, status in _walk_root(_tree(root, beneath), beneath):
            if stat.S_ISREG(status.st_mode):
                found[path] = _read_in(above, name, os.path.join(root, path), kind)
    except FileNotFoundError:
        return found
    return found


# Folders and files of a tool's own.


@contextmanager
def scratch_folder(prefix: str = "uxn-", beside: str | None = None) -> Iterator[str]:
    """A folder that is gone at the end."""
    folder = tempfile.mkdtemp(prefix=prefix, dir=beside)
    try:
        yield folder
    finally:
        shutil.rmtree(folder, ignore_errors=True)


def scratch_file() -> IO[bytes]:
    """A file without a name."""
    return tempfile.TemporaryFile()


def database(path: str, beneath: str, most: int = 64 * MEBIBYTE) -> sqlite3.Connection:
    """A database of a tool's own. What lies in its place and is no regular file with one name, or is too long, is
    deleted first: a link, and not what it leads to."""
    for ending in ("", "-journal", "-wal", "-shm"):
        with Parent(path + ending, beneath) as (above, name), suppress(FileNotFoundError):
            found = os.stat(name, dir_fd=above, follow_symlinks=False)
            if not stat.S_ISREG(found.st_mode) or found.st_nlink > 1 or found.st_size > most:
                os.unlink(name, dir_fd=above)
    return sqlite3.connect(os.path.join(beneath, path), timeout=20)
