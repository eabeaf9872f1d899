"""Where the includes of a source begin: at the folder of the source, or at the include root of its project.

The nearest `uxn-test.toml` above a source that has `include-from` decides. `uxn` itself always begins at the folder of
the source. So a tool calls it over copies, each with the name that its include word has from the source's folder."""
from __future__ import annotations

import os
from collections.abc import Iterator
from functools import lru_cache
from typing import NamedTuple

from uxntools import files

SETTINGS, KEY = "uxn-test.toml", "include-from"
# How many folders and sources of a project are looked at.
MOST_FOLDERS, MOST_SOURCES = 1_000, 2_000


class Project(NamedTuple):
    """The folder whose `uxn-test.toml` sets an include root, and that root; both are absolute."""

    folder: str
    root: str


def is_beneath(path: str) -> bool:
    """Whether a path leads to what lies beneath the folder of the settings, by its names alone."""
    return not path.startswith("/") and ".." not in path.split("/") and all(sign.isprintable() for sign in path)


def fault(value: object) -> str | None:
    """Why a value cannot be that of `include-from`."""
    if not isinstance(value, str) or not value:
        return "it has to be a text"
    return None if is_beneath(value) else "it has to be a path beneath this folder"


@lru_cache(maxsize=256)
def _setting(path: str, _stamp: tuple[int, int, int]) -> str | None:
    """The include root that a file sets. The stamp makes a changed file be read again. A faulty file sets none here;
    `uxn-test` says its fault."""
    import tomllib  # it is slow to load, and few calls need it

    try:
        value = tomllib.loads(files.read(path, files.SETTINGS).decode()).get(KEY)
    except (OSError, ValueError, RecursionError):
        return None
    return value if isinstance(value, str) and fault(value) is None else None


def project_of(folder: str) -> Project | None:
    """The nearest project at or above a folder that sets an include root."""
    folder = os.path.abspath(folder)
    while True:
        path = os.path.join(folder, SETTINGS)
        if files.is_file(path):
            found = os.stat(path)
            value = _setting(path, (found.st_size, found.st_mtime_ns, found.st_ino))
            if value is not None:
                return Project(folder, os.path.normpath(os.path.join(folder, value)))
        above = os.path.dirname(folder)
        if above == folder:
            return None
        folder = above


def folder_of(path: str) -> str:
    """The folder at which the includes of a source begin. It is relative where the source's path is."""
    own = os.path.dirname(path)
    project = project_of(own)
    if project is None or project.root == os.path.abspath(own):
        return own
    if os.path.isabs(path):
        return project.root
    found = os.path.relpath(project.root)
    return "" if found == "." else found


def is_moved(path: str) -> bool:
    """Whether the includes of a source begin at another folder than its own."""
    return folder_of(path) != os.path.dirname(path)


def name_of(path: str, inner: str) -> str:
    """The name by which a source includes a file, as its include word has it."""
    return inner[len(os.path.join(folder_of(path), "")) :]


def sources_of(project: Project) -> Iterator[str]:
    """The sources of a project, by absolute paths; hidden folders are left out."""
    count = 0
    for number, (folder, folders, names) in enumerate(os.walk(project.folder)):
        folders[:] = sorted(name for name in folders if not name.startswith("."))
        for name in sorted(names):
            if name.endswith(".tal") and files.is_file(os.path.join(folder, name)):
                yield os.path.join(folder, name)
                count += 1
        if number >= MOST_FOLDERS or count >= MOST_SOURCES:
            return
