"""What a user should know of tests that a run does not say: files that no test reads, pictures that are not compared,
empty folders that git leaves out."""
from __future__ import annotations

import os
from collections.abc import Iterator, Sequence
from difflib import get_close_matches

from uxntools import script
from uxntools.testing.comparing import script_bytes, wanted_after
from uxntools.testing.discovery import FOLDERS, PARTS, Test

# Endings of what lies beside tests and is no part of them: programs, what is shown, notes, and backups.
OTHERS = frozenset("tal rom sym lst png gif mp4 wav md bak orig rej swp tmp".split())


def pictures(tests: Sequence[Test]) -> list[str]:
    """A line for each test that takes pictures and has none to compare them with."""
    return [f"{test.name}: pictures are not compared: --update records them" for test in tests if _has_shots(test)]


def _has_shots(test: Test) -> bool:
    if test.has("ppm") or not test.script or test.kind == "line":
        return False
    try:
        data = script_bytes(test)
    except OSError:
        return False
    return b"shot" in data and any(words == [b"shot"] for _, words in script.lines(data))


def unknown_files(tests: Sequence[Test]) -> list[str]:
    """A line for each file or folder whose name begins with that of a test, or that lies in its folder, and that no
    test reads."""
    return list(_unknown_files(tests))


def _unknown_files(tests: Sequence[Test]) -> Iterator[str]:
    named = {os.path.join(test.folder, path) for test in tests for path in _paths_of(test)}
    stems = {os.path.join(test.folder, test.stem): test for test in tests if not test.is_folder}
    for folder in sorted({os.path.dirname(stem) for stem in stems}):
        for entry in _entries(folder):
            stem, _, ending = entry.path.rpartition(".")
            test = stems.get(stem)
            if test and ending not in PARTS | OTHERS and not ending.endswith("~") and entry.path not in named:
                yield from _line(test, entry, ending, is_certain=entry.is_file())
    for test in (test for test in tests if test.is_folder):
        for entry in _entries(os.path.join(test.folder, test.stem)):
            if entry.name not in PARTS and "." not in entry.name:
                yield from _line(test, entry, entry.name, is_certain=False)


def _paths_of(test: Test) -> Iterator[str]:
    """Paths that `uxn-test.toml` names."""
    yield test.program
    yield from filter(None, (test.root, test.settings.symbols))


def _entries(folder: str) -> list[os.DirEntry[str]]:
    with os.scandir(folder) as scan:
        return sorted(scan, key=lambda it: it.name)


def _line(test: Test, entry: os.DirEntry[str], ending: str, is_certain: bool) -> Iterator[str]:
    """The line about a name. A folder, or a name without an ending, may be no part of the test: it needs to be like
    one."""
    near = get_close_matches(ending, FOLDERS if entry.is_dir() else PARTS.difference(FOLDERS), 1)
    if near or is_certain:
        above, dot = (test.name, "") if test.is_folder else (os.path.dirname(test.name), ".")
        hint = f": is it {dot}{near[0]}?" if near else ""
        yield f"{os.path.join(above, entry.name)}: no test reads it{hint}"


def empty_folders(test: Test, after: dict[str, bytes] | None) -> list[str]:
    """A line for each empty folder of the files beneath the root. The root itself may be empty if files are wanted
    after the run, by what was recorded or before: a test that has these alone begins with an empty root."""
    if test.root is None:
        return []
    root = os.path.join(test.folder, test.root)
    found = [path for path, folders, files in os.walk(root) if not folders and not files]
    if found == [root] and test.has("root") and (after or after is None and test.has("after") and wanted_after(test)):
        return []
    return [f"{os.path.relpath(path)} is empty, and git leaves out empty folders: put a file in it" for path in found]
