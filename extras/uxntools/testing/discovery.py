"""Finding tests: the projects beneath a folder, and in each the files that belong to one test."""
from __future__ import annotations

import os
from collections.abc import Iterable, Iterator, Sequence
from dataclasses import dataclass, replace
from fnmatch import fnmatchcase
from functools import cached_property

from uxntools.cli import Failure
from uxntools.testing import configuration, tables
from uxntools.testing.configuration import Configuration, Settings

# What a test is made of: what starts it, what is wanted of it, and the folder of its files.
STARTS = ("script", "setup", "commands")
WANTED = ("out", "err", "status", "ppm", "samples", "report", "log", "after")
PARTS = frozenset((*STARTS, *WANTED, "root", "table"))
FOLDERS = ("root", "after")
# What the folder of these tools has, wherever a copy of it lies: its own tests are none of the user's.
OF_TOOLS = os.path.join("uxntools", "testing", "discovery.py")
# How deep the folders lie that are looked into.
MOST_DEPTH = 64


@dataclass(frozen=True)
class Test:
    """A test: its name as the user writes it, the folder of its calls, and the path of its files in that folder
    without their endings. Of a row of a table also where the row stands."""

    name: str
    folder: str
    stem: str
    parts: frozenset[str]
    settings: Settings
    is_folder: bool = False
    row: str = ""

    def path(self, part: str) -> str:
        """The path of a part, relative to the folder of the calls."""
        return f"{self.stem}/{part}" if self.is_folder else f"{self.stem}.{part}"

    def full_path(self, part: str) -> str:
        return f"{self.folder}/{self.path(part)}"

    def has(self, part: str) -> bool:
        return part in self.parts

    @cached_property
    def program(self) -> str:
        """The source, the ROM or the setup."""
        if self.has("setup"):
            return self.path("setup")
        program = self.settings.program
        if program is None:
            raise Failure(
                f"{self.name}: no program: name it in {configuration.NAME}, or have one source beside the folder tests",
                2,
            )
        return program.replace("*", os.path.basename(self.stem))

    @cached_property
    def is_setup(self) -> bool:
        return self.has("setup") or self.program.endswith(".setup")

    @property
    def kind(self) -> str:
        """The command of `uxn` that runs it."""
        if self.is_setup:
            return "line"
        return "debug" if self.has("commands") else "play"

    @cached_property
    def is_rom(self) -> bool:
        rom = self.settings.rom
        return self.program.endswith(".rom") if rom is None else rom

    @property
    def script(self) -> str | None:
        return self.path("script") if self.has("script") and not self.has("setup") else None

    @property
    def root(self) -> str | None:
        """The files of the program before the run."""
        if self.has("root"):
            return self.path("root")
        return self.settings.root

    @property
    def has_root(self) -> bool:
        return self.root is not None or self.has("after")


@dataclass(frozen=True)
class Project:
    """A folder with a program and its tests, and where in it these lie."""

    folder: str
    shown: str
    configuration: Configuration
    places: tuple[str, ...]


def _source_names(folder: str) -> list[str]:
    return sorted(entry.name for entry in os.scandir(folder) if entry.name.endswith(".tal") and entry.is_file())


def _has_tests(folder: str) -> bool:
    return os.path.isdir(folder) and not os.path.islink(folder) and next(_file_sets(folder, "tests", may_be_test=False), None) is not None


def project_at(folder: str, shown: str) -> Project | None:
    """The project that a folder is: by its file `uxn-test.toml`, or by one source beside a folder `tests`."""
    path = os.path.join(folder, configuration.NAME)
    if os.path.isfile(path):
        found = configuration.read(os.path.normpath(os.path.join(shown, configuration.NAME)))
        places = tuple(sorted(found.folders)) or ("tests",)
        return Project(folder, shown, _with_sole_source(found, folder), places)
    if not _has_tests(os.path.join(folder, "tests")):
        return None
    sources = _source_names(folder)
    if len(sources) != 1:
        count = (
            "no source"
            if not sources
            else f"{len(sources)} sources ({', '.join(sources[:3])}{', ..' if len(sources) > 3 else ''})"
        )
        raise Failure(
            f"{os.path.normpath(shown)}: {count} beside the folder tests: name the program in {configuration.NAME}", 2
        )
    return Project(folder, shown, Configuration({"program": sources[0]}), ("tests",))


def _with_sole_source(found: Configuration, folder: str) -> Configuration:
    """The configuration with the folder's only source as the program of tests that name none."""
    sources = _source_names(folder)
    if "program" in found.everywhere or len(sources) != 1:
        return found
    return replace(found, everywhere={"program": sources[0], **found.everywhere})


def _is_looked_into(entry: os.DirEntry[str]) -> bool:
    is_of_test = entry.name.endswith((".root", ".after"))
    if not entry.is_dir(follow_symlinks=False) or entry.name.startswith(".") or is_of_test:
        return False
    return not os.path.exists(os.path.join(entry.path, OF_TOOLS))


def _project_above(folder: str, shown: str) -> Project | None:
    """The nearest project of a folder above this one; one without `uxn-test.toml` where this folder lies in its
    folder `tests`."""
    below = ""
    while (above := os.path.dirname(folder)) != folder:
        folder, shown, below = above, os.path.join(shown, ".."), os.path.basename(folder)
        has_file = os.path.isfile(os.path.join(folder, configuration.NAME))
        if has_file or below == "tests" and _has_tests(os.path.join(folder, "tests")):
            return project_at(folder, shown)
    return None


def _refuse_depth(shown: str, depth: int) -> None:
    if depth > MOST_DEPTH:
        raise Failure(f"{shown}: it is over {MOST_DEPTH} folders deep", 2)


def _projects_beneath(folder: str, shown: str, depth: int = 0) -> Iterator[Project]:
    _refuse_depth(shown, depth)
    found = project_at(folder, shown)
    if found:
        yield found
    for entry in sorted(os.scandir(folder), key=lambda it: it.name):
        is_tests = found and entry.name in found.places
        if _is_looked_into(entry) and not is_tests:
            yield from _projects_beneath(entry.path, os.path.join(shown, entry.name), depth + 1)


def _split(entry: os.DirEntry[str]) -> tuple[str, str] | None:
    """The name of the test that a file or folder belongs to, and the part of it that it is."""
    name, dot, part = entry.name.rpartition(".")
    if not dot or not name or part not in PARTS:
        return None
    if entry.is_dir() != (part in FOLDERS):
        raise Failure(f"{os.path.relpath(entry.path)}: it has to be a {'folder' if part in FOLDERS else 'file'}", 2)
    return name, part


def _bare_parts(entries: Iterable[os.DirEntry[str]]) -> frozenset[str]:
    return frozenset(
        entry.name for entry in entries if entry.name in PARTS and entry.is_dir() == (entry.name in FOLDERS)
    )


def _file_sets(
    folder: str, place: str, may_be_test: bool = True, depth: int = 0
) -> Iterator[tuple[str, frozenset[str], bool]]:
    """The tests of a folder and of those beneath it: each with the path of its files, its parts, and whether it is a
    folder of its own, as the folder itself may be one."""
    _refuse_depth(place, depth)
    with os.scandir(folder) as scan:
        entries = sorted(scan, key=lambda it: it.name)
    bare = _bare_parts(entries)
    is_test = may_be_test and not bare <= set(FOLDERS)
    if is_test:
        yield place, bare, True
    found: dict[str, set[str]] = {}
    for entry in entries:
        split = _split(entry)
        if split:
            found.setdefault(split[0], set()).add(split[1])
    prefix = "" if place == "." else place + "/"
    for name, parts in found.items():
        if parts - {"root"}:
            yield prefix + name, frozenset(parts), False
    for entry in entries:
        is_part = is_test and entry.name in FOLDERS
        is_project = os.path.exists(os.path.join(entry.path, configuration.NAME))
        if _is_looked_into(entry) and not is_part and not is_project:
            yield from _file_sets(entry.path, prefix + entry.name, depth=depth + 1)


def _is_folder_of(folder: str, place: str) -> bool:
    """Whether a path leads to a folder beneath another one without following a link."""
    parts = place.split("/")
    paths = [os.path.join(folder, *parts[: count + 1]) for count in range(len(parts))]
    return os.path.isdir(paths[-1]) and not any(map(os.path.islink, paths))


def _sets_of_place(project: Project, place: str) -> list[tuple[str, frozenset[str], bool]]:
    """The tests of a place of a project. The place itself is one if `uxn-test.toml` names it and it has no others, so
    that a file `log` or `out` that lies about in a folder of tests makes no test of that folder."""
    folder = os.path.join(project.folder, place)
    if not _is_folder_of(project.folder, place):
        raise Failure(f"{os.path.normpath(os.path.join(project.shown, place))}: it is no folder of tests", 2)
    beneath = list(_file_sets(folder, place, may_be_test=False))
    of_test = tuple(f"{place}/{part}/" for part in FOLDERS)
    is_named = place != "." and place in project.configuration.folders
    if is_named and all(stem.startswith(of_test) for stem, _, _ in beneath):
        return list(_file_sets(folder, place))
    return beneath


def _tests_of(project: Project) -> Iterator[Test]:
    settings: dict[str, Settings] = {}
    stems: set[str] = set()
    for place in project.places:
        for stem, parts, is_folder in _sets_of_place(project, place):
            if stem in stems:
                continue
            stems.add(stem)
            above = os.path.dirname(stem) or "."
            if above not in settings:
                settings[above] = project.configuration.of_folder(above)
            own = project.configuration.tests.get(stem)
            merged = settings[above].merged(own) if own else settings[above]
            name = os.path.normpath(os.path.join(project.shown, stem))
            if "table" in parts and not is_folder:
                yield from _rows(project, stem, name, merged, parts)
            else:
                yield Test(name, project.folder, stem, parts, merged, is_folder)
    _refuse_unknown(project, stems)


def _rows(project: Project, stem: str, name: str, settings: Settings, parts: frozenset[str]) -> Iterator[Test]:
    """The tests of a table; `.root` beside it is that of each row."""
    shown = f"{name}.table"
    if parts - {"table", "root"}:
        raise Failure(f"{shown}: beside a table is nothing but its files .root", 2)
    if "root" in parts:
        settings = replace(settings, root=f"{stem}.root")
    for row, path in tables.made(project.folder, stem, shown):
        row_parts = frozenset(row.parts)
        yield Test(f"{name}:{row.name}", project.folder, path, row_parts, settings, row=f"{shown}:{row.line}")


def _refuse_unknown(project: Project, stems: set[str]) -> None:
    for name in project.configuration.tests:
        if name not in stems:
            raise Failure(
                f"{os.path.normpath(os.path.join(project.shown, configuration.NAME))}: test {name}: there is no "
                f"such test",
                2,
            )


def _tests_beneath(folder: str) -> list[Test]:
    """The tests of a folder: those of the project that it lies in, as far as they are beneath it, and those of the
    projects beneath it."""
    path = os.path.abspath(folder)
    found = {
        os.path.join(test.folder, test.stem): test
        for project in _projects_beneath(path, folder)
        for test in _tests_of(project)
    }
    above = None if os.path.isfile(os.path.join(path, configuration.NAME)) else _project_above(path, folder)
    if above:
        inner = (
            test
            for test in _tests_of(above)
            if _is_beneath(test, path)
        )
        found = {**{os.path.join(test.folder, test.stem): _renamed(test) for test in inner}, **found}
    return list(found.values())


def _is_beneath(test: Test, folder: str) -> bool:
    """Whether a test, or the table that it is a row of, lies beneath a folder."""
    stem = os.path.join(test.folder, test.stem) if not test.row else os.path.abspath(test.name)
    return os.path.join(stem, "").startswith(os.path.join(folder, ""))


def _renamed(test: Test) -> Test:
    """A test that was found from a folder above, with its name as seen from the current one."""
    if test.row:
        return replace(test, name=os.path.relpath(test.name), row=os.path.relpath(test.row))
    return replace(test, name=os.path.relpath(os.path.join(test.folder, test.stem)))


def _names(test: Test, name: str) -> bool:
    """Whether a name of the command line means a test: its path, that of one of its files, its last part, a folder
    above it, the table that it is a row of, its program, or a pattern."""
    path = os.path.normpath(name)
    last = os.path.basename(test.name)
    if test.row and _names_row(test, name.removesuffix(".table"), last):
        return True
    if name.endswith((".tal", ".rom", ".setup")) and _is_program(test, path):
        return True
    stem, dot, part = path.rpartition(".")
    if path in (test.name, last) or test.name.startswith(path + "/"):
        return True
    return (
        bool(dot)
        and part in test.parts
        and stem == test.name
        or fnmatchcase(test.name, name)
        or fnmatchcase(last, name)
    )


def _names_row(test: Test, name: str, last: str) -> bool:
    """Whether a name means a row: by its table or by its own name."""
    table, _, row = last.rpartition(":")
    return name in (test.name.rpartition(":")[0], table, row)


def _is_program(test: Test, path: str) -> bool:
    """Whether a path is that of a test's program."""
    if test.settings.program is None and not test.has("setup"):
        return False
    return os.path.realpath(os.path.join(test.folder, test.program)) == os.path.realpath(path)


def discover(names: Sequence[str] = ()) -> list[Test]:
    """The tests that are named, in order of their names: by folders, by paths or last parts of tests, by patterns;
    without names those of the current folder and of all beneath it. A name that means no test is a failure."""
    found: dict[str, Test] = {}
    beneath: dict[str, list[Test]] = {}
    for name in names or ["."]:
        is_folder = os.path.isdir(name)
        above = os.path.dirname(os.path.normpath(name))
        folder = name if is_folder else above if os.path.isdir(above) else "."
        if folder not in beneath:
            beneath[folder] = _tests_beneath(folder)
        chosen = [test for test in beneath[folder] if is_folder or _names(test, name)]
        if not chosen:
            raise Failure(f"{name}: no tests" if is_folder else f"{name}: there is no such test", 1 if is_folder else 2)
        found.update((test.name, test) for test in chosen)
    return [found[name] for name in sorted(found)]
