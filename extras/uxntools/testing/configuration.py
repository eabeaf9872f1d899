"""The file `uxn-test.toml`: which program the tests of a folder try, and with which options."""
from __future__ import annotations

import os
import tomllib
from dataclasses import dataclass, field, fields, replace

from uxntools import files, includes
from uxntools.includes import is_beneath
from uxntools.cli import Failure
from uxntools.vectors import KINDS

NAME = includes.SETTINGS
OUTPUTS = ("out", "err")


@dataclass(frozen=True)
class Settings:
    """What `uxn-test.toml` says of a folder of tests, or of a test."""

    program: str | None = None
    rom: bool | None = None
    budget: int | None = None
    root: str | None = None
    symbols: str | None = None
    ignore: tuple[str, ...] = ()
    cuts: int | None = None
    misses: int = 0
    strict: bool = False
    tags: tuple[str, ...] = ()
    skip: str | None = None
    fails: str | None = None
    reset: int | None = None
    console: int | None = None
    frame: int | None = None
    audio: int | None = None
    controller: int | None = None
    mouse: int | None = None

    @property
    def budgets(self) -> dict[str, int]:
        """The most instructions of vectors, by their kinds, where they are set."""
        found = {kind: getattr(self, kind) for kind in KINDS}
        return {kind: count for kind, count in found.items() if count is not None}

    def merged(self, table: dict[str, object]) -> Settings:
        """These settings with those of a table in their place."""
        return replace(self, **table)


KEYS = {it.name for it in fields(Settings)}
TEXTS = {"program", "root", "symbols"}
COUNTS = {"budget": 1, "cuts": 0, "misses": 0, **dict.fromkeys(KINDS, 1)}
SWITCHES = {"rom", "strict"}
REASONS = {"skip", "fails"}


@dataclass(frozen=True)
class Configuration:
    """A whole file: the settings of all tests, those of folders, and those of single tests, by their paths."""

    everywhere: dict[str, object] = field(default_factory=dict)
    folders: dict[str, dict[str, object]] = field(default_factory=dict)
    tests: dict[str, dict[str, object]] = field(default_factory=dict)

    def of_folder(self, folder: str) -> Settings:
        """The settings of a folder of tests: each by the nearest table of it or of a folder above it."""
        settings = Settings().merged(self.everywhere)
        for path in sorted(self.folders, key=len):
            if path == "." or folder == path or folder.startswith(path + "/"):
                settings = settings.merged(self.folders[path])
        return settings


def _checked(table: object, where: str) -> dict[str, object]:
    """A table of settings, each of its kind; a fault is a failure with one line."""
    if not isinstance(table, dict):
        raise Failure(f"{where}: it is no table", 2)
    for name, value in table.items():
        fault = _fault(name, value)
        if fault:
            raise Failure(f"{where}: {name}: {fault}", 2)
    return {name: tuple(value) if isinstance(value, list) else value for name, value in table.items()}


def _fault(name: str, value: object) -> str | None:
    if name not in KEYS:
        return f"there is no such setting; there are {', '.join(sorted(KEYS))}"
    if name in REASONS and not (isinstance(value, str) and value.strip()):
        return "it has to be a reason"
    if name == "tags" and not (isinstance(value, list) and all(isinstance(it, str) and it for it in value)):
        return "it has to be a list of texts"
    if name in TEXTS and not (isinstance(value, str) and value):
        return "it has to be a text"
    if name in TEXTS and not is_beneath(str(value)):
        return "it has to be a path beneath this folder"
    if name in COUNTS and not (isinstance(value, int) and not isinstance(value, bool) and value >= COUNTS[name]):
        return f"it has to be a number from {COUNTS[name]} on"
    if name in SWITCHES and not isinstance(value, bool):
        return "it has to be true or false"
    if name == "ignore" and not (isinstance(value, list) and all(it in OUTPUTS for it in value)):
        return 'it has to be a list of "out" and "err"'
    return None


def _tables(data: object, kind: str, path: str) -> dict[str, dict[str, object]]:
    if not isinstance(data, dict):
        raise Failure(f"{path}: {kind}: write [{kind}.NAME]", 2)
    for name in data:
        if not is_beneath(name):
            raise Failure(f"{path}: {kind} {name}: it has to be a path beneath this folder", 2)
    return {os.path.normpath(name): _checked(table, f"{path}: {kind} {name}") for name, table in data.items()}


def read(path: str) -> Configuration:
    """The configuration that a file holds."""
    try:
        data = tomllib.loads(files.read(path, files.SETTINGS).decode())
    except ValueError as error:
        raise Failure(f"{path}: {error}", 2) from None
    except RecursionError:
        raise Failure(f"{path}: it is nested too deeply", 2) from None
    if fault := includes.fault(data.pop(includes.KEY, ".")):
        raise Failure(f"{path}: {includes.KEY}: {fault}", 2)
    folders, tests = _tables(data.pop("folder", {}), "folder", path), _tables(data.pop("test", {}), "test", path)
    return Configuration(_checked(data, path), folders, tests)
