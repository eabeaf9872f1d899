"""Bugs that are planted in copies of the second programs, each by changes of a text.

bugs.json has those that the gate tries, planted.json a larger collection, degenerates.json programs that do hardly anything."""
from __future__ import annotations

import json
import os
import shutil
from dataclasses import dataclass
from typing import Any

from conform import second
from conform.cli import Failure
from conform.execute import Command


@dataclass(frozen=True)
class Change:
    file: str
    old: str
    new: str


@dataclass(frozen=True)
class Bug:
    """A bug: what it is, the texts that it changes, and where it is looked for first."""

    name: str
    about: str
    changes: tuple[Change, ...]
    level: str = ""
    kind: str = ""
    levels: tuple[str, ...] = ()

    @property
    def is_of_assembler(self) -> bool:
        return self.changes[0].file == "assembler"


def bug_of(item: dict[str, Any]) -> Bug:
    changes = item.get("changes") or [{name: item[name] for name in ("file", "old", "new")}]
    given = {name: item[name] for name in ("name", "about", "level", "kind") if name in item}
    return Bug(**given, changes=tuple(Change(**change) for change in changes), levels=tuple(item.get("levels", ())))


def read(name: str = "bugs.json") -> list[Bug]:
    with open(os.path.join(second.FOLDER, name), encoding="utf-8") as file:
        return [bug_of(item) for item in json.load(file)]


def changed(text: str, change: Change, name: str) -> str:
    if text.count(change.old) != 1:
        raise Failure(f"the bug {name} changes a text that is {text.count(change.old)} times in second/{change.file}: {change.old!r}")
    return text.replace(change.old, change.new)


def planted(bug: Bug, folder: str, built: str | None = None) -> str:
    """A copy of the second programs with the bug, and the path of the one that has it.

    `built` is a folder that has the emulator's objects as they were built without the bug.
    """
    copy = os.path.join(folder, bug.name)
    shutil.copytree(second.FOLDER, copy)
    for change in bug.changes:
        path = os.path.join(copy, change.file)
        with open(path, encoding="utf-8") as file:
            text = changed(file.read(), change, bug.name)
        with open(path, "w", encoding="utf-8") as file:
            file.write(text)
    return os.path.join(copy, "assembler") if bug.is_of_assembler else second.build_second(copy, copy, built or folder)


def command_of(bug: Bug, path: str) -> Command:
    return second.second_assembler(path) if bug.is_of_assembler else second.second_command(path)
