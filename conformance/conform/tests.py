"""The tests of the suite, and its manifest."""
from __future__ import annotations

import json
import os
from dataclasses import asdict, dataclass, field
from typing import Any

from conform.cli import Failure

TOP = os.path.dirname(os.path.dirname(os.path.realpath(__file__)))
SUITE = os.path.join(TOP, "suite")
LEVELS = (
    "processor",
    "console",
    "screen",
    "audio",
    "controller",
    "mouse",
    "files",
    "datetime",
    "assembler",
    "disassembler",
    "programs",
)
DEVICES = ("system", "console", "screen", "audio", "controller", "mouse", "file", "datetime")
# Faults of an assembler on which the public reference says nothing.
PROFILE_KINDS = (
    "LongSource LongWord MacroDeep ManyWords StrayParen IncludePath IncludeDeep IncludeMany IncludeLong "
    "IncludeLongText"
).split()
# The files of a folder: the bytes of each in hexadecimal, perhaps with how often they stand there (`20*1000`); None
# for a folder.
Tree = dict[str, str | None]
# An event is a list: its name and its words.
Event = list[Any]


@dataclass
class Want:
    """What a run has to give; what is None is not looked at. Names are those of files of the suite."""

    out: str | None = None
    err: str | None = None
    status: int | None = None
    after: Tree | None = None
    frames: str | None = None
    samples: str | None = None
    rom: str | None = None
    symbols: str | None = None
    # The text that a disassembler prints.
    text: str | None = None
    # Of a source that is refused: the kind of its fault, and what `uxn` says of it: the place, the kind and the word.
    refused: str | None = None
    fault: str | None = None
    # The word that the error output has to name.
    names: str | None = None


@dataclass
class Twin:
    """A refused source with its fault repaired: it has to assemble, so that no refusal of all sources passes."""

    source: str
    rom: str
    files: Tree | None = None


@dataclass
class Test:
    """A test: what it shows, what goes in and what has to come out."""

    name: str
    shows: str
    reference: str
    level: str
    source: str
    devices: list[str] = field(default_factory=list)
    profile: bool = False
    rom: str | None = None
    files: Tree | None = None
    args: list[str] = field(default_factory=list)
    stdin: str | None = None
    events: list[Event] | None = None
    lines: str | list[int] | None = None
    # The path of a source in the folder of its run, where that is not the name of its file.
    place: str | None = None
    twin: Twin | None = None
    # Whether a test whose events are only the clock and the last picture is the same by its standard input, which ends.
    plain: bool = False
    # Why a program does not end itself by a write of the state.
    endless: str | None = None
    want: Want = field(default_factory=Want)

    @property
    def kind(self) -> str:
        """What runs the test."""
        return self.level if self.level in ("assembler", "disassembler") else "emulator"

    @property
    def is_of_assembler(self) -> bool:
        return self.kind == "assembler"

    @property
    def has_one_picture(self) -> bool:
        """Whether its only picture is that of the end."""
        events = self.events or []
        return bool(events) and events[-1] == ["shot"] and events.count(["shot"]) == 1

    @property
    def needs_events(self) -> bool:
        """Whether it has events beside the clock at the start and the picture at the end, or is not the same without."""
        return self.events is not None and not self.plain

    @property
    def has_few_events(self) -> bool:
        """Whether its events are only the clock at the start and the picture at the end."""
        rest = [event for event in self.events or [] if event[0] != "clock"]
        return not (rest[:-1] if self.has_one_picture else rest)


def test_of(item: dict[str, Any]) -> Test:
    values: dict[str, Any] = {**item, "want": Want(**item["want"])}
    if "twin" in item:
        values["twin"] = Twin(**item["twin"])
    return Test(**values)


def as_item(test: Test) -> dict[str, Any]:
    """The test as the manifest has it: without what is empty."""
    item = {
        name: value
        for name, value in asdict(test).items()
        if value not in (None, "", False) and (value != [] or name == "events")
    }
    for name in ("want", "twin"):
        if name in item:
            item[name] = {key: value for key, value in item[name].items() if value is not None}
    return item


def driver() -> str:
    """The source that runs the cases of the processor's tests."""
    with open(os.path.join(TOP, "sources", "driver.tal"), encoding="utf-8") as file:
        return file.read()


def version() -> str:
    """The version of the suite."""
    with open(os.path.join(TOP, "VERSION"), encoding="ascii") as file:
        return file.read().strip()


def read(folder: str = SUITE) -> list[Test]:
    """The tests of a folder's manifest."""
    path = os.path.join(folder, "manifest.json")
    try:
        with open(path, encoding="utf-8") as file:
            items = json.load(file)["tests"]
        return [test_of(item) for item in items]
    except FileNotFoundError:
        raise Failure(f"there is no manifest {path}", 2) from None
    except (ValueError, KeyError, TypeError) as error:
        raise Failure(f"the manifest {path} is not right: {error}", 2) from None


def write(tests: list[Test], folder: str) -> None:
    """Writes the manifest: a test a line, so that a change shows which."""
    lines = ",\n".join(json.dumps(as_item(test), ensure_ascii=False) for test in tests)
    with open(os.path.join(folder, "manifest.json"), "w", encoding="utf-8") as file:
        file.write(f'{{"version": "{version()}", "tests": [\n{lines}\n]}}\n')


def bytes_of(folder: str, name: str | None) -> bytes:
    """The bytes of a file of the suite; none where it has no name."""
    if name is None:
        return b""
    with open(os.path.join(folder, name), "rb") as file:
        return file.read()


def tree_of(folder: str) -> Tree:
    """What lies in a folder."""
    found: Tree = {}
    for place, folders, names in os.walk(folder):
        for name in folders:
            found[os.path.relpath(os.path.join(place, name), folder)] = None
        for name in names:
            path = os.path.join(place, name)
            with open(path, "rb") as file:
                found[os.path.relpath(path, folder)] = file.read().hex()
    return dict(sorted(found.items()))


def text_of_events(events: list[Event]) -> str:
    return json.dumps(events)


def unpacked(data: str) -> bytes:
    """The bytes of a file of a tree."""
    digits, _, count = data.partition("*")
    return bytes.fromhex(digits) * int(count or 1)


def make_tree(tree: Tree, folder: str) -> None:
    """Puts files and folders into a folder."""
    for path, data in tree.items():
        place = os.path.join(folder, path)
        os.makedirs(os.path.dirname(place) if data is not None else place, exist_ok=True)
        if data is not None:
            with open(place, "wb") as file:
                file.write(unpacked(data))
