"""What the definitions of `uxn` have, which tools/facts writes into facts.json: instructions, ports, runes, commands, options, limits,
lines of text formats and kinds of faults."""
from __future__ import annotations

import json
import pkgutil
import re
from dataclasses import dataclass
from typing import Any

_data = pkgutil.get_data("uxntools", "facts.json")
if _data is None:
    raise FileNotFoundError("uxntools/facts.json")
_FACTS: dict[str, Any] = json.loads(_data)
_LINK = re.compile(r"\[([^]]*)\]\([^)]*\)")


def plain(text: str) -> str:
    """A text of a page without its links and code."""
    return _LINK.sub(r"\1", text).replace("`", "")


@dataclass(frozen=True)
class Item:
    """What an operation takes from a stack or pushes on one: its name, and its width in bytes, or 0 where the mode chooses it."""

    name: str
    width: int

    def size(self, is_short: bool) -> int:
        return self.width or 1 + is_short

    def text(self, is_short: bool) -> str:
        """The name as comments of sources have it, with a star for a short."""
        return self.name + "*" * (self.size(is_short) == 2)


@dataclass(frozen=True)
class Operation:
    """A row of the table. `other` is pushed on the other stack: the return stack, or the working stack in return mode."""

    code: int
    name: str
    takes: tuple[Item, ...]
    pushes: tuple[Item, ...]
    other: tuple[Item, ...]
    does: str


@dataclass(frozen=True)
class Port:
    """A port: its address, its width in bytes (2 for a short, which begins there), its device and its name, and what it is for."""

    address: int
    width: int
    device: str
    name: str
    means: str

    @property
    def is_vector(self) -> bool:
        """Whether a vector that runs is there: those of the system and of the files only store."""
        return self.address in VECTORS

    def text(self) -> str:
        return f"port {self.address:02x}{'*' * (self.width == 2)}, {self.device}/{self.name}: {self.means}"


@dataclass(frozen=True)
class Command:
    """A command: the sign of its operand and what that is, its options in the order of the usage line, and those that it needs, reads
    and writes."""

    name: str
    operand: str
    word: str
    options: tuple[str, ...]
    needed: tuple[str, ...]
    inputs: tuple[str, ...]
    outputs: tuple[str, ...]
    usage: str


@dataclass(frozen=True)
class Limits:
    """The numbers of limits that tools use."""

    text: int
    word: int
    words: int
    macro_depth: int
    included_files: int
    include_depth: int
    rom: int
    rom_of_dis: int
    symbols: int
    events: int
    machines: int
    turns: int
    commands: int
    back: int
    printed: int
    budget: int
    usual_budget: int
    routines: int


def _items(rows: list[dict[str, Any]]) -> tuple[Item, ...]:
    return tuple(Item(row["name"], row["width"]) for row in rows)


def _operations() -> dict[str, Operation]:
    return {
        row["name"]: Operation(
            row["code"], row["name"], _items(row["takes"]), _items(row["pushes"]), _items(row["other"]), plain(row["does"])
        )
        for row in _FACTS["operations"]
    }


def _ports() -> list[Port]:
    return [
        Port(row["address"], row["width"], device["name"], row["name"], plain(row["means"]))
        for device in _FACTS["devices"]
        for row in device["ports"]
    ]


def _commands() -> dict[str, Command]:
    return {row["name"]: _command(row) for row in _FACTS["commands"]}


def _command(row: dict[str, Any]) -> Command:
    return Command(
        name=row["name"],
        operand=row["operand"],
        word=row["is"],
        options=tuple(row["options"]),
        needed=tuple(row["needed"]),
        inputs=tuple(row["inputs"]),
        outputs=tuple(row["outputs"]),
        usage=row["usage"],
    )


def _forms(section: str) -> dict[str, str]:
    """The form of each line, by its first word."""
    return {
        name: row["values"].replace("NAME", name) for row in _FACTS[section] if "values" in row for name in row["names"]
    }


def _limits() -> Limits:
    of: dict[str, int] = _FACTS["limits"]
    return Limits(
        text=of["TEXT_LIMIT"],
        word=of["WORD_LIMIT"],
        words=of["VISIT_LIMIT"],
        macro_depth=of["MACRO_DEPTH"],
        included_files=of["INCLUDED_FILES"],
        include_depth=of["INCLUDE_DEPTH"],
        rom=of["LARGEST_ROM"],
        rom_of_dis=of["BANK_ROM_LIMIT"],
        symbols=of["SYMBOLS_LIMIT"],
        events=of["MOST_EVENTS"],
        machines=of["MOST_MACHINES"],
        turns=of["MOST_TURNS"],
        commands=of["MOST_COMMANDS"],
        back=of["MOST_MOMENTS"],
        printed=of["MOST_PRINTED"],
        budget=of["GREATEST_BUDGET"],
        usual_budget=of["USUAL_BUDGET"],
        routines=of["MOST_ROUTINES"],
    )


LIMITS = _limits()
OPERATIONS = _operations()
DEVICES: dict[str, int] = {device["name"]: device["first"] for device in _FACTS["devices"]}
VECTORS: frozenset[int] = frozenset(_FACTS["vectors"])
# The ports by which devices change memory: the low bytes of the system's expansion, and of a file's stat and read.
MEMORY_PORTS: frozenset[int] = frozenset(_FACTS["memory_ports"])
PORTS = _ports()
# How many bytes a reference has, by its rune; and one without a rune, which is a call.
RUNES: dict[str, int] = {row["sign"]: row["size"] for row in _FACTS["runes"]}
CALL_SIZE: int = _FACTS["call_size"]
# The signs that begin no name.
RESERVED: str = _FACTS["reserved"]
COMMANDS = _commands()
SWITCHES = frozenset(row["name"] for row in _FACTS["options"] if row["kind"] == "switch")
NUMBERS = frozenset(row["name"] for row in _FACTS["options"] if row["kind"] == "number")
# The statuses of refusals, and of calls that stop early.
REFUSED = tuple(sorted({row["number"] for row in _FACTS["statuses"] if row["line"]}))
STOPPED_EARLY = tuple(sorted({row["number"] for row in _FACTS["statuses"] if not row["line"]}))
SCRIPT, SETUP, DEBUGGER = _forms("script"), _forms("setup"), _forms("debugger")
BUTTONS: dict[str, int] = _FACTS["buttons"]
# What each kind of fault means, by what has it: source, include, script, setup, commands or symbols.
KINDS: dict[str, dict[str, str]] = {
    section: {kind: plain(means) for kind, means in rows.items()} for section, rows in _FACTS["kinds"].items()
}
