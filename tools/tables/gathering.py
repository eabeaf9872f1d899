"""The facts: what the definitions have, joined with the words for it."""
from __future__ import annotations

import re
import tomllib
from collections.abc import Iterable
from pathlib import Path
from typing import Any

from tables.definitions import Definitions, Line, NotRead

WORDING = "tools/tables/wording.toml"
Json = dict[str, Any]
# What only the order of the pages has: the definition that names the kinds of each kind of text.
KINDS = {
    "source": ("tal_words/Faults", "kind_name"),
    "include": ("tal_include/Includes", "include_kind_name"),
    "script": ("text_lines/ScriptKinds", "script_kind_name"),
    "setup": ("text_lines/SetupKinds", "setup_kind_name"),
    "commands": ("uxn_debugger/CommandKinds", "command_kind_name"),
    "symbols": ("tal_symbols/Answers", "symbol_kind_name"),
}
# The jumps by a distance have no row in the table of operations: the widths of what they take and push.
TEST_OF_JCI, ADDRESS_OF_JSI = 1, 2


def must_agree(defined: Iterable[object], worded: Iterable[object], what: str) -> None:
    """Refuses a definition without a row of words, and a row without a definition."""
    missing, extra = set(defined) - set(worded), set(worded) - set(defined)
    if missing:
        raise NotRead(f"{WORDING}: no row for {what} {sorted(map(str, missing))}")
    if extra:
        raise NotRead(f"{WORDING}: no definition has {what} {sorted(map(str, extra))}")


class Gathering:
    """The facts of a repository, part by part."""

    def __init__(self, top: Path) -> None:
        self.of = Definitions(top)
        self.words: Json = tomllib.loads((top / WORDING).read_text(encoding="utf-8"))

    def facts(self) -> Json:
        return {
            "operations": self.operations(),
            "devices": self.devices(),
            "memory_ports": self.of.memory_ports(),
            "vectors": self.of.vectors(),
            "runes": [{"sign": sign, "name": name, "size": size} for sign, name, size in self.of.runes()],
            "call_size": self.of.size_of_reference("Jsi"),
            "reserved": self.of.reserved(),
            "commands": self.commands(),
            "options": self.options(),
            "statuses": self.statuses(),
            "limits": self.of.limits,
            "rows_of_limits": [[self.filled(cell) for cell in row] for row in self.words["limits"]["rows"]],
            "script": self.lines("script", self.script_lines()),
            "setup": self.lines("setup", [(1, line) for line in self.of.lines("text_lines/SetupLines", "setup_rows")]),
            "debugger": self.lines("debugger", [(1, line) for line in self.of.lines("uxn_debugger/CommandLines", "command_rows")]),
            "buttons": self.of.buttons(),
            "kinds": self.kinds(),
        }

    def filled(self, text: str, commas: bool = True) -> str:
        """A text with the numbers of its limits."""
        limits = {name: f"{number:,}" if commas else str(number) for name, number in self.of.limits.items()}
        names = list(self.of.buttons())
        return re.sub(r"\{([A-Z_]+)\}", lambda found: self._value(found[1], limits, names), text)

    @staticmethod
    def _value(name: str, limits: dict[str, str], buttons: list[str]) -> str:
        if name == "BUTTONS":
            return f"{', '.join(buttons[:-1])} or {buttons[-1]}"
        if name not in limits:
            raise NotRead(f"{WORDING}: there is no limit {name}")
        return limits[name]

    # ---- instructions and ports

    def operations(self) -> list[Json]:
        words: dict[str, dict[str, str]] = self.words["operations"]
        immediates, rows = self.of.immediates(), self.of.operations()
        must_agree([*immediates, *(row.name for row in rows)], words, "operation")
        found = []
        for name, code in immediates.items():
            takes, other = (TEST_OF_JCI,) * (name == "JCI"), (ADDRESS_OF_JSI,) * (name == "JSI")
            found.append(self._operation(code, name, takes, (), other))
        return found + [self._operation(row.code, row.name, row.takes, row.pushes, row.other) for row in rows]

    def _operation(self, code: int, name: str, takes: tuple[int, ...], pushes: tuple[int, ...], other: tuple[int, ...]) -> Json:
        words = self.words["operations"][name]
        sides = {"takes": takes, "pushes": pushes, "other": other}
        items = {side: self._items(name, words.get(side, "").split(), widths) for side, widths in sides.items()}
        return {"code": code, "name": name, **items, "does": words["does"]}

    @staticmethod
    def _items(name: str, names: list[str], widths: tuple[int, ...]) -> list[Json]:
        if len(names) != len(widths):
            raise NotRead(f"{WORDING}: {name} has {len(widths)} of {names}")
        return [{"name": each, "width": width} for each, width in zip(names, widths)]

    def devices(self) -> list[Json]:
        rows = {row["name"]: row for row in self.words["devices"]}
        found = []
        for name, row in rows.items():
            like = rows[row.get("as", name)]
            ports = [self._port(row["first"], distance, width, port, means) for distance, width, port, means in like["ports"]]
            found.append({"name": name, "first": row["first"], "page": row.get("page"), "ports": ports})
        self._check_ports([port for device in found for port in device["ports"]])
        return found

    def _port(self, first: int, distance: int, width: int, name: str, means: str) -> Json:
        address = first + distance
        acts = address + width - 1 in self.of.actions or width == 2 and address in self.of.actions
        return {"address": address, "width": width, "name": name, "means": means, "acts": acts}

    def _check_ports(self, ports: list[Json]) -> None:
        """The ports that act, show something or have a name in the definitions are those of the words."""
        worded = {port["address"]: port["width"] for port in ports}
        bytes_of = {address + more for address, width in worded.items() for more in range(width)}
        for what, those in (("acting port", self.of.actions), ("shown port", self.of.shown_ports())):
            must_agree([f"{port:02x}" for port in those if port not in bytes_of], [], what)
        for name, (address, width) in self.of.port_names.items():
            if name != "VOICE_PORTS" and worded.get(address) != width:
                raise NotRead(f"{WORDING}: no port at {address:02x} of {width} bytes, as {name}")

    # ---- calls

    def commands(self) -> list[Json]:
        variants, words = self.of.commands(), self.words["commands"]
        must_agree(variants, words, "command")
        return [self._command(name, variant, words[name]) for name, variant in variants.items()]

    def _command(self, name: str, variant: str, words: dict[str, str]) -> Json:
        choices = self.of.options(variant)
        return {
            "name": name,
            "operand": words["operand"],
            "is": self.filled(words["is"], commas=False),
            "does": words["does"],
            "options": [option for option, _ in choices],
            "needed": [option for option, kind in choices if kind == "Required"],
            "inputs": self.of.named_files("inputs_of", variant),
            "outputs": self.of.named_files("outputs_of", variant),
            "usage": " ".join([*self._first_words(name, choices), *self._optional_words(name, choices)]),
            "short_usage": " ".join(self._first_words(name, choices)),
        }

    def _first_words(self, command: str, choices: list[tuple[str, str]]) -> list[str]:
        """A usage line up to the options that the command needs."""
        needed = [self._signed(command, option) for option, kind in choices if kind == "Required"]
        return ["uxn", command, self.words["commands"][command]["operand"], *needed]

    def _optional_words(self, command: str, choices: list[tuple[str, str]]) -> list[str]:
        return [f"[{self._signed(command, option)}]" for option, kind in choices if kind != "Required"]

    def _signed(self, command: str, option: str) -> str:
        """An option with the sign of its value."""
        rows: list[Json] = [row for row in self.words["options"] if row["name"] == option and command in row["of"]]
        return " ".join([f"--{option}", *(row["value"] for row in rows if "value" in row)])

    def options(self) -> list[Json]:
        rows: list[Json] = self.words["options"]
        choices = {(name, option): kind for name, variant in self.of.commands().items() for option, kind in self.of.options(variant)}
        must_agree(choices, [(command, row["name"]) for row in rows for command in row["of"]], "option")
        for row in rows:
            is_switch = all(choices[command, row["name"]] == "Switch" for command in row["of"])
            if is_switch is ("value" in row):
                raise NotRead(f"{WORDING}: a value belongs to each option but switches: --{row['name']}")
        return [
            {
                "name": row["name"],
                "of": row["of"],
                "value": row.get("value", ""),
                "kind": row.get("kind", "file" if "value" in row else "switch"),
                "is": self.filled(row["is"]),
            }
            for row in rows
        ]

    def statuses(self) -> list[Json]:
        found, words = self.of.statuses(), self.words["statuses"]
        must_agree([status.name for status in found], words, "status")
        return [
            {"number": status.number, "name": status.name, "line": status.line, "when": words[status.name]}
            for status in sorted(found, key=lambda status: (not status.line, status.number))
        ]

    # ---- lines and kinds

    def script_lines(self) -> list[tuple[int, Line]]:
        """The lines of scripts with the version that has them first."""
        first = self.of.lines("text_lines/ScriptRows", "first_rows")
        second = self.of.lines("text_lines/ScriptRows", "second_rows")
        return [(1, line) for line in first] + [(2, line) for line in second]

    def lines(self, section: str, defined: list[tuple[int, Line]]) -> list[Json]:
        rows: list[Json] = self.words[section]
        worded = [(row.get("version", 1), name) for row in rows for name in row["names"]]
        must_agree([(version, line.name) for version, line in defined], worded, f"line of {section}")
        counts = {(version, line.name): line for version, line in defined}
        return [self._line(row, counts) for row in rows]

    def _line(self, row: Json, counts: dict[tuple[int, str], Line]) -> Json:
        version = row.get("version", 1)
        found = [counts[version, name] for name in row["names"]]
        if len({(line.least, line.most) for line in found}) > 1:
            raise NotRead(f"{WORDING}: {row['names']} take different numbers of values")
        given = {key: row[key] for key in ("form", "does", "events", "logs") if key in row}
        values = {"values": self.filled(row["values"], commas=False)} if "values" in row else {}
        return {"names": row["names"], "version": version, "least": found[0].least, "most": found[0].most, **given, **values}

    def kinds(self) -> Json:
        found = {}
        for section, (module, name) in KINDS.items():
            words = self.words["kinds"][section]
            extra = ["Events"] if section == "setup" else []
            must_agree([*self.of.names_of_kinds(module, name), *extra], words, f"kind of {section}")
            found[section] = {kind: self.filled(means) for kind, means in words.items()}
        return found
