"""The faults of a script, of debugger commands and of a setup, by the forms of their lines; and those of ROMs and
symbol files."""
from __future__ import annotations

from dataclasses import dataclass
from difflib import get_close_matches

from uxntools import facts
from uxntools.explaining import Reason, quoted
from uxntools.facts import LIMITS

TABLES = {"script": facts.SCRIPT, "commands": facts.DEBUGGER, "setup": facts.SETUP}


@dataclass(frozen=True)
class Line:
    """A faulty line: what it belongs to, its number, its text, and the words of the first line with words."""

    of: str
    number: int
    text: str
    first: list[str]

    @property
    def words(self) -> list[str]:
        return self.text.split()

    @property
    def name(self) -> str:
        return self.words[0] if self.words else ""

    @property
    def form(self) -> str:
        return TABLES[self.of].get(self.name, "")


def _unknown(line: Line) -> Reason:
    table = TABLES[line.of]
    if line.of == "script" and line.name in ("expect", "script") and line.first != ["script", "2"]:
        return Reason(
            f"{quoted(line.name)} is a line of version 2, and this script has version 1.",
            "script 2 as the first line of the script",
        )
    if line.of == "script" and line.name == "script":
        return Reason("`script 2` stands on the first line with words alone.", "it once, before all others")
    near = get_close_matches(line.name, list(table), 1, 0.6)
    return Reason(
        f"There is no line that begins with {quoted(line.name)}; there are {', '.join(table)}.",
        table[near[0]] if near else "",
    )


def _missing(line: Line) -> Reason:
    return Reason(f"{quoted(line.name)} has too few words.", line.form)


def _extra(line: Line) -> Reason:
    if any(word.startswith("#") for word in line.words[1:]):
        return Reason(
            "A comment has a line of its own: behind other words a `#` begins none.", "the comment on the line before"
        )
    if line.of == "script" and line.name in ("key", "down", "up") and line.first != ["script", "2"]:
        return Reason(
            f"The last word of {quoted(line.text.strip())} is one of version 2, and this script has version 1.",
            "script 2 as the first line of the script",
        )
    return Reason(f"{quoted(line.name)} has too many words.", line.form)


def _bad_value(line: Line) -> Reason:
    if line.of == "script" and line.name in ("input", "args"):
        wrong = next((word for word in line.words[1:] if not word.startswith('"') and not _is_pairs(word)), "")
        return Reason(f'{quoted(wrong)} is neither a text, which begins with `"`, nor pairs of digits.', f'"{wrong}')
    if line.of == "setup" and line.name in ("machine", "script"):
        return Reason(
            "It is no path: no `..`, no `/` at its start or end, no control byte; beneath the current folder.",
            line.form,
        )
    return Reason(
        "A word is not of its form, or out of its range: numbers are decimal, without leading zeros; bytes are "
        "two digits.",
        line.form,
    )


def _is_pairs(word: str) -> bool:
    return len(word) % 2 == 0 and bool(word) and all(sign in "0123456789abcdefABCDEF" for sign in word)


def _late(line: Line) -> Reason:
    if line.name == "script":
        return Reason("`script 2` stands a second time.", "it once, on the first line")
    return Reason(
        f"{quoted(line.name)} stands a second time, or behind a line that gives an event.",
        f"{line.name} once, before input, keys and frames",
    )


def _no_such_label(line: Line) -> Reason:
    label = next((word[1:] for word in line.words[1:] if word.startswith("@")), "")
    return Reason(
        f"No label of the source, or of the file of --symbols, is named {quoted(label)}. A sublabel has the "
        f"name of its label before it.",
        f"{line.name} @scope/{label}" if "/" not in label else "",
    )


FIXED = {
    "ManyEvents": f"With this line the script has more than {LIMITS.events:,} events.",
    "LongScript": f"A script has at most {LIMITS.text:,} bytes.",
    "ManyCommands": f"There are at most {LIMITS.commands:,} commands.",
    "LongCommands": f"Commands have at most {LIMITS.text:,} bytes.",
    "Twice": "This line stands a second time in the setup.",
    "ManyMachines": f"There are at most {LIMITS.machines} machines.",
    "NoMachine": "No earlier line gives the machine of this turn: machines count from 1, and `machine` lines "
    "stand before.",
    "ManyTurns": f"There are at most {LIMITS.turns:,} turns.",
    "FewMachines": "A line has two machines at least: two lines `machine P`.",
    "LongSetup": f"A setup has at most {LIMITS.text:,} bytes.",
    "Events": "The script of a line of machines has only `clock`, `args`, `input` and `end`: no frames, keys, "
    "mouse, pictures or expects.",
    "Torn": "The symbol file ends within an entry: two bytes of address, the name, and a zero byte belong to each.",
    "NoName": "An entry of the symbol file has an empty name.",
    "BadByte": "A name in the symbol file has a byte up to 20.",
    "Long": f"A symbol file has at most {LIMITS.symbols:,} bytes. `asm --symbols` writes longer ones of a source with very many "
    "or very long names.",
}
ALONE = {
    "Unknown": "The first word of the line is none of its kind; in a script of version 1 `expect` is none.",
    "Missing": "The line has too few words.",
    "Extra": "The line has too many words; a comment has a line of its own.",
    "BadValue": "A word of the line is not of its form, or out of its range.",
    "Late": "`args` or `clock` stands behind an event or a second time, or `script 2` a second time.",
    "NoSuchLabel": "No label has this name.",
}
RULES = {
    "Unknown": _unknown,
    "Missing": _missing,
    "Extra": _extra,
    "BadValue": _bad_value,
    "Late": _late,
    "NoSuchLabel": _no_such_label,
}


def reason(kind: str, line: Line | None) -> Reason | None:
    """Why a line is refused with this kind of fault; None of a kind that there is not."""
    if kind in FIXED:
        return Reason(FIXED[kind])
    if kind not in RULES:
        return None
    return RULES[kind](line) if line else Reason(ALONE[kind])


def rom_reason(length: str, command: str) -> Reason:
    most = LIMITS.rom_of_dis if command == "dis" else LIMITS.rom
    return Reason(f"The ROM has {length} bytes; `{command or 'play'}` takes at most {most:,}.")


ENDED = {
    136: "A file failed: an input that may not be read, an output that may not be written, a full disk, or a "
    "file beneath the root.",
    137: "An output stream failed: whoever read it has gone, it is closed, or its disk is full.",
    138: "There was not enough memory.",
    200: "The launcher has no program to run: the line on the error output says why.",
}
