"""The words of a call: which of them is not understood and why, which path is none, and which output clashes."""
from __future__ import annotations

import os
from dataclasses import dataclass, field
from difflib import get_close_matches

from uxntools import script
from uxntools.explaining import Reason, quoted
from uxntools.facts import COMMANDS, LIMITS, NUMBERS, SWITCHES


OTHER_PROGRAMS = ("uxnasm", "uxncli", "uxnemu")
# The options that name files which are written, in the order of the usage lines.
OUTPUTS = tuple(dict.fromkeys(name for command in ("asm", "debug") for name in COMMANDS[command].outputs))
ALL_OPTIONS = sorted({option for command in COMMANDS.values() for option in command.options})


@dataclass
class Words:
    """The words of a call as they were read: its command, its own words, its options, and what is wrong."""

    command: str = ""
    own: list[str] = field(default_factory=list)
    options: dict[str, str] = field(default_factory=dict)
    faults: list[Reason] = field(default_factory=list)

    def wrong(self, why: str, write: str = "") -> None:
        self.faults.append(Reason(why, write))

    @property
    def file(self) -> str:
        return self.own[0] if self.own else ""

    def outputs(self) -> dict[str, str]:
        names = [name for name in OUTPUTS if name in self.options and (name != "symbols" or self.command == "asm")]
        return {name: self.options[name] for name in names}


def _near(word: str, known: list[str], sign: str = "") -> str:
    close = get_close_matches(word, known, 1, 0.6)
    return f"{sign}{close[0]}" if close else ""


def _number_fault(text: str, least: int, most: int) -> str:
    if text.isascii() and text.isdigit() and (text == "0" or not text.startswith("0")) and least <= int(text) <= most:
        return ""
    return f"is no decimal number from {least} to {most} without a sign or leading zeros"


def read(words: list[str]) -> Words:
    """The words behind `uxn`, with every fault that makes `words: not understood` of them."""
    found = Words()
    if not words:
        found.wrong("There is no command.", "one of: " + "; ".join(command.usage for command in COMMANDS.values()))
        return found
    found.command = words[0]
    if words[0] not in COMMANDS:
        _no_command(found, words[0], words[1:])
        return found
    waiting = list(words[1:])
    while waiting:
        word = waiting.pop(0)
        if word.startswith("--") and len(word) > 2:
            _option(found, word[2:], waiting)
        elif word in ("", "--") or word.startswith("-"):
            _bad_word(found, word)
        else:
            found.own.append(word)
    _check_own(found)
    for name in COMMANDS[found.command].needed:
        is_named = found.command == "asm" and len(found.own) > 1
        if name not in found.options and not is_named:
            found.wrong(f"{found.command} needs the option --{name}, which is not there.", COMMANDS[found.command].usage)
    return found


def _no_command(found: Words, word: str, rest: list[str]) -> None:
    if word in ("--help", "-h", "help", "--version", "-v"):
        found.wrong(
            f"There is no {word}: the pages are in docs/, and `man uxn` where the manual page is installed.",
            "one of: " + "; ".join(command.usage for command in COMMANDS.values()),
        )
    elif word in OTHER_PROGRAMS:
        found.wrong(f"{word} is another program, and no command of this one.", _call_of_other(word, rest))
    elif word.endswith((".tal", ".rom")):
        command = "play" if word.endswith(".tal") else "play --rom"
        found.wrong(
            f"{quoted(word)} is a file and no command: the command comes first.",
            f"uxn {command.split()[0]} {word}" + " --rom" * word.endswith(".rom"),
        )
    else:
        found.wrong(
            f"There is no command {quoted(word)}; there are {', '.join(COMMANDS)}.",
            (near := _near(word, list(COMMANDS))) and f"uxn {near}",
        )


def _call_of_other(program: str, words: list[str]) -> str:
    """What does here what this call of another program does."""
    first = words[0] if words else "a.tal" if program == "uxnasm" else "a.rom"
    if program == "uxnasm":
        rom = words[1] if len(words) > 1 else "a.rom"
        return f"uxn asm {first} --out {rom} --symbols {rom}.sym"
    if program == "uxnemu":
        return f"uxn play {first} --rom --script S --frames P, where S has lines as `frame 60` and `shot`"
    lines = script.args_line([os.fsencode(word) for word in words[1:]]) if words[1:] else 'input "text 0a'
    return f"uxn play {first} --rom --script S, where S has the line: {lines}"


def _bad_word(found: Words, word: str) -> None:
    if word == "":
        found.wrong("A word is empty, as of a variable of the shell that is not set.", "the name of a file, or nothing")
    elif word == "--":
        found.wrong(
            "`--` is no word here: options may stand before and behind the file, and no file begins with `-`.",
            "the call without it",
        )
    else:
        name = _near(word[1:], ALL_OPTIONS, "--") or next(
            (f"--{option}" for option in ALL_OPTIONS if option[0] == word[1:2]), ""
        )
        found.wrong(
            f"{quoted(word)} begins with a single `-`: there are no short options, and no file begins so.", name
        )


def _option(found: Words, text: str, waiting: list[str]) -> None:
    """An option, and the word behind it where that is its value."""
    name, is_joined, value = text.partition("=")
    command = COMMANDS[found.command]
    if name not in command.options:
        _unknown_option(found, name)
        if not is_joined and name in ALL_OPTIONS and name not in SWITCHES and waiting and not waiting[0].startswith("-"):
            waiting.pop(0)
        return
    if name in found.options:
        found.wrong(f"--{name} stands twice; each option stands at most once.", f"--{name} once")
    if name in SWITCHES:
        if is_joined:
            found.wrong(f"--{name} takes no value.", f"--{name}")
        found.options[name] = ""
        return
    if not is_joined:
        if not waiting or waiting[0].startswith("-"):
            found.wrong(
                f"--{name} has no value" + (f": {quoted(waiting[0])} begins with `-`." if waiting else "."),
                f"--{name} VALUE, or --{name}=VALUE",
            )
            found.options[name] = ""
            return
        value = waiting.pop(0)
    found.options[name] = value
    if value == "" or value.startswith("-"):
        found.wrong(
            f"The value of --{name} is {'empty' if not value else quoted(value) + ', which begins with `-`'}.",
            f"--{name} VALUE",
        )
    elif name in NUMBERS and (fault := _number_fault(value, 1, LIMITS.budget)):
        found.wrong(f"The value {quoted(value)} of --{name} {fault}.", f"--{name} {LIMITS.usual_budget}")


def _unknown_option(found: Words, name: str) -> None:
    command = found.command
    owners = [other for other, it in COMMANDS.items() if name in it.options]
    if name in ("help", "version"):
        found.wrong(f"There is no --{name}.", COMMANDS[command].usage)
    elif owners:
        has = ", ".join("--" + option for option in COMMANDS[command].options) or "none"
        found.wrong(
            f"--{name} is an option of {' and '.join(owners)}, not of {command}, whose options are: {has}.",
            COMMANDS[command].usage,
        )
    else:
        found.wrong(
            f"There is no option {quoted('--' + name)}.",
            _near(name, list(COMMANDS[command].options), "--") or COMMANDS[command].usage,
        )


def _check_own(found: Words) -> None:
    """There is one word that is no option and no value of one."""
    command = COMMANDS[found.command]
    if not found.own:
        found.wrong(f"{found.command} needs {command.word}, which is not there.", COMMANDS[found.command].usage)
    elif len(found.own) > 1:
        extra = found.own[1]
        if found.command == "asm":
            found.wrong(
                f"{quoted(extra)} is one word too many: the ROM is named by an option.",
                f"uxn asm {found.own[0]} --out {extra}",
            )
        elif found.command in ("play", "debug"):
            line = script.args_line([os.fsencode(word) for word in found.own[1:]])
            found.wrong(
                f"{quoted(extra)} is one word too many: arguments of the program stand in its script.",
                f"--script S, where S has the line: {line}",
            )
        elif found.command == "dis":
            found.wrong(
                f"{quoted(extra)} is one word too many: the disassembly goes to the standard output.",
                f"uxn dis {found.own[0]} >{extra}",
            )
        else:
            found.wrong(f"{quoted(extra)} is one word too many.", COMMANDS[found.command].usage)
    elif found.command == "gen" and (fault := _number_fault(found.own[0], 1, LIMITS.routines)):
        found.wrong(f"{quoted(found.own[0])} {fault}.", "uxn gen 1000")


def path_fault(path: str) -> Reason | None:
    """Why a text is no path."""
    parts = path.split("/")
    if path.startswith("/"):
        return Reason(
            "It begins with `/`: files are named from the current folder, so that no other can be touched.",
            f"cd {os.path.dirname(path) or '/'}, and there {os.path.basename(path)}",
        )
    if path.endswith("/"):
        return Reason("It ends with `/`.", path.rstrip("/"))
    for part, why in (
        ("", "It has an empty name between two `/`."),
        (".", "It has the name `.`."),
        ("..", "It has the name `..`, which leads out of the folder."),
    ):
        if part in parts:
            cleaned = "/".join(it for it in parts if it not in ("", "."))
            return Reason(
                why,
                cleaned
                if part != ".." and cleaned
                else "a path beneath the current folder; `cd` to the folder above first",
            )
    if len(parts) > 16:
        return Reason(f"It has {len(parts)} names; a path has at most 16.")
    if len(os.fsencode(path)) > 255:
        return Reason(f"It has {len(os.fsencode(path))} bytes; a path has at most 255.")
    if "\\" in path:
        return Reason("It has a backslash.", path.replace("\\", "/"))
    if any(ord(sign) < 32 or ord(sign) == 127 for sign in path):
        return Reason("It has a control byte.")
    if any(0xDC80 <= ord(sign) <= 0xDCFF for sign in path):
        return Reason("It is no UTF-8.")
    return None


def missing(path: str) -> Reason:
    """Why there is no file at a path."""
    if os.path.isdir(path):
        return Reason(f"{quoted(path)} is a folder.", "the path of a file in it")
    folder, name = os.path.split(path)
    if os.path.islink(path):
        return Reason(f"{quoted(path)} is a link that leads nowhere.")
    if not os.path.isdir(folder or "."):
        return Reason(f"There is no folder {quoted(folder)} here, in {os.getcwd()}.")
    near = _near(name, os.listdir(folder or "."))
    return Reason(
        f"There is no file {quoted(name)} in {os.path.abspath(folder)}.", os.path.join(folder, near) if near else ""
    )


def _lies_under(path: str, other: str) -> bool:
    return path.startswith(other + "/")


def output_fault(words: Words, path: str, included: list[str]) -> Reason:
    """Why an output is refused."""
    named = [name for name, value in words.outputs().items() if value == path]
    inputs = {
        "the file of the call": words.file,
        **{f"--{name}": words.options[name] for name in ("script", "commands") if name in words.options},
    }
    if words.command in ("dis", "debug") and "symbols" in words.options:
        inputs["--symbols"] = words.options["symbols"]
    others = {f"--{name}": value for name, value in words.outputs().items() if name not in named[:1]}
    if "root" in words.options:
        others["--root"] = words.options["root"]
    for option, value in inputs.items():
        if value == path:
            return Reason(
                f"{quoted(path)} is also an input, {option}: it would be written over.", "another name for the output"
            )
    for option, value in others.items():
        if value == path:
            return Reason(f"{quoted(path)} is also named by {option}.", "another name")
        if _lies_under(path, value) or _lies_under(value, path):
            return Reason(
                f"{quoted(path)} and {quoted(value)} of {option} lie one beneath the other.", "a name outside of it"
            )
    return _output_on_disk(path, included)


def _output_on_disk(path: str, included: list[str]) -> Reason:
    if path in included:
        return Reason(
            f"{quoted(path)} is a file that the source includes: it would be written over.",
            "another name for the output",
        )
    if os.path.isdir(path):
        return Reason(f"{quoted(path)} is a folder.", "the name of a file")
    folder = os.path.dirname(path)
    return Reason(
        f"There is no folder {quoted(folder)} for it: folders are not made.", f"mkdir -p {folder}, and the call again"
    )
