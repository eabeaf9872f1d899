"""Explaining a refused call: from its words, its status and its line to the file that has the fault, and the reason."""
from __future__ import annotations

import os
import re
from collections.abc import Callable
from dataclasses import dataclass

from uxntools import files, program, sharing, source
from uxntools.cli import shown
from uxntools.explaining import Reason, arguments, lines, quoted, sources
from uxntools.explaining.arguments import Words

SOURCE_LINE = re.compile(
    r"source (?:(?P<path>.+) )?(?P<line>\d+):(?P<column>\d+): (?P<kind>\w+): (?P<word>.*)", re.DOTALL
)
TEXT_LINE = re.compile(r"(?P<of>script|commands|setup|symbols) (?P<line>\d+): (?P<kind>\w+)")
NO_PATH, NO_FILE, CLASH, ROM = (
    re.compile(it, re.DOTALL) for it in (r"path: (.*)", r"missing: (.*)", r"output: (.*)", r"rom: (\d+) bytes")
)
# How many bytes of a long line are shown, and how many of them before the faulty word.
MOST_OF_LINE, MOST_BEFORE = 300, 80


@dataclass
class Explanation:
    """What a line of `uxn` means: where the fault is, with its line of the file, and the reasons."""

    place: str = ""
    excerpt: str = ""
    reasons: tuple[Reason, ...] = ()

    def text(self) -> str:
        lines = [line for reason in self.reasons for line in reason.lines()]
        parts = [shown(self.place), self.excerpt, *map(shown, lines)]
        return "".join(part + "\n" for part in parts if part)


def _line_of(path: str, number: int) -> str | None:
    try:
        found = files.read(path).split(b"\n")
    except OSError:
        return None
    return found[number - 1].decode(errors="surrogateescape").rstrip("\r") if 0 < number <= len(found) else None


def _shown(text: str) -> str:
    return "".join(sign if sign.isprintable() or sign == "\t" else "?" for sign in text)


def _excerpt(path: str, number: int, column: int = 0, length: int = 0) -> str:
    """A line of a file, and beneath it marks under a word of it. Columns count bytes."""
    line = _line_of(path, number)
    if line is None:
        return ""
    head = f"{number:5} | "
    data = os.fsencode(line)
    first = max(column - 1 - MOST_BEFORE, 0) if len(data) > MOST_OF_LINE else 0
    line = os.fsdecode(data[first : first + MOST_OF_LINE])
    if not column:
        return head + _shown(line)
    before = data[first : column - 1].decode(errors="replace")
    marked = data[column - 1 : min(column - 1 + length, first + MOST_OF_LINE)].decode(errors="replace")
    blanks = re.sub(r"[^\t]", " ", before)
    return f"{head}{_shown(line)}\n      | {blanks}{'^' * max(1, len(marked))}"


def machines(setup: str) -> list[str]:
    """The sources of a setup's machines."""
    try:
        found = [line.split() for line in files.read(setup, files.SETUP).split(b"\n")]
    except OSError:
        return []
    named = (words[1] for words in found if len(words) == 2 and words[0] == b"machine")
    return [os.fsdecode(name) for name in named if b"\0" not in name]


def faulty_machine(setup: str, line: str) -> tuple[int, str] | None:
    """The first machine whose source is refused with this line: its number from 1, and its source."""
    with program.scratch_folder() as scratch:
        for number, path in enumerate(machines(setup), 1):
            done = program.call("asm", path, "--out", f"{scratch}/rom")
            if done.status == 131 and done.line == line:
                return number, path
    return None


def _of_source(found: re.Match[str], words: Words, line: str) -> Explanation:
    number, column, kind, word = int(found["line"]), int(found["column"]), found["kind"], found["word"]
    top, prefix = words.file, ""
    if words.command == "line":
        machine = faulty_machine(words.file, line)
        top = machine[1] if machine else ""
        prefix = f"machine {machine[0]}, {machine[1]}: " if machine else ""
    path = found["path"] or top
    names = sources.names_of(top) if top and os.path.isfile(top) else []
    reason = sources.reason(kind, word, names)
    if kind == "IncludeMissing" and top:
        reason = sources.include_place(top, word, words.command) or reason
    excerpt = _excerpt(path, number, column, len(os.fsencode(word))) if path else ""
    return Explanation(
        f"{prefix}{path}:{number}:{column}: {kind}: {word}" if path else "",
        excerpt,
        tuple(one for one in (reason, _of_part(top)) if one),
    )


def _of_part(path: str) -> Reason | None:
    """What is said of a source that is only a part of programs."""
    including = sharing.programs_of_part(path) if path else []
    if not including:
        return None
    why = f"{quoted(path)} has no |0100 and is a part of {sharing.named(including)}."
    return Reason(why, f"uxn-check {path}, which checks it within them")


def _path_of(of: str, words: Words) -> str:
    """The file that a line about a script, commands, a setup or a symbol file is about."""
    if of == "setup":
        return words.file
    if of == "script" and words.command == "line":
        return _setup_script(words.file)
    return words.options.get(of, "")


def _setup_script(setup: str) -> str:
    try:
        found = [line.split() for line in files.read(setup, files.SETUP).split(b"\n")]
    except OSError:
        return ""
    return next((os.fsdecode(it[1]) for it in found if len(it) == 2 and it[0] == b"script"), "")


def _first_words(path: str) -> list[str]:
    try:
        found = (os.fsdecode(line).split() for line in files.read(path, files.SCRIPT).split(b"\n"))
        return next((words for words in found if words and not words[0].startswith("#")), [])
    except OSError:
        return []


def _of_text(found: re.Match[str], words: Words, line: str) -> Explanation:
    of, number, kind = found["of"], int(found["line"]), found["kind"]
    path = _path_of(of, words)
    text = _line_of(path, number) if path else None
    faulty = lines.Line(of, number, text, _first_words(path)) if text is not None and of in lines.TABLES else None
    reason = lines.reason(kind, faulty)
    unit = "entry " if of == "symbols" else ""
    place = f"{path}: {unit}{number}: {kind}" if unit or not number else f"{path}:{number}: {kind}"
    return Explanation(place if path else "", _excerpt(path, number) if faulty else "", (reason,) if reason else ())


def _of_missing(found: re.Match[str], words: Words, line: str) -> Explanation:
    path = found[1]
    number = (
        next((at for at, it in enumerate(machines(words.file), 1) if it == path), 0) if words.command == "line" else 0
    )
    place = f"machine {number} of {words.file}" if number else ""
    return Explanation(place, "", (arguments.missing(path),))


def _of_path(found: re.Match[str], words: Words, line: str) -> Explanation:
    reason = arguments.path_fault(found[1])
    return Explanation(f"{quoted(found[1])} is no path.", "", (reason,) if reason else ())


def _of_output(found: re.Match[str], words: Words, line: str) -> Explanation:
    included = source.files_of(words.file)[0] if words.file.endswith(".tal") and os.path.isfile(words.file) else []
    return Explanation("", "", (arguments.output_fault(words, found[1], included),))


def _of_rom(found: re.Match[str], words: Words, line: str) -> Explanation:
    return Explanation("", "", (lines.rom_reason(found[1], words.command),))


FORMS: tuple[tuple[re.Pattern[str], Callable[[re.Match[str], Words, str], Explanation]], ...] = (
    (SOURCE_LINE, _of_source),
    (TEXT_LINE, _of_text),
    (NO_PATH, _of_path),
    (NO_FILE, _of_missing),
    (CLASH, _of_output),
    (ROM, _of_rom),
)


def explain_line(line: str, words: Words) -> Explanation | None:
    """What a line of `uxn` means, with the words of its call as far as they are known; None of a line that is none
    of its own."""
    if line == "words: not understood":
        reasons = tuple(words.faults) or (
            Reason(
                "A word of the call is not understood; give the whole call, as in `uxn-explain uxn asm a.tal`, "
                "to see which."
            ),
        )
        return Explanation("", "", reasons)
    for form, rule in FORMS:
        found = form.fullmatch(line)
        if found:
            return rule(found, words, line)
    return None


def explain_status(status: int) -> Explanation | None:
    """What a status without a line means."""
    return (
        Explanation("", "", (Reason(lines.ENDED[status], "see docs/ended.md for the causes" if status < 139 else ""),))
        if status in lines.ENDED
        else None
    )
