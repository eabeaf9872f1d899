"""Repairs a refused source: the smallest change that is found after which it assembles."""
from __future__ import annotations

import re
from collections.abc import Callable, Iterator
from dataclasses import dataclass

from conform.differences import Got
from conform.instructions import RUNES

# What `uxn` says of a fault.
FAULT = re.compile(r"source (?:(?P<path>\S+) )?(?P<line>\d+):(?P<column>\d+): (?P<kind>\w+): (?P<word>[^\n]*)\n", re.S)
# How many faults of a source are repaired, one after the other.
ROUNDS = 40
Files = dict[str, bytes]
WORD = re.compile(rb"[^\x00-\x20]+")


@dataclass(frozen=True)
class Place:
    """The faulty word: its file, the text before it, the word and the text after it."""

    path: str
    before: bytes
    word: bytes
    after: bytes


def place_of(found: re.Match[str], files: Files, source: str) -> Place | None:
    path = found["path"] or source
    if path not in files:
        return None
    text, line = files[path], int(found["line"])
    start = 0
    for _ in range(line - 1):
        start = text.find(b"\n", start) + 1
    start += int(found["column"]) - 1
    word = WORD.match(text, start)
    return Place(path, text[:start], word[0], text[word.end() :]) if word else None


def names(word: bytes) -> Iterator[bytes]:
    """Definitions that may give a reference its label."""
    name = word.lstrip(RUNES.encode())
    yield b"@" + name
    yield b"&" + name.lstrip(b"&/")
    scope, _, rest = name.partition(b"/")
    yield b"@" + scope + b" &" + rest


def words_for(kind: str, word: bytes) -> list[bytes]:
    """What may stand in place of the faulty word."""
    rune, rest = word[:1], word[1:]
    return {
        "LongWord": [word[:255]],
        "BadName": [rune + b"other-name", rest, rune],
        "NoName": [word + b"other-name", b"@other-name " + word + b"other-name", b"&other-name " + word + b"other-name"],
        "BadNumber": [rune + b"12", rune + b"0123"],
        "LabelTwice": [word + b"-more"],
        "MacroTwice": [word + b"-more"],
        "ZeroPage": [b"|0100 " + word],
        "TooFar": [{b",": b";", b"_": b"="}.get(rune, b"!") + rest],
        "Outside": [b"|8000 " + word],
    }.get(kind, []) + [b"INC"]


def repairs(kind: str, place: Place, files: Files, source: str) -> Iterator[Files]:
    """Files with one fault less, perhaps; the smaller repairs first."""

    def with_word(word: bytes) -> Files:
        return {**files, place.path: place.before + word + place.after}

    def with_end(path: str, end: bytes) -> Files:
        return {**files, path: files[path].rstrip(b"\n") + b" " + end + b"\n"}

    if kind == "OpenComment":
        yield from (with_end(place.path, b")" + b" )" * more) for more in range(4))
    if kind in ("OpenBrace", "MacroBody"):
        yield from (with_end(path, b"}") for path in {place.path: 0, source: 0})
        yield with_word(place.word + b" {")
        yield with_word(place.word + b" { }")
    if kind == "MacroBody" and b"{" in place.before:
        yield with_word(b"} " + place.word)
    if kind == "UnknownName":
        yield from (with_end(source, end) for end in names(place.word))
    if kind == "IncludeMissing":
        path = place.word[1:].decode(errors="surrogateescape")
        yield {**files, path: b"INC"}
    yield from (with_word(word) for word in words_for(kind, place.word))
    yield with_word(b"")


def repaired(files: Files, source: str, assemble: Callable[[Files], Got]) -> tuple[Files, Got] | None:
    """The files of a source whose faults are repaired, and what they assemble to; none if no repair is found."""
    for _ in range(ROUNDS):
        got = assemble(files)
        if got.status == 0:
            return (files, got) if got.rom else with_bytes(files, source, assemble)
        found = FAULT.match(got.err.decode(errors="surrogateescape"))
        place = place_of(found, files, source) if found else None
        if found is None or place is None:
            return None
        files = better(found, place, files, source, assemble)
    return None


def with_bytes(files: Files, source: str, assemble: Callable[[Files], Got]) -> tuple[Files, Got] | None:
    """The same with a byte more, since an empty ROM shows little."""
    for end in (b" INC\n", b" |8000 INC\n"):
        more = {**files, source: files[source].rstrip(b"\n") + end}
        got = assemble(more)
        if got.status == 0:
            return more, got
    return None


def better(found: re.Match[str], place: Place, files: Files, source: str, assemble: Callable[[Files], Got]) -> Files:
    """The first repair that leaves no fault; without one the first that leaves another fault."""
    first = None
    for other in repairs(found["kind"], place, files, source):
        got = assemble(other)
        if got.status == 0 and got.rom:
            return other
        if first is None and got.status in (0, 131) and not got.err.startswith(found[0].encode(errors="surrogateescape")):
            first = other
    return first or {**files, place.path: place.before + place.after}
