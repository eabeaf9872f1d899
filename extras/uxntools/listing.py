"""Listings: where in the files of a source each byte of its ROM stands."""
from __future__ import annotations

import os
import re
from collections.abc import Iterator
from dataclasses import dataclass

from uxntools import source
from uxntools.source import Word

Bytes = bytes
ROW = re.compile(
    rb"(?P<address>[0-9a-f]{4}) (?P<bytes>[0-9a-f]{2}(?: [0-9a-f]{2})*)  (?P<line>\d+):(?P<column>\d+) (?P<word>\S+)"
)

INSTRUCTION = re.compile(
    r"(?P<word>[A-Z]{3}2?k?r?)(?: (?P<value>[0-9a-f]{2}|[0-9a-f]{4}))? \( (?P<address>[0-9a-f]{4}) \)"
)


@dataclass(frozen=True)
class Row:
    """A word that gave bytes: its address, its bytes, itself as the listing has it, and where it, or the use of its
    macro, stands."""

    address: int
    bytes: Bytes
    word: Bytes
    path: str
    line: int
    column: int


def has_includes(path: str) -> bool:
    return any(source.included_from("", word) for word in source.include_words(source.read(path)))


def read(listing: bytes, path: str, folder: str = "") -> list[Row]:
    """The rows of the listing of a source, whose path begins at a folder (the current one without it). That of a
    source with includes has the number of the word, among all words, in place of a line."""
    flat = list(_flat_words(path, folder)) if has_includes(os.path.join(folder, path)) else None
    rows = []
    for found in map(ROW.fullmatch, listing.splitlines()):
        if not found:
            continue
        line, column, where = int(found["line"]), int(found["column"]), path
        if flat:
            word = flat[line - 1]
            where, line, column = word.path, word.line, word.column
        rows.append(
            Row(int(found["address"], 16), bytes.fromhex(found["bytes"].decode()), found["word"], where, line, column)
        )
    return rows


def _flat_words(path: str, folder: str) -> Iterator[Word]:
    """The words of a source, with the paths of their files as they are from the folder. They are those that `uxn`
    read, so the includes begin at the folder of the source."""
    whole = os.path.join(folder, path)
    for word in source.flat_words(whole, os.path.dirname(whole)):
        yield word._replace(path=os.path.relpath(word.path, folder)) if folder else word


def line_of(row: Row) -> str:
    """A row as a line for the eye: its file, line and column take the place of what `uxn` prints."""
    word = row.word.decode(errors="replace")
    return f"{row.address:04x} {row.bytes.hex(' ')}  {row.path} {row.line}:{row.column} {word}"


def of_disassembly(lines: list[str], path: str) -> list[Row]:
    """The rows of a disassembly, each with the number of its line; the immediate belongs to its instruction."""
    found = [(INSTRUCTION.fullmatch(line), number) for number, line in enumerate(lines, 1)]
    instructions = [
        (int(match["address"], 16), match["word"], match["value"] or "", number) for match, number in found if match
    ]
    return [
        Row(address, bytes(1 + len(value) // 2), word.encode(), path, number, 1)
        for address, word, value, number in instructions
    ]


def by_address(rows: list[Row]) -> dict[int, Row]:
    """The row of each address that has a byte; of rows on one address the last, which is what the ROM holds."""
    return {row.address + at: row for row in rows for at in range(len(row.bytes))}
