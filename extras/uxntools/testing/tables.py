"""Tables of tests: one file, each row of which is a test. The files of the tests are made beneath `.uxn-test/tables`,
so that all tools take a row as any other test."""
from __future__ import annotations

import hashlib
import os
import re
from collections.abc import Iterator
from dataclasses import dataclass

from uxntools import assertions, files, script
from uxntools.cli import Failure
from uxntools.testing.keeping import KEPT, kept_folder

TABLES = os.path.join(KEPT, "tables")
STAMP = "table"
# The columns that say what happens, and those that say what is wanted; every other one is a place.
NAME, ARGS, INPUT, EVENTS, OUT, ERR, STATUS = COLUMNS = ("name", "args", "input", "events", "out", "err", "status")
WANTED = (OUT, ERR, STATUS)
NAMED = re.compile(r"[A-Za-z0-9_][A-Za-z0-9_.+-]*")
PORT = re.compile(r"[0-9a-fA-F]{2}")
TEXT = re.compile(rb'"[^"\t ]*|(?:[0-9a-fA-F]{2})+')
MOST_ROWS = 100_000


@dataclass(frozen=True)
class Row:
    """A test of a table: its name, its line, and the bytes of its parts."""

    name: str
    line: int
    parts: dict[str, bytes]


class Wrong(Exception):
    """Why a line is no row."""


def read(data: bytes, shown: str) -> list[Row]:
    """The rows of a table; a faulty line is a failure."""
    columns: list[str] | None = None
    rows: dict[str, Row] = {}
    for number, line in enumerate(data.split(b"\n"), 1):
        text = line.decode("latin-1").strip()
        if not text or text.startswith("#"):
            continue
        try:
            cells = _cells(text)
            if columns is None:
                columns = _columns(cells)
                continue
            row = _row(columns, cells, number)
            if row.name in rows:
                raise Wrong(f"line {rows[row.name].line} has the name {row.name} too")
        except Wrong as wrong:
            raise Failure(f"{shown}:{number}: {wrong}", 2) from None
        rows[row.name] = row
    if not rows:
        raise Failure(f"{shown}: it has no rows", 2)
    return list(rows.values())


def _cells(text: str) -> list[str]:
    """The cells of a line, which begins and ends with a bar."""
    if len(text) < 2 or text[0] != "|" or text[-1] != "|":
        raise Wrong("a line of a table begins and ends with |")
    return [cell.strip() for cell in text[1:-1].split("|")]


def _columns(cells: list[str]) -> list[str]:
    for name in cells:
        if name not in COLUMNS and not PORT.fullmatch(name) and not _is_place(name):
            raise Wrong(f"`{name}` is no column: it is {', '.join(COLUMNS)}, a port as f0, or a place as @lives or Shown/count")
    twice = next((name for name in cells if cells.count(name) > 1), None)
    if twice is not None:
        raise Wrong(f"two columns have the name {twice}")
    if all(name in (NAME, ARGS, INPUT, EVENTS) for name in cells):
        raise Wrong("no column says what is wanted")
    return cells


def _is_place(name: str) -> bool:
    return (name.startswith(("@", "#")) or "/" in name) and assertions.PLACE.fullmatch(name) is not None


def _row(columns: list[str], cells: list[str], number: int) -> Row:
    if len(cells) != len(columns):
        raise Wrong(f"it has {len(cells)} cells, and the first line {len(columns)}")
    given = dict(zip(columns, cells))
    name = given.get(NAME, "") or str(number)
    if not NAMED.fullmatch(name):
        raise Wrong(f"`{name}` is no name: letters, digits and . _ + - make one")
    parts = {"script": _script(given)}
    for column in (OUT, ERR):
        if column in given:
            parts[column] = _bytes(given[column])
    if STATUS in given:
        parts[STATUS] = _status(given[STATUS] or "0")
    return Row(name, number, parts)


def _bytes(cell: str) -> bytes:
    """The bytes of texts and digits, as those of an `input` line."""
    words = cell.encode("latin-1").split()
    for word in words:
        if not TEXT.fullmatch(word):
            raise Wrong(f'`{word.decode("latin-1")}` is no bytes: they are pairs of digits, or a text after "')
    return b"".join(word[1:] if word.startswith(b'"') else bytes.fromhex(word.decode()) for word in words)


def _status(cell: str) -> bytes:
    if not re.fullmatch(r"[0-9]{1,3}", cell):
        raise Wrong(f"`{cell}` is no status")
    return f"{int(cell)}\n".encode()


def _script(given: dict[str, str]) -> bytes:
    """The script of a row: arguments, input, events, and then what ports and memory hold."""
    lines = ["script 2"]
    if ARGS in given and given[ARGS]:
        lines.append("args " + given[ARGS])
    if INPUT in given:
        data = _bytes(given[INPUT])
        lines += [f"input {script.input_words(data)}"] if data else []
        lines += ["end"] if not given.get(EVENTS) else []
    if given.get(EVENTS):
        lines += [line.strip() for line in given[EVENTS].split(";")]
    lines += [_looked(place, cell) for place, cell in given.items() if place not in COLUMNS and cell]
    return "\n".join([*lines, ""]).encode("latin-1")


def _looked(place: str, cell: str) -> str:
    """The line that looks at a place."""
    if PORT.fullmatch(place):
        if not PORT.fullmatch(cell):
            raise Wrong(f"`{cell}` is no byte for the port {place}: it has two digits")
        return f"expect {place} {cell}"
    line = f"# expect {place} {cell}"
    wrong = assertions.read(line.encode("latin-1"))[1]
    if wrong:
        raise Wrong(wrong[0].why)
    return line


def made(folder: str, stem: str, shown: str) -> Iterator[tuple[Row, str]]:
    """The rows of a table of a project, each with the path of its files without their endings."""
    data = files.read(os.path.join(folder, f"{stem}.table"), files.SCRIPT)
    rows = read(data, shown)
    inner = os.path.join(TABLES, stem.replace("/", "."))
    stamp = hashlib.sha256(data + b"1").hexdigest().encode()
    if not _is_made(os.path.join(folder, inner, STAMP), stamp):
        _write(folder, inner, rows)
        files.write(os.path.join(inner, STAMP), stamp, folder)
    for row in rows:
        yield row, f"{inner}/{row.name}"


def _is_made(path: str, stamp: bytes) -> bool:
    try:
        return files.read(path, files.SETTINGS) == stamp
    except OSError:
        return False


def _write(folder: str, inner: str, rows: list[Row]) -> None:
    kept_folder(folder)
    if os.path.lexists(os.path.join(folder, inner)):
        files.remove_folder(inner, folder)
    files.make_folder(inner, folder)
    for row in rows:
        for part, data in row.parts.items():
            files.write(f"{inner}/{row.name}.{part}", data, folder)
