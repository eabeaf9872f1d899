"""Assembling a source as an editor has it: a copy of it and of what it includes, beside the files that are there."""
from __future__ import annotations

import os
import re
from collections.abc import Callable
from dataclasses import dataclass
from typing import NamedTuple

from uxntools import facts, files, includes, program, source
from uxntools.analysis import Analysis, Kind, shape
from uxntools.cli import Failure, shown

REFUSAL = re.compile(
    rb"source (?:(?P<path>.+) )?(?P<line>\d+):(?P<column>\d+): (?P<kind>[A-Z][A-Za-z]+): (?P<word>.*)\n?", re.DOTALL
)
ROM, SYMBOLS = ".uxn-rom", ".uxn-symbols"


# What each kind of fault says of its word.
MEANINGS = facts.KINDS["include"] | facts.KINDS["source"]


class Fault(NamedTuple):
    """What `uxn asm` says of a source that it refuses: the file, the line and the column, from 1, the kind, and the
    faulty word."""

    path: str
    line: int
    column: int
    kind: str
    word: bytes

    def text(self) -> str:
        return f"{self.path}:{self.line}:{self.column}: {self.said()}"

    def said(self) -> str:
        return f"{self.kind}: {self.word.decode(errors='replace')}"

    def meaning(self) -> str:
        """The word, and what is wrong with it."""
        word = shown(self.word.decode(errors="replace"), MOST_SHOWN)
        return ": ".join([word] * bool(word) + [MEANINGS.get(self.kind, self.kind)])


@dataclass(frozen=True)
class Assembled:
    """What came of a source: a fault, or its ROM and the digest of its symbol file."""

    fault: Fault | None
    rom: bytes = b""
    symbols: bytes = b""


def is_path(path: str) -> bool:
    """Whether `uxn` takes this name of a file."""
    names = path.split("/")
    is_text = not any(ord(sign) < 0x20 or sign == "\\" or 0xDC80 <= ord(sign) <= 0xDCFF for sign in path)
    return (
        is_text
        and len(os.fsencode(path)) <= 255
        and len(names) <= 16
        and not {"", ".", ".."} & set(names)
        and path[0] != "-"
    )


def _copy(path: str, name: str, folder: str, read: Callable[[str], bytes]) -> None:
    """Copies a source, and what it includes as far as it is there. One that is too long has a copy that is too long
    too, so that `uxn` says so."""
    for here, data in source.closure(path, read):
        there = name if here == path else includes.name_of(path, here)
        if not is_path(there):
            continue
        if here != path and there == name:
            raise Failure(f"{path} and {here}, which it includes, need different names", 131)
        if isinstance(data, bytes):
            files.put(files.make_inner(folder, there), data)
        elif files.is_long(data):
            files.put_long(files.make_inner(folder, there), files.SOURCE)
        elif here == path:
            raise data


def assemble(path: str, read: Callable[[str], bytes] = source.read) -> Assembled:
    """Assembles a source. `read` gives the bytes of a file by its path, as an editor's buffer has them."""
    name = os.path.basename(path)
    name = name if is_path(name) else "source.tal"
    with files.scratch_folder() as folder:
        _copy(path, name, folder, read)
        done = program.call("asm", name, "--out", ROM, "--symbols", SYMBOLS, folder=folder, seconds=60)
        if done.status == 0:
            rom = files.read(os.path.join(folder, ROM), files.ROM)
            return Assembled(None, rom, files.digest(os.path.join(folder, SYMBOLS)))
    found = REFUSAL.fullmatch(done.err)
    if done.status != 131 or not found:
        raise Failure(f"{path}: uxn asm ended with {done.status}: {done.line}", done.status)
    inner = os.fsdecode(found["path"]) if found["path"] else None
    where = os.path.join(includes.folder_of(path), inner) if inner else path
    return Assembled(
        Fault(where, int(found["line"]), int(found["column"]), found["kind"].decode(), found["word"].rstrip(b"\n"))
    )


# Faults that are those of their words alone: what follows them stays as it is when the word is left out, or is put in
# place by a number.
OF_A_FORM, OF_A_REFERENCE = ("BadNumber", "NoName", "BadName"), ("UnknownName", "TooFar")
MOST_FAULTS = 20
MOST_SHOWN = 260


def faults(path: str, read: Callable[[str], bytes] = source.read) -> list[Fault]:
    """What `uxn asm` refuses a source for, one fault after the other: it names the first, and the next in a copy in
    which the word of the one before is left out, or is a number of the same length. The list ends at a fault
    behind which others could come from it.
    """
    changed: dict[str, bytes] = {}
    found: list[Fault] = []

    def read_changed(name: str) -> bytes:
        return changed[name] if name in changed else read(name)

    has_moved = False
    macros: set[bytes] | None = None
    while len(found) < MOST_FAULTS:
        fault = assemble(path, read_changed).fault
        if fault is None or has_moved and fault.kind not in (*OF_A_FORM, "UnknownName"):
            break
        found.append(fault)
        if macros is None and shape(fault.word).kind is Kind.REFERENCE:
            macros = set(Analysis(path, read).macros)
        is_use = shape(fault.word).kind is Kind.REFERENCE and fault.word in (macros or ())
        data = None if is_use else _without(fault, read_changed)
        if data is None:
            break
        changed[fault.path] = data
        has_moved = has_moved or fault.kind in OF_A_FORM
    return found


def _without(fault: Fault, read: Callable[[str], bytes]) -> bytes | None:
    """The file of a fault with another word in the place of the faulty one; None where that would change what others
    mean."""
    lines = read(fault.path).split(b"\n")
    line, at = lines[fault.line - 1], fault.column - 1
    if not fault.word or line[at : at + len(fault.word)] != fault.word:
        return None
    form = shape(fault.word)
    if fault.kind in OF_A_FORM and fault.word[:1] not in b"@%&":
        new = b" " * len(fault.word)
    elif fault.kind in OF_A_REFERENCE and form.kind is Kind.REFERENCE:
        new = {1: b"00", 2: b"#00", 3: b"#0000"}[form.size] if form.rune != b"=" else b"0000"
    else:
        return None
    lines[fault.line - 1] = line[:at] + new + line[at + len(fault.word) :]
    return b"\n".join(lines)
