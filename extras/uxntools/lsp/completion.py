"""What a word can become."""
from __future__ import annotations

import os
from collections.abc import Iterator
from itertools import islice

from uxntools import includes, opcodes, ports
from uxntools.analysis import RUNES
from uxntools.lsp import hover
from uxntools.lsp.documents import position
from uxntools.lsp.protocol import Json
from uxntools.lsp.workspace import Spot

FUNCTION, FIELD, KEYWORD, SNIPPET, FILE, CONSTANT = 3, 5, 14, 15, 17, 21
MOST = 300
# How many folders are looked into for files, and how many names of each are taken.
MOST_FOLDERS, MOST_NAMES = 1000, 1000


def complete(spot: Spot) -> Json:
    """The words that begin as the one before the cursor does."""
    line = spot.found.lines[spot.path][spot.line - 1] if spot.line <= len(spot.found.lines[spot.path]) else b""
    start = spot.column - 1
    while start > 0 and line[start - 1] > 0x20:
        start -= 1
    if _is_in_comment(spot, start):
        return {"isIncomplete": False, "items": []}
    typed = line[start : spot.column - 1].decode("utf-8", "replace")
    where = {"start": position(line, spot.line, start + 1), "end": position(line, spot.line, spot.column)}
    items: list[Json] = []
    for text, kind, detail in candidates(spot, typed):
        if text.startswith(typed):
            items.append(
                {
                    "label": text,
                    "kind": kind,
                    "detail": detail,
                    "textEdit": {"range": where, "newText": text},
                }
            )
        if len(items) > MOST:
            break
    return {"isIncomplete": len(items) > MOST, "items": items[:MOST]}


def _is_in_comment(spot: Spot, at: int) -> bool:
    rows = spot.found.rows[spot.path]
    if spot.line > len(rows):
        return False
    row = rows[spot.line - 1]
    if any(span.start <= at and (at < span.end or not span.ends) for span in row.comments):
        return True
    depth_before = rows[spot.line - 2].depth if spot.line > 1 else 0
    return depth_before > 0 and not any(span.ends and span.end <= at for span in row.comments)


def candidates(spot: Spot, typed: str) -> Iterator[tuple[str, int, str]]:
    """The words that a beginning lets expect, with their kind and what is said of them."""
    rune = typed[:1]
    if rune == "~":
        yield from _files(spot)
    elif rune == "|":
        yield from ((ports.declaration(device), SNIPPET, f"the ports of {device}") for device in ports.DEVICES)
    elif rune in ("&", "/"):
        yield from _sublabels(spot, rune)
    elif rune and rune.encode("utf-8", "replace") in RUNES:
        inner = typed[1:2] if typed[1:2] in ("&", "/") else "&"
        yield from _sublabels(spot, rune + inner)
        yield from _labels(spot, rune)
    elif rune not in ("@", "%", "#", '"', "$", "(", ")"):
        yield from ((name, KEYWORD, _effect(name)) for name in opcodes.NAMES)
        yield from ((typed[:3] + mode, KEYWORD, _effect(typed[:3] + mode)) for mode in _modes(typed))
        yield from ((hover.text_of(name), CONSTANT, "macro") for name in spot.found.macros)
        yield from _sublabels(spot, "/")
        yield from _labels(spot, "")


def _modes(typed: str) -> list[str]:
    """The modes of an opcode that is written out."""
    return (
        ["2", "k", "r", "2k", "2r", "kr", "2kr"]
        if len(typed) >= 3 and typed[:3] in (*opcodes.OPERATIONS, "LIT")
        else []
    )


def _effect(name: str) -> str:
    what = opcodes.instruction(name)
    if not what:
        return ""
    working, returning = what.effects()
    return (
        " / ".join([working] * bool(working) + [f"return stack {returning}"] * bool(returning)) or what.operation.does
    )


def _labels(spot: Spot, rune: str) -> Iterator[tuple[str, int, str]]:
    for label in spot.found.labels.values():
        effect = spot.found.comment_behind(label.word)
        yield rune + hover.text_of(label.name), FUNCTION, hover.text_of(effect) or f"{label.address:04x}"


def _sublabels(spot: Spot, before: str) -> Iterator[tuple[str, int, str]]:
    head = spot.found.scope_at(spot.path, spot.line, spot.column) + b"/"
    for label in spot.found.labels.values():
        if label.name.startswith(head):
            yield before + hover.text_of(label.name[len(head) :]), FIELD, f"{label.address:04x}"


def _files(spot: Spot) -> Iterator[tuple[str, int, str]]:
    """The files below the source's folder that it could include."""
    top = includes.folder_of(spot.found.path)
    for folder, folders, names in islice(os.walk(top), MOST_FOLDERS):
        folders[:] = (
            sorted(name for name in folders if not name.startswith("."))[:64]
            if folder.count("/") - top.count("/") < 4
            else []
        )
        for name in sorted(names)[:MOST_NAMES]:
            path = os.path.join(folder, name)
            if name.endswith(".tal") and path not in (spot.found.path, spot.path):
                yield "~" + os.path.relpath(path, top), FILE, "a file"
