"""What an editor offers beside answers about names: symbols of all files, the layout of some lines, effects beside
calls, and what to write in place of a faulty word."""
from __future__ import annotations

import os
import re
from collections.abc import Iterator
from difflib import SequenceMatcher

from uxntools import assembly, includes
from uxntools.analysis import Analysis, Kind, full_name, shape
from uxntools.cli import Failure
from uxntools.explaining import sources
from uxntools.lsp import outline
from uxntools.lsp.documents import bytes_of, position, range_of
from uxntools.lsp.hover import text_of
from uxntools.lsp.names import location
from uxntools.lsp.protocol import Json, Refusal
from uxntools.lsp.workspace import Workspace
from uxntools.source import Word

MOST_SYMBOLS, MOST_ACTIONS = 500, 20
# What stands behind the words to write, where an explanation says more than these.
MORE = re.compile(r"; | for | to | with |, (?:or|which|as|and) |,? where ")
# The runes of words that call a routine, or go on in it.
CALLS = (b"", b"!", b"?")


def workspace_symbols(workspace: Workspace, query: str) -> list[Json]:
    """The labels and macros of all sources of the workspace whose names have the letters of a query in their order."""
    given: dict[tuple[str, int, int, str], Json] = {}
    for found in _programs(workspace):
        for name, kind, word in _named(found):
            if _has_letters(name, query):
                place = os.path.normpath(word.path), word.line, word.column, name
                given.setdefault(place, {"name": name, "kind": kind, "location": location(found, word)})
        if len(given) >= MOST_SYMBOLS:
            break
    return list(given.values())[:MOST_SYMBOLS]


def _programs(workspace: Workspace) -> Iterator[Analysis]:
    """The programs of the workspace, each once."""
    if workspace.top is None:
        return
    known: set[str] = set()
    for path in includes.sources_of(includes.Project(workspace.top, workspace.top)):
        for main in workspace.mains_of(path):
            if main not in known:
                known.add(main)
                try:
                    yield workspace.analysis(main)
                except Refusal:
                    continue


def _named(found: Analysis) -> Iterator[tuple[str, int, Word]]:
    for macro in found.macros.values():
        yield text_of(macro.name), outline.CONSTANT, macro.word
    for label in found.labels.values():
        yield text_of(label.name), outline.kind_of(label), label.word


def _has_letters(name: str, query: str) -> bool:
    letters = iter(name.lower())
    return all(letter in letters for letter in query.lower())


def edits_of_range(old: list[bytes], new: list[bytes], where: Json) -> list[Json]:
    """The edits that give the lines of a range their layout."""
    first, last = where["start"]["line"], where["end"]["line"] + bool(where["end"]["character"])
    given = []
    for what, start, end, new_start, new_end in SequenceMatcher(None, old, new, autojunk=False).get_opcodes():
        if what != "equal" and start < max(last, first + 1) and end > first:
            lines = [line.decode("utf-8", "replace") + "\n" for line in new[new_start:new_end]]
            ends = {"start": {"line": start, "character": 0}, "end": {"line": end, "character": 0}}
            given.append({"range": ends, "newText": "".join(lines)})
    return given


def inlay_hints(found: Analysis, path: str, first: int, last: int) -> list[Json]:
    """The effects of routines beside the words that call them, in the lines from the first to before the last."""
    given = []
    for number, line in enumerate(found.rows[path][first:last], first + 1):
        for at, text in line.words:
            effect = _effect(found, Word(text, path, number, at + 1, 0))
            if effect:
                where = position(found.lines[path][number - 1], number, at + 1 + len(text))
                given.append({"position": where, "label": effect, "paddingLeft": True})
    return given


def _effect(found: Analysis, word: Word) -> str:
    form = shape(word.text)
    if form.kind is not Kind.REFERENCE or form.rune not in CALLS or word.text in found.macros:
        return ""
    scope = found.scope_at(word.path, word.line, word.column)
    label = found.labels.get(full_name(scope, form.name))
    return text_of(found.comment_behind(label.word)) if label else ""


def code_actions(workspace: Workspace, found: Analysis, path: str, faults: list[Json]) -> list[Json]:
    """For faults of `uxn`, what to write in place of their words. It is offered if the fault is then gone."""
    names = [text_of(label.name) for label in found.labels.values()]
    names += [f"%{text_of(macro.name)}" for macro in found.macros.values()]
    given: list[Json] = []
    for fault in faults[:MOST_ACTIONS]:
        word = found.word_at(path, fault["range"]["start"]["line"] + 1, _column(found, path, fault))
        reason = sources.reason(str(fault.get("code")), text_of(word.text), names) if word else None
        written = MORE.split(reason.write)[0].strip() if reason else ""
        if word and written and _is_right(workspace, found, word, written):
            edit: Json = {"range": range_of(word, found.lines[path]), "newText": written}
            uri = location(found, word)["uri"]
            said: Json = {"title": f"Write {written}", "kind": "quickfix", "diagnostics": [fault], "isPreferred": True}
            given.append({**said, "edit": {"changes": {uri: [edit]}}})
    return given


def _column(found: Analysis, path: str, fault: Json) -> int:
    start = fault["range"]["start"]
    lines = found.lines[path]
    return bytes_of(lines[start["line"]], start["character"]) + 1 if start["line"] < len(lines) else 1


def _is_right(workspace: Workspace, found: Analysis, word: Word, written: str) -> bool:
    """Whether a source has no fault at the place of a word, if other words are in its place. A definition takes the
    place of another one alone."""
    if written[0] in "@&%" and word.text[:1] != written[:1].encode():
        return False
    path = os.path.normpath(word.path)
    lines = list(found.lines[word.path])
    line, at = lines[word.line - 1], word.column - 1
    lines[word.line - 1] = line[:at] + written.encode() + line[at + len(word.text) :]
    data = b"\n".join(lines)
    try:
        faults = assembly.faults(found.path, lambda one: data if os.path.normpath(one) == path else workspace.files.read(one))
    except (Failure, OSError):
        return False
    end = word.column + len(written)
    return not any(
        os.path.normpath(one.path) == path and one.line == word.line and word.column <= one.column <= end for one in faults
    )
