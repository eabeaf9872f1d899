"""Requests about names: where one is defined, what refers to it, and another name for it, in all programs that have it."""
from __future__ import annotations

import os
from collections.abc import Callable, Iterable
from typing import NamedTuple

from uxntools import assembly, includes
from uxntools.analysis import Analysis, Entity, Kind, is_name, shape
from uxntools.cli import Failure
from uxntools.lsp.documents import range_of, uri_of
from uxntools.lsp.protocol import INVALID_PARAMS, REQUEST_FAILED, Json, Refusal
from uxntools.lsp.workspace import Spot
from uxntools.source import Word


def location(found: Analysis, word: Word) -> Json:
    return {"uri": uri_of(word.path), "range": range_of(word, found.lines[word.path])}


def entity_of(spot: Spot) -> tuple[Word, Entity] | None:
    word = spot.word()
    entity = spot.found.entity_at(word) if word else None
    return (word, entity) if word and entity else None


def definition(spot: Spot) -> Json | None:
    """Where the name at a place is defined; of an include word the file, and of a brace the one that matches it."""
    word = spot.word()
    if not word:
        return None
    form = shape(word.text)
    if form.kind is Kind.INCLUDE:
        path = os.path.join(includes.folder_of(spot.found.path), os.fsdecode(form.name))
        start = {"line": 0, "character": 0}
        return {"uri": uri_of(path), "range": {"start": start, "end": start}} if path in spot.found.rows else None
    if form.kind in (Kind.OPENER, Kind.CLOSER):
        other = matching_brace(spot.found, word)
        return location(spot.found, other) if other else None
    entity = spot.found.entity_at(word)
    defined = spot.found.definition(entity) if entity else None
    return location(spot.found, defined) if defined else None


def braces(found: Analysis, path: str) -> list[tuple[Word, Word]]:
    """The braces of a file that match, each opener with its closer."""
    pairs: list[tuple[Word, Word]] = []
    waiting: list[Word] = []
    for number, line in enumerate(found.rows[path], 1):
        for at, text in line.words:
            if text == b"}" and waiting:
                pairs.append((waiting.pop(), Word(text, path, number, at + 1, 0)))
            elif text[-1:] == b"{" and shape(text).kind is Kind.OPENER:
                waiting.append(Word(text, path, number, at + 1, 0))
    return pairs


def matching_brace(found: Analysis, word: Word) -> Word | None:
    for opener, closer in braces(found, word.path):
        if word in (opener, closer):
            return closer if word == opener else opener
    return None


def words_of(found: Analysis, entity: Entity, with_definition: bool) -> list[Word]:
    """The words that refer to a name, in the order of the source, and the one that defines it."""
    defined = found.definition(entity)
    words = found.references.get(entity, [])
    return ([defined] if with_definition and defined else []) + words


class Named(NamedTuple):
    """A name in a program."""

    found: Analysis
    entity: Entity


def named_by(spot: Spot, word: Word) -> list[Named]:
    """What a word of a file names, in each program that includes the file."""
    names = []
    for found in spot.workspace.programs_of(word.path):
        path = found.path_of(word.path) or word.path
        names += [Named(found, entity) for entity in found.entities_at(path, word.line, word.column)]
    return names


def closure(names: Iterable[Named], more: Callable[[Named], Iterable[Named]]) -> list[Named]:
    """Names with all to which they lead."""
    known: dict[tuple[str, Entity], Named] = {}
    waiting = list(names)
    while waiting:
        one = waiting.pop(0)
        if known.setdefault((one.found.path, one.entity), one) is one:
            waiting += more(one)
    return list(known.values())


def meant(spot: Spot) -> list[Named]:
    """What the word at a place names, in all programs that include its file or the one that defines the name."""
    word = spot.word()

    def of_definition(one: Named) -> list[Named]:
        defined = one.found.definition(one.entity)
        return named_by(spot, defined) if defined else []

    return closure(named_by(spot, word), of_definition) if word else []


def places_of(names: Iterable[Named], with_definition: bool) -> list[tuple[Analysis, Word]]:
    """The words of some names, each place once, file by file."""
    found: dict[tuple[str, int, int], tuple[Analysis, Word]] = {}
    for one in names:
        for word in words_of(one.found, one.entity, with_definition):
            found.setdefault((os.path.normpath(word.path), word.line, word.column), (one.found, word))
    return list(found.values())


def references(spot: Spot, with_definition: bool) -> list[Json]:
    return [location(found, word) for found, word in places_of(meant(spot), with_definition)]


def highlights(spot: Spot) -> list[Json]:
    path = os.path.normpath(spot.path)
    words = [one for one in places_of(meant(spot), True) if os.path.normpath(one[1].path) == path]
    return [{"range": range_of(word, found.lines[word.path])} for found, word in words]


def _own_part(entity: Entity, word: Word) -> tuple[int, int]:
    """The part of a word that is the name as it is written there, behind a rune, a scope and a slash."""
    text = word.text
    end = len(text)
    if not entity.is_macro and b"/" in entity.name:
        last = entity.name.partition(b"/")[2]
        return end - len(last), end
    return end - len(entity.name), end


def prepare_rename(spot: Spot) -> Json:
    named = entity_of(spot)
    if not named or not spot.found.definition(named[1]):
        raise Refusal(REQUEST_FAILED, "here stands no name of the source")
    word, entity = named
    part = Part(word, *_own_part(entity, word)).text()
    return {"range": range_of(part, spot.found.lines[word.path]), "placeholder": part.text.decode("utf-8", "replace")}


def rename(spot: Spot, new: str) -> Json:
    """The edits that give the name at a place another one, in all files and programs; with a label go its sublabels'
    full names. Each program keeps its ROM, or there is no edit."""
    named = entity_of(spot)
    if not named or not spot.found.definition(named[1]):
        raise Refusal(REQUEST_FAILED, "here stands no name of the source")
    data = _last_part(named[1], new.encode("utf-8", "surrogatepass"))
    names = closure(meant(spot), lambda one: _of_parts(spot, one))
    parts: dict[tuple[str, int, int], tuple[Analysis, Part]] = {}
    for found, entity in names:
        where = f" in {os.path.relpath(found.path, spot.workspace.top)}" if len({one.found.path for one in names}) > 1 else ""
        _check(found, entity, data, where)
        for part in _parts(found, entity):
            place = (os.path.normpath(part.word.path), part.word.line, part.word.column + part.start)
            parts.setdefault(place, (found, part))
    _keep_roms(spot, [part for _, part in parts.values()], data)
    edits: dict[str, list[Json]] = {}
    for found, part in parts.values():
        edit = {"range": range_of(part.text(), found.lines[part.word.path]), "newText": data.decode("utf-8", "replace")}
        edits.setdefault(uri_of(part.word.path), []).append(edit)
    return {"changes": edits}


def _last_part(entity: Entity, new: bytes) -> bytes:
    """The new name without the scope that stays: a sublabel may be given its full name."""
    scope, slash, _ = entity.name.partition(b"/")
    return new.removeprefix(scope + slash) if slash and not entity.is_macro else new


def _of_parts(spot: Spot, one: Named) -> list[Named]:
    """What the words that a new name of one name changes are in the other programs that have them: a name, or the
    label of its scope."""
    found = []
    for part in _parts(*one):
        for other in named_by(spot, part.word):
            scope = other.entity.name.partition(b"/")[0]
            is_whole = part.end == len(part.word.text)
            found.append(other if is_whole else Named(other.found, Entity(False, scope)))
    return found


def _keep_roms(spot: Spot, parts: list[Part], new: bytes) -> None:
    """Refuses a new name if a program would not assemble as before."""
    read = spot.workspace.files.read
    changed = {path: _changed(read(path), of_file, new) for path, of_file in _by_file(parts).items()}
    mains = dict.fromkeys(main for path in changed for main in spot.workspace.mains_of(path))
    for main in mains:
        if _outcome(main, read) != _outcome(main, lambda path: changed.get(os.path.normpath(path)) or read(path)):
            raise Refusal(REQUEST_FAILED, f"{os.path.relpath(main, spot.workspace.top)} would not be what it is")


def _by_file(parts: list[Part]) -> dict[str, list[Part]]:
    found: dict[str, list[Part]] = {}
    for part in parts:
        found.setdefault(os.path.normpath(part.word.path), []).append(part)
    return found


def _changed(data: bytes, parts: list[Part], new: bytes) -> bytes:
    """A file with the new name in place of the parts of its words."""
    lines = data.split(b"\n")
    for part in sorted(parts, key=lambda part: (part.word.line, part.word.column + part.start), reverse=True):
        line, at = lines[part.word.line - 1], part.word.column - 1
        lines[part.word.line - 1] = line[: at + part.start] + new + line[at + part.end :]
    return b"\n".join(lines)


def _outcome(main: str, read: Callable[[str], bytes]) -> bytes | tuple[str, int, str] | None:
    """What a program gives: its ROM, or where it is refused and how. Nothing is known of it without `uxn`."""
    try:
        done = assembly.assemble(main, read)
    except (Failure, OSError):
        return None
    return (done.fault.path, done.fault.line, done.fault.kind) if done.fault else done.rom


def _renamed(entity: Entity, new: bytes) -> Entity:
    scope, slash, _ = entity.name.partition(b"/")
    return Entity(entity.is_macro, scope + slash + new if slash and not entity.is_macro else new)


def _check(found: Analysis, entity: Entity, new: bytes, where: str) -> None:
    """Refuses a new name of a name that cannot be one, or that a program has already."""
    renamed = _renamed(entity, new)
    is_sublabel = not entity.is_macro and b"/" in entity.name
    has_blank = any(byte <= 0x20 for byte in new)
    is_right = bool(new) and not has_blank and (is_sublabel or is_name(new) and b"/" not in new)
    if not is_right:
        raise Refusal(INVALID_PARAMS, f"{new.decode(errors='replace')} is no name")
    scope, slash, _ = new.partition(b"/")
    if slash and found.definition(Entity(False, scope)):
        raise Refusal(REQUEST_FAILED, f"{new.decode(errors='replace')} has another scope{where}")
    taken = renamed != entity and (
        found.definition(renamed) or not is_sublabel and found.definition(Entity(not entity.is_macro, new))
    )
    if taken or not is_sublabel and renamed != entity and _has_scope(found, new):
        raise Refusal(REQUEST_FAILED, f"{new.decode(errors='replace')} is defined already{where}")


def _has_scope(found: Analysis, name: bytes) -> bool:
    return any(label.startswith(name + b"/") for label in found.labels)


class Part(NamedTuple):
    """A part of a word that a new name takes the place of."""

    word: Word
    start: int
    end: int

    def text(self) -> Word:
        """The part as a word of its own."""
        return self.word._replace(text=self.word.text[self.start : self.end], column=self.word.column + self.start)


def _parts(found: Analysis, entity: Entity) -> list[Part]:
    """The parts of words that a new name takes the place of: of a label also where it is the scope of a full name."""
    parts = [Part(word, *_own_part(entity, word)) for word in words_of(found, entity, True)]
    if entity.is_macro or b"/" in entity.name:
        return parts
    head = entity.name + b"/"
    for other in {*found.references, *(Entity(False, name) for name in found.labels)}:
        if other.is_macro or not other.name.startswith(head):
            continue
        for word in words_of(found, other, True):
            start = word.text.find(head)
            if start in (0, 1):
                parts.append(Part(word, start, start + len(entity.name)))
    return parts
