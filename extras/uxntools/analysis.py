"""The names of a source and of the files that it includes: macros and their uses, labels with their scopes and
addresses, references and lambdas. It reads a faulty source as far as it goes: which sources are right, `uxn` alone
says."""
from __future__ import annotations

import enum
import os
import re
from bisect import bisect_left, bisect_right
from collections.abc import Callable, Iterator
from functools import lru_cache
from typing import NamedTuple

from uxntools import facts, opcodes, source
from uxntools.facts import CALL_SIZE, LIMITS
from uxntools.source import Word

RUNES = "".join(facts.RUNES).encode()
SIZES = {ord(sign): size for sign, size in facts.RUNES.items()}
NOT_FIRST = facts.RESERVED.encode()
DIGITS = re.compile(rb"[0-9a-f]+")
_new = tuple.__new__  # makes a named tuple at once, where there are very many


class Kind(enum.Enum):
    (
        PAD,
        SKIP,
        LITERAL,
        RAW,
        OPCODE,
        TEXT,
        LABEL,
        SUBLABEL,
        REFERENCE,
        OPENER,
        CLOSER,
        BRACKET,
        INCLUDE,
        MACRO,
        FAULTY,
    ) = range(15)


# What gives bytes and names nothing.
PLAIN = {Kind.LITERAL, Kind.RAW, Kind.OPCODE, Kind.TEXT}


class Shape(NamedTuple):
    """What a word is by itself: its kind, how many bytes it gives, the name that it defines or refers to, and the
    rune before that, if any."""

    kind: Kind
    size: int
    name: bytes
    rune: bytes


class Span(NamedTuple):
    """A comment's part in a line, from the first byte to behind the last one, and whether it begins and ends there."""

    start: int
    end: int
    begins: bool
    ends: bool


class Mark(NamedTuple):
    """A word of a line that may name something or move the address, its place, and how many bytes the words between
    it and the mark before give."""

    at: int
    text: bytes
    form: Shape
    gap: int


class Row(NamedTuple):
    """A line: its words with their places, from 0, its comments, the comment depth behind it, its marks, and the
    bytes behind the last."""

    words: tuple[tuple[int, bytes], ...]
    comments: tuple[Span, ...]
    depth: int
    marks: tuple[Mark, ...]
    rest: int


def has_digits(text: bytes, *counts: int) -> bool:
    return len(text) in counts and DIGITS.fullmatch(text) is not None


def is_name(name: bytes) -> bool:
    """Whether a label or a macro may have this name."""
    return (
        bool(name)
        and name[0] not in NOT_FIRST
        and not has_digits(name, 2, 4)
        and opcodes.instruction(name.decode("latin-1")) is None
    )


@lru_cache(maxsize=1 << 17)
def shape(text: bytes) -> Shape:
    rune, rest = text[:1], text[1:]
    if rune in b"|$":
        return (
            Shape(Kind.PAD if rune == b"|" else Kind.SKIP, 0, rest, rune)
            if has_digits(rest, 1, 2, 3, 4)
            else _faulty(rune)
        )
    if rune == b"#":
        return Shape(Kind.LITERAL, 1 + len(rest) // 2, rest, rune) if has_digits(rest, 2, 4) else _faulty(rune)
    if rune == b'"':
        return Shape(Kind.TEXT, len(rest), rest, rune)
    if rune in b"@&%~":
        kind = {b"@": Kind.LABEL, b"&": Kind.SUBLABEL, b"%": Kind.MACRO, b"~": Kind.INCLUDE}[rune]
        return Shape(kind, 0, rest, rune) if rest else _faulty(rune)
    if rune in b"{}[]":
        kind = {b"{": Kind.OPENER, b"}": Kind.CLOSER}.get(rune, Kind.BRACKET)
        return _faulty(rune) if rest else Shape(kind, CALL_SIZE if rune == b"{" else 0, b"", b"")
    if rune in RUNES:
        if rest[:1] == b"{":
            return Shape(Kind.OPENER, SIZES[rune[0]], b"", rune) if rest == b"{" else _faulty(rune)
        return _faulty(rune) if rest in (b"", b"&", b"/") else Shape(Kind.REFERENCE, SIZES[rune[0]], rest, rune)
    if has_digits(text, 2, 4):
        return Shape(Kind.RAW, len(text) // 2, text, b"")
    if opcodes.instruction(text.decode("latin-1")):
        return Shape(Kind.OPCODE, 1, text, b"")
    return Shape(Kind.REFERENCE, CALL_SIZE, text, b"") if text != b"/" else _faulty(b"")


def _faulty(rune: bytes) -> Shape:
    return Shape(Kind.FAULTY, 0, b"", rune)


@lru_cache(maxsize=1 << 17)
def row(line: bytes, depth: int) -> Row:
    """A line that begins at a comment depth. Lines that were read before cost nothing, so an edit costs only the
    lines that it changes."""
    tokens, after = source.line_tokens(line, depth)
    words: list[tuple[int, bytes]] = []
    spans: list[Span] = []
    inside, start, end = depth, 0, 0
    for at, text, is_comment in tokens:
        if not is_comment:
            words.append((at, text))
            continue
        if not inside:
            start, inside = at, 1
        elif not spans and not end and depth:
            start, inside = at, inside + (text == b"(") - (text == b")")
        else:
            inside += (text == b"(") - (text == b")")
        end = at + len(text)
        if not inside:
            spans.append(Span(start, end, bool(spans) or not depth, True))
    if inside and end:
        spans.append(Span(start, end, bool(spans) or not depth, False))
    return Row(tuple(words), tuple(spans), after, *_marks(words))


def _marks(words: list[tuple[int, bytes]]) -> tuple[tuple[Mark, ...], int]:
    marks, gap = [], 0
    for at, text in words:
        form = shape(text)
        if form.kind in PLAIN:
            gap += form.size
        else:
            marks.append(Mark(at, text, form, gap))
            gap = 0
    return tuple(marks), gap


def rows(lines: list[bytes]) -> list[Row]:
    found, depth = [], 0
    for line in lines:
        found.append(row(line, depth))
        depth = found[-1].depth
    return found


class Label(NamedTuple):
    """A label or a sublabel: its full name, the word that defines it, in the source or in the body of a macro, and
    its address."""

    name: bytes
    word: Word
    address: int
    origin: Word

    @property
    def is_from_macro(self) -> bool:
        return self.word is not self.origin


class Macro(NamedTuple):
    """A macro: its name, its head, the words of its body, and the brace that ends it, or the last word where none
    does."""

    name: bytes
    word: Word
    body: list[Word]
    end: Word


class Placed(NamedTuple):
    """A word of the expanded source: itself, where it stands, the word of the source that it came from, its address
    and its scope."""

    word: Word
    origin: Word
    address: int
    scope: bytes


class Entity(NamedTuple):
    """What a word names: a label by its full name, or a macro."""

    is_macro: bool
    name: bytes


class Missing(NamedTuple):
    """An include word whose file could not be read, and why."""

    word: Word
    reason: str


def full_name(scope: bytes, name: bytes) -> bytes:
    """The label that a reference names in a scope."""
    return scope + b"/" + name[1:] if name[:1] in (b"&", b"/") else name


class Analysis:
    """A source with all that it includes. `read` gives the bytes of a file by its path, as an editor's buffer has
    them. The expanded source is there where `expand` asks for it; it takes time."""

    def __init__(self, path: str, read: Callable[[str], bytes] = source.read, expand: bool = False) -> None:
        self.path = path
        self.rows: dict[str, list[Row]] = {}
        self.lines: dict[str, list[bytes]] = {}
        self.missing: list[Missing] = []
        self.macros: dict[bytes, Macro] = {}
        self.labels: dict[bytes, Label] = {}
        self.twice: list[Label] = []
        self.expanded: list[Placed] = []
        self.places: dict[tuple[str, int, int], Entity] = {}
        self.references: dict[Entity, list[Word]] = {}
        self.scopes: dict[str, list[tuple[int, int, bytes]]] = {}
        self._read = read
        self._named: dict[tuple[str, int, int], list[Entity]] | None = None
        _Walk(self, expand).run()

    def rows_of(self, path: str) -> list[Row]:
        if path not in self.rows:
            self.lines[path] = self._read(path).split(b"\n")
            self.rows[path] = rows(self.lines[path])
        return self.rows[path]

    def scope_at(self, path: str, line: int, column: int) -> bytes:
        """The scope of a place: that of the last label before it in its file, or the one in which the file was
        included."""
        scopes = self.scopes.get(path, [])
        at = bisect_right(scopes, (line, column, b"\xff" * 256))
        return scopes[at - 1][2] if at else b"RESET"

    def entity_at(self, word: Word) -> Entity | None:
        """What the word at a place names."""
        return self.places.get((word.path, word.line, word.column))

    def entities_at(self, path: str, line: int, column: int) -> list[Entity]:
        """What the word at a place names: of a word in the body of a macro there may be several names."""
        if self._named is None:
            self._named = {}
            words = [(entity, word) for entity, found in self.references.items() for word in found]
            words += [(Entity(False, label.name), label.word) for label in (*self.labels.values(), *self.twice)]
            words += [(Entity(True, macro.name), macro.word) for macro in self.macros.values()]
            for entity, word in words:
                self._named.setdefault((word.path, word.line, word.column), []).append(entity)
        return self._named.get((path, line, column), [])

    def path_of(self, path: str) -> str | None:
        """A file of the source as the analysis names it; None for one that it does not include."""
        if path in self.rows:
            return path
        return next((one for one in self.rows if os.path.normpath(one) == os.path.normpath(path)), None)

    def word_at(self, path: str, line: int, column: int) -> Word | None:
        """The word, outside comments, that has the byte of a place, or ends right before it."""
        lines = self.rows.get(path, [])
        if not 1 <= line <= len(lines):
            return None
        for at, text in reversed(lines[line - 1].words):
            if at + 1 <= column <= at + 1 + len(text):
                return Word(text, path, line, at + 1, 0)
        return None

    def comment_behind(self, word: Word) -> bytes:
        """The comment right behind a word, as a label has one with its effect on the stack; empty without one that
        ends in its line."""
        line = self.rows[word.path][word.line - 1]
        end = word.column - 1 + len(word.text)
        next_word = bisect_left(line.words, (end, b""))
        text = self.lines[word.path][word.line - 1]
        behind = line.words[next_word][0] if next_word < len(line.words) else len(text)
        for at in range(bisect_left(line.comments, (end,)), len(line.comments)):
            span = line.comments[at]
            if span.start >= behind:
                break
            if span.begins and span.ends:
                return text[span.start : span.end]
        return b""

    def comment_above(self, word: Word) -> bytes:
        """The comment that ends in the line above a word's, where that line has no words. The first comment of a file,
        with nothing before it, is about the file."""
        last = word.line - 2
        first = last
        found = self.rows[word.path]
        while first >= 0 and not found[first].words and found[first].comments:
            if found[first].comments[0].begins:
                if not any(row.words or row.comments for row in found[:first]):
                    return b""
                return b"\n".join(self.lines[word.path][first : last + 1]).strip()
            first -= 1
        return b""

    def definition(self, entity: Entity) -> Word | None:
        found = self.macros.get(entity.name) if entity.is_macro else self.labels.get(entity.name)
        return found.word if found else None


class _Walk:
    """The walk through the words of a source, which finds what it defines and refers to."""

    def __init__(self, found: Analysis, expand: bool) -> None:
        self.found, self.expand = found, expand
        self.address, self.scope = 0x100, b"RESET"
        self.visited, self.includes, self.size = 0, 0, 0
        self.head: Word | None = None
        self.body: list[Word] = []
        self.depth = 0
        # What a word of a macro's body names in other uses than the first.
        self.other_names: set[tuple[Entity, tuple[str, int, int]]] = set()

    def run(self) -> None:
        self._file(self.found.path, 0)
        if self.head:
            self._end_macro()
        self._resolve_bodies()

    def _file(self, path: str, depth: int) -> None:
        lines = self.found.rows_of(path)
        self.size += sum(map(len, self.found.lines[path])) + len(lines) - 1
        self.found.scopes.setdefault(path, []).append((1, 0, self.scope))
        for number, line in enumerate(lines, 1):
            if self.head or self.expand:
                self._words(path, number, line.words, depth)
                continue
            for at, text, form, gap in line.marks:
                self.address += gap
                if form.kind is Kind.MACRO:
                    self._words(path, number, tuple(word for word in line.words if word[0] >= at), depth)
                    break
                self._word(_new(Word, (text, path, number, at + 1, 0)), form, depth)
            else:
                self.address += line.rest

    def _words(self, path: str, number: int, words: tuple[tuple[int, bytes], ...], depth: int) -> None:
        for at, text in words:
            word, form = _new(Word, (text, path, number, at + 1, 0)), shape(text)
            if form.kind is Kind.INCLUDE:
                self._include(word, depth)
            elif self.head:
                self._collect(word, form)
            else:
                self._word(word, form, depth)

    def _word(self, word: Word, form: Shape, depth: int) -> None:
        """A word of the source, outside heads and bodies."""
        if form.kind is Kind.MACRO:
            self.head, self.body, self.depth = word, [], 0
        elif form.kind is Kind.INCLUDE:
            self._include(word, depth)
        elif word.text in self.found.macros:
            self._use(word, word, 1)
        else:
            self._place(word, word, form)

    def _include(self, word: Word, depth: int) -> None:
        inner = source.included(self.found.path, word.text)
        is_too_much = depth == LIMITS.include_depth or self.includes == LIMITS.included_files or self.size > LIMITS.text
        if is_too_much or inner is None:
            self.found.missing.append(Missing(word, "there are too many"))
            return
        self.includes += 1
        try:
            self.found.rows_of(inner)
        except OSError as error:
            self.found.missing.append(Missing(word, error.strerror or "it cannot be read"))
            return
        self._file(inner, depth + 1)
        self.found.scopes[word.path].append((word.line, word.column, self.scope))

    def _collect(self, word: Word, form: Shape) -> None:
        """A word of a macro's body, or a brace around it; another word behind the head ends what is none."""
        self.depth += (form.kind is Kind.OPENER) - (form.kind is Kind.CLOSER)
        if self.body or word.text == b"{":
            self.body.append(word)
            if self.depth <= 0:
                self._end_macro()
            return
        self.head = None
        self._word(word, form, 0)

    def _end_macro(self) -> None:
        head, self.head = self.head, None
        if head and self.body:
            name = head.text[1:]
            is_closed = self.depth <= 0
            self.found.macros.setdefault(
                name, Macro(name, head, self.body[1:-1] if is_closed else self.body[1:], self.body[-1])
            )
            self.found.places[head.path, head.line, head.column] = Entity(True, name)

    def _use(self, word: Word, origin: Word, depth: int) -> None:
        self.visited += 1
        self._refer(Entity(True, word.text), word)
        if depth > LIMITS.macro_depth:
            return
        macros = self.found.macros
        for inner in macros[word.text].body:
            if self.visited > LIMITS.words:
                return
            if inner.text in macros:
                self._use(inner, origin, depth + 1)
            else:
                self._place(inner, origin, shape(inner.text))

    def _place(self, word: Word, origin: Word, form: Shape) -> None:
        self.visited += 1
        kind = form.kind
        if self.expand:
            self.found.expanded.append(_new(Placed, (word, origin, self.address, self.scope)))
        if kind is Kind.REFERENCE:
            name = form.name
            self._refer(_new(Entity, (False, self.scope + b"/" + name[1:] if name[0] in b"&/" else name)), word)
        elif kind is Kind.LABEL or kind is Kind.SUBLABEL:
            self._label(word, origin, form)
        elif kind is Kind.PAD:
            self.address = int(form.name, 16)
        elif kind is Kind.SKIP:
            self.address += int(form.name, 16)
        self.address += form.size

    def _label(self, word: Word, origin: Word, form: Shape) -> None:
        name = self.scope + b"/" + form.name if form.kind is Kind.SUBLABEL else form.name
        label = Label(name, word, self.address, origin)
        if self.found.labels.setdefault(name, label) is not label:
            self.found.twice.append(label)
        self.found.places.setdefault((word.path, word.line, word.column), Entity(False, name))
        if form.kind is Kind.LABEL:
            self.scope = name.partition(b"/")[0]
            self.found.scopes[origin.path].append((origin.line, origin.column, self.scope))

    def _refer(self, entity: Entity, word: Word) -> None:
        """Notes a reference. A word of a macro's body counts once for each name that it has in its uses."""
        place = (word.path, word.line, word.column)
        known = self.found.places.get(place)
        if known is None:
            self.found.places[place] = entity
        elif known == entity or (entity, place) in self.other_names:
            return
        else:
            self.other_names.add((entity, place))
        self.found.references.setdefault(entity, []).append(word)

    def _resolve_bodies(self) -> None:
        """What the bodies of macros that nothing uses refer to, as far as it does not depend on the scope of a use."""
        for macro in self.found.macros.values():
            for word in macro.body:
                form = shape(word.text)
                if (word.path, word.line, word.column) in self.found.places:
                    continue
                if word.text in self.found.macros:
                    self._refer(Entity(True, word.text), word)
                elif form.kind is Kind.REFERENCE and form.name[:1] not in (b"&", b"/"):
                    self._refer(Entity(False, form.name), word)


def lambdas(words: list[Placed]) -> dict[int, int]:
    """The place of the brace that matches each opener, by its place in the expanded source."""
    pairs: dict[int, int] = {}
    waiting: list[int] = []
    for at, placed in enumerate(words):
        text = placed.word.text
        if text == b"}":
            if waiting:
                pairs[waiting.pop()] = at
        elif text[-1:] == b"{" and shape(text).kind is Kind.OPENER:
            waiting.append(at)
    return pairs


def comments(lines: list[bytes], found: list[Row], path: str = "") -> Iterator[tuple[Word, int]]:
    """The comments of a file, each as one word with its bytes and its place, and the line that it ends in."""
    begun: tuple[int, int] | None = None
    for number, line in enumerate(found, 1):
        for span in line.comments:
            if span.begins:
                begun = (number, span.start)
            if span.ends and begun:
                first, at = begun
                parts = [lines[first - 1][at : span.end if first == number else None]]
                parts += [*lines[first : number - 1], lines[number - 1][: span.end]] if first < number else []
                yield Word(b"\n".join(parts), path, first, at + 1, 0), number
                begun = None
