"""What a file has, for lists, folds and colours: its symbols, the ranges that can be folded, and the kinds of its
words."""
from __future__ import annotations

from functools import lru_cache

from uxntools.analysis import Analysis, Kind, Label, Row, comments, shape
from uxntools.lsp.documents import position, range_of, units, uri_of
from uxntools.lsp.names import braces
from uxntools.lsp.protocol import Json
from uxntools.source import Word

FUNCTION, VARIABLE, CONSTANT, FIELD = 12, 13, 14, 8
TOKEN_TYPES = [
    "comment",
    "keyword",
    "number",
    "string",
    "macro",
    "function",
    "variable",
    "property",
    "operator",
    "namespace",
]
COMMENT, KEYWORD, NUMBER, STRING, MACRO, CALL, ADDRESS, PROPERTY, OPERATOR, INCLUDE = range(len(TOKEN_TYPES))
TOKEN_MODIFIERS = ["declaration"]
_BY_KIND = {
    Kind.OPCODE: KEYWORD,
    Kind.LITERAL: NUMBER,
    Kind.RAW: NUMBER,
    Kind.PAD: NUMBER,
    Kind.SKIP: NUMBER,
    Kind.TEXT: STRING,
    Kind.LABEL: CALL,
    Kind.SUBLABEL: PROPERTY,
    Kind.OPENER: OPERATOR,
    Kind.CLOSER: OPERATOR,
    Kind.BRACKET: OPERATOR,
    Kind.INCLUDE: INCLUDE,
    Kind.MACRO: MACRO,
}


def _text(name: bytes) -> str:
    return name.decode("utf-8", "replace")


def kind_of(label: Label) -> int:
    if label.word.text[:1] == b"&":
        return FIELD
    return VARIABLE if label.address < 0x100 else FUNCTION


def _symbol(found: Analysis, name: bytes, kind: int, word: Word, last: int) -> Json:
    lines = found.lines[word.path]
    end = {"line": last - 1, "character": units(lines[last - 1])}
    whole = {"start": position(lines[word.line - 1], word.line, word.column), "end": end}
    return {"name": _text(name), "kind": kind, "range": whole, "selectionRange": range_of(word, lines), "children": []}


def _regions(found: Analysis, path: str) -> list[tuple[Label, int]]:
    """The labels of a file, each with the last line before the next one that is no sublabel; of sublabels their own
    line."""
    labels = [label for label in found.labels.values() if label.word.path == path and not label.is_from_macro]
    last = len(found.lines[path])
    regions = []
    for label in reversed(labels):
        is_sublabel = label.word.text[:1] == b"&"
        regions.append((label, label.word.line if is_sublabel else _last_line(found.rows[path], label.word.line, last)))
        last = last if is_sublabel else max(label.word.line - 1, 1)
    return regions[::-1]


def _last_line(rows: list[Row], first: int, last: int) -> int:
    """The last line with words from the first to the last one."""
    while last > first and not rows[last - 1].words:
        last -= 1
    return max(first, last)


def symbols(found: Analysis, path: str) -> list[Json]:
    """The macros and labels of a file; a label has its sublabels."""
    given: list[Json] = []
    for macro in found.macros.values():
        if macro.word.path == path:
            given.append(
                _symbol(
                    found,
                    macro.name,
                    CONSTANT,
                    macro.word,
                    max(macro.word.line, macro.end.line if macro.end.path == path else 0),
                )
            )
    parent: Json | None = None
    for label, last in _regions(found, path):
        is_sublabel = label.word.text[:1] == b"&"
        name = label.name.partition(b"/")[2] if is_sublabel else label.name
        symbol = _symbol(found, name, kind_of(label), label.word, last)
        if is_sublabel and parent:
            parent["children"].append(symbol)
            continue
        given.append(symbol)
        parent = symbol
    return given


def flat_symbols(found: Analysis, path: str) -> list[Json]:
    """The same for an editor that knows no symbols within symbols."""
    flat: list[Json] = []
    for symbol in symbols(found, path):
        for one, container in [(symbol, None), *((child, symbol["name"]) for child in symbol["children"])]:
            said = {"name": one["name"], "kind": one["kind"], "location": {"uri": uri_of(path), "range": one["range"]}}
            flat.append({**said, "containerName": container} if container else said)
    return flat


def folds(found: Analysis, path: str) -> list[Json]:
    """Routines, comments, and what braces hold, where they have several lines."""
    ranges: list[tuple[int, int, str | None]] = [(label.word.line, last, None) for label, last in _regions(found, path)]
    ranges += [(word.line, last, "comment") for word, last in comments(found.lines[path], found.rows[path], path)]
    ranges += [(opener.line, closer.line - 1, None) for opener, closer in braces(found, path)]
    given = []
    for first, last, kind in sorted({one for one in ranges if one[1] > one[0]}, key=lambda one: one[:2]):
        fold: Json = {"startLine": first - 1, "endLine": last - 1}
        given.append({**fold, "kind": kind} if kind else fold)
    return given


@lru_cache(maxsize=1 << 16)
def _type(text: bytes) -> int:
    """The type of a word that is no use of a macro; -1 for a faulty one."""
    form = shape(text)
    if form.kind is not Kind.REFERENCE:
        return _BY_KIND.get(form.kind, -1)
    if form.rune in (b"", b"!", b"?"):
        return PROPERTY if form.name[:1] in (b"&", b"/") else CALL
    return PROPERTY if form.name[:1] in (b"&", b"/") else ADDRESS


def _row_tokens(line: bytes, row: Row, macros: dict[bytes, object]) -> list[tuple[int, int, int, int]]:
    """The words and comments of a line: the place, the length, the type and the modifiers, in bytes."""
    given = [
        (at, len(text), MACRO if text in macros else _type(text), int(text[0] in b"@&%")) for at, text in row.words
    ]
    if row.comments:
        given = sorted(given + [(span.start, span.end - span.start, COMMENT, 0) for span in row.comments])
    if line.isascii():
        return given
    return [
        (units(line, at), units(line, at + length) - units(line, at), kind, modifiers)
        for at, length, kind, modifiers in given
    ]


def semantic_tokens(found: Analysis, path: str, first: int = 0, last: int | None = None) -> list[int]:
    """The tokens of the lines from the first to before the last: five numbers each, relative to the one before."""
    data: list[int] = []
    macros: dict[bytes, object] = dict(found.macros)
    lines = found.lines[path]
    before = 0
    for number, row in enumerate(found.rows[path][first:last], first):
        start = 0
        for at, length, kind, modifiers in _row_tokens(lines[number], row, macros) if row.words or row.comments else ():
            if kind >= 0:
                data += (number - before, at - start, length, kind, modifiers)
                before, start = number, at
    return data
