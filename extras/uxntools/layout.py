"""The layout of a source: indentation, one blank between words, comments behind code under one another. The words
stay as they are, and each stays in its line, so nothing that an assembler sees changes."""
from __future__ import annotations

from typing import NamedTuple

from uxntools.analysis import RUNES, Row, rows

BLANKS = bytes(range(0x21))


class Place(NamedTuple):
    """A line that others stand beneath: how far it was indented, and the level that it has now."""

    old: int
    level: int


class Part(NamedTuple):
    """A part of a line: a word, or a comment as it stands."""

    text: bytes
    is_comment: bool


class Line(NamedTuple):
    """A line of the result: its level, its words and comments without the last one, and the comment behind them, if
    one stands there."""

    level: int
    code: bytes
    comment: bytes
    can_align: bool


def laid_out(data: bytes, indent: bytes | None = None) -> bytes:
    """The source in this layout, with `indent` for each level: without it that of its first indented line, which is
    a tab or 2 to 8 blanks. The layout of the result is the result."""
    indent = indent or _own_indent(data)
    lines = _lines(data, indent)
    done = lines.all()
    new = _joined(_aligned(done, indent))
    # What was indented for nothing no longer is; where nothing is any more, another rule holds.
    if not lines.is_flat and lines.is_flat_now:
        new = _joined(_aligned(_lines(new, indent).all(), indent))
    return new


def _lines(data: bytes, indent: bytes) -> _Lines:
    old = [line.rstrip(BLANKS) for line in data.split(b"\n")]
    return _Lines(old, rows(old), indent)


def _own_indent(data: bytes) -> bytes:
    lines, before = data.split(b"\n"), 0
    for line, found in zip(lines, rows(lines)):
        if (found.words or found.comments) and not before and _prefix(line):
            return b"\t" if b"\t" in _prefix(line) else b" " * min(max(_width(line), 2), 8)
        before = found.depth
    return b"\t"


def parts_of(line: bytes, found: Row) -> list[Part]:
    """The words and comments of a line in their order."""
    if not found.comments:
        return [Part(text, False) for _, text in found.words]
    words = [(at, Part(text, False)) for at, text in found.words]
    comments = [(span.start, Part(line[span.start : span.end], True)) for span in found.comments]
    return [part for _, part in sorted(words + comments, key=lambda placed: placed[0])]


def _prefix(line: bytes) -> bytes:
    return line[: len(line) - len(line.lstrip(BLANKS))]


def _width(line: bytes) -> int:
    return len(_prefix(line).expandtabs()) if line[:1] <= b" " else 0


class _Lines:
    """The lines of a source, from the first to the last."""

    def __init__(self, old: list[bytes], found: list[Row], indent: bytes) -> None:
        self.old, self.rows, self.indent = old, found, indent
        self.widths = [_width(line) for line in old]
        self.next_widths = self._next_widths()
        self.is_flat = not any(
            width and row.words and not self._goes_on(at) for at, (width, row) in enumerate(zip(self.widths, found))
        )
        self.is_flat_now = True
        self.pad: Place | None = None
        self.label: Place | None = None
        self.sublabels: list[Place] = []
        # The levels of lines with a brace that is open, and the sublabels behind each that lines stood deeper than.
        self.open: list[int] = []
        self.inner: list[list[Place]] = []
        self.level = 0
        self.waiting: list[int] = []
        self.comment_prefix = (b"", b"")
        self.done: list[Line | bytes | None] = [None] * len(old)

    def _next_widths(self) -> list[int]:
        """How far the next line with words behind each line is indented; less than nothing for a label, a pad, a
        macro and a closing brace."""
        widths, width = [], 0
        for at in reversed(range(len(self.old))):
            widths.append(width)
            if self.rows[at].words and not self._goes_on(at):
                width = -1 if self.rows[at].words[0][1][:1] in (b"@", b"|", b"%", b"}", b"]") else self.widths[at]
        return widths[::-1]

    def _goes_on(self, at: int) -> bool:
        """Whether a line begins within a comment."""
        return at > 0 and self.rows[at - 1].depth > 0

    def all(self) -> list[Line | bytes | None]:
        """The lines: those that begin within a comment as bytes, and None for a blank one."""
        for at, found in enumerate(self.rows):
            if self._goes_on(at):
                self._continue(at)
            elif found.words:
                self._code(at)
            elif found.comments:
                self.waiting.append(at)
            else:
                self._place_comments(None)
        self._place_comments(None)
        self._shift()
        return self.done

    def _code(self, at: int) -> None:
        words = [text for _, text in self.rows[at].words]
        old = self.widths[at]
        inner = self.open[-1] + 1 if self.open else None
        level = self._level(at, words, old)
        is_closer = words[0] in (b"}", b"]") and inner is not None
        self._place_comments(inner if is_closer else level)
        parts = parts_of(self.old[at], self.rows[at])
        self.done[at] = _line(level, parts)
        self.level = level
        self.is_flat_now = self.is_flat_now and level == 0
        for word in words:
            self._brace(word, level)
        if len(words) > 1 and words[-1][:1] == b"&" and not self.open and words[0][:1] not in (b"%", b"|", b"~"):
            self._leave_sublabels(old)
            self.sublabels.append(Place(old, level))

    def _brace(self, word: bytes, level: int) -> None:
        if word in (b"{", b"[") or len(word) == 2 and word[1:] == b"{" and word[:1] in RUNES:
            self.open.append(level)
            self.inner.append([])
        elif word in (b"}", b"]") and self.open:
            self.open.pop()
            self.inner.pop()

    def _level(self, at: int, words: list[bytes], old: int) -> int:
        """The level of a line, by its first word and by whether it stood deeper than the line that it may stand
        beneath."""
        first = words[0][:1]
        if first in (b"|", b"%") or first == b"~" and not old:
            self.open, self.inner = [], []
            return self._pad(words, old) if first == b"|" else 0
        if first == b"@":
            self.open, self.inner = [], []
            level = int(self.pad is not None and old > self.pad.old and not self.is_flat)
            self.pad = self.pad if level else None
            self.label, self.sublabels = Place(old, level), []
            return level
        if self.open:
            return self.open[-1] if words[0] in (b"}", b"]") else self._within_braces(first, old)
        return self._sublabel(old, self.next_widths[at]) if first == b"&" else self._body(old)

    def _within_braces(self, first: bytes, old: int) -> int:
        """A line in braces stands beneath the line that opened them, or beneath a sublabel in them that it stood deeper
        than."""
        sublabels = self.inner[-1]
        while sublabels and old <= sublabels[-1].old:
            sublabels.pop()
        level = sublabels[-1].level + 1 if sublabels else self.open[-1] + 1
        if first == b"&":
            sublabels.append(Place(old, level))
        return level

    def _pad(self, words: list[bytes], old: int) -> int:
        has_label = any(word[:1] == b"@" for word in words)
        self.pad, self.label = (None, Place(old, 0)) if has_label else (Place(old, 0), None)
        self.sublabels = []
        return 0

    def _sublabel(self, old: int, behind: int) -> int:
        """A sublabel stands beneath its label, or beneath a sublabel that it stood deeper than; but not one that
        stands like a label, over code of its own."""
        self._leave_sublabels(old)
        above = self.sublabels[-1] if self.sublabels and not self.is_flat else self.label or self.pad
        level = above.level + (self.is_flat or old > above.old or behind <= old) if above else 0
        self.sublabels = ([] if self.is_flat else self.sublabels) + [Place(old, level)]
        return level

    def _body(self, old: int) -> int:
        self._leave_sublabels(old)
        if self.sublabels:
            return self.sublabels[-1].level + 1
        if self.label:
            return self.label.level + 1
        return int(self.pad is not None and not self.is_flat and old > self.pad.old)

    def _leave_sublabels(self, old: int) -> None:
        """What does not stand deeper than a sublabel does not belong to it. Where nothing is indented, all that
        follows one does."""
        while self.sublabels and old <= self.sublabels[-1].old and not self.is_flat:
            self.sublabels.pop()

    def _place_comments(self, level: int | None) -> None:
        """Comments in lines of their own stand as the line behind them does; before a blank line, as the one before
        them."""
        for at in self.waiting:
            inner = self.open[-1] + 1 if self.open else self.level
            mine = level if level is not None else inner if self.widths[at] else 0
            self.done[at] = _line(mine, parts_of(self.old[at], self.rows[at]))
        self.waiting = []

    def _continue(self, at: int) -> None:
        """A line that begins within a comment: the comment stays, and what stands behind it is laid out."""
        line, found = self.old[at], self.rows[at]
        if not found.words:
            self.done[at] = line
            return
        end = found.comments[0].end
        rest = parts_of(line, Row(found.words, found.comments[1:], found.depth, (), 0))
        self.done[at] = b" ".join([line[:end], *(part.text for part in rest)])
        self._place_comments(self.level)
        for _, word in found.words:
            self._brace(word, self.level)

    def _shift(self) -> None:
        """The lines of a comment go with its first one, as far as they were indented as that one was."""
        old = new = b""
        for at, line in enumerate(self.done):
            if not self._goes_on(at):
                old = _prefix(self.old[at])
                new = self.indent * line.level if isinstance(line, Line) else b""
            elif isinstance(line, bytes) and line and line.startswith(old):
                self.done[at] = new + line[len(old) :]


def _line(level: int, parts: list[Part]) -> Line:
    words = [text for text, _ in parts]
    if not parts[-1].is_comment or len(parts) == 1:
        return Line(level, b" ".join(words), b"", False)
    code = [part.text for part in parts[:-1] if not part.is_comment]
    names_only = all(word[:1] in (b"@", b"&", b"|", b"") for word in code)
    return Line(level, b" ".join(words[:-1]), words[-1], bool(code) and not names_only)


def _characters(text: bytes) -> int:
    return len(text.decode("utf-8", "replace"))


def _aligned(lines: list[Line | bytes | None], indent: bytes) -> list[bytes | None]:
    """The lines as bytes: comments behind code stand under one another in lines of one level without a gap."""
    made: list[bytes | None] = []
    at = 0
    while at < len(lines):
        line = lines[at]
        if not isinstance(line, Line):
            made.append(line)
            at += 1
            continue
        end = at + 1
        while line.can_align and end < len(lines) and _goes_with(line, lines[end]):
            end += 1
        if end == at + 1:
            made.append(indent * line.level + line.code + b" " * bool(line.comment) + line.comment)
            at = end
            continue
        group = [one for one in lines[at:end] if isinstance(one, Line)]
        width = max(_characters(one.code) for one in group)
        for one in group:
            gap = b" " * (width - _characters(one.code) + 1) + one.comment if one.comment else b""
            made.append(indent * one.level + one.code + gap)
        at = end
    return made


def _goes_with(line: Line, behind: Line | bytes | None) -> bool:
    return isinstance(behind, Line) and behind.can_align and behind.level == line.level


def _joined(lines: list[bytes | None]) -> bytes:
    """The lines with at most one blank line between others, none at both ends, and a newline behind each."""
    made: list[bytes] = []
    is_blank = False
    for line in lines:
        if line is not None:
            made += [b""] * (is_blank and bool(made)) + [line]
        is_blank = line is None
    while made and not made[-1]:
        made.pop()
    return b"".join(line + b"\n" for line in made)
