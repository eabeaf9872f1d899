"""Assertions on memory and ports: lines of a script that `uxn` reads as comments.

`# expect @lives 03` holds at its place between two events, `# always @lives <= 03` after every vector from its place
on. A comment that is nearly such a line is a fault, so that none is ignored."""
from __future__ import annotations

import operator
import re
from collections.abc import Callable, Iterator
from dataclasses import dataclass
from difflib import SequenceMatcher

EXPECT, ALWAYS = "expect", "always"
# How a value is written: digits, a decimal number with its sign, or several bytes and texts.
DIGITS, SIGNED, BYTES = "digits", "signed", "bytes"
WORDS = (EXPECT, ALWAYS)
# Whether a script may have such lines: all else is quicker to see.
LIKELY = re.compile(rb"#[\t ]*[A-Za-z]{4,10}")
COMMENT = re.compile(r"[\t ]*#(?P<gap>[\t ]*)(?P<word>[^\s@\"]+)(?P<rest>.*)")
TOKEN = re.compile(r'[\t\r ]*("[^"]*"|[^\t\r "]+|")')
PLACE = re.compile(r"(?P<name>@[^*]+|#[0-9a-fA-F]{4}|[^@#*\"][^*\"]*)(?P<short>\*?)")
# What follows a word that is nearly `expect`, if the line is meant to be one.
MEANT = re.compile(r"[\t ]*[:,]?[\t ]*(@[^\s]|#[0-9a-fA-F]{4}|[A-Za-z][\w-]*/|[0-9a-fA-F]{2}[\t ]+[0-9a-fA-F]{2}[\t\r ]*$)")
NEARNESS = 0.75
HEX = re.compile(r"[0-9a-fA-F]{2}|[0-9a-fA-F]{4}")
DECIMAL = re.compile(r"[+-][0-9]{1,6}")
COMPARISONS: dict[str, Callable[[bytes, bytes], bool]] = {
    "=": operator.eq,
    "!=": operator.ne,
    "<": operator.lt,
    "<=": operator.le,
    ">": operator.gt,
    ">=": operator.ge,
}
EQUALITIES = ("=", "!=")


class Wrong(ValueError):
    """Why a line is no assertion."""


@dataclass(frozen=True)
class Assertion:
    """A line that says what a place holds: its number, its text, and the place as it is written. The bytes are
    compared as a number, the high byte first, or for equality as they are. The form is that of the value."""

    line: int
    text: str
    is_always: bool
    place: str
    comparison: str
    value: bytes
    form: str

    @property
    def is_port(self) -> bool:
        return self.place[0] not in "@#"

    @property
    def length(self) -> int:
        return len(self.value)

    def holds(self, found: bytes) -> bool:
        return COMPARISONS[self.comparison](found, self.value)

    def shown(self, found: bytes) -> str:
        """What was there, in the form of the value."""
        if self.form == BYTES:
            text = found.decode("latin-1")
            return found.hex(" ") + (f' "{text}"' if text.isprintable() and text.isascii() else "")
        return found.hex() + (f" (+{int.from_bytes(found, 'big')})" if self.form == SIGNED else "")


@dataclass(frozen=True)
class Fault:
    """A line that is nearly an assertion, and why it is none."""

    line: int
    why: str


def read(data: bytes) -> tuple[tuple[Assertion, ...], tuple[Fault, ...]]:
    """The assertions of a script, and the lines that are nearly such."""
    found: list[Assertion] = []
    faults: list[Fault] = []
    for number, line in _comments(data):
        try:
            made = _assertion(number, line)
        except Wrong as wrong:
            faults.append(Fault(number, str(wrong)))
        else:
            found += [made] if made else []
    return tuple(found), tuple(faults)


def has_any(data: bytes) -> bool:
    """Whether a script has assertions, or lines that are nearly such."""
    return any(read(data))


def _comments(data: bytes) -> Iterator[tuple[int, str]]:
    if not LIKELY.search(data):
        return
    for number, line in enumerate(data.split(b"\n"), 1):
        if line.lstrip(b"\t ").startswith(b"#"):
            yield number, line.decode("latin-1").rstrip("\r")


def _assertion(number: int, line: str) -> Assertion | None:
    """The assertion of a comment; None of another comment."""
    found = COMMENT.fullmatch(line)
    if found is None:
        return None
    word, rest = found["word"], found["rest"]
    if word not in WORDS:
        near = _near(word)
        if near and MEANT.match(rest):
            raise Wrong(f"`# {word}` is no assertion: is it `# {near}`?")
        return None
    if not found["gap"]:
        raise Wrong(f"an assertion begins with `# {word}`, with a blank after the sign")
    return _of_tokens(number, word, _tokens(rest))


def _near(word: str) -> str | None:
    """The word of an assertion that a word is like."""
    bare = word.strip(":,.").lower()
    ratios = {name: SequenceMatcher(None, bare, name).ratio() for name in WORDS}
    best = max(WORDS, key=lambda name: ratios[name])
    return best if ratios[best] >= NEARNESS else None


def _tokens(text: str) -> list[str]:
    found, at = [], 0
    text = text.rstrip("\t\r ")
    while at < len(text):
        token = TOKEN.match(text, at)
        assert token is not None, "each sign begins a token"
        found.append(token[1])
        at = token.end()
    return found


def _of_tokens(number: int, word: str, tokens: list[str]) -> Assertion:
    if not tokens:
        raise Wrong(f"`# {word}` needs a place, as @lives, and a value")
    place = PLACE.fullmatch(tokens[0])
    if place is None:
        raise Wrong(f"`{tokens[0]}` is no place: it is a label as @lives, an address as #0300, or a port by its label")
    comparison, values = "=", tokens[1:]
    if values and re.fullmatch(r"[=!<>~]+", values[0]):
        comparison, values = values[0], values[1:]
    if comparison not in COMPARISONS:
        raise Wrong(f"`{comparison}` is no comparison: it is one of {' '.join(COMPARISONS)}")
    if not values:
        raise Wrong(f"`# {word} {tokens[0]}` needs a value")
    is_short = bool(place["short"])
    value = _short(values, comparison) if is_short else _bytes(values, comparison)
    text = " ".join([word, *tokens])
    return Assertion(number, text, word == ALWAYS, place["name"], comparison, value, _form(values))


def _form(values: list[str]) -> str:
    if len(values) > 1 or values[0].startswith('"'):
        return BYTES
    return SIGNED if DECIMAL.fullmatch(values[0]) else DIGITS


def _short(values: list[str], comparison: str) -> bytes:
    if len(values) != 1:
        raise Wrong("a place with a star holds one short: four hexadecimal digits, or a decimal number with its sign")
    return _number(values[0], 2, comparison)


def _bytes(values: list[str], comparison: str) -> bytes:
    """One byte, or for equality several bytes and texts."""
    if len(values) > 1 and comparison not in EQUALITIES:
        raise Wrong(f"`{comparison}` compares one number")
    return b"".join(_text(value, comparison) if value.startswith('"') else _number(value, 1, comparison) for value in values)


def _text(value: str, comparison: str) -> bytes:
    if len(value) < 2 or not value.endswith('"'):
        raise Wrong("a text ends with a quote")
    if comparison not in EQUALITIES:
        raise Wrong(f"`{comparison}` compares one number")
    if len(value) == 2:
        raise Wrong("a text has a sign at least")
    return value[1:-1].encode("latin-1")


def _number(text: str, size: int, comparison: str) -> bytes:
    """A number of so many bytes."""
    digits = {1: "two", 2: "four"}[size]
    if HEX.fullmatch(text):
        if len(text) != 2 * size:
            hint = "a short has a star at its place, as @score*" if size == 1 else "a byte has no star at its place"
            raise Wrong(f"`{text}` has {len(text)} digits: {hint}")
        return bytes.fromhex(text)
    if not DECIMAL.fullmatch(text):
        raise Wrong(f"`{text}` is no value: it has {digits} hexadecimal digits, or is decimal with its sign, as +18")
    number, limit = int(text), 1 << 8 * size
    if not -limit // 2 <= number < limit:
        raise Wrong(f"`{text}` is no number from {-limit // 2} to {limit - 1}")
    if number < 0 and comparison not in EQUALITIES:
        raise Wrong(f"`{comparison}` compares numbers from 0 on")
    return (number % limit).to_bytes(size, "big")
