"""Scripts of `uxn play`: their lines and words, the `expect` lines among them, and bytes as words of a script."""
from __future__ import annotations

import re
from collections.abc import Iterator
from dataclasses import dataclass

from uxntools.facts import LIMITS

BLANKS = re.compile(rb"[\t\r ]+")
BYTE = re.compile(rb"[0-9a-fA-F]{2}")
# A script gives an event for each byte of its input, and one for the end.
MOST_INPUT = LIMITS.events - 1


@dataclass(frozen=True)
class Expect:
    """A line that expects a byte in a port; lines count from 1."""

    line: int
    port: int
    value: int


def words(line: bytes) -> list[bytes]:
    """The words of a line; none of an empty line and of a comment."""
    found = [word for word in BLANKS.split(line) if word]
    return [] if found and found[0].startswith(b"#") else found


def lines(data: bytes) -> Iterator[tuple[int, list[bytes]]]:
    """The number and the words of each line that means something."""
    for number, line in enumerate(data.split(b"\n"), 1):
        found = words(line)
        if found:
            yield number, found


def has_version_2(data: bytes) -> bool:
    return next((found for _, found in lines(data)), []) == [b"script", b"2"]


def expects(data: bytes) -> list[Expect]:
    """The `expect` lines of a script in order: none of a script of version 1."""
    if b"expect" not in data or not has_version_2(data):
        return []
    return [
        Expect(number, int(found[1], 16), int(found[2], 16))
        for number, found in lines(data)
        if found[0] == b"expect" and len(found) == 3 and all(map(BYTE.fullmatch, found[1:]))
    ]


def input_words(data: bytes) -> str:
    """Bytes as the words of an `input` line: texts, and pairs of digits for what cannot stand in a text."""
    parts = re.findall(rb"[!-~]+|[^!-~]+", data)
    return " ".join('"' + part.decode() if 0x21 <= part[0] <= 0x7E else part.hex() for part in parts)


def argument(data: bytes) -> str:
    """Bytes as one word of an `args` line."""
    return '"' + data.decode() if re.fullmatch(rb"[!-~]*", data) else data.hex()


def args_line(arguments: list[bytes]) -> str:
    return " ".join(["args", *map(argument, arguments)])


def input_lines(data: bytes) -> list[str]:
    """A text as `input` lines, one for each line of the text."""
    return [f"input {input_words(line)}" for line in data.splitlines(keepends=True)]
