"""The events of a script, and a script that ends behind some of them: the run over it is the same up to there."""

from __future__ import annotations

from collections.abc import Iterator
from dataclasses import dataclass

from uxntools import script

NOT_EVENTS = (b"clock", b"args", b"script")


@dataclass(frozen=True)
class Place:
    """The event in which a moment lies: its number, the number of the frame if it is one, the line of the script, and
    how many frames have begun by then; 0 is the start."""

    event: int
    frame: int | None
    line: int
    frames: int = 0


def _lines(data: bytes) -> Iterator[list[bytes]]:
    """The words of each line of a script."""
    return (words for _, words in script.lines(data))


def _input(words: list[bytes]) -> bytes:
    """The bytes of an `input` line."""
    return b"".join(word[1:] if word.startswith(b'"') else bytes.fromhex(word.decode()) for word in words[1:])


def number_of(words: list[bytes]) -> int:
    """How many events a line gives."""
    if words[0] in NOT_EVENTS:
        return 0
    if words[0] == b"input":
        return len(_input(words))
    if words[0] == b"frame" and len(words) == 2:
        return int(words[1])
    return int(words[2]) if words[0] == b"key" and len(words) == 3 else 1


def count(data: bytes) -> int:
    """How many events an accepted script has."""
    return sum(map(number_of, _lines(data)))


def place_of(data: bytes, event: int) -> Place:
    """The line of an event, which counts from 1, and its frame, which counts from 1 too."""
    left, frames = event, 0
    for number, words in script.lines(data):
        size = number_of(words)
        is_frame = words[0] == b"frame"
        if size >= left > 0:
            return Place(event, frames + left if is_frame else None, number, frames + left * is_frame)
        left -= size
        frames += size if is_frame else 0
    return Place(event, None, 0, frames)


def of_frame(data: bytes, frame: int) -> int | None:
    """The event that is a frame, which counts from 1; None if the script has fewer frames."""
    event = 0
    for words in _lines(data):
        size = number_of(words)
        if words[0] == b"frame":
            if frame <= size:
                return event + frame
            frame -= size
        event += size
    return None


def before(data: bytes, line: int) -> int:
    """How many events come before a line of a script."""
    return sum(number_of(words) for number, words in script.lines(data) if number < line)


def arguments(data: bytes) -> bytes:
    """The bytes that the arguments of a script give, with what comes after each."""
    for words in _lines(data):
        if words[0] == b"args":
            return b"".join(_input([b"", word]) + b"\n" for word in words[1:])
    return b""


def prefix(data: bytes, events: int) -> bytes:
    """A script with so many of the first events of another one, which has as many."""
    out = []
    for words in _lines(data):
        size = number_of(words)
        if size > events:
            if events:
                out.append(_part(words, events))
            break
        out.append(words)
        events -= size
    return _text(out)


def _part(words: list[bytes], events: int) -> list[bytes]:
    """A line that gives so many of the first events of another one, which gives more."""
    if words[0] == b"input":
        return [b"input", _input(words)[:events].hex().encode()]
    return [*words[:-1], str(events).encode()]


def without_shots(data: bytes) -> bytes:
    """A script that takes no pictures; all else is the same."""
    return _text([words for words in _lines(data) if words[0] != b"shot"])


def _text(lines: list[list[bytes]]) -> bytes:
    return b"".join(b" ".join(words) + b"\n" for words in lines)
