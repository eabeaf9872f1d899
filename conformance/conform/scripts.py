"""The events and arguments of a script of `uxn`."""
from __future__ import annotations

import re

from conform.tests import Event


def text_word(word: str) -> bytes:
    return word[1:].encode(errors="surrogateescape") if word.startswith('"') else bytes.fromhex(word)


def arguments_of(words: list[str]) -> list[str] | None:
    """Arguments as text; none where one cannot be an argument of a program."""
    try:
        args = [text_word(word).decode("ascii") for word in words]
    except UnicodeDecodeError:
        return None
    return None if any("\0" in arg for arg in args) else args


def events_of_line(name: str, given: list[str]) -> list[Event] | None:
    """The events of a line; none for one that only this project knows."""
    if name == "input":
        return [["input", byte] for word in given for byte in text_word(word)]
    if name == "frame":
        return [["frame"]] * (int(given[0]) if given else 1)
    if name == "key":
        return [["key", int(given[0], 16)]] * (int(given[1]) if len(given) > 1 else 1)
    if name in ("down", "up"):
        return [[name, given[0], *map(int, given[1:])]]
    if name in ("clock", "mouse", "press", "release", "scroll"):
        return [[name, *map(int, given)]]
    return [[name]] if name in ("end", "shot") and not given else None


def events_of(script: bytes) -> tuple[list[str], list[Event]] | None:
    """The arguments and events of a script; none where it has an event that only this project knows."""
    args: list[str] | None = []
    events: list[Event] = []
    for line in script.decode(errors="surrogateescape").split("\n"):
        words = [word for word in re.split("[\t\r ]+", line) if word]
        if not words or words[0].startswith("#") or words[0] in ("script", "expect"):
            continue
        if words[0] == "args":
            args = arguments_of(words[1:])
            if args is None:
                return None
            continue
        found = events_of_line(words[0], words[1:])
        if found is None:
            return None
        events += found
    return args or [], events
