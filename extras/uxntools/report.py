"""Reports of `uxn play`: what a run came to, in lines of a name and a value."""
from __future__ import annotations


def read(data: bytes) -> dict[str, str]:
    """The value of each line of a report by its name."""
    lines = (line.partition(" ") for line in data.decode("latin-1").splitlines())
    return {name: value for name, _, value in lines}


def number(text: str) -> int | None:
    """A number of a report; None of what is none."""
    return int(text) if text.isascii() and text.isdigit() and len(text) < 20 else None
