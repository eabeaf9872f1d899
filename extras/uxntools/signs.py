"""Texts as parts of a line for the eye."""
from __future__ import annotations

import os

# How long a line is that names a fault, at most.
MOST_SIGNS = 2000


def shown(text: str, most: int = MOST_SIGNS) -> str:
    """A text as a part of a line for the eye: what a terminal would obey is escaped, and a long text is cut."""
    rest = len(text) - most
    made = "".join(sign if sign.isprintable() else _escaped(sign) for sign in text[:most])
    return made if rest <= 0 else f"{made}.. ({rest:,} signs more)"


def _escaped(sign: str) -> str:
    number = ord(sign)
    if 0xDC80 <= number <= 0xDCFF:
        number -= 0xDC00
    named = {"\t": "\\t", "\r": "\\r", "\n": "\\n"}.get(sign)
    return named or (f"\\x{number:02x}" if number < 256 else f"\\u{number:04x}")


def line_of(error: OSError) -> str:
    """What is said of a file that fails."""
    name = error.filename
    path = os.fsdecode(name) if isinstance(name, (str, bytes)) else "" if name is None else f"standard stream {name}"
    why = error.strerror or str(error)
    return f"{path}: {why}" if path else why
