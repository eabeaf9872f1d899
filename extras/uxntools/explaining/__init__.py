"""Why `uxn` refused a call, and what to write in its place."""
from __future__ import annotations

from dataclasses import dataclass


@dataclass(frozen=True)
class Reason:
    """Why something is refused, and what to write: either may hold several sentences; `write` is empty where there
    is no one answer."""

    why: str
    write: str = ""

    def lines(self) -> list[str]:
        return [self.why, *([f"Write: {self.write}"] if self.write else [])]


def quoted(text: str) -> str:
    """A word as it stands in a line, with what cannot be seen made visible."""
    return "`" + "".join(sign if sign.isprintable() else repr(sign)[1:-1] for sign in text) + "`"
