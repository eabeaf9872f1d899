"""Makes a failing input smaller: fewer pieces, fewer events, smaller values."""
from __future__ import annotations

import re
from collections.abc import Callable
from typing import TypeVar

Item = TypeVar("Item")
NUMBER = re.compile(r"(?<![\w&/;,.=-])#?(?:[0-9a-f]{4}|[0-9a-f]{2})(?![\w/-])")


class Trials:
    """How many tries are left."""

    def __init__(self, most: int) -> None:
        self.left = most

    def take(self) -> bool:
        self.left -= 1
        return self.left >= 0


def fewer(items: list[Item], fails: Callable[[list[Item]], bool], trials: Trials) -> list[Item]:
    """The items without those that can be left out, in runs that become shorter."""
    size = max(1, len(items) // 2)
    while size and items:
        at = 0
        while at < len(items):
            rest = items[:at] + items[at + size :]
            if trials.take() and fails(rest):
                items = rest
            else:
                at += size
        size //= 2
    return items


def smaller_numbers(pieces: list[str], fails: Callable[[list[str]], bool], trials: Trials) -> list[str]:
    """The pieces with each number as small as can be."""
    for at in range(len(pieces)):
        start = 0
        while found := NUMBER.search(pieces[at], start):
            rune, digits = ("#", found[0][1:]) if found[0].startswith("#") else ("", found[0])
            value, start = int(digits, 16), found.end()
            for other in (0, 1, 2, value >> 4, value >> 1, value - 1):
                if not 0 <= other < value:
                    continue
                changed = f"{pieces[at][:found.start()]}{rune}{other:0{len(digits)}x}{pieces[at][found.end():]}"
                if trials.take() and fails([*pieces[:at], changed, *pieces[at + 1 :]]):
                    pieces = [*pieces[:at], changed, *pieces[at + 1 :]]
                    break
    return pieces
