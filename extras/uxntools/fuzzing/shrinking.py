"""Making a script that breaks a program as short as it can be."""
from __future__ import annotations

from collections.abc import Callable, Iterator

from uxntools.fuzzing.making import Lines

MOST_TRIES = 400


class Shrinker:
    """Tries shorter scripts as long as they are wrong in the same way, but so many at most."""

    def __init__(self, is_wrong: Callable[[Lines], bool], most: int = MOST_TRIES) -> None:
        self.is_wrong = is_wrong
        self.left = most

    def shrink(self, lines: Lines) -> Lines:
        while True:
            shorter = self._without_lines(lines)
            shorter = self._with_smaller_lines(shorter)
            if shorter == lines or self.left <= 0:
                return shorter
            lines = shorter

    def _holds(self, lines: Lines) -> bool:
        if self.left <= 0:
            return False
        self.left -= 1
        return self.is_wrong(lines)

    def _without_lines(self, lines: Lines) -> Lines:
        size = max(len(lines) // 2, 1)
        while size:
            at = 0
            while at < len(lines):
                tried = lines[:at] + lines[at + size :]
                if self._holds(tried):
                    lines = tried
                else:
                    at += size
            size //= 2
        return lines

    def _with_smaller_lines(self, lines: Lines) -> Lines:
        for at in range(len(lines)):
            for smaller in _smaller(lines[at]):
                tried = (*lines[:at], smaller, *lines[at + 1 :])
                if self._holds(tried):
                    lines = tried
                    break
        return lines


def _smaller(line: str) -> Iterator[str]:
    """Lines of the same kind that are simpler, the simplest first."""
    words = line.split(" ")
    if words[0] == "frame" and len(words) == 2:
        count = int(words[1])
        yield from ("frame" if less == 1 else f"frame {less}" for less in sorted({1, count // 2, count - 1}) if 0 < less < count)
    elif words[0] in ("input", "args") and len(words) > 2:
        yield " ".join(words[: 1 + len(words) // 2])
        for at in range(1, len(words)):
            yield " ".join([*words[:at], *words[at + 1 :]])
    elif words[0] in ("input", "args") and len(words[1]) > 2:
        word = words[1]
        step = 1 if word.startswith('"') else 2
        yield f"{words[0]} {word[: max(len(word) // 2 // step * step, 2)]}"
        yield f"{words[0]} {word[: len(word) - step]}"
    elif words[0] == "mouse" and words[1:] != ["0", "0"]:
        yield "mouse 0 0"
        yield f"mouse 0 {words[2]}"
        yield f"mouse {words[1]} 0"
