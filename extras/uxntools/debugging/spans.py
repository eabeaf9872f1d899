"""Moments in a row of which a session knows which are at a break."""
from __future__ import annotations

from bisect import bisect_left
from collections.abc import Iterable, Sequence
from dataclasses import dataclass
from typing import Protocol

# Where the address stands in a line `at 0104 2 DEO main+0004`.
ADDRESS = slice(3, 7)


class Span(Protocol):
    """Moments from the first one on, up to one behind them."""

    first: int

    @property
    def behind(self) -> int: ...

    def next_hit(self, breaks: Iterable[int], moment: int) -> int | None:
        """The first moment at a break among those from one of them on."""

    def last_hit(self, breaks: Iterable[int], moment: int) -> int | None:
        """The last moment at a break among those before one."""


@dataclass(frozen=True)
class Trail:
    """The lines of the places of moments in a row, so it is known of each address at which moments it was."""

    first: int
    lines: Sequence[str]

    @property
    def behind(self) -> int:
        return self.first + len(self.lines)

    def next_hit(self, breaks: Iterable[int], moment: int) -> int | None:
        return self._first_of(breaks, range(moment, self.behind))

    def last_hit(self, breaks: Iterable[int], moment: int) -> int | None:
        return self._first_of(breaks, range(min(moment, self.behind) - 1, self.first - 1, -1))

    def _first_of(self, breaks: Iterable[int], moments: range) -> int | None:
        names = {f"{address:04x}" for address in breaks}
        lines, first = self.lines, self.first
        return next((moment for moment in moments if lines[moment - first][ADDRESS] in names), None)


@dataclass(frozen=True)
class Stops:
    """All moments at some breaks among moments in a row."""

    first: int
    behind: int
    hits: Sequence[int]

    def next_hit(self, _breaks: Iterable[int], moment: int) -> int | None:
        at = bisect_left(self.hits, moment)
        return self.hits[at] if at < len(self.hits) else None

    def last_hit(self, _breaks: Iterable[int], moment: int) -> int | None:
        at = bisect_left(self.hits, moment)
        return self.hits[at - 1] if at else None
