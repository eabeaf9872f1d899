"""The way back from a moment in parts of the run, which stop before each instruction that may store. A part is a run
of its own up to there, and several parts are run side by side, the newest first."""

from __future__ import annotations

from collections import deque
from collections.abc import Callable, Iterator, Sequence
from concurrent.futures import Future, ThreadPoolExecutor
from dataclasses import dataclass
from typing import TypeVar

from uxntools import moments
from uxntools.debugging import patterns
from uxntools.horizon import Horizon, Reach
from uxntools.log import MOST_COMMANDS
from uxntools.stores import Watched
from uxntools.target import Workspace

# How many parts are followed side by side, how short they are at least, how much of the room for its stops a part is
# expected to need, and how much room there has to be.
MOST_PARTS, SHORTEST, FULL, LEAST_ROOM = 4, 20_000, 0.85, 1000
PAGE = Watched(0, 0x10000)
# A line of memory: an address and 16 bytes; and the lines of all memory.
LINE, ADDRESS, ROW = 53, 5, 16
PAGE_SIZE = LINE * (PAGE.length // ROW)

Found = TypeVar("Found")


@dataclass(frozen=True)
class Part:
    """The moments from one up to another. The log shows all memory at the first one, and the stops before the last."""

    first: int
    last: int
    log: bytes
    page: int
    stops: int
    behind: int
    # How many stops there are, about, for each moment.
    each: float

    def memory(self, watched: Watched) -> bytes:
        """Bytes at the first moment."""
        first, last = watched.address // ROW, (watched.address + watched.length - 1) // ROW
        rows = (self.page + LINE * (row % (0x10000 // ROW)) for row in range(first, last + 1))
        data = bytes.fromhex("".join(self.log[at + ADDRESS : at + LINE].decode() for at in rows))
        return data[watched.address % ROW :][: watched.length]


class Parts:
    """Runs parts of a run, by some threads."""

    def __init__(
        self, workspace: Workspace, horizon: Horizon, rom: bytes, stops: Sequence[int], pool: ThreadPoolExecutor
    ) -> None:
        self.workspace = workspace
        self.horizon = horizon
        self.rom = rom
        self._breaks = moments.breaks(stops)
        self.room = (MOST_COMMANDS - len(stops) - 2 * len(PAGE.commands())) // 2
        self._pool = pool

    def newest_first(self, now: int, each: float, follow: Callable[[Part], Found]) -> Iterator[Found]:
        """What is found in the parts before a moment, where so many stops are expected for each moment. A part with
        more stops than there is room for is cut again."""
        end = now
        running: deque[tuple[int, Future[tuple[Part, Found]]]] = deque()
        while end or running:
            while end and len(running) < MOST_PARTS:
                first = max(0, end - self._length(each))
                running.append((end, self._begin(first, end, follow)))
                end = first
            last, done = running.popleft()
            part, found = done.result()
            each = part.each
            if part.last == last:
                yield found
                continue
            running.appendleft((part.last, done))
            bounds = [*range(part.last, last, self._length(each)), last]
            running.extendleft((high, self._begin(low, high, follow)) for low, high in zip(bounds, bounds[1:]))

    def _length(self, each: float) -> int:
        """How long a part is where so many stops are expected for each moment."""
        return max(SHORTEST, int(FULL * self.room / max(each, 1e-9)))

    def _begin(self, first: int, last: int, follow: Callable[[Part], Found]) -> Future[tuple[Part, Found]]:
        reach = self.horizon.to(last)
        return self._pool.submit(lambda: self._followed(first, last, reach, follow))

    def show(self, commands: Sequence[str], reach: Reach) -> bytes:
        """What commands show, without labels."""
        return self._show("\n".join([*commands, ""]).encode(), reach)

    def _show(self, commands: bytes, reach: Reach) -> bytes:
        return self.workspace.debug_rom(self.rom, commands, (reach.script, reach.budget))

    def _followed(self, first: int, last: int, reach: Reach, follow: Callable[[Part], Found]) -> tuple[Part, Found]:
        way = moments.to(first)
        head = [*way, *PAGE.commands(), "where", "stacks", *self._breaks, ""]
        log = self._show("\n".join(head).encode() + b"run\nstacks\n" * self.room, reach)
        page = _behind_lines(log, 0, len(way))
        stops = page + PAGE_SIZE
        start = _behind_lines(log, stops, 3 + len(self._breaks)) - 1
        behind = patterns.behind(log, start, last)
        if behind == len(log):
            last = patterns.count(log, log.rindex(b"\nat ") + 1) + 1
        count = self.room * (behind - start) / (len(log) - start)
        part = Part(first, last, log, page, stops, behind, count / (last - first))
        return part, follow(part)


def _behind_lines(data: bytes, at: int, count: int) -> int:
    """Where the line begins that stands so many behind another one."""
    for _ in range(count):
        at = data.index(b"\n", at) + 1
    return at
