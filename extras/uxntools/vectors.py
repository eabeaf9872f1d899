"""The vectors of a run, one by one: the moments at which each begins and ends, the event that it is run for, and what
ports and memory hold at its end.

A vector ends at a `BRK`, or where its budget cuts it. So breaks at each `BRK` stop a run of the debugger at the end of
each vector, and the number of instructions between two stops says where one was cut."""
from __future__ import annotations

from collections.abc import Iterable, Iterator, Sequence
from dataclasses import dataclass, field, replace

from uxntools import events, executed, log, moments, script
from uxntools.cli import Failure
from uxntools.facts import LIMITS
from uxntools.horizon import Horizon
from uxntools.log import MOST_COMMANDS
from uxntools.stores import Watched
from uxntools.target import Program, Workspace

START = 0x0100
# How many breaks leave room for stops.
MOST_BREAKS = 20_000
LINES_OF_PORTS = log.lines_shown("ports")
RESET, CONSOLE, FRAME, AUDIO, CONTROLLER, MOUSE = KINDS = ("reset", "console", "frame", "audio", "controller", "mouse")
# The ports of vectors with their kinds, and the lines of scripts that run them.
VOICES = (0x30, 0x40, 0x50, 0x60)
PORTS = {CONSOLE: 0x10, FRAME: 0x20, CONTROLLER: 0x80, MOUSE: 0x90}
KIND_OF_LINE = {
    b"input": CONSOLE,
    b"end": CONSOLE,
    b"frame": FRAME,
    **dict.fromkeys((b"key", b"down", b"up"), CONTROLLER),
    **dict.fromkeys((b"mouse", b"press", b"release", b"scroll"), MOUSE),
}
STATE = 0x0F


@dataclass(frozen=True)
class Vector:
    """A vector that was run: its first moment, the one after its last instruction, the address at which it stood
    there, what the ports read, and the pieces of memory that are watched."""

    first: int
    end: int
    address: int
    ports: bytes
    pieces: tuple[bytes, ...]
    is_cut: bool = False

    @property
    def instructions(self) -> int:
        return self.end - self.first

    def short(self, port: int) -> int:
        return int.from_bytes(self.ports[port : port + 2], "big")


@dataclass(frozen=True)
class Loaded:
    """A program that is run: its ROM, and what is known of it beside."""

    program: Program
    rom: bytes

    def ends(self) -> set[int]:
        """Where a vector may end: each `BRK` of a source, or each zero byte of a ROM and the one after it."""
        found = {row.address for row in self.program.rows if row.word == b"BRK"}
        return found or {at for at in self.zeros() if START <= at <= START + len(self.rom)}

    def zeros(self) -> Iterator[int]:
        """Each address with a zero byte."""
        image = bytes(START) + self.rom[: 0x10000 - START]
        yield from (at for at, byte in enumerate(image) if not byte)
        yield from range(len(image), 0x10000)


@dataclass
class Timeline:
    """The vectors of a run. `after[e]` is how many have been run after the event e, where that is known without more
    runs, and `kinds` what they are then."""

    loaded: Loaded
    workspace: Workspace
    vectors: list[Vector]
    data: bytes
    after: list[int] | None = None
    kinds: list[str] = field(default_factory=list)
    _horizon: Horizon | None = None

    @property
    def horizon(self) -> Horizon:
        if self._horizon is None:
            self._horizon = Horizon(self.workspace)
        return self._horizon

    def count_after(self, event: int) -> int | None:
        """How many vectors have been run after an event (0: the start); None if the run has ended before it."""
        if self.after is not None:
            return self.after[event] if event < len(self.after) else None
        end, last = self.horizon.end(event), self.vectors[-1]
        is_over = last.ports[STATE] != 0 and self.horizon.event_of(last.first) < event
        return None if is_over else sum(vector.end <= end for vector in self.vectors)

    def event_of(self, vector: int) -> int:
        """The event that a vector is run for; 0 is the start."""
        if self.after is None:
            return self.horizon.event_of(self.vectors[vector].first)
        least, most = 0, len(self.after) - 1
        while least < most:
            middle = (least + most) // 2
            if self.after[middle] > vector:
                most = middle
            else:
                least = middle + 1
        return least

    def place(self, vector: int) -> events.Place:
        return events.place_of(self.data, self.event_of(vector))


class Ambiguous(Exception):
    """The addresses of vectors do not say which of them a voice ran."""


class Follower:
    """Follows a run from end to end of its vectors."""

    def __init__(
        self, workspace: Workspace, loaded: Loaded, counts: dict[str, str], watched: Sequence[Watched], data: bytes
    ) -> None:
        self.workspace, self.loaded, self.watched = workspace, loaded, watched
        self.total, self.cuts, self.count = (int(counts[name]) for name in ("instructions", "cuts", "vectors"))
        self.budget = int(workspace.target.budget or LIMITS.usual_budget)
        self.data = data
        self.looks = ["ports", *(command for it in watched for command in it.commands())]

    def follow(self) -> Timeline:
        vectors = self._vectors(self.loaded.ends())
        if len(vectors) != self.count or vectors[-1].end != self.total:
            vectors = self._vectors(executed.executed(self.workspace, self.loaded.zeros()).addresses)
        if len(vectors) != self.count or vectors[-1].end != self.total:
            raise Failure("the vectors of a program that stores its own BRK are not followed")
        vectors = self._with_looks_of_cut(vectors)
        made = Timeline(self.loaded, self.workspace, vectors, self.data)
        try:
            made.after, made.kinds = Mapping(self, vectors).made()
        except Ambiguous:
            made.kinds = [RESET, *map(kind_by_address, vectors, self.starts(vectors)[1:])]
        return made

    def _debug(self, commands: Sequence[str]) -> list[str]:
        text = "\n".join([*commands, ""]).encode()
        return self.workspace.debug_rom(self.loaded.rom, text, (self.data, None)).decode("latin-1").split("\n")[:-1]

    def _vectors(self, ends: Iterable[int]) -> list[Vector]:
        """The vectors, by the stops at these addresses; those that were cut have no looks yet."""
        found: list[Vector] = []
        first = 0
        for stop in self._stops(sorted(ends)[:MOST_BREAKS]):
            while stop.end - first > self.budget:
                found.append(Vector(first, first + self.budget, 0, b"", (), True))
                first += self.budget
            found.append(replace(stop, first=first))
            first = stop.end
        while self.total - first >= self.budget:
            found.append(Vector(first, first + self.budget, 0, b"", (), True))
            first += self.budget
        return found

    def _stops(self, ends: Sequence[int]) -> Iterator[Vector]:
        """The vectors that end at a `BRK`, with their ends alone."""
        at_stop = ["run", *self.looks]
        size = sum(map(log.lines_shown, at_stop))
        here, left = 0, self.count + 1
        while left > 0:
            head = [*moments.to(here), *moments.breaks(ends)]
            most = min((MOST_COMMANDS - len(head) - 8) // len(at_stop), left)
            left -= most
            first = [] if here else ["where", *self.looks]
            lines = self._debug([*head, *first, *at_stop * most])
            start = sum(map(log.lines_shown, head))
            for at in range(start, len(lines), size):
                place = log.place(lines[at])
                if place is None:
                    return
                if at > start or here or place.name == "BRK":
                    yield self._stop(place.count + 1, place.address, lines[at + 1 : at + size])
                here = place.count

    def _stop(self, end: int, address: int, lines: Sequence[str]) -> Vector:
        pieces, at = [], LINES_OF_PORTS
        for watched in self.watched:
            pieces.append(log.memory(lines[at : at + watched.lines()]))
            at += watched.lines()
        return Vector(0, end, address, log.memory(lines[:LINES_OF_PORTS]), tuple(pieces))

    def _with_looks_of_cut(self, vectors: list[Vector]) -> list[Vector]:
        """The same with what is seen at the ends of those that were cut, and the address of their last
        instruction."""
        asked = [vector for vector in vectors if vector.is_cut]
        looks = iter(self._at([(vector.end - 1, vector.end) for vector in asked]))
        return [replace(next(looks), first=it.first, end=it.end, is_cut=True) if it.is_cut else it for it in vectors]

    def _at(self, wanted: Sequence[tuple[int, int]]) -> Iterator[Vector]:
        """What is seen at some moments, each with the address of the instruction before it."""
        size = 2 + sum(map(log.lines_shown, self.looks))
        most = MOST_COMMANDS // (len(self.looks) + 4)
        for start in range(0, len(wanted), most):
            commands, here = [], 0
            for before, after in wanted[start : start + most]:
                commands += [*(moments.to(before - here) or ["where"]), f"step {after - before}", *self.looks]
                here = after
            lines = self._debug(commands)
            for at in range(0, len(lines) - size + 1, size):
                place = log.place(lines[at])
                yield self._stop(0, place.address if place else 0, lines[at + 2 : at + size])

    def starts(self, vectors: Sequence[Vector]) -> list[int]:
        """The addresses at which vectors begin."""
        found: list[int] = []
        for start in range(0, len(vectors), MOST_COMMANDS - 8):
            commands, here = [], 0
            for vector in vectors[start : start + MOST_COMMANDS - 8]:
                commands += moments.to(vector.first - here) or ["where"]
                here = vector.first
            places = map(log.place, self._debug(commands))
            found += [place.address if place else 0 for place in places]
        return found


def kind_by_address(before: Vector, start: int) -> str:
    """The kind of a vector by its address and by the ports before it."""
    for kind, port in PORTS.items():
        if before.short(port) == start:
            return kind
    return AUDIO


class Mapping:
    """Goes through the events of a script, and says which vectors each of them ran."""

    def __init__(self, follower: Follower, vectors: Sequence[Vector]) -> None:
        self.follower, self.vectors, self.data = follower, vectors, follower.data
        self.kinds = [RESET]
        self._starts: list[int] | None = None

    def made(self) -> tuple[list[int], list[str]]:
        """How many vectors have been run after each event, as far as the run goes, and their kinds."""
        for _ in events.arguments(self.data):
            self._run(CONSOLE)
        after = [len(self.kinds)]
        for kind in self._events():
            if self._is_over:
                break
            if kind:
                self._run(kind)
            if kind == FRAME:
                self._run_voices()
            after.append(len(self.kinds))
        if len(self.kinds) != len(self.vectors):
            raise Ambiguous
        return after, self.kinds

    def _events(self) -> Iterator[str | None]:
        for _, words in script.lines(self.data):
            for _ in range(events.number_of(words)):
                yield KIND_OF_LINE.get(words[0])

    @property
    def _last(self) -> Vector:
        return self.vectors[len(self.kinds) - 1]

    @property
    def _is_over(self) -> bool:
        """Whether the last vector has ended the run."""
        return self._last.ports[STATE] != 0

    def _run(self, kind: str) -> None:
        """Runs the vector of an event, if it is set."""
        if not self._is_over and self._last.short(PORTS[kind]):
            self._add(kind)

    def _add(self, kind: str) -> None:
        if len(self.kinds) == len(self.vectors):
            raise Ambiguous
        self.kinds.append(kind)

    def _run_voices(self) -> None:
        """Runs those vectors of voices that begin here. No other device may have their address, and the next frame has
        to begin with a vector of its own, or the vector may be one of a later frame."""
        for port in VOICES:
            address = self._last.short(port)
            if not address or self._is_over or len(self.kinds) == len(self.vectors):
                continue
            own = list(map(self._last.short, PORTS.values()))
            if address in own or not self._last.short(PORTS[FRAME]):
                raise Ambiguous
            if self._starts is None:
                self._starts = self.follower.starts(self.vectors)
            if self._starts[len(self.kinds)] == address:
                self._add(AUDIO)


def follow(
    workspace: Workspace, loaded: Loaded, counts: dict[str, str], watched: Sequence[Watched], data: bytes
) -> Timeline:
    """The vectors of a run over a script, whose report is given."""
    return Follower(workspace, loaded, counts, watched, data).follow()
