"""What a session knows of the moments of its run. A state is the same however often the run is begun anew, so each
run shows many states around the one that it is for, the places of more moments before them, all memory there, and
the next moments at breaks: what lies near is known without one."""
from __future__ import annotations

from collections.abc import Sequence
from dataclasses import dataclass, field

from uxntools import log, moments
from uxntools.debugging.spans import Span, Stops, Trail
from uxntools.horizon import FARTHER, Horizon
from uxntools.moments import State
from uxntools.stores import Watched
from uxntools.target import Workspace

# How many states are shown behind the wanted one and before it, and how many places before them.
AHEAD, BEHIND, PLACES = 1000, 1000, 32_000
# How many further stops at breaks are shown, and how many where a run goes on from such.
STOPS, MORE_STOPS = 1000, 8000
# How many states, and how many rows of places, are known at most: with more the older ones are forgotten.
MOST_SHOWN, MOST_TRAILS = 40_000, 16

# How many pieces of memory that were asked for are shown with each state, and how many bytes such a piece has at most.
MOST_ASKED, MOST_BYTES = 4, 64
PAGE = Watched(0, 0x10000).commands()


@dataclass
class Questions:
    """Commands, and where in the log stands what they show."""

    commands: list[str] = field(default_factory=list)
    lines: int = 0

    def ask(self, commands: Sequence[str], times: int = 1) -> range:
        """Adds commands, so many times, and answers the first line of each time."""
        first, size = self.lines, sum(map(log.lines_shown, commands))
        self.commands += [*commands] * times
        self.lines += size * times
        return range(first, self.lines, size or 1)


@dataclass(frozen=True)
class Shown:
    """What a log shows of a moment: the lines of its state, and behind these some pieces of memory."""

    lines: Sequence[str]
    pieces: Sequence[Watched]

    @property
    def state(self) -> State:
        return moments.state(self.lines)

    @property
    def ports(self) -> bytes:
        return log.memory(self.lines[3 : moments.LINES_OF_LOOK])

    def memory(self, wanted: Watched) -> bytes | None:
        """A piece of memory, if it is one of these."""
        at = moments.LINES_OF_LOOK
        for piece in self.pieces:
            if piece == wanted:
                return log.memory(self.lines[at : at + piece.lines()])
            at += piece.lines()
        return None


class Known:
    """What runs have shown."""

    def __init__(self, workspace: Workspace, horizon: Horizon) -> None:
        self.workspace = workspace
        self.horizon = horizon
        self._pieces: list[Watched] = []
        self._forget()

    def _forget(self) -> None:
        self._shown: dict[int, Shown] = {}
        self._pages: dict[int, list[str]] = {}
        self._trails: list[Trail] = []
        self._stops: dict[frozenset[int], list[Stops]] = {}

    # States and memory

    def at(self, moment: int) -> State:
        """The state at a moment, or at the end of the run, if that comes before."""
        moment = min(moment, self.horizon.total)
        if moment not in self._shown:
            self.look(moment)
        return self._shown[moment].state

    def ports(self, moment: int) -> bytes:
        """What the ports read at a moment."""
        self.at(moment)
        return self._shown[moment].ports

    def memory(self, moment: int, wanted: Watched) -> bytes:
        """A piece of memory at a moment."""
        if wanted.length <= MOST_BYTES and wanted not in self._pieces:
            self._pieces = [wanted, *self._pieces][:MOST_ASKED]
        if moment not in self._pages:
            known = self._shown[moment].memory(wanted) if moment in self._shown else None
            if known is not None:
                return known
            self.look(moment)
        page = log.memory(self._pages[moment])
        return (page + page)[wanted.address : wanted.address + wanted.length]

    def trail_to(self, moment: int, count: int) -> Sequence[str]:
        """The places of so many moments before one, or of all."""
        first = max(0, moment - count)
        for trail in self._trails:
            if trail.first <= first and moment <= trail.behind:
                return trail.lines[first - trail.first : moment - trail.first]
        self.look(moment)
        return self.trail_to(moment, count)

    def has_trail_to(self, moment: int, count: int) -> bool:
        return any(trail.first <= max(0, moment - count) and moment <= trail.behind for trail in self._trails)

    # Breaks

    def next_hit(self, moment: int, breaks: frozenset[int], tries: int = 0) -> State:
        """The first state at a break behind a moment, or the end."""
        hit, unknown = self._next(moment + 1, breaks)
        while hit is None and unknown < self.horizon.total:
            self.horizon.reach_behind(unknown, tries)
            self._run(unknown - 1, breaks)
            hit, unknown = self._next(moment + 1, breaks)
            tries += 1
        if hit is not None and hit not in self._shown:
            self.horizon.reach(hit + AHEAD)
            self._run(hit - 1, breaks)
        return self.at(self.horizon.total if hit is None else hit)

    def last_hit(self, moment: int, breaks: frozenset[int]) -> State | None:
        """The last state at a break before a moment, if there is one."""
        hit, unknown = self._last(moment, breaks)
        if hit is None and unknown == moment > 0:
            self.look(moment)
            hit, unknown = self._last(moment, breaks)
        least, width = 0, unknown
        while hit is None and unknown > 0:
            first = max(least, unknown - width)
            found = self._run_up_to(first, unknown, breaks)
            if found.behind < unknown:
                least, width = found.behind - 1, (found.behind - first) // 2
            else:
                width *= FARTHER
            hit, unknown = self._last(moment, breaks)
        return None if hit is None else self.at(hit)

    def _span(self, moment: int, breaks: frozenset[int]) -> Span | None:
        """Moments in a row, with this one, of which it is known which are at a break."""
        spans = (*self._trails, *self._stops.get(breaks, ()))
        return next((span for span in spans if span.first <= moment < span.behind), None)

    def _next(self, moment: int, breaks: frozenset[int]) -> tuple[int | None, int]:
        """The first moment at a break from one on, if it is known; and the first one of which it is not known."""
        while (span := self._span(moment, breaks)) is not None:
            hit = span.next_hit(breaks, moment)
            if hit is not None:
                return hit, moment
            moment = span.behind
        return None, moment

    def _last(self, moment: int, breaks: frozenset[int]) -> tuple[int | None, int]:
        """The last moment at a break before one, if it is known; and the one behind the last of which it is not
        known."""
        while moment > 0 and (span := self._span(moment - 1, breaks)) is not None:
            hit = span.last_hit(breaks, moment)
            if hit is not None:
                return hit, moment
            moment = span.first
        return None, moment

    # Runs

    def _shows(self, move: str) -> list[str]:
        """A move, and what shows the state there, with the pieces of memory that are asked for."""
        return [move, *moments.REST_OF_LOOK, *(command for piece in self._pieces for command in piece.commands())]

    def look(self, moment: int, breaks: Sequence[int] = ()) -> None:
        """Shows the moments around one; and, where breaks are given, the first moments at them behind it."""
        if not breaks:
            self.horizon.reach(moment + AHEAD)
        first = max(0, moment - BEHIND)
        start = max(0, first - PLACES)
        asked = Questions()
        asked.ask(moments.to(start))
        places = [*asked.ask(["where"]), *asked.ask(["step 1"], first - start)][: first - start]
        states = [*asked.ask(self._shows("where")), *asked.ask(self._shows("step 1"), moment - first)]
        page = asked.ask(PAGE)
        states += asked.ask(self._shows("step 1"), AHEAD)
        asked.ask(moments.breaks(breaks))
        stops = asked.ask(self._shows("run"), STOPS if breaks else 0)
        lines = self.workspace.debug(asked.commands)
        shown = self._keep_row(lines, first, states)
        self._keep_trail(Trail(start, [lines[at] for at in places] + shown))
        self._keep_page(lines, moment, page)
        if breaks:
            self._keep_stops(lines, first + len(shown), frozenset(breaks), stops)

    def _run(self, moment: int, breaks: frozenset[int]) -> None:
        """Shows the first moments at breaks behind one, and those behind the first of them."""
        is_more = any(span.behind == moment + 1 for span in self._stops.get(breaks, ()))
        asked = Questions()
        asked.ask(moments.to(moment))
        asked.ask(moments.breaks(sorted(breaks)))
        hit = asked.ask(self._shows("run"))
        page = asked.ask(PAGE)
        states = [*hit, *asked.ask(self._shows("step 1"), AHEAD)]
        stops = asked.ask(self._shows("run"), MORE_STOPS if is_more else STOPS)
        lines = self.workspace.debug(asked.commands)
        count = _count(lines[hit[0]])
        shown = self._keep_row(lines, count, states)
        if shown:
            self._keep_trail(Trail(count, shown))
            self._add_stops(breaks, Stops(moment + 1, count + 1, [count]))
            self._keep_stops(lines, count + len(shown), breaks, stops)
        else:
            self._add_stops(breaks, Stops(moment + 1, self.horizon.known_to, []))
        if shown or self.horizon.is_whole:
            self._keep_page(lines, count, page)

    def _run_up_to(self, first: int, last: int, breaks: frozenset[int]) -> Stops:
        """Shows the moments at breaks among those from the first one on, up to the last; or the first of them, where
        there are many."""
        self.horizon.reach(last)
        asked = Questions()
        asked.ask(moments.to(first))
        here = asked.ask(self._shows("where"))
        asked.ask(moments.breaks(sorted(breaks)))
        stops = asked.ask(self._shows("run"), MORE_STOPS)
        lines = self.workspace.debug(asked.commands)
        is_at = [_count(lines[here[0]])] if lines[here[0]][3:7] in {f"{address:04x}" for address in breaks} else []
        self._keep_row(lines, first, list(here))
        return self._keep_stops(lines, first, breaks, stops, is_at)

    # What is kept

    def _keep_row(self, lines: Sequence[str], first: int, starts: Sequence[int]) -> list[str]:
        """Keeps the states of moments in a row. Answers their places, without the end."""
        known = self.horizon.known_to
        if len(self._shown) > MOST_SHOWN:
            self._forget()
        row = [(first + index, at) for index, at in enumerate(starts) if first + index < known]
        if self.horizon.is_whole and first <= known < first + len(starts):
            self._keep(lines, known, starts[known - first])
        for moment, at in row:
            self._keep(lines, moment, at)
        return [lines[at] for _, at in row]

    def _keep_trail(self, trail: Trail) -> None:
        self._trails = [trail, *self._trails[: MOST_TRAILS - 1]]

    def _keep(self, lines: Sequence[str], moment: int, at: int) -> None:
        size = moments.LINES_OF_LOOK + sum(piece.lines() for piece in self._pieces)
        self._shown[moment] = Shown(lines[at : at + size], tuple(self._pieces))

    def _keep_page(self, lines: Sequence[str], moment: int, page: range) -> None:
        self._pages[moment] = list(lines[page.start : page.stop])

    def _keep_stops(
        self, lines: Sequence[str], first: int, breaks: frozenset[int], stops: range, before: Sequence[int] = ()
    ) -> Stops:
        """Keeps the states of a run that stopped at breaks, and that these are all, from a moment on, up to the
        last."""
        known = self.horizon.known_to
        hits = list(before)
        is_all = False
        for at in stops:
            moment = _count(lines[at])
            is_all = moment >= known or not lines[at].startswith("at ")
            if is_all:
                break
            self._keep(lines, moment, at)
            hits.append(moment)
        found = Stops(first, known if is_all else hits[-1] + 1, hits)
        self._add_stops(breaks, found)
        return found

    def _add_stops(self, breaks: frozenset[int], found: Stops) -> None:
        if found.behind > found.first:
            self._stops.setdefault(breaks, []).append(found)


def _count(line: str) -> int:
    """The moment that a line of a place says."""
    place = log.place(line)
    return place.count if place else log.end(line) or 0
