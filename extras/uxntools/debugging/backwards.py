"""The last store before a moment that changed some bytes.

The last moments are looked at one by one. Before these the run is followed in parts, the last ones first: a part
stops before each instruction that may store, by the program as it was loaded, where the stacks say what is stored.
What else may store in a part stands at an address that held such an instruction at its start, or that one was stored
to since: that the run comes to none of these is asked at the end."""

from __future__ import annotations

import re
from collections.abc import Iterable
from dataclasses import dataclass

from uxntools import log, moments
from uxntools.debugging import patterns
from uxntools.debugging.parts import LEAST_ROOM, MOST_PARTS, PAGE, Part, Parts
from uxntools.horizon import Horizon
from uxntools.moments import LINES_OF_LOOK, LOOK, State
from uxntools.stores import NAMES, Change, Watched, can_store
from uxntools.target import Workspace

# How many moments before the present one are followed one by one where the bytes are shown by one command, and how
# many of these with all that is shown of a state.
NEAR, LATE = 20000, 1500
MOST_BREAKS = 60_000


STORING = re.compile(b"[" + b"".join(b"\\x%02x" % byte for byte in range(256) if can_store(byte)) + b"]")


def storing(memory: bytes) -> set[int]:
    """Where a byte stands that may be an instruction that stores."""
    return {found.start() for found in STORING.finditer(memory)}


class Unsure(Exception):
    """Where a store may be that is not seen."""


@dataclass(frozen=True)
class Near:
    """What the last moments before the present one show: from the first one on, the last store that changed the
    bytes, and its state, if it is one of the very last; and what part of the instructions may store."""

    first: int
    change: Change | None = None
    state: State | None = None
    stores: float = 0


def near_store(workspace: Workspace, watched: Watched, now: int) -> Near:
    """Looks for the last of the last moments before this one behind which the bytes are others."""
    looks = watched.commands()
    count = min(now, NEAR // len(looks))
    late = min(count, LATE)
    before = ["where", *looks, *["step 1", *looks] * (count - late)]
    lines = workspace.debug([*moments.to(now - count), *before, *["step 1", *looks, *LOOK] * late])
    size = 1 + watched.lines()
    whole = size + LINES_OF_LOOK
    start = len(lines) - late * whole
    starts = [*range(start - size * (count - late + 1), start, size), *range(start, len(lines), whole)]
    for at, after in zip(starts[-2::-1], starts[:0:-1]):
        place = log.place(lines[at])
        if place and lines[at + 1 : at + size] != lines[after + 1 : after + size]:
            bytes_at = [log.memory(lines[here + 1 : here + size]) for here in (at, after)]
            state = moments.state(lines[at + size : at + whole]) if at >= start else None
            return Near(now - count, Change(place, bytes_at[0], bytes_at[1]), state)
    return Near(now - count, stores=sum(lines[at][8:].partition(" ")[2][:3] in NAMES for at in starts) / len(starts))


@dataclass
class Found:
    """What a part of the run shows: the bytes at its start and at its end, the last store that changed them, and
    where it stored what may be an instruction that stores."""

    part: Part
    before: bytes
    after: bytes
    targets: set[int]
    change: Change | None = None


class Search:
    """Looks for stores to some bytes in parts of a run, by instructions at some addresses."""

    def __init__(self, watched: Watched, stops: Iterable[int]) -> None:
        self.watched = watched
        self.forms = patterns.forms(watched, stops)
        self.wanted = {(watched.address + at) & 0xFFFF for at in range(watched.length)}

    def follow(self, part: Part) -> Found:
        """Follows the stops of a part."""
        if patterns.DEVICES.search(part.log, part.stops, part.behind):
            raise Unsure
        before = part.memory(self.watched)
        targets = {at for form in self.forms for at in form.targets(part.log, part.stops, part.behind)}
        found = Found(part, before, before, targets)
        if targets & self.wanted:
            self._follow_stores(found)
        return found

    def _follow_stores(self, found: Found) -> None:
        """Follows the stores to the bytes. Mostly there are few different ones."""
        log, part = found.part.log, found.part
        each = [one for form in self.forms for one in form.stores(log, part.stops, part.behind)]
        effects = {key: self._effect(log, at) for key, at in {key: at for at, key in each}.items()}
        if all(found.after[place] == byte for effect in effects.values() for place, byte in effect):
            return
        for at, key in sorted(each, key=lambda one: one[0]):
            if any(found.after[place] != byte for place, byte in effects[key]):
                after = bytearray(found.after)
                for place, byte in effects[key]:
                    after[place] = byte
                found.change = Change(patterns.stop_around(log, at).place, found.after, bytes(after))
                found.after = bytes(after)

    def _effect(self, log: bytes, at: int) -> list[tuple[int, int]]:
        """Which of the watched bytes a store sets, and to what."""
        stored = patterns.stop_around(log, at).stored().items()
        places = [((address - self.watched.address) & 0xFFFF, byte) for address, byte in stored]
        return [(place, byte) for place, byte in places if place < self.watched.length]


class FarStores:
    """Looks for the last store before a moment, in a run whose program is loaded from a ROM."""

    def __init__(self, workspace: Workspace, horizon: Horizon, rom: bytes) -> None:
        self.workspace = workspace
        self.horizon = horizon
        self.rom = rom
        self.stops = storing(bytes(0x100) + rom[:0xFF00])

    def last(self, watched: Watched, near: Near) -> Change | None:
        """The last store before the moments that were looked at one by one."""
        search = Search(watched, self.stops)
        later: Found | None = None
        targets: set[int] = set()
        with self.workspace.side_by_side(MOST_PARTS) as pool:
            parts = Parts(self.workspace, self.horizon, self.rom, sorted(self.stops), pool)
            if parts.room < LEAST_ROOM:
                raise Unsure
            for found in parts.newest_first(near.first, near.stores, search.follow):
                if later and found.after != later.before:
                    raise Unsure
                later = found
                targets |= found.targets
                if found.change:
                    break
            if later:
                suspects = (targets | storing(later.part.memory(PAGE))) - self.stops
                self._check(parts, suspects, later.part.first, near.first)
        return later.change if later else None

    def _check(self, parts: Parts, suspects: set[int], first: int, last: int) -> None:
        """Whether the run comes to none of these addresses at moments from one up to another."""
        if len(suspects) > MOST_BREAKS:
            raise Unsure
        if not suspects:
            return
        commands = [*moments.to(first), "where", *moments.breaks(sorted(suspects)), "run"]
        here, *_, there = parts.show(commands, self.horizon.to(last)).decode().splitlines()[len(moments.to(first)) :]
        place, later = log.place(here), log.place(there)
        if place and place.address in suspects or later and later.count < last:
            raise Unsure
