"""The stores of a run that changed some bytes of memory: exactly these, however often a byte changed and changed
back.

Memory changes only by the instructions STZ, STR, STA and DEO. So a run that stops before each of them, and looks at
the bytes there, misses nothing: what differs from one stop to the next the instruction of the first one changed.
The addresses to stop at are those of such instructions in the program as it was loaded; a run that stores such an
instruction where it executes is stopped there too, and followed anew."""
from __future__ import annotations

import os
from collections.abc import Callable, Iterator, Sequence
from dataclasses import dataclass

from uxntools import executed, log, moments
from uxntools.cli import Failure
from uxntools.executed import Executed
from uxntools.facts import MEMORY_PORTS, OPERATIONS
from uxntools.log import MOST_COMMANDS, Place, Stacks
from uxntools.moments import State
from uxntools.target import Workspace

# The low five bits of the instructions that change memory, DEO by way of a device.
NAMES = {name: OPERATIONS[name].code for name in ("STZ", "STR", "STA", "DEO")}
STZ, STR, STA, DEO = NAMES.values()

MOST_BYTES = 4096
MOST_SHOWN = 256

# How many parts of a run are followed side by side, how long such a part is at least, and after how many instructions
# it says how far it is.
MOST_PARTS, LEAST_PART, TELL = 4, 100_000, 50_000


def can_store(byte: int) -> bool:
    """Whether a byte is an instruction that can change memory."""
    return byte & 0x1F in NAMES.values()


@dataclass(frozen=True)
class Stop:
    """A moment before an instruction that can change memory: the place, the tops of the stacks, and the watched
    bytes."""

    place: Place
    stacks: Stacks
    memory: bytes

    @property
    def operand(self) -> bytes:
        """The top of the stack that the instruction takes from."""
        return self.stacks.returning if "r" in self.place.name[3:] else self.stacks.working

    def stored(self) -> dict[int, int]:
        """The bytes that the instruction stores by their addresses; nothing of a DEO."""
        name, top, is_short = self.place.name, self.operand, "2" in self.place.name[3:]
        kind = NAMES.get(name[:3])
        if kind in (None, DEO):
            return {}
        width = 2 if kind == STA else 1
        at = int.from_bytes(top[-width:], "big")
        if kind == STR:
            at = (self.place.address + 1 + (at ^ 0x80) - 0x80) & 0xFFFF
        value = top[:-width][-1 - is_short :]
        wrap = 0xFF if kind == STZ else 0xFFFF
        return {(at + distance) & wrap: byte for distance, byte in enumerate(value)}

    def is_device(self) -> bool:
        """Whether the instruction lets a device change memory."""
        port = self.operand[-1]
        ports = {port, (port + 1) & 0xFF} if "2" in self.place.name[3:] else {port}
        return self.place.name.startswith("DEO") and bool(ports & MEMORY_PORTS)


@dataclass(frozen=True)
class Change:
    """A store that changed watched bytes: the place before it, and the bytes before and after."""

    place: Place
    before: bytes
    after: bytes


@dataclass(frozen=True)
class Watched:
    """Some bytes of memory, from an address on, modulo 65,536."""

    address: int
    length: int

    def commands(self) -> list[str]:
        parts = range(0, self.length, MOST_SHOWN)
        return [f"mem {(self.address + at) & 0xffff:04x} {min(MOST_SHOWN, self.length - at)}" for at in parts]

    def lines(self) -> int:
        return sum(map(log.lines_shown, self.commands()))


class Stores:
    """Looks for the stores of a run, whose program is loaded from a ROM."""

    def __init__(
        self, workspace: Workspace, rom: bytes, tell: Callable[[int, int], None] = lambda moment, end: None
    ) -> None:
        self.workspace = workspace
        self.tell = tell
        self._followed = 0
        self.run: Executed = executed.executed(workspace)
        if self.run.followed is not None:
            raise Failure(
                f"the run was followed for {self.run.followed} instructions, and is longer: stores may be missing"
            )
        image = bytes(0x100) + rom[:0xFF00]
        self.stops = {at for at in self.run.addresses if at < len(image) and can_store(image[at])}

    def changes(self, watched: Watched, first: int = 0, last: int | None = None) -> list[Change]:
        """The stores at moments from the first to the last, or to the end, that changed the bytes, in order."""
        end = self.run.end if last is None else min(last + 1, self.run.end)
        while True:
            found, more = self._follow(watched, end)
            if not more:
                return [change for change in found if change.place.count >= first]
            self.stops |= more

    def states(self, changes: Sequence[Change]) -> Iterator[tuple[Change, State]]:
        """Changes, in order, each with the state before it."""
        most = MOST_COMMANDS // (len(moments.LOOK) + 1)
        for at in range(0, len(changes), most):
            part, commands, here = changes[at : at + most], [], 0
            for change in part:
                commands += [*moments.to(change.place.count - here), *moments.LOOK]
                here = change.place.count
            lines = self.workspace.debug(commands)
            shown = list(log.shown(commands, lines))
            looks = [index for index, command in enumerate(commands) if command == "where"]
            states = [moments.state([line for part in shown[index : index + 3] for line in part]) for index in looks]
            yield from zip(part, states)

    def _follow(self, watched: Watched, end: int) -> tuple[list[Change], set[int]]:
        """The changes up to a moment, and the addresses at which the run executes an instruction that it stored
        there, and that were no stops. Parts of the run are followed side by side."""
        count = min(os.cpu_count() or 1, MOST_PARTS, end // LEAST_PART + 1)
        bounds = [end * at // count for at in range(count + 1)]
        self._followed = 0
        with self.workspace.side_by_side(count) as pool:
            parts = list(pool.map(lambda first, last: self._follow_part(watched, first, last, end), bounds, bounds[1:]))
        changes = [change for found, _ in parts for change in found]
        more = {address for _, addresses in parts for address in addresses}
        return changes, (more & self.run.addresses) - self.stops

    def _follow_part(self, watched: Watched, first: int, last: int, end: int) -> tuple[list[Change], set[int]]:
        """The changes at moments from one up to another, and the addresses at which instructions that can store were
        stored."""
        changes: list[Change] = []
        more: set[int] = set()
        devices: list[int] = []
        before: Stop | None = None
        here = first
        for stop in self._stops(watched, first, last):
            if before and before.memory != stop.memory:
                changes.append(Change(before.place, before.memory, stop.memory))
            more |= {at for at, byte in stop.stored().items() if can_store(byte)}
            if stop.is_device():
                devices.append(stop.place.count)
            if stop.place.count - here > TELL:
                here = self._tell(here, stop.place.count, end)
            before = stop
        after = self._memory_at(watched, last) if before else b""
        if before and before.memory != after:
            changes.append(Change(before.place, before.memory, after))
        return changes, more | self._stored_by_devices(devices)

    def _tell(self, before: int, now: int, end: int) -> int:
        self._followed += now - before
        self.tell(self._followed, end)
        return now

    def _memory_at(self, watched: Watched, moment: int) -> bytes:
        commands = watched.commands()
        shown = moments.last(self.workspace, [*moments.to(moment), *commands], len(commands))
        return b"".join(map(log.memory, shown))

    def _stops(self, watched: Watched, first: int, last: int) -> Iterator[Stop]:
        """The stops of the run at moments from one up to another, in order."""
        at_stop = ["stacks", *watched.commands()]
        size = 1 + 2 + watched.lines()
        most = (MOST_COMMANDS - len(self.stops) - len(at_stop) - 4) // (1 + len(at_stop))
        here, is_new = first, True
        while here < last:
            ways = moments.to(here)
            commands = [*ways, "where", *at_stop, *moments.breaks(sorted(self.stops)), *["run", *at_stop] * most]
            lines = self.workspace.debug(commands)
            starts = [len(ways)] if is_new else []
            for at in [*starts, *range(len(lines) - most * size, len(lines), size)]:
                place = log.place(lines[at])
                if place is None or place.count >= last:
                    return
                here = place.count
                if place.address in self.stops:
                    yield Stop(place, log.stacks(lines[at + 1 : at + 3]), log.memory(lines[at + 3 : at + size]))
            is_new = False

    def _stored_by_devices(self, devices: Sequence[int]) -> set[int]:
        """The executed addresses that are no stops and have, behind one of these moments, an instruction that can
        store."""
        spans = list(_spans(sorted(self.run.addresses - self.stops)))
        found: set[int] = set()
        most = MOST_COMMANDS // (len(spans) + 1)
        for at in range(0, len(devices), most):
            commands, here = [], 0
            for moment in devices[at : at + most]:
                commands += [*moments.to(moment + 1 - here), *(f"mem {first:04x} {size}" for first, size in spans)]
                here = moment + 1
            for command, lines in zip(commands, log.shown(commands, self.workspace.debug(commands))):
                if command.startswith("mem "):
                    first = int(command[4:8], 16)
                    found |= {first + at for at, byte in enumerate(log.memory(lines)) if can_store(byte)}
        return found


def _spans(addresses: Sequence[int]) -> Iterator[tuple[int, int]]:
    """Spans of at most 256 bytes that have all these addresses: the first byte and the length of each."""
    at = 0
    while at < len(addresses):
        first = last = addresses[at]
        while at < len(addresses) and addresses[at] - first < MOST_SHOWN:
            last, at = addresses[at], at + 1
        yield first, last - first + 1
