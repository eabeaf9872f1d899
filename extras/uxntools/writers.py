"""Who wrote something last: the instruction that stored a byte of memory, or that wrote a port."""
from __future__ import annotations

from collections.abc import Iterator
from dataclasses import dataclass

from uxntools import log, moments, places
from uxntools.cli import Failure
from uxntools.debugging.session import Session
from uxntools.log import MOST_COMMANDS, Place
from uxntools.stores import DEO, Watched
from uxntools.target import Program, Target, Workspace

START = 0x0100
# How far before a moment the writes to a port are looked for first, and by how much farther each time.
FIRST_WINDOW, FARTHER = 50_000, 16


@dataclass(frozen=True)
class PortWrites:
    """The writes to ports of a run, whose program is loaded from a ROM."""

    workspace: Workspace
    rom: bytes

    def last(self, port: int, moment: int, size: int = 1) -> Place | None:
        """The last write to one of some ports before a moment."""
        window, last = FIRST_WINDOW, moment
        while last > 0:
            first = max(0, last - window)
            found = None
            for found in self.between(port, first, last, size):
                pass
            if found:
                return found
            window, last = window * FARTHER, first
        return None

    def between(self, port: int, first: int, last: int, size: int = 1) -> Iterator[Place]:
        """The writes at moments from one up to another."""
        stops = [START + at for at, byte in enumerate(self.rom[: 0x10000 - START]) if byte & 0x1F == DEO]
        most = (MOST_COMMANDS - len(stops) - 8) // 2
        here, is_new = first, True
        while here < last:
            head = moments.to(here)
            at_start = ["where", "stacks"] if is_new else []
            commands = [*head, *at_start, *moments.breaks(stops), *["run", "stacks"] * most]
            lines = self._lines(commands)
            starts = [len(head)] if is_new else []
            behind = len(head) + 3 * len(starts) + len(stops)
            for at in [*starts, *range(behind, len(lines), 3)]:
                place = log.place(lines[at])
                if place is None or place.count >= last:
                    return
                here = place.count
                if place.name.startswith("DEO") and _writes(place.name, log.stacks(lines[at + 1 : at + 3]), port, size):
                    yield place
            is_new = False

    def _lines(self, commands: list[str]) -> list[str]:
        text = "\n".join([*commands, ""]).encode()
        run = self.workspace.shortened, self.workspace.cut
        return self.workspace.debug_rom(self.rom, text, run).decode("latin-1").split("\n")[:-1]


def _writes(name: str, stacks: log.Stacks, port: int, size: int) -> bool:
    """Whether a DEO writes one of some ports."""
    operand = (stacks.returning if "r" in name[3:] else stacks.working)[-1]
    written = {operand, (operand + 1) & 0xFF} if "2" in name[3:] else {operand}
    return bool(written & set(range(port, port + size)))


class Writers:
    """Says who wrote something last in the run of a target. Where that cannot be had it says nothing."""

    def __init__(self, target: Target, rom: bytes) -> None:
        self.target, self.rom = target, rom
        self._session: Session | None = None

    def __enter__(self) -> Writers:
        return self

    def __exit__(self, *_: object) -> None:
        if self._session:
            self._session.close()

    @property
    def session(self) -> Session:
        if self._session is None:
            self._session = Session(self.target, lambda _: None)
        return self._session

    def of_memory(self, address: int, length: int, moment: int) -> str:
        """The instruction that stored to some bytes last before a moment."""
        try:
            self.session.go_to(moment)
            found = self.session.last_store(Watched(address, length))
        except Failure:
            return ""
        return _shown(self.session.program, found[0].place) if found else "nothing has written it"

    def of_port(self, port: int, length: int, moment: int) -> str:
        """The instruction that wrote a port last before a moment."""
        try:
            found = PortWrites(self.session.workspace, self.rom).last(port, moment, length)
        except Failure:
            return ""
        return _shown(self.session.program, found) if found else "the program has not written it"


def _shown(program: Program, place: Place) -> str:
    return f"{of_instruction(program, place.address)} wrote it at moment {place.count}"


def of_instruction(program: Program, address: int) -> str:
    """The routine of an instruction, or its address, and its line."""
    name = places.of_address(program, address) or f"{address:04x}"
    at = places.line_of(program, address)
    return f"{name} ({at[0]}:{at[1]})" if at else name
