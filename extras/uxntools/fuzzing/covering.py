"""Whether a script runs an instruction that no script before it ran."""
from __future__ import annotations

from collections.abc import Iterable

from uxntools import log, moments
from uxntools.fuzzing.making import Lines
from uxntools.fuzzing.running import script_of
from uxntools.log import MOST_COMMANDS
from uxntools.target import Workspace

STOPS = 48
MOST_BREAKS = MOST_COMMANDS - STOPS - 2


class Covering:
    """The instructions of a program that no script ran yet. Breaks stand at them, and are met once."""

    def __init__(self, workspace: Workspace, rom: bytes, addresses: Iterable[int]) -> None:
        self.workspace, self.rom = workspace, rom
        self.left = set(sorted(addresses)[:MOST_BREAKS])
        self.all = len(self.left)

    def covers(self, lines: Lines) -> bool:
        """Notes what a script runs, and answers whether any of it is new."""
        if not self.left:
            return False
        breaks = moments.breaks(sorted(self.left))
        commands = "\n".join(["where", *breaks, *["run"] * STOPS, ""]).encode()
        shown = self.workspace.debug_rom(self.rom, commands, (script_of(lines, False), None)).decode("latin-1").split("\n")
        places = {place.address for place in map(log.place, [shown[0], *shown[1 + len(breaks) :]]) if place}
        found = places & self.left
        self.left -= found
        return bool(found)

    @property
    def percent(self) -> float:
        return 100 * (self.all - len(self.left)) / max(self.all, 1)
