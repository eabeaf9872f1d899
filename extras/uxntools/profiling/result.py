"""What a profile says: instructions by routine, by line and by vector."""
from __future__ import annotations

from collections import Counter
from collections.abc import Iterator
from dataclasses import dataclass

from uxntools.events import Place, place_of
from uxntools.horizon import Horizon
from uxntools.profiling import routines
from uxntools.profiling.code import Code
from uxntools.profiling.contexts import ROOT, Contexts
from uxntools.profiling.following import Followed, Follower, Vector
from uxntools.profiling.routines import Routines
from uxntools.target import Program, Workspace


@dataclass(frozen=True)
class Routine:
    """A routine: its instructions, those with what it called, and how often it was entered."""

    name: str
    own: int
    whole: int
    entered: int


@dataclass
class Profile:
    """A run that was followed."""

    workspace: Workspace
    program: Program
    found: Followed
    contexts: Contexts
    own: Counter[int]
    entered: Counter[int]
    known: Routines

    @property
    def names(self) -> list[str]:
        return self.known.names

    def stacks(self) -> dict[tuple[str, ...], int]:
        """The instructions of each way through routines, from its vector on."""
        made: Counter[tuple[str, ...]] = Counter()
        for context, count in self.own.items():
            made[tuple(self.names[routine] for routine in self.contexts.way(context))] += count
        return dict(made)

    def routines(self) -> list[Routine]:
        """Every routine that was run, the one with the most instructions of its own first."""
        own, whole, entered = Counter[int](), Counter[int](), Counter[int]()
        for context, count in self.own.items():
            own[self.contexts.routines[context]] += count
            for routine in set(self._routines_above(context)):
                whole[routine] += count
        for context, count in self.entered.items():
            entered[self.contexts.routines[context]] += count
        made = [Routine(self.names[at], own[at], whole[at], entered[at]) for at in whole]
        return sorted(made, key=lambda it: (-it.own, it.name))

    def _routines_above(self, context: int) -> Iterator[int]:
        while context != ROOT:
            yield self.contexts.routines[context]
            context = self.contexts.parents[context]

    def lines(self) -> dict[tuple[str, int], int]:
        """The instructions of each line of the source."""
        made: Counter[tuple[str, int]] = Counter()
        for address, count in self.found.counts.items():
            row = self.program.by_address.get(address)
            if row:
                made[row.path, row.line] += count
        return dict(made)

    def vectors(self) -> list[tuple[str, Vector]]:
        """Each vector by its label, the one with the longest run first."""
        made = [(self.label(address), vector) for address, vector in self.found.vectors.items()]
        return sorted(made, key=lambda it: (-it[1].most, it[0]))

    def label(self, address: int) -> str:
        near = self.program.labels.nearest(address)
        if near and near[1] == 0:
            return near[0].encode("latin-1").decode(errors="replace")
        return routines.RESET if address == 0x100 else f"{address:04x}"

    def places(self, moments: list[int]) -> dict[int, Place]:
        """The events of some moments."""
        horizon = Horizon(self.workspace)
        data = self.workspace.script()
        return {moment: place_of(data, horizon.event_of(moment)) for moment in moments}


def profile(workspace: Workspace, most: int) -> Profile:
    """Follows the run of a workspace, up to so many instructions."""
    program, rom = workspace.program(), workspace.rom()
    code = Code(rom, routines.lambdas(program))
    known = routines.of(program, code, workspace.target.rom)
    return follow(workspace, program, rom, (code, known), most)


def follow(workspace: Workspace, program: Program, rom: bytes, known: tuple[Code, Routines], most: int) -> Profile:
    follower = Follower(workspace, rom, *known, most)
    found = follower.follow()
    walk = follower.walk
    return Profile(workspace, program, found, follower.walker.contexts, walk.own, walk.entered, known[1])
