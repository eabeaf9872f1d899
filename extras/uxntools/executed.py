"""Which addresses a run executes: breaks at all of them, and a break is no longer set once it was met. So a few
runs are enough."""
from __future__ import annotations

from collections.abc import Iterable
from dataclasses import dataclass, field

from uxntools import log, moments
from uxntools.log import MOST_COMMANDS
from uxntools.target import Workspace

# How many breaks are set at once, and how often a run stops at one of them.
MOST_BREAKS = 45000
MOST_STOPS = 20000
ALL = range(0x10000)


@dataclass
class Executed:
    """The addresses that were executed, the moment of the run's end, and how far the run was followed: None if up
    to its end."""

    addresses: set[int] = field(default_factory=set)
    end: int = 0
    followed: int | None = None
    runs: int = 0


def executed(workspace: Workspace, addresses: Iterable[int] = ALL, most_runs: int = 400) -> Executed:
    """The ones of these addresses that the run executes."""
    found = Executed()
    wanted = sorted(addresses)
    for at in range(0, len(wanted), MOST_BREAKS):
        _search(workspace, set(wanted[at : at + MOST_BREAKS]), found, most_runs)
    return found


def _search(workspace: Workspace, left: set[int], found: Executed, most_runs: int) -> None:
    runs, reached = 0, 0
    while runs < most_runs:
        stops = min(MOST_STOPS, MOST_COMMANDS - len(left) - 3)
        lines = workspace.debug([*moments.to(reached), "where", *moments.breaks(sorted(left)), *["run"] * stops])
        runs, found.runs = runs + 1, found.runs + 1
        start = len(moments.to(reached))
        shown = lines[start : start + 1] + lines[len(lines) - stops :]
        places = [place for place in map(log.place, shown) if place]
        met = {place.address for place in places} & left
        found.addresses |= met
        left -= met
        if len(places) < len(shown):
            found.end = max(found.end, log.end(lines[-1]) or 0)
            return
        reached = places[-1].count
    found.followed = reached if found.followed is None else min(found.followed, reached)
