"""How far a run has to go to be looked at. `uxn debug` writes its log at the end of the run, so a look at an early
moment of a long run would take as long as one at a late moment. A script that ends behind the event of the moment
gives the same run up to there; within a long vector a smaller budget ends the vector a little behind the moment, and
all is the same up to there if no vector before is cut. `uxn play`, which says so, is many times as fast as
`uxn debug`."""

from __future__ import annotations

from dataclasses import dataclass

from uxntools import events, report
from uxntools.facts import LIMITS
from uxntools.target import Workspace

# How far behind a moment a run may go: so many instructions, or this part of those before the moment. What a run
# takes that is shorter is not worth a question.
LEAST_REST, PART_OF_REST = 200_000, 8
# How far a run is followed at first where it is not known how far it has to be, and by how much farther each time. It
# is followed to its end at once where that is not so much longer.
FIRST_DISTANCE, FARTHER = 300_000, 8
WORTH = 6
# What chosen budgets are multiples of.
BUDGET_STEP = 100_000


@dataclass(frozen=True)
class Reach:
    """How far a run goes: the script and the budget that take the place of its own, where they do. Its moments before
    `known_to` are those of the whole run; where it `is_whole`, also its end."""

    script: bytes | None
    budget: int | None
    is_whole: bool
    known_to: int


class Horizon:
    """Chooses where runs end. A run whose script has been shortened already is taken as it is."""

    def __init__(self, workspace: Workspace, whole: bytes = b"") -> None:
        """The report of the whole run may be given."""
        self.workspace = workspace
        self.whole = workspace.shortened
        self.script = workspace.script() if self.whole is None else self.whole
        try:
            self.most = events.count(self.script)
        except (ValueError, IndexError):
            # `uxn` says what is wrong with it.
            workspace.play(self.script)
            raise
        # By the event and the budget.
        self._counts: dict[tuple[int, int | None], tuple[int, int]] = {}
        if whole:
            self._counts[self.most, None] = _counts(whole)
        self.total = self.end(self.most)
        self._chosen = Reach(self.whole, None, True, self.total)

    @property
    def is_whole(self) -> bool:
        """Whether the runs of the workspace go to the end of the whole run."""
        return self._chosen.is_whole

    @property
    def known_to(self) -> int:
        """The moment before which all moments of the workspace's runs are those of the whole run."""
        return self._chosen.known_to

    def end(self, event: int) -> int:
        """How many instructions have been run behind an event; 0 is the start, with the reset vector and the
        arguments."""
        return self.counts(event)[0]

    def counts(self, event: int, budget: int | None = None) -> tuple[int, int]:
        """The instructions and the cut vectors up to an event."""
        asked = event, budget
        if asked not in self._counts:
            made = self.workspace.play(events.prefix(self.script, event), "report", budget=budget)
            self._counts[asked] = _counts(made["report"])
        return self._counts[asked]

    def _known(self, moment: int) -> tuple[tuple[int, int], tuple[int, int]]:
        """The last event that is known to end at a moment or before it (-1: none), and the first one that is known
        to end behind it, or the last one; each with its end."""
        ends = {event: count for (event, budget), (count, _) in self._counts.items() if budget is None}
        before = max((event for event, end in ends.items() if end <= moment), default=-1)
        behind = min((event for event, end in ends.items() if end > moment), default=self.most)
        return (before, ends.get(before, 0)), (behind, ends[behind])

    def event_behind(self, moment: int) -> int:
        """An event not far behind a moment: its end is behind it, or it is the last one. Where it may be is guessed by
        the lengths of other events."""
        while True:
            (before, first), (behind, last) = self._known(moment)
            if last - moment <= self._rest(moment) or behind - before <= 1:
                return behind
            wanted = moment + self._rest(moment) // 2 - first
            guess = before + 1 + wanted * (behind - before) // (last - first)
            self.end(min(max(guess, before + 1), behind - 1))

    @staticmethod
    def _rest(moment: int) -> int:
        return max(LEAST_REST, moment // PART_OF_REST)

    def event_of(self, moment: int) -> int:
        """The event in which a moment lies; one more than there are at the end."""
        most = self.event_behind(moment)
        if self.end(most) <= moment:
            return most + 1
        least = -1
        while most - least > 1:
            middle = (least + most) // 2
            if self.end(middle) <= moment:
                least = middle
            else:
                most = middle
        return most

    def to(self, moment: int) -> Reach:
        """A run that goes past a moment, but not much farther."""
        chosen = self._chosen
        if not chosen.is_whole and moment < chosen.known_to <= moment + self._rest(moment):
            return chosen
        event = self.event_behind(moment) if moment < self.total else self.most
        budget = self._budget(event, moment)
        return Reach(
            self.whole if event == self.most else events.prefix(self.script, event),
            budget,
            event == self.most and budget is None,
            self.end(event) if budget is None else self._start(event) + budget,
        )

    def reach(self, moment: int) -> None:
        """Lets the runs of the workspace go past a moment, but not much farther."""
        self._chosen = self.to(moment)
        self.workspace.shortened, self.workspace.cut = self._chosen.script, self._chosen.budget

    def _start(self, event: int) -> int:
        return self.end(event - 1) if event else 0

    def _budget(self, event: int, moment: int) -> int | None:
        """A budget that cuts a vector of an event behind a moment, and none before the event."""
        if self.end(event) - moment <= self._rest(moment):
            return None
        start = self._start(event)
        budget = ((moment - start) // BUDGET_STEP + 2) * BUDGET_STEP
        if budget >= int(self.workspace.target.budget or LIMITS.usual_budget):
            return None
        return budget if not event or self.counts(event - 1, budget) == (start, 0) else None

    def reach_behind(self, moment: int, tries: int) -> None:
        """The same for what lies somewhere behind a moment, where so many tries found nothing."""
        reached = moment + FIRST_DISTANCE * FARTHER**tries
        self.reach(reached if reached * WORTH <= self.total else self.total)


def _counts(made: bytes) -> tuple[int, int]:
    """The instructions and the cut vectors of a report."""
    found = report.read(made)
    return int(found["instructions"]), int(found["cuts"])
