"""The screen at a moment. `uxn` takes pictures between events only, so a moment within a vector is reached by a
budget that ends the vector there: that is exact where no vector before it is longer, as in the reset vector.
Elsewhere there are the pictures before the event and behind it."""
from __future__ import annotations

from dataclasses import dataclass

from uxntools import events, pictures
from uxntools.horizon import Horizon
from uxntools.pictures import Picture


@dataclass(frozen=True)
class Shot:
    """A picture, and what of the run it shows."""

    picture: Picture
    shows: str


class Camera:
    """Takes pictures of a run."""

    def __init__(self, horizon: Horizon) -> None:
        self.horizon = horizon
        self.workspace, self.script, self.most = horizon.workspace, horizon.script, horizon.most
        self._end, self._count, self._event = horizon.end, horizon.counts, horizon.event_of

    def shots(self, moment: int) -> list[Shot]:
        """The screen at a moment; or, where that cannot be had, before and behind the event of the moment."""
        event = self._event(moment)
        if event > self.most:
            return self._behind_all()
        before = self._end(event - 1) if event else 0
        if event and moment == before:
            return [Shot(self._picture(event - 1), f"at moment {moment}")]
        exact = self._within(event, before, moment)
        if exact:
            return [Shot(exact, f"at moment {moment}")]
        found = (
            [Shot(self._picture(event - 1), f"at moment {before}, before event {event} of the script")] if event else []
        )
        after = self._picture_or_none(event)
        name = f"event {event} of the script" if event else "the reset vector and the arguments"
        return found + ([Shot(after, f"at moment {self._end(event)}, behind {name}")] if after else [])

    def _behind_all(self) -> list[Shot]:
        """The last picture that can be had at the end of the run: a program that ends its run itself is given no
        event behind that."""
        for event in (self.most, max(0, self._event(self._end(self.most) - 1) - 1)):
            found = self._picture_or_none(event)
            if found:
                shows = (
                    "at the end"
                    if event == self.most
                    else f"at moment {self._end(event)}, before the event in which the program ends"
                )
                return [Shot(found, shows)]
        return []

    def _picture_or_none(self, event: int, budget: int | None = None) -> Picture | None:
        """The picture behind an event; none where the program ended its run in it."""
        script = events.without_shots(events.prefix(self.script, event)) + b"shot\n"
        found = pictures.read(self.workspace.play(script, "frames", budget=budget)["frames"])
        return found[0] if found else None

    def _picture(self, event: int) -> Picture:
        found = self._picture_or_none(event)
        assert found is not None, "a later event was given"
        return found

    def _within(self, event: int, before: int, moment: int) -> Picture | None:
        """The picture at a moment of the first vector of an event, where a budget that ends this vector there ends
        none before it."""
        budget = moment - before
        if not budget:
            return None
        is_same_before = not event or self._count(event - 1, budget) == (before, 0)
        if not is_same_before or self._count(event, budget) != (moment, 1):
            return None
        return self._picture_or_none(event, budget)
