"""Who called whom: a tree of contexts, and a walk over the instructions of a run through it.

A context is a routine with the way to it. A call begins a context beneath that of its caller, which ends as its return
address is jumped to. A jump or a fall into another routine is a call in tail position: its context lies beneath the
one that it leaves, and both end together; where the routine is on the way already, the walk goes back to it. A return
address that is taken off the return stack in another way ends the contexts of its call there. A vector begins
beneath the root."""
from __future__ import annotations

from collections import Counter
from collections.abc import Sequence
from dataclasses import dataclass, field

from uxntools.profiling.code import Code, Kind, Step
from uxntools.profiling.ways import Way

# In place of a return address: the context of a vector, and that of a call in tail position.
VECTOR, TAIL = -1, -2
ROOT = 0
# How many return addresses a return stack holds.
MOST_CALLS = 128


class Contexts:
    """The tree. Contexts are numbers; the root has the number 0 and is no routine."""

    def __init__(self) -> None:
        self.parents = [ROOT]
        self.routines = [-1]
        self.returns = [VECTOR]
        self.entries = [0]
        self._numbers: dict[tuple[int, int, int], int] = {}

    def child(self, parent: int, routine: int, returns_to: int) -> int:
        """The context of a routine that a context calls."""
        key = parent, routine, returns_to
        found = self._numbers.get(key)
        if found is None:
            found = self._numbers[key] = len(self.parents)
            self.parents.append(parent)
            self.routines.append(routine)
            self.returns.append(returns_to)
            self.entries.append(0)
        return found

    def moved(self, context: int, routine: int) -> int:
        """The context after a jump into a routine."""
        at = context
        while self.routines[at] != routine:
            if self.returns[at] != TAIL:
                return self.child(context, routine, TAIL)
            at = self.parents[at]
        return at

    def call_of(self, context: int) -> int:
        """The context of the call, or of the vector, that a context belongs to."""
        while self.returns[context] == TAIL:
            context = self.parents[context]
        return context

    def returned(self, context: int, address: int) -> tuple[int, int] | None:
        """The context that a jump to an address returns to, and how many calls it ends, if there is one."""
        ended = 0
        while True:
            context = self.call_of(context)
            if self.returns[context] == VECTOR:
                return None
            ended += 1
            if self.returns[context] == address:
                return self.parents[context], ended
            context = self.parents[context]

    def way(self, context: int) -> list[int]:
        """The routines from the vector to a context."""
        found = []
        while context != ROOT:
            found.append(self.routines[context])
            context = self.parents[context]
        return found[::-1]


@dataclass
class Walk:
    """Where a walk is: its context, the depth of the return stack since the vector began, and that depth right after
    each call that did not return yet."""

    context: int = ROOT
    depth: int = 0
    calls: list[int] = field(default_factory=list)
    # How often each context ran an instruction, and was entered.
    own: Counter[int] = field(default_factory=Counter)
    entered: Counter[int] = field(default_factory=Counter)
    # How far below its start the return stack was, where calls from before could have ended, and how many a jump ended.
    low: int = 0
    ended: int = 0


class Walker:
    """Walks over instructions. `routine_of` has the routine of each address."""

    def __init__(self, code: Code, routine_of: Sequence[int]) -> None:
        self.code = code
        self.routine_of = routine_of
        self.contexts = Contexts()

    def begin(self, walk: Walk, address: int) -> None:
        """Begins a vector."""
        walk.context = self.contexts.child(ROOT, self.routine_of[address], VECTOR)
        walk.depth = 0
        walk.calls.clear()
        walk.entered[walk.context] += 1

    def one(self, walk: Walk, address: int, step: Step, following: int) -> None:
        """Runs an instruction that goes on at an address."""
        walk.own[walk.context] += 1
        if step.kind is Kind.END:
            return
        if step.kind is Kind.COMPUTED and self._returns(walk, step, following):
            return
        walk.depth += step.growth
        if step.is_call and len(walk.calls) < MOST_CALLS:
            walk.calls.append(walk.depth)
            returns_to = address + step.size & 0xFFFF
            walk.context = self.contexts.child(walk.context, self.routine_of[following], returns_to)
            walk.entered[walk.context] += 1
            return
        before = self.contexts.routines[walk.context]
        self._drop(walk)
        self._move(walk, following, before)

    def _move(self, walk: Walk, following: int, before: int) -> None:
        """Goes on in the routine of an address, which is entered if it is neither the one before nor a caller."""
        routine, context = self.routine_of[following], walk.context
        if self.contexts.routines[context] == routine:
            return
        walk.context = self.contexts.moved(context, routine)
        if routine != before and self.contexts.parents[walk.context] == context:
            walk.entered[walk.context] += 1

    def _drop(self, walk: Walk) -> None:
        """Ends the calls whose return addresses are no longer on the return stack."""
        while walk.calls and walk.depth < walk.calls[-1]:
            walk.calls.pop()
            walk.context = self.contexts.parents[self.contexts.call_of(walk.context)]
        if not walk.calls:
            walk.low = min(walk.low, walk.depth)

    def _returns(self, walk: Walk, step: Step, following: int) -> bool:
        found = self.contexts.returned(walk.context, following)
        if found is None:
            return False
        walk.context, ended = found
        inner = min(ended, len(walk.calls))
        del walk.calls[len(walk.calls) - inner :]
        walk.ended += ended - inner
        walk.depth += step.growth
        self._move(walk, following, self.contexts.routines[walk.context])
        return True

    def through(self, walk: Walk, way: Way, following: int) -> None:
        """Runs the instructions of a way, and goes on at an address."""
        if not way.loop:
            self._line(walk, way.first, following)
            return
        self._line(walk, way.first, way.loop[0])
        done = 0
        while done < way.times - 1:
            done += 1 + self._again(walk, way.loop, way.times - 2 - done)
        self._line(walk, way.loop, way.rest[0] if way.rest else following)
        self._line(walk, way.rest, following)

    def _line(self, walk: Walk, addresses: list[int], following: int) -> None:
        for address, after in zip(addresses, [*addresses[1:], following]):
            self.one(walk, address, self.code.at(address), after)

    def _again(self, walk: Walk, loop: list[int], most: int) -> int:
        """Runs a loop once, and so many times more at most if it leaves the walk as it was; answers how many."""
        own, entered, depth = walk.own, walk.entered, walk.depth
        before = walk.context, list(walk.calls)
        walk.own, walk.entered = Counter(), Counter()
        self._line(walk, loop, loop[0])
        growth = walk.depth - depth
        is_steady = before == (walk.context, walk.calls) and (growth >= 0 or not walk.calls)
        more = most if is_steady else 0
        for total, part in ((own, walk.own), (entered, walk.entered)):
            for context, count in part.items():
                total[context] += count * (1 + more)
        walk.own, walk.entered = own, entered
        walk.depth += growth * more
        if not walk.calls:
            walk.low = min(walk.low, walk.depth)
        return more
