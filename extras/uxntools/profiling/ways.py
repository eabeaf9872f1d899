"""The way of a run between two of its stops: with a break at one of the two places where each test can go on, the
instructions between two stops are known by their first, their number, and what comes after them."""
from __future__ import annotations

from collections import Counter
from collections.abc import Collection, Iterator
from typing import NamedTuple

from uxntools.profiling.code import SIZE, Code, Kind


class Way(NamedTuple):
    """Addresses in order: some, a loop that is run so many times, and some more."""

    first: list[int]
    loop: list[int]
    times: int
    rest: list[int]

    def without_last(self) -> tuple[Way, int]:
        """The way without its last address, and that address."""
        if self.rest:
            return self._replace(rest=self.rest[:-1]), self.rest[-1]
        if not self.loop:
            return Way(self.first[:-1], [], 0, []), self.first[-1]
        if self.times == 1:
            return Way(self.first + self.loop[:-1], [], 0, []), self.loop[-1]
        return Way(self.first, self.loop, self.times - 1, self.loop[:-1]), self.loop[-1]

    def counts(self) -> Counter[int]:
        found = Counter(self.first)
        found.update(self.rest)
        for address in self.loop:
            found[address] += self.times
        return found

    def pairs(self, following: int) -> Iterator[tuple[int, int, int]]:
        """Each two addresses that follow one another, with a number of times."""
        line = self.first + self.loop
        yield from zip(line, line[1:], [1] * len(line))
        if self.loop:
            inner = self.loop + self.loop[:1]
            yield from zip(inner, inner[1:], [self.times - 1] * len(self.loop))
        tail = (self.loop or self.first)[-1:] + self.rest
        yield from zip(tail, tail[1:], [1] * len(tail))
        yield tail[-1], following, 1


def breaks(code: Code, seen: Collection[int], pairs: Counter[tuple[int, int]], targets: Collection[int]) -> set[int]:
    """Where breaks make every way known that leads through instructions which were seen: at one place of each test
    (that which is less frequent), after each call, and where computed jumps went."""
    found = set(targets)
    todo, known = list(seen), set()
    while todo:
        address = todo.pop()
        if address in known:
            continue
        known.add(address)
        step = code.at(address)
        todo += step.targets
        if step.kind is Kind.EITHER and len(step.targets) == 2:
            found |= _less_frequent(address, step.targets, pairs)
        elif step.is_call:
            found.add(address + step.size & 0xFFFF)
            todo.append(address + step.size & 0xFFFF)
        elif step.kind is Kind.COMPUTED and code.memory[address] & 0x1F == 0x0D:
            found.add(address + 1 & 0xFFFF)
            todo.append(address + 1 & 0xFFFF)
    return found


def _less_frequent(address: int, targets: tuple[int, ...], pairs: Counter[tuple[int, int]]) -> set[int]:
    there, after = targets
    went, did_not = pairs[address, there], pairs[address, after]
    if not went and not did_not:
        return {there, after}
    return {there if went < did_not else after}


class Ways:
    """The ways between stops at some breaks."""

    def __init__(self, code: Code, stops: set[int]) -> None:
        self.stops = stops
        self.code = code
        self._next: list[int] = [-2] * SIZE

    def _after(self, address: int) -> int:
        """Where a run goes on that does not stop, or -1 where it is not known."""
        found = self._next[address]
        if found == -2:
            free = {target for target in self.code.at(address).targets if target not in self.stops}
            found = self._next[address] = free.pop() if len(free) == 1 else -1
        return found

    def between(self, first: int, count: int, following: int | None) -> Way | None:
        """So many instructions from the first on, up to the next stop (None: the end); None if they are not known."""
        places: dict[int, int] = {}
        line: list[int] = []
        address = first
        while len(line) < count:
            if address in places:
                return self._looped(line, places[address], count, following)
            places[address] = len(line)
            line.append(address)
            if len(line) == count:
                break
            address = self._after(address)
            if address < 0:
                return None
        return self._checked(Way(line, [], 0, []), following)

    def _looped(self, line: list[int], start: int, count: int, following: int | None) -> Way | None:
        loop = line[start:]
        times, rest = divmod(count - start, len(loop))
        return self._checked(Way(line[:start], loop, times, loop[:rest]), following)

    def _checked(self, way: Way, following: int | None) -> Way | None:
        """The way, if its last instruction can go on at the stop."""
        if following is None:
            return way
        step = self.code.at((way.rest or way.loop or way.first)[-1])
        return way if step.is_open or following in step.targets else None
