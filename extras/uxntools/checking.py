"""Checking a run beside its outputs: assertions on memory and ports, stacks at the ends of vectors, budgets of
vectors, and where vectors were cut."""
from __future__ import annotations

from collections.abc import Iterable, Iterator, Mapping
from dataclasses import dataclass, field

from uxntools import events, log, moments, places, stackuse, vectors
from uxntools.assertions import Assertion, Wrong
from uxntools.stores import MOST_BYTES, Watched
from uxntools.target import Program, Workspace
from uxntools.vectors import Loaded, Timeline, Vector
from uxntools.writers import Writers, of_instruction

# How many misses are shown with who wrote what is there.
MOST_WRITERS = 4
# The ports that events set, or that go on between vectors: what they read is asked for at the very place.
MOVING = {0x12, 0x17, 0x82, 0x83, *range(0x85, 0x88), *range(0x92, 0x9E), *range(0xC0, 0xCB)}
MOVING |= {voice + at for voice in vectors.VOICES for at in (2, 3, 4)}
POINTERS = {"working": moments.WORKING_POINTER, "return": moments.RETURN_POINTER}
# How many instructions of a vector are looked at for the one that left a byte on a stack.
MOST_TRACED = 200_000


@dataclass(frozen=True)
class Rules:
    """What is checked of a run: assertions, whether stacks have to be empty at the end of each vector, and the most
    instructions of vectors by their kinds."""

    assertions: tuple[Assertion, ...] = ()
    is_strict: bool = False
    budgets: Mapping[str, int] = field(default_factory=dict)

    @property
    def is_empty(self) -> bool:
        return not (self.assertions or self.is_strict or self.budgets)


@dataclass(frozen=True)
class Found:
    """Something that a run should not do: the line of the script that is about it, or None, and what it is."""

    line: int | None
    text: str


@dataclass(frozen=True)
class Resolved:
    """An assertion with the address of its place in a program."""

    assertion: Assertion
    address: int

    @property
    def watched(self) -> Watched:
        return Watched(self.address, self.assertion.length)

    @property
    def is_moving(self) -> bool:
        span = range(self.address, self.address + self.assertion.length)
        return self.assertion.is_port and not MOVING.isdisjoint(span)


def resolve(program: Program, assertion: Assertion) -> Resolved:
    """The place of an assertion; a place that the program does not have is Wrong."""
    if assertion.length > MOST_BYTES:
        raise Wrong(f"it compares {assertion.length} bytes, and {MOST_BYTES} at most are compared")
    name = assertion.place
    if name.startswith("#"):
        return Resolved(assertion, int(name[1:], 16))
    label, distance = _parts(name.removeprefix("@"))
    address = program.labels.by_name.get(label)
    if address is None:
        raise Wrong(f"there is no label {log.readable(label)}{places.suggestion(program, log.readable(label))}")
    address = address + distance & 0xFFFF
    if assertion.is_port and address + assertion.length > places.PORTS:
        raise Wrong(f"{log.readable(name)} is at {address:04x}, which is no port: memory is @{log.readable(name)}")
    if not assertion.is_port and places.is_port_label(program, label):
        raise Wrong(f"{log.readable(name)} names a port: without the sign @ its port is compared")
    return Resolved(assertion, address)


def known(program: Program, asserted: Iterable[Assertion]) -> tuple[tuple[Assertion, ...], list[Found]]:
    """The assertions whose places a program has, and what is wrong with each other one."""
    found, wrong = [], []
    for it in asserted:
        try:
            resolve(program, it)
            found.append(it)
        except Wrong as why:
            wrong.append(Found(it.line, f"{it.text}: {why}"))
    return tuple(found), wrong


def _parts(name: str) -> tuple[str, int]:
    """A label and the distance from it."""
    found = places.DISTANCE.fullmatch(name)
    return (found["label"], int(found["distance"], 16)) if found else (name, 0)


class Checker:
    """Checks a run of a workspace, whose report is given. `name` is that of the script, as it is shown."""

    def __init__(self, workspace: Workspace, loaded: Loaded, counts: dict[str, str], rules: Rules, name: str) -> None:
        self.workspace, self.loaded, self.rules, self.name = workspace, loaded, rules, name
        self.counts = counts
        self.resolved = [resolve(loaded.program, it) for it in rules.assertions]
        memory = [it.watched for it in self.resolved if not it.assertion.is_port]
        self.watched = list(dict.fromkeys(memory))
        self.timeline: Timeline = vectors.follow(workspace, loaded, counts, self.watched, workspace.script())

    # Assertions

    def misses(self) -> list[Found]:
        """The assertions that did not hold."""
        missed = [miss for it in self.resolved for miss in self._miss(it)]
        if not missed:
            return []
        with Writers(self.workspace.target, self.loaded.rom) as writers:
            return [miss.found(self, writers if at < MOST_WRITERS else None) for at, miss in enumerate(missed)]

    def moments(self) -> list[int]:
        """The moments at which assertions did not hold."""
        missed = [miss for it in self.resolved for miss in self._miss(it) if miss.place]
        return [self.timeline.vectors[miss.vector].end for miss in missed]

    def _miss(self, resolved: Resolved) -> Iterator[Miss]:
        """How an assertion misses, if it does."""
        event = events.before(self.timeline.data, resolved.assertion.line)
        count = self.timeline.count_after(event)
        if count is None:
            yield Miss(resolved)
        elif resolved.assertion.is_always:
            yield from self._first_miss(resolved, max(count - 1, 0))
        else:
            held = self._at_event(resolved, event) if resolved.is_moving else self._held(resolved, count - 1)
            if not resolved.assertion.holds(held):
                yield Miss(resolved, events.place_of(self.timeline.data, event), count - 1, held)

    def _first_miss(self, resolved: Resolved, first: int) -> Iterator[Miss]:
        all_missed = [at for at in range(first, len(self.timeline.vectors)) if not self._holds(resolved, at)]
        if all_missed:
            first = all_missed[0]
            yield Miss(resolved, self.timeline.place(first), first, self._held(resolved, first), len(all_missed))

    def _holds(self, resolved: Resolved, vector: int) -> bool:
        return resolved.assertion.holds(self._held(resolved, vector))

    def _held(self, resolved: Resolved, vector: int) -> bytes:
        """What a place holds at the end of a vector."""
        found = self.timeline.vectors[vector]
        if resolved.assertion.is_port:
            return found.ports[resolved.address : resolved.address + resolved.assertion.length]
        return found.pieces[self.watched.index(resolved.watched)]

    def _at_event(self, resolved: Resolved, event: int) -> bytes:
        """What ports read after an event: at the end of a run over the script up to there."""
        part = events.prefix(self.timeline.data, event)
        commands = f"step {moments.MOST_STEP}\nports\n".encode()
        lines = self.workspace.debug_rom(self.loaded.rom, commands, (part, None)).decode("latin-1").split("\n")
        page = log.memory(lines[1 : 1 + vectors.LINES_OF_PORTS])
        return page[resolved.address : resolved.address + resolved.assertion.length]

    # What is shown

    def when(self, vector: int) -> str:
        """The event of a vector."""
        return self.at(self.timeline.place(vector))

    def at(self, place: events.Place) -> str:
        """An event, with its line."""
        if not place.event:
            return "the start"
        what = f"frame {place.frame}" if place.frame else f"event {place.event} in frame {place.frames}"
        return f"{what} ({self.name}:{place.line})"

    def label(self, vector: int) -> str:
        """The kind of a vector and its routine."""
        found = self.timeline.vectors[vector]
        kind = self.timeline.kinds[vector]
        near = places.of_address(self.loaded.program, found.address).removesuffix("+0000")
        return f"{kind} vector, {near}" if near else f"{kind} vector"

    # Stacks

    def stacks(self) -> list[Found]:
        """The stacks that were not empty at the end of a vector, if they have to be."""
        found: list[Found] = []
        if not self.rules.is_strict:
            return found
        for name, port in POINTERS.items():
            left = [at for at, vector in enumerate(self.timeline.vectors) if vector.ports[port] and not vector.is_cut]
            if left:
                found.append(self._stack(name, port, left))
        return found

    def _stack(self, name: str, port: int, left: list[int]) -> Found:
        vector = self.timeline.vectors[left[0]]
        line = self.timeline.place(left[0]).line or None
        states = moments.trace(self.workspace, vector.first, min(vector.instructions, MOST_TRACED) + 1)
        use = stackuse.of(states, name == "return")
        what = f"the {name} stack was not empty at the end of the vector of {self.when(left[0])}: {use.text}"
        where = "" if use.state is None else f" by {self.instruction(use.state.address or 0)} at moment {use.state.count}"
        return Found(line, what + where + _more(len(left) - 1, "vectors ended so"))

    def instruction(self, address: int) -> str:
        return of_instruction(self.loaded.program, address)

    # Budgets

    def over_budget(self) -> Iterator[Found]:
        """The kinds of vectors that ran more instructions than they should."""
        for kind, budget in self.rules.budgets.items():
            over = [at for at, vector in enumerate(self.timeline.vectors) if self._is_over(at, vector, kind, budget)]
            if over:
                most = max(over, key=lambda at: self.timeline.vectors[at].instructions)
                count = self.timeline.vectors[most].instructions
                line = self.timeline.place(most).line or None
                text = f"the {self.label(most)}, ran {count:,} instructions in {self.when(most)}; its budget is {budget:,}"
                yield Found(line, text + _more(len(over) - 1, "were over it"))

    def _is_over(self, at: int, vector: Vector, kind: str, budget: int) -> bool:
        return self.timeline.kinds[at] == kind and vector.instructions > budget

    # Cuts

    def cuts(self, most: int) -> list[str]:
        """Where vectors were cut: a line for each of the first ones."""
        cut = [at for at, vector in enumerate(self.timeline.vectors) if vector.is_cut]
        lines = [f"cut in {self.when(at)} at {self.instruction(self.timeline.vectors[at].address)}" for at in cut[:most]]
        return lines + ([f".. and {len(cut) - most} more"] if len(cut) > most else [])


@dataclass(frozen=True)
class Miss:
    """An assertion that did not hold: after which event (None: the run ended before it) and vector, what was there,
    and after how many vectors it did not."""

    resolved: Resolved
    place: events.Place | None = None
    vector: int = 0
    held: bytes = b""
    count: int = 1

    def found(self, checker: Checker, writers: Writers | None) -> Found:
        """How it is shown, with what wrote what is there."""
        assertion = self.resolved.assertion
        if self.place is None:
            return Found(assertion.line, f"{assertion.text}: the run ended before it")
        text = f"{assertion.text}: it held {assertion.shown(self.held)} after {checker.at(self.place)}"
        moment = checker.timeline.vectors[self.vector].end
        writer = self._writer(writers, moment) if writers else ""
        more = _more(self.count - 1, "vectors broke it")
        return Found(assertion.line, text + (f"; {writer}" if writer else "") + more)

    def _writer(self, writers: Writers, moment: int) -> str:
        if self.resolved.is_moving:
            return ""
        if self.resolved.assertion.is_port:
            return writers.of_port(self.resolved.address, self.resolved.assertion.length, moment)
        return writers.of_memory(self.resolved.address, self.resolved.assertion.length, moment)


def _more(count: int, what: str) -> str:
    return f"; {count:,} more {what}" if count > 0 else ""
