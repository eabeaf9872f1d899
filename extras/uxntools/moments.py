"""Moments of a run: the state before each of its instructions, counted from 0, and its end. Every look begins a run
of its own, which is the same each time."""
from __future__ import annotations

from collections.abc import Iterator, Sequence
from dataclasses import dataclass
from functools import lru_cache

from uxntools import log, opcodes
from uxntools.log import MOST_COMMANDS
from uxntools.target import Workspace

# The ports that hold the pointers of the stacks.
WORKING_POINTER, RETURN_POINTER = 0x04, 0x05

# What shows a state: the place, as `step` and `run` show it too, and the rest. The first line of the ports has both
# pointers.
REST_OF_LOOK = ("stacks", "ports")
LOOK = ("where", *REST_OF_LOOK)
LINES_OF_LOOK = sum(map(log.lines_shown, LOOK))
# The lines of `step 1` and `stacks`, and how many of these one session has room for.
LINES_OF_STEP = 3
CHUNK = MOST_COMMANDS // 2 - 8
MOST_STEP = 4294967295


@dataclass(frozen=True)
class Stack:
    """A stack: its depth, and up to eight of its topmost bytes, the deepest first. What is below its bottom is not
    shown."""

    depth: int
    top: bytes
    # The byte below the pointer, also of an empty stack.
    last: int = 0

    def __str__(self) -> str:
        dots = ".. " if self.depth > len(self.top) else ""
        return f"{self.depth}: {dots}{self.top.hex(' ')}".rstrip()


@dataclass(frozen=True)
class State:
    """A moment: the place (at the end without address), both stacks."""

    count: int
    address: int | None
    name: str
    label: str
    working: Stack
    returning: Stack

    @property
    def is_end(self) -> bool:
        return self.address is None


def stack(depth: int, top: bytes) -> Stack:
    return Stack(depth, top[len(top) - min(depth, len(top)) :], top[-1])


def state(lines: Sequence[str]) -> State:
    """The state that the lines of a look say."""
    both = log.stacks(lines[1:3])
    ports = log.memory(lines[3:4])
    working, returning = stack(ports[WORKING_POINTER], both.working), stack(ports[RETURN_POINTER], both.returning)
    place = log.place(lines[0])
    if place is None:
        return State(log.end(lines[0]) or 0, None, "end", "", working, returning)
    return State(place.count, place.address, place.name, place.label, working, returning)


def to(moment: int) -> list[str]:
    """The commands that lead from the first moment to another."""
    whole, rest = divmod(moment, MOST_STEP)
    return [f"step {MOST_STEP}"] * whole + [f"step {rest}"] * bool(rest)


def breaks(addresses: Sequence[int]) -> list[str]:
    return [f"break {address:04x}" for address in addresses]


def last(workspace: Workspace, commands: Sequence[str], count: int = 1) -> list[list[str]]:
    """What the last commands of a session show."""
    lines = workspace.debug(commands)
    at, found = len(lines), []
    for command in reversed(commands[len(commands) - count :]):
        size = log.lines_shown(command)
        found.append(lines[at - size : at])
        at -= size
    return found[::-1]


def trace(workspace: Workspace, first: int, count: int) -> Iterator[State]:
    """The states from a moment on, so many, or up to the end, which is the last then."""
    while count > 0:
        shown = 0
        for found in _chunk(workspace, first, min(count, CHUNK)):
            yield found
            if found.is_end:
                return
            shown += 1
        first, count = first + shown, count - shown


def _chunk(workspace: Workspace, first: int, count: int) -> Iterator[State]:
    """The states from a moment on, up to one after which a store to a port moves a pointer. The ports, which are long,
    are asked for at the first: from there on the names of the instructions say how deep the stacks are."""
    commands = [*to(first), *LOOK] + ["step 1", "stacks"] * (count - 1)
    lines = workspace.debug(commands)
    at = len(to(first))
    found = state(lines[at : at + LINES_OF_LOOK])
    yield found
    at += LINES_OF_LOOK
    for _ in range(count - 1):
        if _moves_a_pointer(found):
            return
        found = _after(found, lines[at : at + LINES_OF_STEP])
        yield found
        if found.is_end:
            return
        at += LINES_OF_STEP


def _after(before: State, lines: Sequence[str]) -> State:
    """The state after an instruction, by what `step` and `stacks` show."""
    working, returning = _growth(before.name)
    both, place = log.stacks(lines[1:]), log.place(lines[0])
    stacks = (
        stack((before.working.depth + working) % 256, both.working),
        stack((before.returning.depth + returning) % 256, both.returning),
    )
    if place is None:
        return State(log.end(lines[0]) or 0, None, "end", "", *stacks)
    return State(place.count, place.address, place.name, place.label, *stacks)


@lru_cache
def _growth(name: str) -> tuple[int, int]:
    """By how many bytes an instruction makes both stacks grow."""
    found = opcodes.instruction(name)
    if found is None:
        return 0, 0
    return (found.other_growth, found.growth) if found.in_return_mode else (found.growth, found.other_growth)


def _moves_a_pointer(found: State) -> bool:
    """Whether an instruction stores to a port that holds the pointer of a stack."""
    if not found.name.startswith("DEO"):
        return False
    port = (found.returning if "r" in found.name else found.working).last
    return WORKING_POINTER - ("2" in found.name) <= port <= RETURN_POINTER


def next_at(workspace: Workspace, address: int, first: int = 0) -> tuple[int, bool]:
    """The first moment at an address, from a moment on; or the moment of the end, and False."""
    here, there = last(workspace, [*to(first), *breaks([address]), "where", "run"], 2)
    place = log.place(here[0])
    if place and place.address == address:
        return place.count, True
    later = log.place(there[0])
    return (later.count, True) if later else (log.end(there[0]) or 0, False)
