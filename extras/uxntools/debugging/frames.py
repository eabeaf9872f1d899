"""Calls that did not return yet. Their return addresses are on the return stack, but which of its bytes they are
only the run says: it is followed back to the instruction that pushed them."""
from __future__ import annotations

from collections.abc import Callable, Sequence
from dataclasses import dataclass
from functools import cache

from uxntools import log, opcodes
from uxntools.moments import State

# How many moments are followed back.
WINDOW = 30000


@dataclass(frozen=True)
class Frame:
    """A call: its moment (None if it is not known) and address, where it returns to, and the depth of the return
    stack before it."""

    moment: int | None
    address: int
    returns_to: int
    depth: int


def is_call(name: str) -> bool:
    """Whether an instruction pushes a return address on the return stack."""
    return name == "JSI" or name.startswith("JSR") and "r" not in name[3:]


def return_address(name: str, address: int) -> int:
    return (address + (3 if name == "JSI" else 1)) & 0xFFFF


@cache
def growth(name: str) -> int:
    """By how many bytes an instruction makes the return stack grow."""
    found = opcodes.instruction(name)
    if found is None:
        return 0
    return found.growth if found.in_return_mode else found.other_growth


def frames(lines: Sequence[str], here: State, most: int, is_lambda: Callable[[int], bool]) -> tuple[list[Frame], bool]:
    """The innermost calls that did not return yet, so many at most, by the places before a state; and whether these
    are all of the vector, which is followed back to its start, but not too far."""
    found: list[Frame] = []
    depth = low = here.returning.depth
    for place in filter(None, map(log.place, reversed(lines))):
        if place.name == "BRK":
            return found, True
        depth -= growth(place.name)
        if is_call(place.name) and low >= depth + 2 and not is_lambda(place.address):
            found.append(Frame(place.count, place.address, return_address(place.name, place.address), depth))
            if len(found) == most:
                return found, False
        low = min(low, depth)
    return found, len(lines) == here.count
