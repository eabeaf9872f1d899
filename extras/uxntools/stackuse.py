"""What a vector did to a stack: which instruction left a byte on it, or took one that was not there."""
from __future__ import annotations

from collections.abc import Iterable
from dataclasses import dataclass

from uxntools import opcodes
from uxntools.moments import State

SIZE = 256


@dataclass(frozen=True)
class Use:
    """What went wrong, and the instruction that did it, where it is known."""

    text: str
    state: State | None


def of(states: Iterable[State], is_return: bool) -> Use:
    """How a stack that was empty before the first of some states became what it is after the last."""
    before: State | None = None
    depth, pusher = 0, None
    for state in states:
        if before is not None:
            if depth - _taken(before, is_return) < 0:
                return Use("a byte was taken from it while it was empty", before)
            after = depth + _growth(before, state, is_return)
            if depth < 1 <= after:
                pusher = before
            depth = after
            if depth >= SIZE:
                return Use("it overflowed", before)
        before = state
    return Use(f"{depth} byte{'s' if depth != 1 else ''} left, the first pushed" if depth else "it has wrapped", pusher)


def _depth(state: State, is_return: bool) -> int:
    return (state.returning if is_return else state.working).depth


def _growth(before: State, after: State, is_return: bool) -> int:
    """By how much an instruction moved the pointer, which wraps."""
    return (_depth(after, is_return) - _depth(before, is_return) + SIZE // 2) % SIZE - SIZE // 2


def _taken(state: State, is_return: bool) -> int:
    """How many bytes an instruction takes from a stack before it pushes."""
    found = opcodes.instruction(state.name)
    return found.taken if found and found.in_return_mode == is_return else 0
