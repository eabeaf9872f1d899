"""The routines of a program: what begins at a label without a `/`, and what is called."""
from __future__ import annotations

from bisect import bisect_right
from dataclasses import dataclass, field

from uxntools import log
from uxntools.profiling.code import START, Code, Kind
from uxntools.target import Program

LIT2, JSR2, CALL_NOW = 0xA0, 0x2E, 0x60
RESET = "reset"


@dataclass
class Routines:
    """The first address and the name of each routine, in order. One ends where the next begins."""

    starts: list[int]
    names: list[str]
    routine_of: list[int] = field(init=False)

    def __post_init__(self) -> None:
        self.routine_of = [max(bisect_right(self.starts, address) - 1, 0) for address in range(0x10000)]


def lambdas(program: Program) -> set[int]:
    """The addresses of `{` alone: a JSI that only pushes the address of what follows it."""
    return {row.address for row in program.rows if row.word == b"{"}


def _called(program: Program) -> set[int]:
    """What is called by name or by a literal, as the words of a source say."""
    found = set()
    for row, after in zip(program.rows, [*program.rows[1:], None]):
        if row.bytes[:1] == bytes([CALL_NOW]) and len(row.bytes) == 3 and row.word != b"{":
            found.add(row.address + 3 + int.from_bytes(row.bytes[1:], "big") & 0xFFFF)
        is_literal = row.bytes[:1] == bytes([LIT2]) and len(row.bytes) == 3
        if is_literal and after and after.bytes == bytes([JSR2]) and after.address == row.address + 3:
            found.add(int.from_bytes(row.bytes[1:], "big"))
    return found


def _reached(code: Code) -> set[int]:
    """What the calls lead to that the reset vector can reach by the bytes of a ROM alone."""
    found, todo, known = set(), [START], set()
    while todo:
        address = todo.pop()
        if address in known:
            continue
        known.add(address)
        step = code.at(address)
        todo += step.targets
        if step.is_call:
            todo.append(address + step.size & 0xFFFF)
        if step.kind is Kind.CALL:
            found |= set(step.targets)
    return found


def of(program: Program, code: Code, is_rom: bool) -> Routines:
    """The routines of a source by its words, or those of a ROM by its bytes, with the labels that are known."""
    labels = program.labels
    starts = {label.address for label in labels.all if label.address >= START and "/" not in label.name}
    starts |= {START} | (_reached(code) if is_rom else {at for at in _called(program) if at >= START})
    ordered = sorted(starts)
    return Routines(ordered, [_name(program, address) for address in ordered])


def _name(program: Program, address: int) -> str:
    near = program.labels.nearest(address)
    if near and (near[1] == 0 or program.labels.by_name.get(near[0], 0) >= START):
        return log.readable(near[0]) + (f"+{near[1]:04x}" if near[1] else "")
    return RESET if address == START else f"{address:04x}"
