"""The instructions of a ROM as a profile sees them: where each can go on, and what it does to the return stack."""
from __future__ import annotations

import enum
from collections.abc import Collection
from typing import NamedTuple

from uxntools import opcodes

START = 0x0100
SIZE = 0x10000
BRK, JCI, JMI, JSI = 0x00, 0x20, 0x40, 0x60
LIT = {0x80: 2, 0xC0: 2, 0xA0: 3, 0xE0: 3}
# The bytes of an instruction that choose where it goes on, where they are more than the first.
SIZES = {JCI: 3, JMI: 3, JSI: 3}
JUMP, CONDITIONAL, CALL = 0x0C, 0x0D, 0x0E


class Kind(enum.Enum):
    """How an instruction goes on: at one place, at one of two, at a place that the stack says, or not at all. A call
    pushes a return address."""

    ONE, EITHER, COMPUTED, CALL, COMPUTED_CALL, END = range(6)


class Step(NamedTuple):
    """An instruction: its kind, where it can go on as far as its bytes say, by how much the return stack grows, and how
    far from it what it calls returns to."""

    kind: Kind
    targets: tuple[int, ...]
    growth: int
    size: int = 1

    @property
    def is_call(self) -> bool:
        return self.kind in (Kind.CALL, Kind.COMPUTED_CALL)

    @property
    def is_open(self) -> bool:
        """Whether its bytes do not say where it goes on."""
        return self.kind in (Kind.COMPUTED, Kind.COMPUTED_CALL, Kind.END)


def _growth(code: int) -> int:
    found = opcodes.of_byte(code)
    return found.growth if found.in_return_mode else found.other_growth


NAMES = [opcodes.of_byte(code).name for code in range(256)]
CODES = {name: code for code, name in reversed(list(enumerate(NAMES)))}
GROWTH = [_growth(code) for code in range(256)]


def kind_of(code: int) -> Kind:
    """The kind of an instruction by its byte."""
    named = {BRK: Kind.END, JCI: Kind.EITHER, JSI: Kind.CALL}
    if code in named:
        return named[code]
    if code & 0x1F in (JUMP, CONDITIONAL):
        return Kind.COMPUTED
    if code & 0x1F == CALL:
        return Kind.COMPUTED if code & opcodes.RETURN else Kind.COMPUTED_CALL
    return Kind.ONE


def of_name(name: str) -> Step:
    """An instruction by its name alone, where its bytes may be others than the ROM's."""
    code = CODES[name]
    return Step(kind_of(code), (), GROWTH[code], SIZES.get(code, 1))


class Code:
    """The instructions of a ROM by their addresses. `lambdas` are the places of `{` alone, whose JSI only pushes the
    address of what follows it."""

    def __init__(self, rom: bytes, lambdas: Collection[int] = ()) -> None:
        self.memory = bytearray(SIZE + 3)
        self.memory[START : START + len(rom)] = rom[: SIZE - START]
        self.lambdas = lambdas
        self._steps: list[Step | None] = [None] * SIZE

    def at(self, address: int) -> Step:
        found = self._steps[address]
        if found is None:
            found = self._steps[address] = self._read(address)
        return found

    def name(self, address: int) -> str:
        return NAMES[self.memory[address]]

    def is_changed(self, address: int, memory: bytes) -> bool:
        """Whether the bytes of an instruction that choose where it goes on are others in a memory."""
        size = self.at(address).size
        return memory[address : address + size] != self.memory[address : address + size]

    def _read(self, address: int) -> Step:
        code = self.memory[address]
        kind = kind_of(code)
        if kind is Kind.CALL and address in self.lambdas:
            kind = Kind.ONE
        return Step(kind, self._targets(address, code, kind), GROWTH[code], SIZES.get(code, 1))

    def _targets(self, address: int, code: int, kind: Kind) -> tuple[int, ...]:
        if code in SIZES:
            after = address + 3 & 0xFFFF
            there = after + int.from_bytes(self.memory[address + 1 : address + 3], "big") & 0xFFFF
            return (there, after) if code == JCI and there != after else (there,)
        return (address + LIT.get(code, 1) & 0xFFFF,) if kind is Kind.ONE else ()
