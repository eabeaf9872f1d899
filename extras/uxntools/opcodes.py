"""The instructions: the operations with their effects on the stacks, in their modes."""
from __future__ import annotations

import re
from dataclasses import dataclass, replace
from functools import lru_cache

from uxntools import facts
from uxntools.facts import Item, Operation

SHORT, RETURN, KEEP = 0x20, 0x40, 0x80
MODES = {"2": SHORT, "r": RETURN, "k": KEEP}
MODE_WORDS = {"2": "short mode", "r": "return mode", "k": "keep mode"}


# The operations that take no modes: their whole byte decides. What follows them in memory is no part of the stacks.
IMMEDIATE = {name: row for name, row in facts.OPERATIONS.items() if not row.code & 0x1F and name != "LIT"}
LIT = replace(facts.OPERATIONS["LIT"], code=KEEP)
OPERATIONS = {name: row for name, row in facts.OPERATIONS.items() if row.code & 0x1F}
NAMES = [*IMMEDIATE, "LIT", *OPERATIONS]
WORD = re.compile(r"([A-Z]{3})([2kr]*)")


@dataclass(frozen=True)
class Instruction:
    """An operation in a mode."""

    operation: Operation
    is_short: bool
    in_return_mode: bool
    keeps: bool

    @property
    def name(self) -> str:
        modes = "2" * (self.is_short) + "k" * (self.keeps and self.operation is not LIT) + "r" * self.in_return_mode
        return self.operation.name + modes

    @property
    def code(self) -> int:
        keeps = self.keeps and self.operation.name not in IMMEDIATE
        return self.operation.code | SHORT * self.is_short | RETURN * self.in_return_mode | KEEP * keeps

    def _size(self, items: tuple[Item, ...]) -> int:
        return sum(item.size(self.is_short) for item in items)

    @property
    def taken(self) -> int:
        """How many bytes it reads of its own stack: below the pointer they have to be there, also in keep mode."""
        return self._size(self.operation.takes)

    @property
    def growth(self) -> int:
        """By how many bytes its own stack grows."""
        return self._size(self.operation.pushes) - (0 if self.keeps else self.taken)

    @property
    def other_growth(self) -> int:
        """By how many bytes the other stack grows."""
        return self._size(self.operation.other)

    def effects(self) -> tuple[str, str]:
        """Its effects on the working stack and on the return stack, as in `a* b* -- a+b*`; empty where it leaves one
        as it is."""
        takes, pushes, other = (
            [item.text(self.is_short) for item in items]
            for items in (self.operation.takes, self.operation.pushes, self.operation.other)
        )
        own = _notation(takes, (takes if self.keeps else []) + pushes)
        rest = _notation([], other)
        return (rest, own) if self.in_return_mode else (own, rest)

    def modes(self) -> list[str]:
        """Its modes in words."""
        given = (("2", self.is_short), ("k", self.keeps), ("r", self.in_return_mode))
        return [MODE_WORDS[mode] for mode, is_on in given if is_on]


def _notation(before: list[str], after: list[str]) -> str:
    return " ".join([*before, "--", *after]) if before or after else ""


@lru_cache(maxsize=4096)
def instruction(word: str) -> Instruction | None:
    """The instruction that a word of a source names, with its modes in any order; None for any other word."""
    if word in IMMEDIATE:
        return Instruction(IMMEDIATE[word], False, False, False)
    found = WORD.fullmatch(word)
    if not found or len(set(found[2])) < len(found[2]):
        return None
    operation = LIT if found[1] == "LIT" else OPERATIONS.get(found[1])
    return (
        Instruction(operation, "2" in found[2], "r" in found[2], "k" in found[2] and operation is not LIT)
        if operation
        else None
    )


def of_byte(code: int) -> Instruction:
    """The instruction of a byte of a ROM."""
    if code & 0x1F:
        operation = next(row for row in OPERATIONS.values() if row.code == code & 0x1F)
        return Instruction(operation, bool(code & SHORT), bool(code & RETURN), bool(code & KEEP))
    if code & KEEP:
        return Instruction(LIT, bool(code & SHORT), bool(code & RETURN), False)
    return Instruction(next(row for row in IMMEDIATE.values() if row.code == code), False, False, False)
