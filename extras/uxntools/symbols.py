"""Symbol files: the labels of a source with their addresses, in order of definition."""
from __future__ import annotations

from bisect import bisect_right
from collections.abc import Iterable
from dataclasses import dataclass, field

from uxntools.cli import Failure
from uxntools.facts import LIMITS


# A source has no more words, and so no more labels.
MOST_LABELS = LIMITS.words


@dataclass(frozen=True, slots=True)
class Label:
    address: int
    name: str


def read(data: bytes) -> list[Label]:
    """The labels of a symbol file: two bytes of address, the name, and a zero byte for each."""
    labels: list[Label] = []
    at = 0
    while at < len(data):
        end = data.find(b"\0", at + 2)
        if end < 0:
            raise Failure(f"the symbol file is torn at byte {at}")
        if len(labels) == MOST_LABELS:
            raise Failure(f"the symbol file has more than {MOST_LABELS:,} labels")
        labels.append(Label(int.from_bytes(data[at : at + 2], "big"), data[at + 2 : end].decode("latin-1")))
        at = end + 1
    return labels


def count(parts: Iterable[bytes]) -> int:
    """How many labels a symbol file has, which comes in parts: a zero byte ends each, past its address."""
    labels, skip = 0, 2
    for part in parts:
        at = 0
        while at < len(part):
            step = min(skip, len(part) - at)
            at, skip = at + step, skip - step
            if skip:
                break
            end = part.find(b"\0", at)
            if end < 0:
                break
            labels, at, skip = labels + 1, end + 1, 2
    return labels


@dataclass
class Labels:
    """Labels by name and by address, as `uxn` looks them up: of one name or one address the first."""

    all: list[Label]
    by_name: dict[str, int] = field(init=False)
    first_at: dict[int, str] = field(init=False)
    addresses: list[int] = field(init=False)

    def __post_init__(self) -> None:
        self.by_name, self.first_at = {}, {}
        for label in self.all:
            self.by_name.setdefault(label.name, label.address)
            self.first_at.setdefault(label.address, label.name)
        self.addresses = sorted(self.first_at)

    def nearest(self, address: int) -> tuple[str, int] | None:
        """The nearest label at or below an address, and the distance from it."""
        at = bisect_right(self.addresses, address)
        return (self.first_at[self.addresses[at - 1]], address - self.addresses[at - 1]) if at else None
