"""Stores as a log shows them that has a stop before each of them: a place, and both stacks. They are found by regular
expressions over the bytes of the log, since a long way back has a million lines."""

from __future__ import annotations

import re
from collections.abc import Iterable
from dataclasses import dataclass

from uxntools import log
from uxntools.facts import MEMORY_PORTS
from uxntools.stores import STA, STR, STZ, Stop, Watched, can_store

# The last letter of each name, with which it is searched for, and how many bytes of an address it takes.
LETTERS = {STA: b"A(?<=STA)", STZ: b"Z(?<=STZ)", STR: b"R(?<=STR)"}
WIDTHS = {STA: 2, STZ: 1, STR: 1}
# What stands between the name with its modes and the bytes of the stack that the instruction takes from.
STACK = rb"k?(?:\nWST |r\n.{27}\nRST )"
# How the last line of a stop begins, and how long it is.
LAST_LINE, LAST_SIZE = b"\nRST ", 29
NOTHING = b"(?!)"


def one_of(values: Iterable[int]) -> bytes:
    """An expression for these bytes, as two digits each."""
    rows: dict[int, list[int]] = {}
    for value in sorted(set(values)):
        rows.setdefault(value >> 4, []).append(value & 15)
    columns: dict[bytes, bytes] = {}
    for high, lows in rows.items():
        digits = b"".join(b"%x" % low for low in lows)
        columns[digits] = columns.get(digits, b"") + b"%x" % high
    return b"(?:" + b"|".join(b"[%b][%b]" % (highs, lows) for lows, highs in columns.items()) + b")"


STORING = one_of(filter(can_store, range(256)))


def _addresses(addresses: Iterable[int]) -> bytes:
    """An expression for these addresses, as two bytes each."""
    pages: dict[int, list[int]] = {}
    for address in addresses:
        pages.setdefault(address >> 8, []).append(address & 0xFF)
    return b"|".join(b"%02x " % page + one_of(lows) for page, lows in pages.items())


def _distances(watched: Watched, stops: Iterable[int]) -> set[int]:
    """The distances with which an instruction at one of these stops stores to the bytes, or to the one before."""
    found: set[int] = set()
    for stop in stops:
        first = (watched.address - stop - 2 + 0x8000) % 0x10000 - 0x8000
        for least in (first, first - 0x10000):
            found.update(range(max(least, -128), min(least + 1 + watched.length, 128)))
    return {distance & 0xFF for distance in found}


def _wanted(kind: int, watched: Watched, stops: Iterable[int]) -> bytes:
    """An expression for what an instruction of a kind takes as an address where it may store to the bytes: of two
    bytes, to the second one."""
    addresses = {(watched.address + at) & 0xFFFF for at in range(-1, watched.length)}
    if kind == STA:
        return _addresses(addresses)
    if kind == STR:
        values = _distances(watched, stops)
    else:
        values = {at for at in range(256) if at in addresses or at == 0xFF and 0 in addresses}
    return one_of(values) if values else NOTHING


# What tells a store from others, however often it is done: its kind and mode, the address of an STR, and
# what it takes from the stack.
Key = tuple[int, bytes, int, bytes]


@dataclass(frozen=True)
class Form:
    """A kind of instruction that stores, and the expressions that find it: where it may store to the wanted bytes,
    and where it does so or may store an instruction that stores. Their groups are the mode 2 and what it takes."""

    kind: int
    hits: re.Pattern[bytes]
    suspects: re.Pattern[bytes]

    @staticmethod
    def of(kind: int, watched: Watched, stops: Iterable[int]) -> Form:
        width = 3 * WIDTHS[kind] - 1
        head = LETTERS[kind] + b"(2?)" + STACK + b".{%d}" % (17 - width)
        storing = b"(?:%b ..|.. %b) " % (STORING, STORING)
        wanted = b".. .. (?=%b)" % _wanted(kind, watched, stops)
        return Form(
            kind,
            re.compile(head + b"(?=" + wanted + b")(.{%d})\n" % (6 + width)),
            re.compile(head + b"(?:" + storing + b"|" + wanted + b")(.{%d})\n" % width),
        )

    def targets(self, data: bytes, first: int, behind: int) -> set[int]:
        """The addresses to which such instructions store what may be an instruction that stores, or wanted bytes, in
        a part of a log."""
        if self.kind == STR:
            found = self.suspects.finditer(data, first, behind)
            each = {(_address(data, match.start()), match[1], int(match[2], 16)) for match in found}
            starts = {((at + 1 + (distance ^ 0x80) - 0x80) & 0xFFFF, mode) for at, mode, distance in each}
        else:
            texts = set(self.suspects.findall(data, first, behind))
            starts = {(int(text.replace(b" ", b""), 16), mode) for mode, text in texts}
        wrap = 0xFF if self.kind == STZ else 0xFFFF
        return {at for at, _ in starts} | {(at + 1) & wrap for at, mode in starts if mode}

    def stores(self, data: bytes, first: int, behind: int) -> list[tuple[int, Key]]:
        """Where such instructions may store to the wanted bytes in a part of a log."""
        found = self.hits.finditer(data, first, behind)
        if self.kind == STR:
            return [(at := match.start(), (STR, match[1], _address(data, at), match[2])) for match in found]
        return [(match.start(), (self.kind, match[1], 0, match[2])) for match in found]


def forms(watched: Watched, stops: Iterable[int]) -> list[Form]:
    return [Form.of(kind, watched, stops) for kind in LETTERS]


def _ports(is_short: bool) -> bytes:
    ports = MEMORY_PORTS | {(port - 1) & 0xFF for port in MEMORY_PORTS} if is_short else MEMORY_PORTS
    return b"2" * is_short + STACK + b".{21}" + one_of(ports) + b"\n"


# A device that changes memory.
DEVICES = re.compile(b"O(?<=DEO)(?:" + _ports(False) + b"|" + _ports(True) + b")")


def _address(data: bytes, at: int) -> int:
    """The address of the stop in whose lines a byte of the log stands."""
    start = data.rfind(b"at ", 0, at)
    return int(data[start + 3 : start + 7], 16)


def stop_around(data: bytes, at: int) -> Stop:
    """The stop in whose lines a byte of the log stands."""
    start = data.rfind(b"at ", 0, at)
    end = data.index(LAST_LINE, start) + LAST_SIZE
    lines = data[start:end].decode("latin-1").splitlines()
    place = log.place(lines[0])
    assert place is not None, "the end is no stop"
    return Stop(place, log.stacks(lines[1:3]), b"")


def behind(data: bytes, start: int, moment: int) -> int:
    """Where the stops of a log before a moment end; they begin behind a newline at `start`."""
    first, end = start, len(data)
    while first < end:
        middle = (first + end) // 2
        at = data.find(b"\nat ", middle, end + 3)
        if at < 0 or count(data, at + 1) >= moment:
            end = middle
        else:
            first = at + 1
    return data.index(LAST_LINE, first) + LAST_SIZE if first > start else start


def count(data: bytes, at: int) -> int:
    """The moment of a place, whose line begins here."""
    return int(data[at : data.index(b"\n", at)].split(b" ")[2])
