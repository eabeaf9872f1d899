"""Samples of `--samples`: pairs of 16 bits with a sign, left and right, low byte first, 44,100 pairs a second and
735 a frame."""
from __future__ import annotations

import array
import struct
import sys
from dataclasses import dataclass

from uxntools.pictures import Picture

RATE = 44100
FRAME = 735
PAIR = 4


@dataclass(frozen=True)
class Moment:
    """The first pair at which two sounds differ: its number from 0, and both pairs; of the shorter sound at its end
    None."""

    pair: int
    wanted: tuple[int, int] | None
    got: tuple[int, int] | None

    @property
    def frame(self) -> int:
        """The frame that it lies in, from 1."""
        return self.pair // FRAME + 1

    @property
    def seconds(self) -> float:
        return self.pair / RATE


def wav(data: bytes) -> bytes:
    """The samples as a WAV file."""
    size = len(data)
    form = struct.pack("<HHIIHH", 1, 2, RATE, RATE * PAIR, PAIR, 16)
    head = b"RIFF" + struct.pack("<I", 36 + size) + b"WAVEfmt " + struct.pack("<I", len(form)) + form
    return b"".join((head, b"data", struct.pack("<I", size), data))


def numbers(data: bytes) -> array.array[int]:
    """The samples as numbers, left and right in turn; what is left behind the last whole pair is dropped."""
    found = array.array("h", data[: len(data) // PAIR * PAIR])
    if sys.byteorder == "big":
        found.byteswap()
    return found


def pair(sound: array.array[int], at: int) -> tuple[int, int] | None:
    return (sound[2 * at], sound[2 * at + 1]) if 2 * at + 1 < len(sound) else None


def first_difference(wanted: bytes, got: bytes) -> Moment | None:
    """The first moment at which two sounds differ, or at which one of them ends."""
    if wanted == got:
        return None
    least, most = 0, min(len(wanted), len(got))
    while least < most:
        middle = (least + most + 1) // 2
        if wanted[:middle] == got[:middle]:
            least = middle
        else:
            most = middle - 1
    at = least // PAIR
    return Moment(at, pair(numbers(wanted), at), pair(numbers(got), at))


BACK, AXIS, WANTED, GOT, BOTH, MARK = (
    b"\xff\xff\xff",
    b"\xcc\xcc\xcc",
    b"\x00\x70\xd0",
    b"\xe0\x50\x00",
    b"\x60\x60\x60",
    b"\xff\xd0\x60",
)
HALF = 128
GAP = 8


def _span(sound: array.array[int], at: int, channel: int, loudest: int) -> tuple[int, int] | None:
    """The rows that a column of the wave covers: from the sample before to the one at `at`."""
    ends = [sound[2 * place + channel] for place in (max(at - 1, 0), at) if 0 <= 2 * place + channel < len(sound)]
    rows = [HALF - value * (HALF - 2) // loudest for value in ends]
    return (min(rows), max(rows)) if rows else None


def _column(spans: tuple[tuple[int, int] | None, tuple[int, int] | None], is_mark: bool) -> list[bytes]:
    """A column of one channel: both waves over the axis."""
    rows = [MARK if is_mark else BACK] * (2 * HALF)
    rows[HALF] = AXIS
    for span, colour, other in ((spans[0], WANTED, GOT), (spans[1], GOT, WANTED)):
        for row in range(span[0], span[1] + 1) if span else ():
            rows[row] = BOTH if rows[row] in (other, BOTH) else colour
    return rows


def waves(wanted: bytes, got: bytes, at: int, width: int = 640) -> Picture:
    """A picture of both sounds around a pair: the left channel above the right one, a column a pair. What is wanted
    is blue, what came is orange, where both are it is grey; the column of the pair is marked."""
    sounds = numbers(wanted), numbers(got)
    start = max(0, at - width // 2)
    ends = [sound[2 * start : 2 * (start + width)] for sound in sounds]
    loudest = max(1, *(abs(value) for end in ends for value in end), 1)
    columns = []
    for place in range(start, start + width):
        halves = [
            _column((_span(sounds[0], place, channel, loudest), _span(sounds[1], place, channel, loudest)), place == at)
            for channel in (0, 1)
        ]
        columns.append(halves[0] + [AXIS] * GAP + halves[1])
    height = 4 * HALF + GAP
    return Picture(width, height, b"".join(columns[x][y] for y in range(height) for x in range(width)))
