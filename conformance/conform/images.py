"""Pictures of what differs: PNG files of pictures and of waves, and sound as WAV."""
from __future__ import annotations

import io
import re
import struct
import wave
import zlib
from dataclasses import dataclass

RATE = 44100
WIDE, HIGH = 900, 240
BLUE, RED, GREY = (40, 90, 200), (220, 30, 30), (235, 235, 235)


@dataclass
class Picture:
    """A picture of three bytes a pixel."""

    width: int
    height: int
    pixels: bytearray

    @staticmethod
    def blank(width: int, height: int) -> Picture:
        return Picture(width, height, bytearray(b"\xff" * (3 * width * height)))

    def set(self, x: int, y: int, colour: tuple[int, int, int]) -> None:
        at = 3 * (y * self.width + x)
        self.pixels[at : at + 3] = bytes(colour)


def pictures_of(data: bytes | None) -> list[Picture]:
    """The pictures of a file of PPM pictures, as far as it is right."""
    found: list[Picture] = []
    at = 0
    while data and (head := re.compile(rb"P6\s+(\d+)\s+(\d+)\s+255\s").match(data, at)):
        width, height = int(head[1]), int(head[2])
        end = head.end() + 3 * width * height
        if not 0 < width * height <= 10_000_000 or end > len(data):
            break
        found.append(Picture(width, height, bytearray(data[head.end() : end])))
        at = end
    return found


def chunk(name: bytes, data: bytes) -> bytes:
    return struct.pack(">I", len(data)) + name + data + struct.pack(">I", zlib.crc32(name + data))


def png(picture: Picture) -> bytes:
    size = 3 * picture.width
    rows = b"".join(b"\0" + picture.pixels[at : at + size] for at in range(0, len(picture.pixels), size))
    head = struct.pack(">IIBBBBB", picture.width, picture.height, 8, 2, 0, 0, 0)
    return b"\x89PNG\r\n\x1a\n" + chunk(b"IHDR", head) + chunk(b"IDAT", zlib.compress(rows, 9)) + chunk(b"IEND", b"")


def difference(wanted: Picture, got: Picture) -> Picture:
    """Red where two pictures differ, and the wanted one pale elsewhere."""
    width, height = max(wanted.width, got.width), max(wanted.height, got.height)
    found = Picture.blank(width, height)
    for y in range(height):
        for x in range(width):
            pixels = []
            for picture in (wanted, got):
                at = 3 * (y * picture.width + x)
                is_inside = x < picture.width and y < picture.height
                pixels.append(bytes(picture.pixels[at : at + 3]) if is_inside else None)
            if pixels[0] != pixels[1] or pixels[0] is None:
                found.set(x, y, RED)
            else:
                found.set(x, y, (191 + pixels[0][0] // 4, 191 + pixels[0][1] // 4, 191 + pixels[0][2] // 4))
    return found


def wav(samples: bytes) -> bytes:
    """Samples of two sides as a WAV file."""
    held = io.BytesIO()
    with wave.open(held, "wb") as file:
        file.setnchannels(2)
        file.setsampwidth(2)
        file.setframerate(RATE)
        file.writeframes(samples[: len(samples) & ~3])
    return held.getvalue()


def left_side(samples: bytes) -> list[int]:
    return [pair[0] for pair in struct.iter_unpack("<hh", samples[: len(samples) & ~3])]


def draw_wave(picture: Picture, values: list[int], count: int, middle: int, colour: tuple[int, int, int]) -> None:
    """Draws the least and greatest value of each column around a line."""
    most = max([abs(value) for value in values] or [1]) or 1
    for x in range(picture.width):
        part = values[x * count // picture.width : max(x * count // picture.width + 1, (x + 1) * count // picture.width)]
        ends = [middle - value * (HIGH // 4 - 6) // most for value in (min(part), max(part))] if part else [middle, middle]
        for y in range(min(ends), max(ends) + 1):
            picture.set(x, y, colour)


def waves(wanted: bytes, got: bytes) -> Picture:
    """Both waves, the wanted one above in blue, what came below in red; grey where they differ."""
    sides = left_side(wanted), left_side(got)
    count = max(len(side) for side in sides) or 1
    picture = Picture.blank(WIDE, HIGH)
    for x in range(WIDE):
        start, end = x * count // WIDE, max(x * count // WIDE + 1, (x + 1) * count // WIDE)
        if sides[0][start:end] != sides[1][start:end]:
            for y in range(HIGH):
                picture.set(x, y, GREY)
    draw_wave(picture, sides[0], count, HIGH // 4, BLUE)
    draw_wave(picture, sides[1], count, 3 * HIGH // 4, RED)
    return picture
