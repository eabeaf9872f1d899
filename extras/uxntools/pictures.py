"""Pictures: those of `--frames` (PPM, one behind the other), and PNG files, also animated."""
from __future__ import annotations

import re
import struct
import zlib
from dataclasses import dataclass

from uxntools.cli import Failure

HEAD = re.compile(rb"P6\n(\d{1,5}) (\d{1,5})\n255\n")


@dataclass(frozen=True)
class Picture:
    """A picture: its width and height in pixels, and three bytes (red, green, blue) a pixel, row after row."""

    width: int
    height: int
    pixels: bytes

    def rows(self) -> list[bytes]:
        return [self.pixels[at:at + 3 * self.width] for at in range(0, len(self.pixels), 3 * self.width)]

    def scaled(self, scale: int) -> Picture:
        """The picture with each pixel as a square of so many by so many. It goes channel by channel, since a film has
        very many pixels."""
        if scale == 1:
            return self
        wide = bytearray(scale * len(self.pixels))
        for channel in range(3):
            one = self.pixels[channel::3]
            for copy in range(scale):
                wide[channel + 3 * copy :: 3 * scale] = one
        size = 3 * scale * self.width
        rows = (bytes(wide[at : at + size]) * scale for at in range(0, len(wide), size))
        return Picture(scale * self.width, scale * self.height, b"".join(rows))

    def padded(self, width: int, height: int) -> Picture:
        """The picture at the upper left of a larger one that is black."""
        if (self.width, self.height) == (width, height):
            return self
        right = bytes(3 * (width - self.width))
        rows = b"".join(row + right for row in self.rows())
        return Picture(width, height, rows + bytes(3 * width * (height - self.height)))


def whole_pictures(data: bytes) -> tuple[list[Picture], int]:
    """The pictures of a file as far as they are whole, and the byte at which what is left begins: the file's length if none is."""
    found, at = [], 0
    while head := HEAD.match(data, at):
        width, height = int(head[1]), int(head[2])
        end = head.end() + 3 * width * height
        if end > len(data):
            break
        found.append(Picture(width, height, data[head.end():end]))
        at = end
    return found, at


def read(data: bytes, name: str = "the file") -> list[Picture]:
    """The pictures of a file that has nothing else."""
    found, at = whole_pictures(data)
    if at < len(data):
        raise Failure(f"{name}: picture {len(found) + 1}, at byte {at}, is {'cut' if HEAD.match(data, at) else 'none'}")
    return found


def chunk(name: bytes, data: bytes) -> bytes:
    """A part of a PNG file."""
    return struct.pack(">I", len(data)) + name + data + struct.pack(">I", zlib.crc32(name + data))


def head(width: int, height: int) -> bytes:
    """The beginning of a PNG file."""
    return b"\x89PNG\r\n\x1a\n" + chunk(b"IHDR", struct.pack(">IIBBBBB", width, height, 8, 2, 0, 0, 0))


def packed(rows: list[bytes]) -> bytes:
    """Rows of pixels as a PNG file has them."""
    return zlib.compress(b"".join(b"\0" + row for row in rows))


def png(picture: Picture) -> bytes:
    return head(picture.width, picture.height) + chunk(b"IDAT", packed(picture.rows())) + chunk(b"IEND", b"")
