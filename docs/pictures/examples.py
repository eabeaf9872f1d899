"""The stored pictures and samples of examples/, for the drawings of this folder."""
from __future__ import annotations

import os
import sys

TOP = os.path.join(os.path.dirname(os.path.realpath(__file__)), "..", "..")
sys.path.insert(0, os.path.join(TOP, "extras"))

from uxntools import pictures as pictures  # noqa: E402
from uxntools.pictures import Picture  # noqa: E402


def stored(name: str) -> bytes:
    with open(os.path.join(TOP, "examples", name), "rb") as file:
        return file.read()


def side_by_side(films: list[Picture], gap: int) -> Picture:
    """Pictures of one height in a row, with white between them."""
    height = films[0].height
    rows = [(b"\xff" * 3 * gap).join(film.rows()[y] for film in films) for y in range(height)]
    return Picture(len(rows[0]) // 3, height, b"".join(rows))


def show(films: list[Picture], scale: int, gap: int = 0) -> None:
    """Prints the pictures as one PNG."""
    sys.stdout.buffer.write(pictures.png(side_by_side([film.scaled(scale) for film in films], gap)))
