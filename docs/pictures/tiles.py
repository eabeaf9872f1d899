#!/usr/bin/env python3
"""What the byte of auto does: where the tiles of one sprite stand, and where x and y are before and after it."""
from svg import BLUE, GREEN, Drawing

TILE = 26
Step = tuple[int, int]
# The byte, its place in the drawing, the number of tiles, the step of each, the move of x and y afterwards (in tiles),
# and whether each tile has bytes of its own.
SHOWN = [
    ("00", 24, 1, (0, 0), (0, 0), False),
    ("05", 120, 1, (0, 0), (1, 0), True),
    ("35", 220, 4, (0, 1), (1, 0), True),
    ("36", 320, 4, (1, 0), (0, 1), True),
    ("32", 480, 4, (1, 0), (0, 1), False),
    ("37", 640, 4, (1, 1), (1, 1), True),
]


def sprite(drawing: Drawing, byte: str, left: int, count: int, step: Step, move: Step, is_own: bool) -> None:
    top = 44
    drawing.text(left, top - 16, f"auto {byte}", code=True)
    for number in range(count):
        text = str(number) if is_own else "0"
        drawing.box(left + step[0] * TILE * number, top + step[1] * TILE * number, TILE, TILE, BLUE, text)
    if move != (0, 0):
        drawing.dot(left + TILE * move[0], top + TILE * move[1], "white")
    drawing.dot(left, top)


drawing = Drawing(800, 200)
for shown in SHOWN:
    sprite(drawing, *shown)
drawing.dot(30, 182)
drawing.text(42, 186, "x and y before")
drawing.dot(160, 182, "white")
drawing.text(172, 186, "x and y afterwards")
drawing.box(318, 170, TILE, 22, BLUE, "2")
drawing.text(352, 186, "the tile whose bytes are the third at addr")
drawing.show()
