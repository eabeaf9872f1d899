#!/usr/bin/env python3
"""How the lines of a script run the vectors of a program, from top to bottom."""
from svg import BLUE, GREEN, GREY, ORANGE, Drawing

LINES = [
    ("", ["reset vector"]),
    ('args "a', ["console vector: a", "console vector: 0a"]),
    ('input "hi', ["console vector: h", "console vector: i"]),
    ("frame 2", ["frame", "frame"]),
    ("key 71", ["controller vector"]),
    ("shot", ["picture"]),
]
FRAME = [("screen vector", 104, BLUE), ("735 samples", 92, GREY), ("ended voices", 104, BLUE)]
LEFT, WIDTH, HIGH = 150, 150, 30


def frame(drawing: Drawing, x: float, y: float) -> float:
    for text, width, fill in FRAME:
        drawing.box(x, y, width, HIGH, fill, text)
        x += width
    return x + 24


def row(drawing: Drawing, y: float, line: str, parts: list[str]) -> None:
    drawing.text(16, y + 20, line or "(start)", code=bool(line))
    x: float = LEFT
    for at, part in enumerate(parts):
        if at:
            drawing.arrow(x - 22, y + 15, x - 2, y + 15)
        if part == "frame":
            x = frame(drawing, x, y)
        else:
            fill = {"picture": GREEN, "reset vector": ORANGE}.get(part, BLUE)
            drawing.box(x, y, WIDTH, HIGH, fill, part)
            x += WIDTH + 24


drawing = Drawing(800, 56 + 44 * len(LINES))
drawing.text(16, 24, "line of the script")
drawing.text(LEFT, 24, "what runs")
for number, (line, parts) in enumerate(LINES):
    row(drawing, 40 + 44 * number, line, parts)
drawing.arrow(132, 44, 132, 40 + 44 * len(LINES) - 16)
drawing.show()
