#!/usr/bin/env python3
"""A vector that ends with BRK, and one that its budget cuts."""
from svg import BLUE, GREEN, GREY, ORANGE, Drawing

CELL, LEFT, BUDGET = 56, 100, 8


def vector(drawing: Drawing, y: int, event: str, words: list[str], then: str) -> None:
    drawing.text(LEFT - 12, y + 19, event, "end")
    for at, word in enumerate(words):
        fill = GREEN if word == "BRK" else BLUE
        drawing.box(LEFT + at * CELL, y, CELL, 28, GREY if word == ".." else fill, word)
    end = LEFT + len(words) * CELL
    drawing.arrow(end + 4, y + 14, end + 34, y + 14)
    drawing.box(end + 38, y, 8.2 * len(then), 28, ORANGE if "cut" in then else "white", then)


drawing = Drawing(800, 150)
limit = LEFT + BUDGET * CELL
drawing.text(limit, 18, "budget", "middle")
drawing.line((limit, 24), (limit, 138), dashed=True)
vector(drawing, 38, "frame", ["LIT", "DEI", "INC", "DEO", "BRK"], "next event")
vector(drawing, 94, "key", ["LIT", "INC", "JMI", "INC", "JMI", "INC", "..", "JMI"], "cut, then the next event")
drawing.show()
