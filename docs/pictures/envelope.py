#!/usr/bin/env python3
"""The envelope 1111: its height at each age of the note."""
from svg import Drawing

PEAK, STAGE = 2184, 2940
LEFT, BASE, WIDE, HIGH = 70, 200, 150, 150


def place(age: int, height: int) -> tuple[float, float]:
    return LEFT + age / STAGE * WIDE, BASE - height / PEAK * HIGH


drawing = Drawing(760, 260)
drawing.arrow(LEFT, BASE, LEFT + 4 * WIDE + 50, BASE)
drawing.arrow(LEFT, BASE, LEFT, BASE - HIGH - 30)
drawing.text(LEFT - 8, place(0, PEAK)[1] + 4, "2184", "end")
drawing.text(LEFT - 8, place(0, PEAK // 2)[1] + 4, "1092", "end")
drawing.text(LEFT - 8, BASE + 4, "0", "end")
for end, name in enumerate(["attack", "decay", "sustain", "release"], 1):
    x, _ = place(end * STAGE, 0)
    drawing.line((x, BASE - HIGH - 10), (x, BASE + 6), dashed=True, width=1)
    drawing.text(x, BASE + 22, f"{'ADSR'[end - 1]} = {end * STAGE:,}", "middle")
    drawing.text(x - WIDE / 2, BASE + 44, name, "middle")
drawing.text(LEFT + 4 * WIDE + 56, BASE + 4, "age")
drawing.text(LEFT + 8, BASE - HIGH - 22, "envelope")
points = [(0, 0), (STAGE, PEAK), (2 * STAGE, PEAK // 2), (3 * STAGE, PEAK // 2), (4 * STAGE, 0)]
drawing.line(*(place(age, height) for age, height in points), width=3)
drawing.show()
