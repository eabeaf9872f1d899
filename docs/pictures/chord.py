#!/usr/bin/env python3
"""The two sides of examples/chord.samples: for each six samples a line from the least to the greatest."""
import struct

import examples
from svg import Drawing

WIDE, HIGH, FRAME, GROUP = 735, 62, 735, 6
numbers = struct.unpack(f"<{len(examples.stored('chord.samples')) // 2}h", examples.stored("chord.samples"))
drawing = Drawing(WIDE + 60, 4 * HIGH)
for at in range(len(numbers) // 2 // FRAME + 1):
    x = 50 + at * FRAME / GROUP
    drawing.line((x, 0), (x, 4 * HIGH), dashed=True, width=0.5)
for side, name in enumerate(["left", "right"]):
    middle = HIGH * (1 + 2 * side)
    drawing.text(8, middle + 4, name)
    heights = numbers[side::2]
    points = []
    for at in range(0, len(heights), GROUP):
        part = heights[at:at + GROUP]
        x = 50 + at / GROUP
        points += [(x, round(middle - min(part) / 180, 1)), (x, round(middle - max(part) / 180, 1))]
    drawing.line(*points, width=1)
drawing.show()
