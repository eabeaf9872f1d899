#!/usr/bin/env python3
"""The rooms of crates.txt and the crates in them, each room above those that it stands on."""
from __future__ import annotations

import os

from svg import BLUE, GREEN, GREY, ORANGE, Drawing

CRATES = os.path.join(os.path.dirname(os.path.abspath(__file__)), "..", "..", "crates.txt")
FILLS = {"the numbers": GREY, "the outside": GREY, "the processor": ORANGE, "the assembler": GREEN, "texts": GREEN, "the devices": BLUE, "runs": BLUE, "the program": ORANGE}
WIDTH, LEFT, ACROSS, STEP, HIGH = 860, 140, 5, 142, 26


def rooms() -> list[tuple[str, list[str]]]:
    """The rooms in the order of crates.txt, each with its crates."""
    found: list[tuple[str, list[str]]] = []
    with open(CRATES, encoding="utf-8") as file:
        for line in file.read().splitlines()[1:]:
            if line.startswith("# "):
                found.append((line[2:].partition(":")[0], []))
            elif line:
                found[-1][1].append(line.partition(":")[0])
    return found


def main() -> None:
    rows = [(room, [names[at:at + ACROSS] for at in range(0, len(names), ACROSS)]) for room, names in reversed(rooms())]
    drawing = Drawing(WIDTH, 20 + sum(20 + 34 * len(parts) for _, parts in rows))
    y = 14
    for room, parts in rows:
        high = 10 + 34 * len(parts)
        drawing.box(8, y, WIDTH - 16, high)
        drawing.text(18, y + 24, room)
        for at, names in enumerate(parts):
            for place, name in enumerate(names):
                drawing.box(LEFT + STEP * place, y + 9 + 34 * at, STEP - 10, HIGH, FILLS.get(room, "none"), name)
        y += high + 10
    drawing.show()


main()
