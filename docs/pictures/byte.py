#!/usr/bin/env python3
"""The way of a byte from the command line to a picture: what it becomes, and the crate that does it."""
from __future__ import annotations

import os
import re

from svg import BLUE, GREEN, ORANGE, Drawing

CRATES = os.path.join(os.path.dirname(os.path.abspath(__file__)), "..", "..", "crates.txt")
LEFT, STEP, WIDTH, HIGH = 66, 132, 108, 28
ROWS = [
    ("read", GREEN, [
        ("arguments", "uxn_program"), ("task", "uxn_arguments"), ("inputs", "uxn_cli"),
        ("ROM", "tal_include"), ("events", "text_lines"), ("empty outputs", "uxn_cli")]),
    ("run", BLUE, [
        ("event", "vector_loop"), ("stored ports", "input_ports"), ("vector", "vector_loop"),
        ("instruction", "uxn_opcodes"), ("DEO to 2f", "varvara_bus"), ("sprite", "screen_layers")]),
    ("shot", ORANGE, [
        ("composed rows", "screen_layers"), ("picture", "screen_frame"), ("p.ppm", "varvara_bus"),
        ("report, status", "uxn_cli")]),
]


def main() -> None:
    with open(CRATES, encoding="utf-8") as file:
        crates = set(re.findall(r"(?m)^(\w+):", file.read()))
    drawing = Drawing(LEFT + STEP * 6, 20 + 74 * len(ROWS))
    for number, (name, fill, parts) in enumerate(ROWS):
        y = 20 + 74 * number
        drawing.text(14, y + 19, name)
        for at, (part, crate) in enumerate(parts):
            if crate not in crates:
                raise SystemExit(f"crates.txt has no {crate}")
            x = LEFT + STEP * at
            if at:
                drawing.arrow(x - STEP + WIDTH + 3, y + HIGH / 2, x - 3, y + HIGH / 2)
            drawing.box(x, y, WIDTH, HIGH, fill, part)
            drawing.text(x + WIDTH / 2, y + HIGH + 16, crate, "middle")
    drawing.show()


main()
