"""Small SVG drawings: lines, boxes, dots and texts on a white ground. Each script prints its own, as vector.py does."""
from __future__ import annotations

from html import escape

BLUE, GREEN, ORANGE, GREY, DARK = "#cfe2f8", "#d3edcf", "#fbdcb4", "#e6e6e6", "#222222"


class Drawing:
    """A drawing of a width and a height in pixels."""

    def __init__(self, width: int, height: int) -> None:
        self.width, self.height = width, height
        self.parts: list[str] = []

    def box(self, x: float, y: float, width: float, height: float, fill: str = "none", text: str = "") -> None:
        place = f'x="{x:g}" y="{y:g}" width="{width:g}" height="{height:g}"'
        self.parts.append(f'<rect {place} fill="{fill}" stroke="{DARK}"/>')
        if text:
            self.text(x + width / 2, y + height / 2 + 4, text, "middle")

    def line(self, *points: tuple[float, float], dashed: bool = False, width: float = 1.5) -> None:
        path = " ".join(f"{x:g},{y:g}" for x, y in points)
        dash = ' stroke-dasharray="5 4"' if dashed else ""
        self.parts.append(f'<polyline points="{path}" fill="none" stroke="{DARK}" stroke-width="{width:g}"{dash}/>')

    def arrow(self, x: float, y: float, to_x: float, to_y: float) -> None:
        """A horizontal or vertical arrow."""
        self.line((x, y), (to_x, to_y))
        side = 4.0
        if y == to_y:
            back = to_x - 7 if to_x > x else to_x + 7
            self.line((back, y - side), (to_x, to_y), (back, y + side))
        else:
            back = to_y - 7 if to_y > y else to_y + 7
            self.line((x - side, back), (to_x, to_y), (x + side, back))

    def dot(self, x: float, y: float, fill: str = DARK) -> None:
        self.parts.append(f'<circle cx="{x:g}" cy="{y:g}" r="5" fill="{fill}" stroke="{DARK}" stroke-width="1.5"/>')

    def text(self, x: float, y: float, text: str, anchor: str = "start", code: bool = False) -> None:
        font = "monospace" if code else "sans-serif"
        shown = escape(text).replace("  ", "&#160; ")
        look = f'font-family="{font}" font-size="13" fill="{DARK}" text-anchor="{anchor}"'
        self.parts.append(f'<text x="{x:g}" y="{y:g}" {look}>{shown}</text>')

    def show(self) -> None:
        """Prints the drawing."""
        print(f'<svg xmlns="http://www.w3.org/2000/svg" width="{self.width}" height="{self.height}" '
              f'viewBox="0 0 {self.width} {self.height}">')
        print(f'<rect width="{self.width}" height="{self.height}" fill="white"/>')
        print(*self.parts, "</svg>", sep="\n")
