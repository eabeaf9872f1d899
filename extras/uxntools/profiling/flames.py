"""A flame graph as one SVG file without a script: a bar for each routine beneath its caller, as wide as its
instructions, with its numbers as a tooltip."""
from __future__ import annotations

import zlib
from dataclasses import dataclass, field
from html import escape

WIDTH, HEIGHT, MARGIN, HEAD = 1200, 17, 10, 34
LEAST_WIDTH, LETTER = 0.3, 6.6


@dataclass
class Bar:
    """A routine in its place: its instructions with what it called, and what it called."""

    name: str
    count: int = 0
    inner: dict[str, Bar] = field(default_factory=dict)

    def add(self, names: tuple[str, ...], count: int) -> None:
        self.count += count
        if names:
            self.inner.setdefault(names[0], Bar(names[0])).add(names[1:], count)

    def depth(self) -> int:
        return 1 + max((bar.depth() for bar in self.inner.values()), default=0)


def svg(stacks: dict[tuple[str, ...], int], title: str) -> str:
    """The picture of some ways through routines, the vectors at the top."""
    root = Bar("all")
    for names, count in stacks.items():
        root.add(names[:200], count)
    height = HEAD + root.depth() * HEIGHT + MARGIN
    out = [
        f'<svg xmlns="http://www.w3.org/2000/svg" viewBox="0 0 {WIDTH} {height}" width="{WIDTH}" height="{height}"'
        ' font-family="ui-monospace, monospace" font-size="11">',
        f"<title>{escape(title)}</title>",
        "<style>rect{stroke:#fff;stroke-width:.5}g:hover rect{stroke:#000}text{pointer-events:none}</style>",
        f'<rect width="{WIDTH}" height="{height}" fill="#fff"/>',
        f'<text x="{MARGIN}" y="20" font-size="14">{escape(title)}</text>',
    ]
    _bars(out, root, MARGIN, HEAD, (WIDTH - 2 * MARGIN) / max(root.count, 1), root.count)
    return "\n".join([*out, "</svg>", ""])


def _bars(out: list[str], bar: Bar, left: float, top: int, scale: float, every: int) -> None:
    width = bar.count * scale
    if width < LEAST_WIDTH:
        return
    said = f"{bar.name}: {bar.count:,} instructions, {100 * bar.count / max(every, 1):.1f} %"
    out.append(
        f'<g><title>{escape(said)}</title><rect x="{left:.1f}" y="{top}" width="{width:.1f}" height="{HEIGHT}"'
        f' fill="{colour(bar.name)}"/>{_label(bar.name, left, top, width)}</g>'
    )
    at = left
    for inner in sorted(bar.inner.values(), key=lambda it: it.name):
        _bars(out, inner, at, top + HEIGHT, scale, every)
        at += inner.count * scale


def _label(name: str, left: float, top: int, width: float) -> str:
    room = int((width - 4) / LETTER)
    if room < 3:
        return ""
    shown = name if len(name) <= room else name[: room - 1] + "…"
    return f'<text x="{left + 3:.1f}" y="{top + 12}">{escape(shown)}</text>'


def colour(name: str) -> str:
    """A warm colour that is the same for a name in each picture."""
    seed = zlib.crc32(name.encode())
    return f"hsl({10 + seed % 45},{70 + (seed >> 8) % 20}%,{62 + (seed >> 16) % 14}%)"
