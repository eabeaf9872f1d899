"""A run of tests as one page of HTML: a summary, each failure with its text, pictures and sounds, the longest runs, and
the coverage beside the source. The page has all in itself."""
from __future__ import annotations

import base64
import html
import os
import re
from collections.abc import Iterator, Sequence
from dataclasses import dataclass

from uxntools import coverage, files
from uxntools.cli import Failure, shown
from uxntools.coverage import Coverage
from uxntools.target import Program, Workspace
from uxntools.testing.discovery import Test
from uxntools.testing.reporting import Counts
from uxntools.testing.running import target_of
from uxntools.testing.session import Outcome

MOST_LONGEST = 10
# How many bytes of pictures and sounds a page holds at most; what is more stays in the kept folders.
MOST_BYTES = 32 * files.MEBIBYTE
PICTURE = re.compile(r"picture-(\d+)-(wanted|got|difference)\.png")

STYLE = """
:root { color-scheme: light dark; --red: #c02030; --green: #1a7f37; --line: #8884; }
body { font: 16px/1.5 system-ui, sans-serif; margin: 0 auto; padding: 1rem; max-width: 60rem; }
h1 { font-size: 1.4rem; } h2 { font-size: 1.15rem; margin-top: 2rem; } h3 { font-size: 1rem; overflow-wrap: anywhere; }
pre { overflow-x: auto; padding: .6rem; border: 1px solid var(--line); border-radius: 6px; font-size: .8rem; line-height: 1.4; }
article { border-left: 4px solid var(--red); padding-left: .8rem; margin: 1.5rem 0; }
.bad { color: var(--red); } .good { color: var(--green); } del, .no { color: var(--red); text-decoration: none; }
ins, .yes { color: var(--green); text-decoration: none; } .part { color: #9a6700; }
.pair { position: relative; display: inline-block; max-width: 100%; border: 1px solid var(--line); }
.pair img { display: block; max-width: 100%; image-rendering: pixelated; }
.pair .got { position: absolute; inset: 0; clip-path: inset(0 0 0 50%); }
figure { margin: 1rem 0; } img { max-width: 100%; image-rendering: pixelated; } input[type=range] { width: 100%; max-width: 30rem; }
table { border-collapse: collapse; width: 100%; } td, th { text-align: left; padding: .2rem .5rem; border-bottom: 1px solid var(--line); overflow-wrap: anywhere; }
td.number { text-align: right; white-space: nowrap; } audio { width: 100%; max-width: 30rem; display: block; }
"""
SCRIPT = """
document.querySelectorAll('input[type=range]').forEach(function (slider) {
  slider.addEventListener('input', function () {
    slider.parentNode.querySelector('.got').style.clipPath = 'inset(0 0 0 ' + slider.value + '%)';
  });
});
"""


def text(words: str) -> str:
    return html.escape(shown(words))


@dataclass
class Page:
    """The page of some outcomes, and what of it is left for pictures and sounds."""

    outcomes: Sequence[Outcome]
    seconds: float
    has_coverage: bool
    left: int = MOST_BYTES

    def made(self) -> str:
        counts = Counts()
        for outcome in self.outcomes:
            counts.add(outcome)
        title = counts.text()
        return "\n".join(
            [
                '<!doctype html><html lang="en"><head><meta charset="utf-8">',
                '<meta name="viewport" content="width=device-width, initial-scale=1">',
                f"<title>{text(title)}</title><style>{STYLE}</style></head><body>",
                f'<h1 class="{"bad" if counts.has_failures else "good"}">{text(title)}, {self.seconds:.1f} s</h1>',
                *(f'<p class="bad">{text(line)}</p>' for line in counts.refusals()),
                *self._failures(),
                *self._others("skipped", [(it.test.name, it.test.settings.skip) for it in self.outcomes if it.is_skipped]),
                *self._others(
                    "failed as expected", [(it.test.name, it.test.settings.fails) for it in self.outcomes if it.is_expected]
                ),
                *self._longest(),
                *(self._coverage() if self.has_coverage else ()),
                f"<script>{SCRIPT}</script></body></html>\n",
            ]
        )

    def _failures(self) -> Iterator[str]:
        failed = [it for it in self.outcomes if not it.has_passed and not it.refused]
        if failed:
            yield "<h2>Failed</h2>"
        for outcome in failed:
            row = f" ({outcome.test.row})" if outcome.test.row else ""
            yield f"<article><h3>{text(outcome.test.name + row)}</h3>"
            yield "<pre>" + "\n".join(map(_line, outcome.lines)) + "</pre>"
            yield from self._kept(outcome)
            yield "</article>"

    def _kept(self, outcome: Outcome) -> Iterator[str]:
        """The pictures and the sounds that are kept of a failed test."""
        if not outcome.kept or not os.path.isdir(outcome.kept):
            return
        names = sorted(os.listdir(outcome.kept))
        numbers = sorted({int(found[1]) for found in map(PICTURE.fullmatch, names) if found})
        for number in numbers:
            yield from self._pictures(outcome.kept, number)
        if "samples.png" in names:
            yield f'<figure><img alt="both waves where they differ" src="{self._data(outcome.kept, "samples.png", "image/png")}">'
            yield "<figcaption>wanted is blue, what came is orange</figcaption></figure>"
        for name, what in (("samples-wanted.wav", "wanted"), ("samples-got.wav", "what came")):
            if name in names:
                yield f'<p>{what}: <audio controls src="{self._data(outcome.kept, name, "audio/wav")}"></audio></p>'

    def _pictures(self, folder: str, number: int) -> Iterator[str]:
        """The pictures that differ: both beneath a slider, and the difference."""
        wanted, got, difference = (
            self._data(folder, f"picture-{number}-{kind}.png", "image/png") for kind in ("wanted", "got", "difference")
        )
        yield f"<figure><figcaption>picture {number}: wanted is at the left of the slider, what came at its right</figcaption>"
        if wanted and got and difference:
            yield f'<div class="pair"><img alt="wanted" src="{wanted}"><img class="got" alt="what came" src="{got}"></div>'
            yield f'<br><input type="range" min="0" max="100" value="50" aria-label="picture {number}">'
        else:
            yield "".join(f'<p>{what}</p><img alt="{what}" src="{data}">' for what, data in (("wanted", wanted), ("what came", got)) if data)
        yield (f'<p>the difference, in red</p><img alt="the difference" src="{difference}">' if difference else "") + "</figure>"

    def _data(self, folder: str, name: str, kind: str) -> str:
        """A kept file as a part of the page; nothing of one that is not there, or is too much."""
        try:
            data = files.read(os.path.join(folder, name), files.OUTPUT)
        except OSError:
            return ""
        if len(data) > self.left:
            return ""
        self.left -= len(data)
        return f"data:{kind};base64,{base64.b64encode(data).decode()}"

    @staticmethod
    def _others(head: str, rows: Sequence[tuple[str, str | None]]) -> Iterator[str]:
        if rows:
            yield f"<h2>{head.capitalize()}</h2><table>"
            yield from (f"<tr><td>{text(name)}</td><td>{text(why or '')}</td></tr>" for name, why in rows)
            yield "</table>"

    def _longest(self) -> Iterator[str]:
        run = sorted((it for it in self.outcomes if it.seconds), key=lambda it: -it.seconds)[:MOST_LONGEST]
        if run:
            yield "<h2>Longest runs</h2><table>"
            yield from (f'<tr><td>{text(it.test.name)}</td><td class="number">{it.seconds:.3f} s</td></tr>' for it in run)
            yield "</table>"

    def _coverage(self) -> Iterator[str]:
        """The sources with what the tests ran of them."""
        found = covered([it.test for it in self.outcomes if it.result or it.is_old])
        yield "<h2>Coverage</h2><pre>" + text_lines(coverage.summary(found.files())) + "</pre>"
        for file in found.files():
            rows = "\n".join(_covered_line(mark, line) for mark, line in coverage.annotated(found, file))
            yield f"<details><summary>{text(file.path)}</summary><pre>{rows}</pre></details>"


def text_lines(lines: Iterator[str]) -> str:
    return "\n".join(map(text, lines))


def _line(line: str) -> str:
    """A line of a failure: of a difference `-` is wanted, and `+` came."""
    sign = line.lstrip()[:1]
    tag = {"-": "del", "+": "ins"}.get(sign if line.startswith("  ") else "")
    return f"<{tag}>{text(line)}</{tag}>" if tag else text(line)


def _covered_line(mark: str, line: str) -> str:
    name = {"+": "yes", "-": "no", "~": "part"}.get(mark)
    return f'<span class="{name}">{text(line)}</span>' if name else text(line)


def covered(tests: Sequence[Test]) -> Coverage:
    """What the runs of some tests executed of their sources."""
    found = Coverage()
    programs: dict[tuple[str, str], Program] = {}
    for test in tests:
        if test.kind == "line" or test.is_rom:
            continue
        key = test.folder, test.program
        try:
            with Workspace(target_of(test)) as workspace:
                programs[key] = programs.get(key) or workspace.program()
                found.add(test.name, workspace, programs[key])
        except Failure as failure:
            found.unseen.append(f"{test.name}: {failure.line}")
    return found
