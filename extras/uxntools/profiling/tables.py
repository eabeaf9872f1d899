"""A profile as a text: its vectors, routines and lines."""
from __future__ import annotations

from collections.abc import Iterator

from uxntools.events import Place
from uxntools.profiling.following import Vector
from uxntools.profiling.result import Profile


def percent(some: int, every: int) -> str:
    return f"{100 * some / every:.1f} %" if every else "0.0 %"


def lines(found: Profile, most: int, script: str | None, by_line: bool) -> Iterator[str]:
    """The whole text: `most` is how many routines and lines are shown."""
    yield from _head(found)
    yield ""
    yield from vectors(found, script)
    yield ""
    yield from routines(found, most)
    if by_line:
        yield ""
        yield from source_lines(found, most)


def _head(found: Profile) -> Iterator[str]:
    goal, total = found.found.goal, found.found.total
    yield f"{goal:,} instructions" + (f", the first of {total:,}: --most follows more" if goal < total else "")
    if found.found.is_logged:
        yield "the program changes its own code, so each instruction was stepped through"


def vectors(found: Profile, script: str | None) -> Iterator[str]:
    """A line for each vector: its runs, their instructions, the longest, and where it was."""
    rows = found.vectors()
    places = found.places([vector.most_at for _, vector in rows])
    width = max(len(name) for name, _ in rows)
    yield f"{'vector':{width}}  {'runs':>8}  {'mean':>10}  {'most':>10}  where the most was"
    for name, vector in rows:
        mean = vector.total / vector.runs
        where = _where(vector, places[vector.most_at], script)
        yield f"{name:{width}}  {vector.runs:>8,}  {mean:>10,.0f}  {vector.most:>10,}  {where}"


def _where(vector: Vector, place: Place, script: str | None) -> str:
    if not place.event:
        return f"the start, moment {vector.most_at}"
    frame = f"frame {place.frame}, " if place.frame else f"event {place.event}, "
    return f"{frame}{script or 'script'}:{place.line}, moment {vector.most_at}"


def routines(found: Profile, most: int) -> Iterator[str]:
    """A line for each routine: its own instructions, those with what it called, and how often it was entered."""
    rows, total = found.routines(), found.found.goal
    yield f"{'own':>12}  {'':>7}  {'with callees':>12}  {'':>7}  {'entered':>9}  routine"
    for row in rows[:most]:
        own, whole = percent(row.own, total), percent(row.whole, total)
        yield f"{row.own:>12,}  {own:>7}  {row.whole:>12,}  {whole:>7}  {row.entered:>9,}  {row.name}"
    if len(rows) > most:
        yield f"and {len(rows) - most:,} more: --top shows them"


def source_lines(found: Profile, most: int) -> Iterator[str]:
    """The lines with the most instructions."""
    rows = sorted(found.lines().items(), key=lambda it: (-it[1], it[0]))
    yield f"{'own':>12}  {'':>7}  line"
    for (path, line), count in rows[:most]:
        text = found.program.text(path, line).strip()
        yield f"{count:>12,}  {percent(count, found.found.goal):>7}  {path}:{line}: {text}"
    if len(rows) > most:
        yield f"and {len(rows) - most:,} more: --top shows them"
