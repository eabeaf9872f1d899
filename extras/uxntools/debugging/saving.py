"""A session as commands of `uxn debug`: what it did and looked at, line by line, so that it can be run again as a
test."""
from __future__ import annotations

from collections.abc import Sequence

from uxntools import log
from uxntools.cli import Failure
from uxntools.debugging.session import Record, Session
from uxntools.testing import comparing, updating
from uxntools.testing.discovery import discover
from uxntools.testing.running import run

# The greatest N of `back N`.
MOST_BACK = 65536


def commands(session: Session) -> list[str]:
    """The commands of a session, in its order; where `uxn debug` cannot go back so far, the looks in the order of
    their moments."""
    found, wanted = _in_order(session.records)
    if found is not None and _places(session, found) == wanted:
        return found
    return [
        "# in the order of the moments: the session went further back than uxn debug can",
        *_by_moment(session.records),
    ]


def _way(here: int, there: int) -> str | None:
    """The command that goes from one moment to another, if there is one."""
    if there >= here:
        return f"step {there - here}" if there > here else ""
    return f"back {here - there}" if here - there <= MOST_BACK else None


def _in_order(records: Sequence[Record]) -> tuple[list[str] | None, list[int]]:
    """The commands, and the moments that their moves lead to."""
    out: list[str] = []
    here, wanted = 0, []
    for record in records:
        if record.kind != "move":
            out.append(record.command)
            continue
        command = record.command or _way(here, record.moment)
        if command is None:
            return None, []
        if command:
            out.append(command)
            wanted.append(record.moment)
        here = record.moment
    return out, wanted


def _by_moment(records: Sequence[Record]) -> list[str]:
    out, here = [], 0
    for record in sorted((record for record in records if record.kind == "look"), key=lambda record: record.moment):
        if record.moment > here:
            out.append(f"step {record.moment - here}")
            here = record.moment
        out.append(record.command)
    return out


def _places(session: Session, lines: Sequence[str]) -> list[int]:
    """The moments that the moves of some commands lead to."""
    found = []
    for command, shown in zip(lines, log.shown(lines, session.workspace.debug(lines))):
        if command.split(" ")[0] in ("run", "step", "back"):
            place = log.place(shown[0])
            end = log.end(shown[0])
            found.append(place.count if place else -1 if end is None else end)
    return found


def saved(session: Session) -> tuple[bytes, bytes]:
    """The commands, and the log that they give."""
    session.horizon.reach(max((record.moment for record in session.records), default=0))
    lines = commands(session)
    shown = session.workspace.debug(lines)
    return (
        "".join(f"{line}\n" for line in lines).encode("latin-1"),
        "".join(f"{line}\n" for line in shown).encode("latin-1"),
    )


def record_outputs(name: str) -> list[str]:
    """Records what the saved test prints and changes, as `uxn-test --update` does, where `uxn-test` finds it; answers
    the files that were written."""
    try:
        test = discover([name])[0]
        result = run(test)
        made = updating.recording(test, result, frozenset(), comparing.faults(test, result))
    except Failure:
        return []
    if made.refused:
        return []
    updating.write(test, made)
    return [test.path(part) for part, data in made.parts.items() if data is not None] + [test.path("after")] * bool(made.after)
