"""Assertions that hold after every vector, looked at in each run of a search."""
from __future__ import annotations

from collections.abc import Iterable, Sequence
from dataclasses import dataclass

from uxntools import assertions, checking, log, moments, script
from uxntools.assertions import Assertion
from uxntools.checking import Resolved
from uxntools.cli import Failure
from uxntools.events import NOT_EVENTS
from uxntools.log import MOST_COMMANDS
from uxntools.target import Workspace
from uxntools.vectors import MOST_BREAKS, Loaded


def of_option(text: str) -> Assertion:
    """The assertion of an option, as `@lives <= 03`."""
    found, faults = assertions.read(f"# always {text}\n".encode("utf-8", "surrogateescape"))
    if not found:
        raise Failure(f"--always {text}: {faults[0].why if faults else 'it is no assertion'}", 2)
    return found[0]


def of_script(data: bytes) -> list[Assertion]:
    """Those of a script that hold from its start on."""
    events = [number for number, words in script.lines(data) if words[0] not in NOT_EVENTS]
    first = min(events, default=data.count(b"\n") + 2)
    return [it for it in assertions.read(data)[0] if it.is_always and it.line < first]


@dataclass(frozen=True)
class Always:
    """Assertions of a program that runs again and again."""

    workspace: Workspace
    loaded: Loaded
    resolved: tuple[Resolved, ...]

    def broken(self, data: bytes, counts: dict[str, str]) -> Assertion | None:
        """The first assertion that does not hold after some vector of the run over a script."""
        lines = self._log(data, int(counts["vectors"]))
        at = 1
        for it in self.resolved:
            size = sum(map(log.lines_shown, self._looks(it)))
            looks = zip(*(lines[at + line :: self._size] for line in range(size)))
            if not all(it.assertion.holds(self._held(it, look)) for look in set(looks)):
                return it.assertion
            at += size
        return None

    @staticmethod
    def _looks(it: Resolved) -> list[str]:
        return ["ports"] if it.assertion.is_port else it.watched.commands()

    @property
    def _all_looks(self) -> list[str]:
        return [command for it in self.resolved for command in self._looks(it)]

    @property
    def _size(self) -> int:
        return 1 + sum(map(log.lines_shown, self._all_looks))

    @staticmethod
    def _held(it: Resolved, look: Sequence[str]) -> bytes:
        data = log.memory(look)
        return data[it.address : it.address + it.assertion.length] if it.assertion.is_port else data

    def _log(self, data: bytes, count: int) -> list[str]:
        """What is seen at each `BRK` that the run comes to: the line of a place, and those of the looks."""
        breaks = moments.breaks(sorted(self.loaded.ends())[:MOST_BREAKS])
        at_stop = ["run", *self._all_looks]
        most = min((MOST_COMMANDS - len(breaks)) // len(at_stop), count)
        commands = "\n".join([*breaks, *at_stop * most, ""]).encode()
        log_lines = self.workspace.debug_rom(self.loaded.rom, commands, (data, None)).decode("latin-1").split("\n")
        return log_lines[len(breaks) : -1]


def of(workspace: Workspace, loaded: Loaded, asserted: Iterable[Assertion]) -> Always | None:
    """The assertions that a program can be asked for, each once."""
    unique = {it.text: it for it in asserted}
    known, wrong = checking.known(loaded.program, unique.values())
    if wrong:
        raise Failure(wrong[0].text, 2)
    return Always(workspace, loaded, tuple(checking.resolve(loaded.program, it) for it in known)) if known else None
