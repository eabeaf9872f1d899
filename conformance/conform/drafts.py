"""Tests before they are made: a source or a ROM with what goes in, but not yet what comes out."""
from __future__ import annotations

from dataclasses import dataclass, field
from typing import TYPE_CHECKING

from conform.tests import Event, Tree

if TYPE_CHECKING:
    from stored import Case


@dataclass
class Draft:
    """What a test is made of. `takes` names what is kept of what comes out, beside the output and the status."""

    name: str
    shows: str
    reference: str
    level: str
    source: bytes
    devices: list[str] = field(default_factory=list)
    profile: bool = False
    files: Tree | None = None
    args: list[str] = field(default_factory=list)
    stdin: bytes = b""
    events: list[Event] | None = None
    takes: tuple[str, ...] = ()
    behind_rom: bytes = b""
    by_cases: bool = False
    # The path of a source in the folder of its run.
    place: str | None = None
    # The repaired source, where the repair that is found does not show enough.
    twin: str | None = None
    twin_files: Tree | None = None
    # The word that the error output has to name.
    names: str | None = None
    # Why the program does not end itself.
    endless: str | None = None
    # The case that the test is made of: what comes out has to be what it says.
    case: Case | None = None
    # The events of the case, where the test has them as an input and its end.
    case_events: list[Event] | None = None
