"""Logs of `uxn debug`: places, stacks, memory and ports, line by line."""
from __future__ import annotations

from collections.abc import Iterator, Sequence
from dataclasses import dataclass

from uxntools.facts import LIMITS

# How many commands `uxn debug` takes.
MOST_COMMANDS = LIMITS.commands


@dataclass(frozen=True)
class Place:
    """The state before an instruction: its address, how many instructions were run, its name, and the nearest label
    with the distance."""

    address: int
    count: int
    name: str
    label: str


@dataclass(frozen=True)
class Stacks:
    """The eight topmost bytes of each stack, the deepest first."""

    working: bytes
    returning: bytes


def place(line: str) -> Place | None:
    """The place that a line `at ADDRESS COUNT NAME [LABEL+DISTANCE]` says."""
    fields = line.split(" ")
    if fields[0] != "at" or len(fields) < 4:
        return None
    return Place(int(fields[1], 16), int(fields[2]), fields[3], " ".join(fields[4:]))


def end(line: str) -> int | None:
    """The number of instructions that a line `end COUNT` says."""
    return int(line[4:]) if line.startswith("end ") else None


def stack(line: str) -> bytes:
    """The bytes of a line `WST ..` or `RST ..`."""
    return bytes.fromhex(line[4:])


def stacks(lines: Sequence[str]) -> Stacks:
    """What the command `stacks` shows."""
    return Stacks(stack(lines[0]), stack(lines[1]))


def memory(lines: Sequence[str]) -> bytes:
    """The bytes of lines of memory or of ports, each of which begins with an address."""
    return b"".join(bytes.fromhex(line.partition(" ")[2]) for line in lines)


def lines_shown(command: str) -> int:
    """How many lines a command adds to the log."""
    name, _, rest = command.partition(" ")
    if name == "mem":
        return (int(rest.rpartition(" ")[2]) + 15) // 16
    return {"stacks": 2, "ports": 16}.get(name, 1)


def shown(commands: Sequence[str], lines: Sequence[str]) -> Iterator[list[str]]:
    """The lines that each command added to the log, as far as the log goes."""
    at = 0
    for command in commands:
        count = lines_shown(command)
        if at + count > len(lines):
            return
        yield list(lines[at : at + count])
        at += count


def readable(text: str) -> str:
    """A name of the log, which has a letter for each byte, for the eye."""
    return text.encode("latin-1").decode(errors="replace")
