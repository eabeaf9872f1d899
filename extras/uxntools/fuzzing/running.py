"""Running a script, and what is wrong with what came of it."""
from __future__ import annotations

import os
import subprocess
from collections.abc import Iterator
from contextlib import contextmanager
from dataclasses import dataclass

from uxntools import files, program, report
from uxntools.fuzzing.always import Always
from uxntools.fuzzing.making import Lines

CUT, STACK, STATUS, ERRORS, DIFFERENT, ENDED = "cut", "stack", "status", "errors", "different", "ended"
ALWAYS = "always"
STACKS = ("expect 04 00", "expect 05 00")
SIGNAL = 128


@dataclass(frozen=True)
class Wish:
    """What is not to happen: kinds that are let be, statuses, and bytes on the error output."""

    allowed: frozenset[str] = frozenset()
    statuses: frozenset[int] = frozenset()
    no_errors: bool = False


@dataclass(frozen=True)
class Task:
    """A program as a ROM, the folder of files that it begins with, the ROM that it should be the same as, and the
    assertions that hold after every vector."""

    rom: bytes
    budget: str | None = None
    root: str | None = None
    other: bytes | None = None
    wish: Wish = Wish()
    always: Always | None = None


@dataclass(frozen=True)
class Outcome:
    """What came of a run: the kind of what is wrong with it and why, numbers that tell runs apart, and the assertion
    that did not hold."""

    kind: str = ""
    reason: str = ""
    mark: tuple[int, ...] = ()
    asserted: str = ""


@dataclass(frozen=True)
class Made:
    """The outputs of a run."""

    status: int
    out: bytes
    err: bytes
    frames: bytes
    counts: dict[str, str]


def script_of(lines: Lines, has_stacks: bool) -> bytes:
    """The script of some lines; after each event it looks at both stacks."""
    out = ["script 2"]
    for line in lines:
        out.append(line)
        if has_stacks and not line.startswith(("args ", "clock ")):
            out += STACKS
    return "\n".join([*out, ""]).encode("latin-1")


class Runner:
    """Runs a task in a folder of its own, again and again."""

    def __init__(self, task: Task, folder: str) -> None:
        self.task = task
        self.folder = folder
        self.uxn = program.path_of_uxn()
        for name, rom in (("rom", task.rom), ("other", task.other)):
            if rom is not None:
                files.put(os.path.join(folder, name), rom)

    def run(self, lines: Lines) -> Outcome:
        """Runs a script, and judges what came of it."""
        wish = self.task.wish
        made = self._call("rom", script_of(lines, STACK not in wish.allowed))
        found = self._wrong(made)
        if not found and self.task.other is not None:
            found = _difference(made, self._call("other", script_of(lines, STACK not in wish.allowed)))
        kind, reason = found or ("", "")
        if kind in wish.allowed:
            kind = reason = ""
        mark = int(made.counts.get("instructions", "0")), len(made.out), made.status
        broken = self.task.always.broken(script_of(lines, False), made.counts) if self.task.always and not kind else None
        if broken:
            return Outcome(ALWAYS, f"{broken.text} did not hold", mark, broken.text)
        return Outcome(kind, reason, mark)

    def _wrong(self, made: Made) -> tuple[str, str] | None:
        wish = self.task.wish
        if made.status >= SIGNAL or made.status < 0:
            return ENDED, f"the call ended with {made.status}"
        if int(made.counts.get("cuts", "0")):
            return CUT, "a vector used up its budget and was cut"
        if int(made.counts.get("misses", "0")):
            return STACK, "a stack was not empty after an event"
        if made.status in wish.statuses:
            return STATUS, f"the program ended with status {made.status}"
        if wish.no_errors and made.err:
            shown = made.err[:40].decode(errors="replace")
            return ERRORS, f"the program wrote {shown!r} on the error output"
        return None

    def _call(self, rom: str, data: bytes) -> Made:
        files.put(self._path("script"), data)
        words = [self.uxn, "play", rom, "--rom", "--script", "script", "--report", "report"]
        words += ["--budget", self.task.budget] if self.task.budget else []
        if self.task.other is not None:
            words += ["--frames", "frames"]
        with self._root() as options:
            done = subprocess.run(
                [*words, *options], cwd=self.folder, stdin=subprocess.DEVNULL, capture_output=True, check=False
            )
        counts = report.read(self._read("report"))
        frames = self._read("frames") if self.task.other is not None else b""
        return Made(done.returncode, done.stdout, done.stderr, frames, counts)

    @contextmanager
    def _root(self) -> Iterator[list[str]]:
        """A fresh copy of the files that the program begins with."""
        if self.task.root is None:
            yield []
            return
        files.remove_folder(self._path("root"))
        files.copy_root(self.task.root, self._path("root"))
        yield ["--root", "root"]

    def _path(self, name: str) -> str:
        return os.path.join(self.folder, name)

    def _read(self, name: str) -> bytes:
        try:
            return files.read(self._path(name), files.OUTPUT)
        except OSError:
            return b""


def _difference(made: Made, other: Made) -> tuple[str, str] | None:
    """In what two programs differ that should do the same."""
    for name in ("status", "out", "err", "frames"):
        if getattr(made, name) != getattr(other, name):
            return DIFFERENT, f"{name} differs from the other program's"
    return None
