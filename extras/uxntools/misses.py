"""Which expects of a script missed: their lines, and what the ports held.

An `expect` changes nothing of a run. So a run over a prefix of the script goes as the whole one does up to there,
its report says how many expects missed by then, and the debugger shows the ports at its end. The number of misses
never falls as the prefix grows, so those that missed are found by halving."""
from __future__ import annotations

import os
from dataclasses import dataclass
from typing import TYPE_CHECKING

from uxntools import files, log, program, report, script, source
from uxntools.cli import Failure, line_of
from uxntools.script import Expect

if TYPE_CHECKING:
    from uxntools.testing.discovery import Test

STEPS = 4294967295


@dataclass(frozen=True)
class Miss:
    """An expect that missed, and the byte that its port held."""

    expect: Expect
    held: int


@dataclass(frozen=True)
class Run:
    """A call of `uxn play` without its script: the folder that it is made in, the program and options, and the
    folder beneath its root."""

    folder: str
    words: tuple[str, ...]
    root: str | None = None
    has_root: bool = False


class Finder:
    """Runs a program over prefixes of a script, in a scratch folder (a path relative to that of the calls)."""

    def __init__(self, run: Run, data: bytes, scratch: str) -> None:
        self.run = run
        self.lines = data.split(b"\n")
        self.expects = script.expects(data)
        self.scratch = scratch
        self.counts: dict[int, tuple[int, int]] = {}
        self.name = run.words[0]
        self.names: dict[str, str] = {}
        if "--rom" not in run.words:
            self.name, self.names = source.linked(self.name, self._path("sources"), run.folder)

    def _path(self, name: str) -> str:
        return f"{self.scratch}/{name}"

    def _write(self, name: str, data: bytes) -> str:
        files.put(os.path.join(self.run.folder, self._path(name)), data)
        return self._path(name)

    def _read(self, name: str) -> bytes:
        return files.read(os.path.join(self.run.folder, self._path(name)), files.OUTPUT)

    def _call(self, command: str, lines: int, *words: str) -> None:
        """Runs the program over so many lines of the script, with the files beneath its root as they were."""
        prefix = self._write("prefix", b"\n".join(self.lines[:lines]) + b"\n")
        options = ["--script", prefix, *words]
        if self.run.has_root:
            root = os.path.join(self.run.folder, self._path("root"))
            files.remove_folder(root)
            if self.run.root and os.path.lexists(os.path.join(self.run.folder, self.run.root)):
                files.copy_root(os.path.join(self.run.folder, self.run.root), root, self.run.folder)
            options += ["--root", self._path("root")]
        done = program.call(command, self.name, *self.run.words[1:], *options, folder=self.run.folder)
        program.accepted(program.told(done, self.names))

    def check(self) -> None:
        """Runs the whole script once: one that is refused behind its last expect is refused too."""
        self._call("play", len(self.lines), "--report", self._path("report"))
        counts = report.read(self._read("report"))
        self.counts[len(self.expects)] = int(counts.get("expects", "0")), int(counts.get("misses", "0"))

    def count(self, number: int) -> tuple[int, int]:
        """How many of the first so many expects were given, and how many of these missed."""
        if number not in self.counts:
            line = self.expects[number - 1].line if number else 0
            if not number:
                return 0, 0
            self._call("play", line, "--report", self._path("report"))
            counts = report.read(self._read("report"))
            self.counts[number] = int(counts["expects"]), int(counts["misses"])
        return self.counts[number]

    def ports(self, number: int) -> bytes:
        """The ports at the moment of an expect, which is the end of the run over the script up to it."""
        commands = self._write("commands", f"step {STEPS}\nports\n".encode())
        self._call("debug", self.expects[number - 1].line, "--commands", commands, "--log", self._path("log"))
        return log.memory(self._read("log").decode("latin-1").splitlines()[1:17])

    def _missed(self, least: int, most: int) -> list[int]:
        """The numbers, from 1, of the expects behind the first `least` and up to `most` that missed."""
        if self.count(least)[1] == self.count(most)[1]:
            return []
        if most - least == 1:
            return [most]
        middle = (least + most) // 2
        return self._missed(least, middle) + self._missed(middle, most)

    def misses(self) -> list[Miss]:
        found = []
        for number in self._missed(0, len(self.expects)):
            expect = self.expects[number - 1]
            held = self.ports(number)[expect.port]
            if held == expect.value:
                raise Failure(f"line {expect.line}: the run missed it, and the debugger shows {held:02x}")
            found.append(Miss(expect, held))
        return found

    def not_given(self) -> list[Expect]:
        """The expects behind the end of the run."""
        return self.expects[self.count(len(self.expects))[0] :]


def find(run: Run, data: bytes, beside: str | None = None) -> tuple[list[Miss], list[Expect], int]:
    """The expects of a script that missed, those that the run did not reach, and how many there are."""
    with program.scratch_folder(beside or run.folder) as folder:
        finder = Finder(run, data, os.path.relpath(folder, run.folder))
        finder.check()
        return finder.misses(), finder.not_given(), len(finder.expects)


def shown(name: str, miss: Miss) -> str:
    expect = miss.expect
    return (
        f"{name}:{expect.line}: expect {expect.port:02x} {expect.value:02x}: port {expect.port:02x} held "
        f"{miss.held:02x}"
    )


def lines_of_test(test: Test, beside: str, most: int = 10) -> list[str]:
    """The misses of a test as lines: the first so many, and how many more. The runs write in a folder beneath `beside`."""
    words: list[str] = [test.program, *(["--rom"] if test.is_rom else [])]
    if test.settings.budget is not None:
        words += ["--budget", str(test.settings.budget)]
    run = Run(test.folder, tuple(words), test.root, test.has_root)
    try:
        found = find(run, files.read(test.full_path("script"), files.SCRIPT), beside)[0]
    except Failure as failure:
        return [f"which of them is not known: {failure.line}"]
    except OSError as error:
        return [f"which of them is not known: {line_of(error)}"]
    lines = [shown(test.path("script"), miss) for miss in found[:most]]
    return lines + ([f".. and {len(found) - most} more"] if len(found) > most else [])
