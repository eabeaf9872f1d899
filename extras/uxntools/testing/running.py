"""Running a test: the words of its call, a scratch folder for what it writes, and what came of it."""
from __future__ import annotations

import os
import subprocess
import threading
from collections.abc import Iterator, Mapping
from contextlib import contextmanager
from dataclasses import dataclass, field

from uxntools import files, program, report, source
from uxntools.cli import Failure, shown
from uxntools.target import Target
from uxntools.testing.discovery import Test
from uxntools.testing.keeping import kept_folder

# Statuses of a program that a shell also gives for a call that could not be made.
NOT_DONE = {126, 127}
# How many signs of a refusal are shown.
MOST_OF_LINE = 500
# The processes that run now, so that an interrupt ends them all.
RUNNING: set[subprocess.Popen[bytes]] = set()
ENDING = threading.Event()


@dataclass(frozen=True)
class Call:
    """A call of a test: where it writes, and which outputs are wanted of it."""

    test: Test
    scratch: str
    outputs: frozenset[str]
    # The names of links in the scratch folder, with the paths that a refusal shows.
    names: dict[str, str] = field(default_factory=dict)
    sources: dict[str, str] = field(default_factory=dict)

    def path(self, part: str) -> str:
        """A file of the scratch folder, relative to the folder of the call."""
        return f"{self.scratch}/{part}"

    def words(self, command: str | None = None, *more: str) -> list[str]:
        """The words behind `uxn`, by this command or by the test's own, with further options."""
        test, command = self.test, command or self.test.kind
        if command == "line":
            return ["line", self._setup()]
        words = [command, test.program if test.is_rom else self._linked(test.program, "sources")]
        if test.is_rom:
            words.append("--rom")
        if test.script:
            words += ["--script", test.script]
        if test.settings.budget is not None:
            words += ["--budget", str(test.settings.budget)]
        if test.has_root:
            words += ["--root", self.path("root")]
        for part, option in (("ppm", "--frames"), ("samples", "--samples"), ("report", "--report")):
            if part in self.outputs:
                words += [option, self.path(part)]
        if command == "debug":
            words += self._debug_words(more)
        return [*words, *more]

    def _debug_words(self, more: tuple[str, ...]) -> list[str]:
        words = ["--symbols", self.test.settings.symbols] if self.test.settings.symbols else []
        if self.test.has("commands") and "--commands" not in more:
            words += ["--commands", self.test.path("commands"), "--log", self.path("log")]
        return words

    def _setup(self) -> str:
        """The setup of the test: its own, or that of the program with the test's script in place of the one that it
        names."""
        data = files.read(os.path.join(self.test.folder, self.test.program), files.SETUP)
        lines = self._machines(data.split(b"\n"))
        if not self.test.has("setup") and self.test.script:
            lines = [line for line in lines if line.split()[:1] != [b"script"]]
            lines += [b"script " + os.fsencode(self.test.script), b""]
        made = b"\n".join(lines)
        if made == data:
            return self.test.program
        files.put(os.path.join(self.test.folder, self.path("setup")), made)
        return self.path("setup")

    def _machines(self, lines: list[bytes]) -> list[bytes]:
        """The lines of a setup with the names of its sources as `uxn` takes them."""
        found = []
        for number, line in enumerate(lines):
            words = line.split()
            if len(words) == 2 and words[0] == b"machine":
                name = self._linked(os.fsdecode(words[1]), f"machine-{number}")
                line = line if name == os.fsdecode(words[1]) else b"machine " + os.fsencode(name)
            found.append(line)
        return found

    def _linked(self, name: str, inner: str) -> str:
        """The name of a source in the call."""
        if name not in self.sources:
            self.sources[name], names = source.linked(name, self.path(inner), self.test.folder)
            self.names.update(names)
        return self.sources[name]


@dataclass(frozen=True)
class Result:
    """What came of a test: the status of the call, the bytes of each output, and the files beneath the root after
    the run."""

    status: int
    parts: dict[str, bytes]
    after: dict[str, bytes] | None = None
    seconds: float = field(default=0.0, compare=False)

    @property
    def out(self) -> bytes:
        return self.parts["out"]

    @property
    def err(self) -> bytes:
        return self.parts["err"]

    @property
    def line(self) -> str:
        """The last line on the error output: that of a refusal."""
        return shown(self.err.decode(errors="replace").rstrip("\n").rpartition("\n")[2], MOST_OF_LINE)

    @property
    def report(self) -> dict[str, str]:
        """The lines of the report by their names: none where the call was not done, or of a line of machines."""
        return report.read(self.parts.get("report", b""))

    def count(self, name: str) -> int:
        """A number of the report, or 0."""
        return report.number(self.report.get(name, "0")) or 0

    @property
    def is_done(self) -> bool:
        """Whether the call came to its end: it was not refused, did not end early, and was no call that could not be
        made."""
        return 0 <= self.status < 128 and self.status not in NOT_DONE


def target_of(test: Test) -> Target:
    """The program of a test with its options, for tools that follow its run."""
    budget = test.settings.budget
    return Target(
        test.program,
        test.is_rom,
        test.script,
        (test.root or test.path("root")) if test.has_root else None,
        None if budget is None else str(budget),
        folder=test.folder,
        makes_root=True,
    )


def usual_outputs(test: Test) -> frozenset[str]:
    """The outputs that a test is run with: the report, which tells of cuts and misses, and those that are wanted of
    it."""
    return frozenset({"report"} | {part for part in ("ppm", "samples") if test.has(part)})


@contextmanager
def prepared(test: Test, outputs: frozenset[str] = frozenset(), scratch: str | None = None) -> Iterator[Call]:
    """A call of a test with a scratch folder of its own, in which a copy of the files beneath its root lies."""
    with files.scratch_folder("run-", scratch or kept_folder(test.folder)) as folder:
        call = Call(test, os.path.relpath(folder, test.folder), outputs)
        if test.has_root:
            _copy_root(test, os.path.join(folder, "root"))
        yield call


def _copy_root(test: Test, target: str) -> None:
    """The files before the run; a test that only says what is wanted after it begins with an empty folder."""
    if test.root is None:
        files.make_folder(target)
        return
    root = os.path.join(test.folder, test.root)
    if not os.path.lexists(root):
        raise Failure(f"{test.name}: {test.root}: there is no such folder for the root", 2)
    files.copy_root(root, target, test.folder)


def _read(path: str) -> bytes:
    try:
        return files.read(path, files.OUTPUT)
    except FileNotFoundError:
        return b""


def run(
    test: Test,
    outputs: frozenset[str] | None = None,
    seconds: float | None = None,
    uxn: str | None = None,
    scratch: str | None = None,
    environment: Mapping[str, str] | None = None,
) -> Result:
    """Runs a test in a scratch folder, and reads what came. A run that takes longer than so many seconds is ended,
    which is a failure."""
    with prepared(test, usual_outputs(test) if outputs is None else outputs, scratch) as call:
        words = [uxn or program.path_of_uxn(), *call.words()]
        folder = os.path.join(test.folder, call.scratch)
        with files.opened(f"{folder}/out") as out, files.opened(f"{folder}/err") as err:
            status = _wait(
                subprocess.Popen(
                    words, cwd=test.folder, stdin=subprocess.DEVNULL, stdout=out, stderr=err, env=environment
                ),
                seconds,
                test,
            )
        wanted = ["out", "err", *sorted(call.outputs)] + (["log"] if test.kind == "debug" else [])
        parts = {part: _read(f"{folder}/{part}") for part in wanted}
        parts["err"] = program.told(program.Done(status, b"", parts["err"]), call.names).err
        return Result(status, parts, files.read_all(f"{folder}/root") if test.has_root and test.kind != "line" else None)


def end_all() -> None:
    """Ends all runs, as after an interrupt, and those that are just about to begin."""
    ENDING.set()
    for process in list(RUNNING):
        process.kill()


def _wait(process: subprocess.Popen[bytes], seconds: float | None, test: Test) -> int:
    RUNNING.add(process)
    program.limit_files(process)
    if ENDING.is_set():
        process.kill()
    try:
        return process.wait(seconds)
    except subprocess.TimeoutExpired:
        raise Failure(f"{test.name}: it did not end within {seconds:g} seconds") from None
    finally:
        RUNNING.discard(process)
        if process.poll() is None:
            process.kill()
            process.wait()
