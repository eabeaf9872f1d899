"""Runs a test on an emulator, an assembler or a disassembler, and says what differs."""
from __future__ import annotations

import json
import os
import re
import shlex
import shutil
import signal
import subprocess
import tempfile
import time
from collections.abc import Iterable, Iterator
from concurrent.futures import ThreadPoolExecutor
from dataclasses import dataclass, field

from conform import differences, sdl, tests
from conform.cli import Failure
from conform.differences import Got
from conform.tests import Event, Test, Tree

PASSED, FAILED, NOT_RUN = "passed", "failed", "not run"
PLACES = re.compile(r"\{(rom|args|events|sdl|clock|frames|picture|samples|source|symbols)\}")
# The place that each kind of program needs.
NEEDED = {"emulator": "rom", "assembler": "source", "disassembler": "rom"}
ROM, SYMBOLS = "made.rom", "made.rom.sym"


@dataclass
class Result:
    """How a test went; for a failed one what was wanted and got, for one that was not run why."""

    test: Test
    state: str
    said: list[str] = field(default_factory=list)
    seconds: float = 0.0
    got: Got | None = None


@dataclass(frozen=True)
class Command:
    """The words of a program's call, with places for what a test has."""

    words: tuple[str, ...]
    text: str = ""

    @staticmethod
    def read(text: str, needed: str) -> Command:
        try:
            words = tuple(shlex.split(text))
        except ValueError as error:
            raise Failure(f"the command {text!r} cannot be cut into words: {error}", 2) from None
        if not words or not any("{" + needed + "}" in word for word in words):
            raise Failure(f"the command {text!r} has no place {{{needed}}}", 2)
        # The runs have folders of their own, so the program is named by its whole path.
        program = shutil.which(words[0])
        if program is None:
            raise Failure(f"there is no program {words[0]}", 2)
        paths = (os.path.abspath(word) if "/" in word and os.path.exists(word) else word for word in words[1:])
        return Command((os.path.abspath(program), *paths), text)

    def has(self, place: str) -> bool:
        return any("{" + place + "}" in word for word in self.words)

    def filled(self, values: dict[str, str], args: list[str]) -> list[str]:
        """The words of a call."""
        given: list[str] = []
        for word in self.words:
            if word == "{args}":
                given += args
            else:
                given.append(PLACES.sub(lambda found: values.get(found[1], "-"), word))
        return given


def read_or_none(path: str) -> bytes | None:
    try:
        with open(path, "rb") as file:
            return file.read()
    except OSError:
        return None


def call(words: list[str], folder: str, stdin: bytes, seconds: float) -> Got:
    """Runs a program in a folder; one that does not end in time is ended with all that it began, its status is None."""
    try:
        running = subprocess.Popen(
            words,
            cwd=folder,
            stdin=subprocess.PIPE,
            stdout=subprocess.PIPE,
            stderr=subprocess.PIPE,
            start_new_session=True,
        )
    except OSError as error:
        raise Failure(f"{words[0]}: {error.strerror}", 2) from None
    with running:
        try:
            out, err = running.communicate(stdin, timeout=seconds)
        except subprocess.TimeoutExpired:
            os.killpg(running.pid, signal.SIGKILL)
            out, err = running.communicate()
            return Got(None, out, err)
    return Got(running.returncode, out, err)


def clock_of(test: Test) -> str:
    """The moment of a test's clock: seconds since 1970, the offset of its zone added."""
    found: Event = next((event for event in test.events or [] if event[0] == "clock"), ["clock", 0, 0])
    return str(found[1] + 60 * (found[2] if len(found) > 2 else 0))


def written(path: str, text: str) -> str:
    with open(path, "w", encoding="ascii") as file:
        file.write(text)
    return path


def values_of(test: Test, command: Command, folder: str, suite: str) -> dict[str, str]:
    """What stands in the places of an emulator's command; the files of events are made here."""
    values = {"rom": os.path.join(suite, test.rom or "")}
    for name, is_wanted in (
        ("frames", test.want.frames is not None),
        ("picture", test.want.frames is not None and test.has_one_picture),
        ("samples", test.want.samples is not None),
    ):
        if is_wanted:
            values[name] = os.path.join(folder, name)
    if test.events is not None:
        values["clock"] = clock_of(test)
        values["events"] = written(os.path.join(folder, "events.json"), json.dumps(test.events))
        if command.has("sdl"):
            values["sdl"] = written(os.path.join(folder, "events.sdl"), sdl.lines_of(test.events))
    return values


def run_emulator(test: Test, command: Command, folder: str, suite: str, seconds: float) -> Got:
    """Runs a test's ROM in a folder that is there for it alone."""
    # A short name: the path of a file is the folder and the name, and has a limit.
    files = os.path.join(folder, "f")
    os.mkdir(files)
    tests.make_tree(test.files or {}, files)
    values = values_of(test, command, folder, suite)
    got = call(command.filled(values, test.args), files, bytes.fromhex(test.stdin or ""), seconds)
    if test.want.after is not None:
        got.after = tests.tree_of(files)
    for name in ("frames", "picture", "samples"):
        if name in values:
            setattr(got, name, read_or_none(values[name]))
    return got


def assemble(place: str, data: bytes, files: Tree | None, command: Command, folder: str, seconds: float) -> Got:
    """Assembles a source that lies at a place of a folder, with the files that it includes."""
    os.makedirs(folder, exist_ok=True)
    tests.make_tree(files or {}, folder)
    if place not in (files or {}):
        tests.make_tree({place: data.hex()}, folder)
    got = call(command.filled({"source": place, "rom": ROM, "symbols": SYMBOLS}, []), folder, b"", seconds)
    got.rom = read_or_none(os.path.join(folder, ROM))
    got.symbols = read_or_none(os.path.join(folder, SYMBOLS))
    return got


def run_assembler(test: Test, command: Command, folder: str, suite: str, seconds: float) -> Got:
    """Assembles a test's source; where it has to be refused its repaired twin too, in a folder beside."""
    place = test.place or os.path.basename(test.source)
    source = tests.bytes_of(suite, test.source)
    got = assemble(place, source, test.files, command, os.path.join(folder, "refused" if test.twin else "source"), seconds)
    if test.twin:
        source = tests.bytes_of(suite, test.twin.source)
        got.twin = assemble(place, source, test.twin.files, command, os.path.join(folder, "repaired"), seconds)
    return got


def run_disassembler(test: Test, command: Command, folder: str, suite: str, seconds: float) -> Got:
    values = {"rom": os.path.join(suite, test.rom or "")}
    if test.want.symbols:
        values["symbols"] = os.path.join(suite, test.want.symbols)
    return call(command.filled(values, []), folder, b"", seconds)


def reason_not_to_run(test: Test, command: Command) -> str | None:
    """Why a test cannot be run by a command: it has no place for what the test needs, or for what has to be compared."""
    needed: list[tuple[str, ...]] = []
    if test.kind == "emulator":
        if test.needs_events:
            needed.append(("events", "sdl"))
        elif any(event[0] == "clock" for event in test.events or []):
            needed.append(("events", "clock"))
        if test.args:
            needed.append(("args",))
        if test.want.frames is not None:
            needed.append(("frames", "picture") if test.has_one_picture else ("frames",))
        if test.want.samples is not None:
            needed.append(("samples",))
    elif test.kind == "disassembler" and test.want.symbols:
        needed.append(("symbols",))
    missing = [places for places in needed if not any(command.has(place) for place in places)]
    return f"the command has no place {' or '.join('{' + place + '}' for place in missing[0])}" if missing else None


def run_in(test: Test, command: Command, folder: str, suite: str, seconds: float) -> tuple[Got, list[str]]:
    """What a run gave, and what differs."""
    if test.kind == "assembler":
        got = run_assembler(test, command, folder, suite, seconds)
        return got, list(differences.of_assembler(test, suite, got, command.has("symbols")))
    if test.kind == "disassembler":
        got = run_disassembler(test, command, folder, suite, seconds)
        return got, list(differences.of_disassembler(test, suite, got))
    got = run_emulator(test, command, folder, suite, seconds)
    return got, list(differences.of_emulator(test, suite, got, not command.has("frames")))


def run_test(test: Test, command: Command, suite: str, seconds: float) -> Result:
    """Runs a test in a folder of its own."""
    why = reason_not_to_run(test, command)
    if why:
        return Result(test, NOT_RUN, [why])
    begun = time.monotonic()
    with tempfile.TemporaryDirectory(prefix="conform-") as folder:
        got, said = run_in(test, command, folder, suite, seconds)
    if got.status is None or got.twin and got.twin.status is None:
        said.insert(0, f"it did not end within {seconds:g} seconds")
    return Result(test, FAILED if said else PASSED, said, time.monotonic() - begun, got if said else None)


def run_all(
    chosen: Iterable[Test], command: Command, suite: str, seconds: float, jobs: int, stop: bool = False
) -> Iterator[Result]:
    """Runs tests side by side, and gives their results in order; with `stop` up to the first that fails."""
    with ThreadPoolExecutor(jobs) as pool:
        waiting = [pool.submit(run_test, test, command, suite, seconds) for test in chosen]
        for future in waiting:
            result = future.result()
            yield result
            if stop and result.state == FAILED:
                for other in waiting:
                    other.cancel()
                return
