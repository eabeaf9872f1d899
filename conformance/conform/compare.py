"""Random programs on two emulators: a difference is made smaller and kept, once for each cause."""
from __future__ import annotations

import os
import random
import re
import tempfile
import time
from collections.abc import Iterator
from dataclasses import dataclass, replace

from conform import differences, execute, random_roms, second, shrink, tests
from conform.cli import Failure
from conform.compare_sources import Difference
from conform.differences import Got
from conform.execute import Command
from conform.random_roms import Program
from conform.tests import Test

SECONDS = 5
# How many smaller inputs are tried for a difference.
TRIALS = 300


@dataclass
class Emulators:
    """The program whose answers are right, the other one, and where their runs lie."""

    uxn: str
    right: Command
    other: Command
    scratch: str
    driver: str
    profile: bool
    trials: int = TRIALS

    def assembled(self, source: str) -> bytes | None:
        with tempfile.TemporaryDirectory(dir=self.scratch) as folder:
            tests.make_tree({"a.tal": source.encode().hex()}, folder)
            got = execute.call([self.uxn, "asm", "a.tal", "--out", "a.rom"], folder, b"", SECONDS)
            return execute.read_or_none(os.path.join(folder, "a.rom")) if got.status == 0 else None

    def run(self, program: Program, rom: bytes) -> tuple[Got, Got]:
        """What both give."""
        with tempfile.TemporaryDirectory(dir=self.scratch) as folder:
            second.write_file(folder, "a.rom", rom)
            test = Test("random", "", "", "processor", "a.tal", rom="a.rom", files=program.files, events=program.events)
            test.want.after = {} if "after" in program.takes else None
            for name in ("frames", "samples"):
                setattr(test.want, name, "-" if name in program.takes and self.other.has(name) else None)
            outcomes = []
            for name, command in (("right", self.right), ("other", self.other)):
                os.mkdir(os.path.join(folder, name))
                outcomes.append(execute.run_emulator(test, command, os.path.join(folder, name), folder, SECONDS))
        return outcomes[0], outcomes[1]

    def differ(self, program: Program) -> bool:
        """Whether the other gives something else; a program that is refused or does not end on uxn shows nothing."""
        rom = self.assembled(program.source())
        if rom is None:
            return False
        right, other = self.run(program, rom)
        return right.status is not None and shows(right, program) and not same(right, other)


def shows(right: Got, program: Program) -> bool:
    """Whether something comes out that can be compared: a program without any shows nothing."""
    return bool(right.out or right.frames or right.samples) or right.after != (program.files or {})


def same(right: Got, other: Got) -> bool:
    names = ("status", "out", "after", "frames", "samples")
    return all(getattr(right, name) == getattr(other, name) for name in names)


def cause_of(program: Program) -> str:
    """The form of a program without its numbers: differences of one form have one cause, as far as can be seen."""
    words = set(re.findall(r"(?<!\S)[A-Z]{3}[2kr]*(?!\S)", " ".join(program.pieces)))
    ports = set(re.findall(r"#([0-9a-f]{2}) (?:DEO|DEI)", " ".join(program.pieces)))
    events = sorted({event[0] for event in program.events or []})
    return f"{program.kind} {sorted(words)} {sorted(ports)} {events}"


def made_smaller(program: Program, emulators: Emulators) -> Program:
    """A program that still shows a difference, of as few pieces, events and as small values as can be found."""
    trials = shrink.Trials(emulators.trials)
    if program.kind == "instructions":
        program = single_case(program, emulators)
    program = program.with_pieces(
        shrink.fewer(program.pieces, lambda pieces: emulators.differ(program.with_pieces(pieces)), trials)
    )
    if program.events:

        def with_events(events: list[tests.Event]) -> Program:
            return replace(program, events=events)

        program = with_events(
            shrink.fewer(program.events, lambda events: emulators.differ(with_events(events)), trials)
        )
    return program.with_pieces(
        shrink.smaller_numbers(program.pieces, lambda pieces: emulators.differ(program.with_pieces(pieces)), trials)
    )


def single_case(program: Program, emulators: Emulators) -> Program:
    """The first case whose line differs, alone, where it differs alone too."""
    rom = emulators.assembled(program.source())
    right, other = emulators.run(program, rom or b"")
    number = right.out.count(b"\n", 0, differences.first_difference(right.out, other.out))
    if number < len(program.pieces):
        alone = random_roms.one_case(program.pieces[number], emulators.driver)
        if emulators.differ(alone):
            return alone
    return program


def kept(program: Program, emulators: Emulators, folder: str, name: str) -> Difference:
    """The program as a test of a suite of its own, with what the other one gives otherwise."""
    rom = emulators.assembled(program.source()) or b""
    right, _ = emulators.run(program, rom)
    levels = {"instructions": "processor", "system": "console", "inputs": "controller", "sound": "audio", "clock": "datetime"}
    level = levels.get(program.kind, program.kind)
    test = Test(
        name,
        f"a difference found by compare: {program.kind}",
        "random programs",
        level,
        f"{name}.tal",
        program.devices,
        rom=f"{name}.rom",
        files=program.files,
        events=program.events,
    )
    second.write_file(folder, test.source, program.source().encode())
    second.write_file(folder, f"{name}.rom", rom)
    test.want.out = second.write_file(folder, f"{name}.out", right.out)
    test.want.status = right.status
    test.want.after = right.after if "after" in program.takes else None
    if right.frames is not None:
        test.want.frames = second.write_file(folder, f"{name}.ppm", right.frames)
    if right.samples is not None:
        test.want.samples = second.write_file(folder, f"{name}.raw", right.samples)
    test.lines = "cases" if program.kind == "instructions" else None
    return Difference(test, execute.run_test(test, emulators.other, folder, SECONDS).said)


def kinds_for(other: Command, chosen: list[str], profile: bool) -> list[str]:
    """The kinds of programs that the other emulator can run; all of sound is profile."""
    kinds = [kind for kind in random_roms.KINDS if not chosen or kind in chosen]
    kinds = [kind for kind in kinds if kind not in ("screen", "inputs", "clock", "sound") or other.has("events")]
    kinds = [kind for kind in kinds if kind != "sound" or profile and other.has("samples")]
    if not kinds:
        raise Failure("the command has no place for what these kinds of programs need, or they need --profile", 2)
    return kinds


def compare_emulators(
    emulators: Emulators, folder: str, kinds: list[str], seed: int, seconds: float, count: int | None, most: int
) -> Iterator[Difference | None]:
    """Runs random programs for so long; gives each difference, and None for each program on which both agree."""
    end, at = time.monotonic() + seconds, 0
    causes: set[str] = set()
    while (at < count if count is not None else time.monotonic() < end) and len(causes) < most:
        rng = random.Random(f"{seed} {at}")
        program = random_roms.random_program(kinds[at % len(kinds)], rng, emulators.driver, emulators.profile)
        at += 1
        if not emulators.differ(program):
            yield None
            continue
        program = made_smaller(program, emulators)
        cause = cause_of(program)
        if cause in causes:
            yield None
            continue
        causes.add(cause)
        yield kept(program, emulators, folder, f"found/{seed}-{at - 1}-{program.kind}")


def pieces_shown(source: str) -> list[str]:
    """The lines of a kept source that matter: those of its cases, or all of a short one."""
    lines = source.split("\n")
    found = [line for line in lines if re.match(r"@case-\d{4} ", line)]
    return found or lines[:20]
