"""Random sources on two assemblers: a difference is made smaller and kept, once for each cause."""
from __future__ import annotations

import random
import re
import tempfile
import time
from collections.abc import Iterator
from dataclasses import dataclass

from conform import execute, random_sources, second, shrink
from conform.differences import FAULT
from conform.execute import Command
from conform.random_sources import Source
from conform.tests import PROFILE_KINDS, Test, Tree

SECONDS = 5
TRIALS = 400


@dataclass
class Difference:
    """A test that the other program fails, and what it said."""

    test: Test
    said: list[str]


@dataclass
class Outcome:
    """The ROM of a source, None for a refusal, and the kind of its fault."""

    rom: bytes | None
    kind: str = ""


@dataclass
class Assemblers:
    uxn: str
    other: Command
    scratch: str
    profile: bool = False
    trials: int = TRIALS

    def outcomes(self, source: Source) -> tuple[Outcome, Outcome]:
        """What both give."""
        files: Tree = {path: data.hex() for path, data in source.all_files().items()}
        uxn = Command((self.uxn, "asm", "{source}", "--out", "{rom}"))
        found = []
        for command in (uxn, self.other):
            with tempfile.TemporaryDirectory(dir=self.scratch) as folder:
                got = execute.assemble(source.place, b"", files, command, folder, SECONDS)
            said = FAULT.search(got.err.decode(errors="backslashreplace"))
            # A crash and a run that does not end are no refusals.
            is_end = got.status is not None and 0 <= got.status < 126 or command is uxn
            kind = said[1].split(": ")[1] if said else ""
            found.append(Outcome(got.rom if got.status == 0 else None if is_end else b"crash", kind))
        return found[0], found[1]

    def differ(self, source: Source) -> bool:
        right, other = self.outcomes(source)
        if right.kind in PROFILE_KINDS and not self.profile:
            return False
        return right.rom != other.rom


def smaller_file(source: Source, path: str, assemblers: Assemblers, trials: shrink.Trials) -> Source:
    pieces = shrink.fewer(source.files[path], lambda part: assemblers.differ(source.with_file(path, part)), trials)
    return source.with_file(path, pieces)


def words_of(pieces: list[str]) -> list[str]:
    """The words of pieces, each with its blanks."""
    return re.findall(r"[\x00-\x20]*[^\x00-\x20]+[\x00-\x20]*?(?=[^\x00-\x20]|$)|[\x00-\x20]+", "".join(pieces))


def made_smaller(source: Source, assemblers: Assemblers) -> Source:
    """A source that still shows a difference, of as few words as can be found; one with bytes keeps some."""
    trials = shrink.Trials(assemblers.trials)
    has_bytes = bool(assemblers.outcomes(source)[0].rom)

    def fails(pieces: list[str]) -> bool:
        if has_bytes and not assemblers.outcomes(source.with_pieces(pieces))[0].rom:
            return False
        return bool("".join(pieces).strip()) and assemblers.differ(source.with_pieces(pieces))

    source = source.with_pieces(shrink.fewer(source.pieces, fails, trials))
    for path in source.files:
        source = smaller_file(source, path, assemblers, trials)
    source = source.with_pieces(shrink.fewer(words_of(source.pieces), fails, trials))
    used = "".join(source.pieces) + "".join("".join(part) for part in source.files.values())
    source.files = {path: part for path, part in source.files.items() if "~" + path in used}
    return source.with_pieces(shrink.smaller_numbers(source.pieces, fails, trials))


def cause_of(source: Source, right: Outcome) -> str:
    """The form of a source without its names and numbers: differences of one form have one cause, as far as can be seen."""
    text = b" ".join(source.all_files().values()).decode("latin-1")
    forms = {re.sub(r"[a-z][a-z-]+", "n", re.sub(r"[0-9a-f]{2,}|[0-9]+", "0", word)) for word in re.findall(r"[^\x00-\x20]+", text)}
    return f"{right.kind or right.rom is None} {sorted(forms)[:6]}"


def kept(source: Source, assemblers: Assemblers, folder: str, name: str) -> Difference:
    right, _ = assemblers.outcomes(source)
    test = Test(name, "a difference found by compare: a source", "random sources", "assembler", f"{name}.tal")
    files = source.all_files()
    second.write_file(folder, test.source, files.pop(source.place))
    test.place, test.files = source.place, {path: data.hex() for path, data in files.items()} or None
    if right.rom is None:
        test.want.refused = right.kind or "refused"
    else:
        test.want.rom = second.write_file(folder, f"{name}.rom", right.rom)
    return Difference(test, execute.run_test(test, assemblers.other, folder, SECONDS).said)


def compare_assemblers(
    assemblers: Assemblers, folder: str, seed: int, seconds: float, count: int | None, most: int
) -> Iterator[Difference | None]:
    """Runs random sources for so long; gives each difference, and None for each source on which both agree."""
    end, at = time.monotonic() + seconds, 0
    causes: set[str] = set()
    while (at < count if count is not None else time.monotonic() < end) and len(causes) < most:
        source = random_sources.random_source(random.Random(f"{seed} {at}"), assemblers.profile)
        at += 1
        if not assemblers.differ(source):
            yield None
            continue
        source = made_smaller(source, assemblers)
        cause = cause_of(source, assemblers.outcomes(source)[0])
        if cause in causes:
            yield None
            continue
        causes.add(cause)
        yield kept(source, assemblers, folder, f"found/{seed}-{at - 1}-source")
