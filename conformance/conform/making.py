"""Makes the tests of the suite: assembles, runs and keeps what comes out, on which two programs have to agree."""
from __future__ import annotations

import os
import re
import tempfile
from collections.abc import Iterator
from concurrent.futures import ThreadPoolExecutor
from dataclasses import dataclass, replace

from conform import differences, execute, from_cases, tests, twins
from conform.cli import Failure
from conform.differences import Got
from conform.drafts import Draft
from conform.execute import Command
from conform.second import SECONDS, Tools, uxn_command, write_file
from conform.tests import PROFILE_KINDS, Test, Tree, Twin

LARGEST = 60_000
# Up to how many bytes a ROM has the line of each.
LONGEST_LINES = 600


def source_place(draft: Draft) -> str:
    return draft.place or f"{draft.name.split('/')[1]}.tal"


def assembled_files(files: dict[str, bytes], folders: Tree, source: str, tools: Tools) -> tuple[Got, bytes]:
    """What `uxn asm` gives for a source among files: the ROM and the symbols, or a refusal; and the listing."""
    with tempfile.TemporaryDirectory(dir=tools.folder) as folder:
        tests.make_tree(folders, folder)
        for path, data in files.items():
            write_file(folder, path, data)
        words = [tools.uxn, "asm", source, "--out", "made.rom", "--symbols", "made.rom.sym", "--listing", "made.lst"]
        got = execute.call(words, folder, b"", SECONDS)
        got.rom = execute.read_or_none(os.path.join(folder, "made.rom"))
        got.symbols = execute.read_or_none(os.path.join(folder, "made.rom.sym"))
        listing = execute.read_or_none(os.path.join(folder, "made.lst")) or b""
    return got, listing


def outcome_of(files: dict[str, bytes], folders: Tree, source: str, tools: Tools) -> Got:
    """The same without the listing; files that no folder can hold are a fault."""
    try:
        return assembled_files(files, folders, source, tools)[0]
    except (OSError, ValueError):
        return Got(1)


def files_of(draft: Draft) -> tuple[dict[str, bytes], Tree]:
    """The files that a source is assembled with, itself among them, and the folders beside."""
    tree = (draft.files or {}) if draft.level in ("assembler", "programs") else {}
    files = {path: tests.unpacked(data) for path, data in tree.items() if data is not None}
    return {source_place(draft): draft.source, **files}, {path: None for path, data in tree.items() if data is None}


def assembled(draft: Draft, tools: Tools) -> tuple[Got, bytes]:
    files, folders = files_of(draft)
    return assembled_files(files, folders, source_place(draft), tools)


def packed_tree(files: dict[str, bytes], draft: Draft) -> Tree | None:
    """Files as the manifest has them; a long one that the draft has stays as short as there."""
    given = draft.files or {}
    found: Tree = {path: None for path, data in given.items() if data is None}
    for path, data in files.items():
        if path == source_place(draft) and len(data) <= LARGEST:
            continue
        text = given.get(path)
        byte = data[:1] if data and data == data[:1] * len(data) else b""
        found[path] = text if text and tests.unpacked(text) == data else f"{byte.hex()}*{len(data)}" if byte else data.hex()
    return dict(sorted(found.items())) or None


def make_twin(draft: Draft, tools: Tools, suite: str) -> Twin:
    """The repaired source of a refused one: that of the draft, or one that is found."""
    files, folders = files_of(draft)
    source = source_place(draft)
    if draft.twin is not None or draft.twin_files is not None:
        files.update({path: tests.unpacked(data or "") for path, data in (draft.twin_files or {}).items()})
        files[source] = draft.twin.encode("latin-1") if draft.twin is not None else files[source]
        found: tuple[dict[str, bytes], Got] | None = (files, assembled_files(files, folders, source, tools)[0])
    else:
        found = twins.repaired(files, source, lambda files: outcome_of(files, folders, source, tools))
    if found is None or found[1].status != 0:
        raise Failure(f"{draft.name}: no repair of it assembles: give it a `twin`")
    tree = packed_tree(found[0], draft)
    data = b"" if source in (tree or {}) else found[0][source]
    name = f"{draft.name}.repaired"
    return Twin(write_file(suite, f"{name}.tal", data), write_file(suite, f"{name}.rom", found[1].rom or b""), tree)


def make_assembler_test(draft: Draft, tools: Tools, suite: str) -> Test:
    """A source with its ROM and its symbol file, or the fault for which it is refused."""
    got, listing = assembled(draft, tools)
    differing = from_cases.faults_of_source(draft.case, got) if draft.case else []
    if differing:
        raise Failure(f"{draft.name} differs from its case: {differing[0]}")
    test = Test(draft.name, draft.shows, draft.reference, draft.level, f"{draft.name}.tal", profile=draft.profile)
    test.files, test.place = draft.files, draft.place
    # That these opcodes may be written as words is a choice of this project.
    test.profile = test.profile or re.search(rb"(?<!\S)J[CMS]I(?!\S)", draft.source) is not None
    write_file(suite, test.source, draft.source)
    if got.status == 0:
        test.want.rom = write_file(suite, f"{draft.name}.rom", got.rom or b"")
        test.want.symbols = write_file(suite, f"{draft.name}.sym", got.symbols or b"")
        # The listing of a source with includes counts words in place of lines.
        test.lines = None if draft.files else lines_of_rom(got.rom or b"", listing)
        return test
    kind = from_cases.kind_of(got.err)
    if got.status != 131 or not kind:
        raise Failure(f"{draft.name}: uxn asm ended with {got.status}: {got.err!r}")
    if draft.names and draft.names.encode() not in got.err.split(b": ", 2)[-1]:
        raise Failure(f"{draft.name}: uxn asm does not name {draft.names}: {got.err!r}")
    test.want.refused, test.want.names = kind, draft.names
    said = differences.FAULT.search(got.err.decode(errors="backslashreplace"))
    test.want.fault = said[1] if said else None
    test.profile = test.profile or kind in PROFILE_KINDS
    test.twin = make_twin(draft, tools, suite)
    return test


def lines_at(listing: bytes) -> dict[int, int]:
    """The line of the source for each address that has a byte."""
    found: dict[int, int] = {}
    for row in re.finditer(rb"(?m)^([0-9a-f]{4})((?: [0-9a-f]{2})+)  (\d+):\d+ ", listing):
        found.update({int(row[1], 16) + at: int(row[3]) for at in range(len(row[2]) // 3)})
    return found


def lines_of_rom(rom: bytes, listing: bytes) -> list[int] | None:
    """The line of the source for each byte of a ROM that is not long."""
    found = lines_at(listing)
    return [found.get(0x100 + at, 0) for at in range(len(rom))] if 0 < len(rom) <= LONGEST_LINES else None


def lines_of_output(out: bytes, trace: bytes, listing: bytes) -> list[int]:
    """The line of the source for each line of the output: that of the call in the main program, or of what wrote it."""
    line_at = lines_at(listing)
    # What JSI pushes: the address behind its three bytes.
    calls = {
        int(found[1], 16) + 3 for found in re.finditer(rb"(?m)^([0-9a-f]{4}) 60 [0-9a-f]{2} [0-9a-f]{2}  ", listing)
    }
    writers = [row.split()[1:] for row in trace.split(b"\n") if row.startswith(b"o ")]
    lines, start = [], 0
    for row in out.split(b"\n"):
        if start >= len(writers):
            break
        places = [int(word, 16) for word in writers[start]]
        outer = [place - 1 for place in places[1:] if place in calls]
        lines.append(line_at.get(outer[0] if outer else places[0], 0))
        start += len(row) + 1
    return lines


def trace_of(test: Test, tools: Tools, suite: str) -> bytes:
    """What the second emulator notes of a run."""
    with tempfile.TemporaryDirectory(dir=tools.folder) as folder:
        path = os.path.join(folder, "trace")
        command = Command((tools.emulator.words[0], "--trace", path, *tools.emulator.words[1:]))
        execute.run_emulator(test, command, folder, suite, SECONDS)
        return execute.read_or_none(path) or b""


def run_with(test: Test, command: Command, tools: Tools, suite: str) -> Got:
    with tempfile.TemporaryDirectory(dir=tools.folder) as folder:
        got = execute.run_emulator(test, command, folder, suite, SECONDS)
    if got.status is None or got.status >= 128:
        raise Failure(f"{test.name}: {command.words[0]} ended with {got.status}: {got.err!r}")
    return got


def keep_outputs(test: Test, draft: Draft, got: Got, suite: str) -> None:
    """Writes what came out, as far as the test takes it."""
    test.want.out = write_file(suite, f"{draft.name}.out", got.out)
    test.want.status = got.status
    if "err" in draft.takes:
        test.want.err = write_file(suite, f"{draft.name}.err", got.err)
    if "after" in draft.takes:
        test.want.after = got.after
    if "frames" in draft.takes:
        test.want.frames = write_file(suite, f"{draft.name}.ppm", got.frames or b"")
    if "samples" in draft.takes:
        test.want.samples = write_file(suite, f"{draft.name}.raw", got.samples or b"")


def begun_test(draft: Draft, rom: bytes, suite: str) -> Test:
    """A test with its ROM, before it is known what comes out of its run."""
    test = Test(draft.name, draft.shows, draft.reference, draft.level, f"{draft.name}.tal", draft.devices, draft.profile)
    test.rom, test.files, test.args, test.events = f"{draft.name}.rom", draft.files, draft.args, draft.events
    test.stdin = draft.stdin.hex() or None
    write_file(suite, test.source, draft.source)
    write_file(suite, test.rom, rom.ljust(0xFF00, b"\0") + draft.behind_rom if draft.behind_rom else rom)
    for name in ("frames", "samples"):
        if name in draft.takes:
            setattr(test.want, name, "-")
    test.want.after = {} if "after" in draft.takes else None
    return test


@dataclass
class Run:
    """A draft that was run: its test, what came out, and what its source and its run noted."""

    draft: Draft
    test: Test
    got: Got
    listing: bytes
    trace: bytes

    @property
    def is_ended(self) -> bool:
        """Whether the program wrote the state."""
        return re.search(rb"(?m)^w [0-9a-f]{4} 0f$", self.trace) is not None

    def gives(self) -> tuple[object, ...]:
        got = self.got
        return got.status, got.out, got.err, got.after, got.frames, got.samples


def run_draft(draft: Draft, tools: Tools, suite: str) -> Run:
    got, listing = assembled(draft, tools)
    if got.status != 0:
        raise Failure(f"{draft.name}: uxn asm ended with {got.status}: {got.err!r}")
    test = begun_test(draft, got.rom or b"", suite)
    outcome = run_with(test, uxn_command(), tools, suite)
    return Run(draft, test, outcome, listing, trace_of(test, tools, suite))


def with_end(run: Run, tools: Tools, suite: str) -> Run | None:
    """The run of a program that ends itself where its reset vector ended, if that gives the same."""
    first = re.search(rb"(?m)^x ([0-9a-f]{4}) 00$", run.trace)
    row = first and re.search(rb"(?m)^" + first[1] + rb" 00  (\d+):(\d+) BRK$", run.listing)
    if not row:
        return None
    lines = run.draft.source.split(b"\n")
    line, column = int(row[1]) - 1, int(row[2]) - 1
    if line >= len(lines) or lines[line][column : column + 3] != b"BRK":
        return None
    lines[line] = lines[line][:column] + b"#800f DEO " + lines[line][column:]
    try:
        other = run_draft(replace(run.draft, source=b"\n".join(lines)), tools, suite)
    except Failure:
        return None
    return other if other.is_ended and other.gives() == run.gives() else None


def reason_of(draft: Draft, test: Test) -> str | None:
    """Why a program need not end itself."""
    if draft.endless:
        return draft.endless
    if test.events is not None:
        return "the last event ends the run"
    return "the end of the arguments and the input ends the run" if test.stdin or test.args else None


def check_case(draft: Draft, tools: Tools, suite: str) -> None:
    """Refuses a draft that gives, with the events of its case, something else than its case says."""
    if draft.case is None:
        return
    events = draft.events if draft.case_events is None else draft.case_events
    stdin = b"" if draft.case_events is not None else draft.stdin
    got = run_draft(replace(draft, events=events, stdin=stdin), tools, suite).got
    said = from_cases.faults_of_run(draft.case, got, draft.takes)
    if said:
        raise Failure(f"{draft.name} differs from its case: {said[0]}")


def ended(draft: Draft, tools: Tools, suite: str) -> Run:
    """The run of a draft whose program ends itself, or says why not."""
    check_case(draft, tools, suite)
    run = run_draft(draft, tools, suite)
    if run.is_ended:
        return run
    found = with_end(run, tools, suite)
    if found is None:
        found = run_draft(draft, tools, suite)
        found.test.endless = reason_of(draft, found.test)
        if found.test.endless is None:
            raise Failure(f"{draft.name}: the program does not reach #80 #0f DEO: give it `endless`, a reason")
    return found


def is_plain(draft: Draft, run: Run, tools: Tools, suite: str) -> bool:
    """Whether a test gives the same where the end of the input comes before its last picture."""
    events = run.test.events or []
    shots = events[-1:] if run.test.has_one_picture else []
    ended_test = replace(run.test, events=[*events[: len(events) - len(shots)], ["end"], *shots])
    got = run_with(ended_test, uxn_command(), tools, suite)
    return replace(run, got=got).gives() == run.gives()


def make_emulator_test(draft: Draft, tools: Tools, suite: str) -> Test | None:
    """A ROM with what comes out of its run; none where a picture or samples would be too large for the suite."""
    run = ended(draft, tools, suite)
    test, outcome = run.test, run.got
    if max(len(outcome.frames or b""), len(outcome.samples or b"")) > LARGEST and draft.level != "programs":
        for name in (test.source, test.rom):
            os.remove(os.path.join(suite, name or ""))
        return None
    if test.events is not None and test.has_few_events:
        test.plain = is_plain(draft, run, tools, suite)
    keep_outputs(test, draft, outcome, suite)
    test.lines = "cases" if draft.by_cases else lines_of_output(outcome.out, run.trace, run.listing) or None
    return test


def make_disassembler_test(draft: Draft, tools: Tools, suite: str) -> Test:
    """A ROM with its text, which the second assembler has to make the ROM of again."""
    got, _ = assembled(draft, tools)
    test = Test(draft.name, draft.shows, draft.reference, draft.level, f"{draft.name}.tal", profile=True)
    write_file(suite, test.source, draft.source)
    rom = draft.behind_rom or got.rom or b""
    test.rom = write_file(suite, f"{draft.name}.rom", rom)
    words = [tools.uxn, "dis", os.path.basename(test.rom)]
    folder = os.path.join(suite, os.path.dirname(test.rom))
    if "symbols" in draft.takes:
        test.want.symbols = write_file(suite, f"{draft.name}.sym", got.symbols or b"")
        words += ["--symbols", os.path.basename(test.want.symbols)]
    said = execute.call(words, folder, b"", SECONDS)
    if said.status != 0:
        raise Failure(f"{draft.name}: uxn dis ended with {said.status}: {said.err!r}")
    test.want.text = write_file(suite, f"{draft.name}.txt", said.out)
    return test


def make_test(draft: Draft, tools: Tools, suite: str) -> Test | None:
    if draft.level == "assembler":
        return make_assembler_test(draft, tools, suite)
    if draft.level == "disassembler":
        return make_disassembler_test(draft, tools, suite)
    return make_emulator_test(draft, tools, suite)


def text_disagreement(test: Test, tools: Tools, suite: str) -> list[str]:
    """Whether the text of a disassembly is not that of its ROM by the second assembler."""
    with tempfile.TemporaryDirectory(dir=tools.folder) as folder:
        source = tests.bytes_of(suite, test.want.text)
        got = execute.assemble("text.tal", source, None, tools.assembler, folder, SECONDS)
    wanted = tests.bytes_of(suite, test.rom).rstrip(b"\0")
    return [f"{test.name}: the second assembler makes another ROM of the text: {got.err!r}"] if got.rom != wanted else []


def disagreement(test: Test, tools: Tools, suite: str) -> list[str]:
    """What the second emulator or assembler gives otherwise."""
    if test.kind == "disassembler":
        return text_disagreement(test, tools, suite)
    # The second assembler goes once through the words, so it reports another of two faults.
    if test.is_of_assembler and (test.want.refused in PROFILE_KINDS or test.want.names):
        return []
    command = tools.assembler if test.is_of_assembler else tools.emulator
    result = execute.run_test(test, command, suite, SECONDS)
    if result.state != execute.FAILED:
        return []
    return [f"{test.name}: the second program differs", *("    " + line for line in result.said)]


def make_all(drafts: list[Draft], tools: Tools, suite: str, jobs: int) -> Iterator[tuple[Test | None, list[str]]]:
    """Makes each test, and says what is wrong with it: it differs from its case, or the second program gives something else."""

    def make(draft: Draft) -> tuple[Test | None, list[str]]:
        try:
            test = make_test(draft, tools, suite)
        except Failure as failure:
            return None, [failure.line]
        return test, disagreement(test, tools, suite) if test else []

    with ThreadPoolExecutor(jobs) as pool:
        yield from pool.map(make, drafts)
