"""Which instructions, ports and fault kinds are shown by how many tests: from runs of the second emulator."""
from __future__ import annotations

import os
import re
import tempfile
import textwrap
from collections import Counter
from collections.abc import Callable, Sequence
from concurrent.futures import ThreadPoolExecutor
from dataclasses import dataclass, field

from conform import execute, second, tests
from conform.cli import Failure
from conform.execute import Command
from conform.instructions import IMMEDIATE, MODES, NAMES, name_of
from conform.tests import Test

SECONDS = 30
# Where the driver puts its two routines.
ROUTINES = range(0xD000, 0xE000)


@dataclass
class Coverage:
    """For each row how many tests show it."""

    opcodes: Counter[int] = field(default_factory=Counter)
    reads: Counter[int] = field(default_factory=Counter)
    writes: Counter[int] = field(default_factory=Counter)
    faults: Counter[str] = field(default_factory=Counter)


def end_of_driver(suite: str, all_tests: list[Test]) -> int:
    """The address behind the driver: that of the table of cases, which is the same in all tests that have one."""
    source = next(test.source for test in all_tests if test.lines == "cases")
    with tempfile.TemporaryDirectory(prefix="conform-") as folder:
        command = second.second_assembler(os.path.join(tests.TOP, "second", "assembler"))
        values = {"source": os.path.join(suite, source), "rom": "made.rom", "symbols": "made.rom.sym"}
        execute.call(command.filled(values, []), folder, b"", SECONDS)
        symbols = execute.read_or_none(os.path.join(folder, "made.rom.sym")) or b""
    found = re.search(rb"(?s)(..)cases\0", symbols)
    return int.from_bytes(found[1], "big") if found else 0


def trace_of(test: Test, suite: str, emulator: str) -> list[tuple[str, int, int]]:
    """What a run came to: a letter, the address of the instruction, and the opcode or the port."""
    with tempfile.TemporaryDirectory(prefix="conform-") as folder:
        path = os.path.join(folder, "trace")
        words = second.second_command(emulator).words
        execute.run_emulator(test, Command((words[0], "--trace", path, *words[1:])), folder, suite, SECONDS)
        with open(path, encoding="ascii") as file:
            rows = [line.split() for line in file if line[0] in "xrw"]
    return [(row[0], int(row[1], 16), int(row[2], 16)) for row in rows]


def add_run(found: Coverage, test: Test, rows: list[tuple[str, int, int]], driver_end: int) -> None:
    """Counts a test once for each thing that its own code came to; the driver's code shows nothing."""
    if test.lines == "cases":
        rows = [row for row in rows if row[1] not in ROUTINES and not 0x100 <= row[1] < driver_end]
    for letter, counter in (("x", found.opcodes), ("r", found.reads), ("w", found.writes)):
        counter.update({row[2] for row in rows if row[0] == letter})


def measure(suite: str, emulator: str, jobs: int) -> Coverage:
    all_tests = tests.read(suite)
    driver_end = end_of_driver(suite, all_tests)
    found = Coverage()
    runs = [test for test in all_tests if not test.is_of_assembler]
    with ThreadPoolExecutor(jobs) as pool:
        for test, rows in zip(runs, pool.map(lambda test: trace_of(test, suite, emulator), runs)):
            add_run(found, test, rows, driver_end)
    found.faults.update(test.want.refused for test in all_tests if test.want.refused)
    return found


def fault_kinds() -> list[str]:
    """The kinds of faults that a source can have, by docs/uxntal.md; one of them no command gives."""
    path = os.path.join(tests.TOP, "..", "docs", "uxntal.md")
    if not os.path.isfile(path):
        raise Failure("the kinds of faults are those of docs/uxntal.md of the whole repository, which is not here", 2)
    with open(path, encoding="utf-8") as file:
        found = re.findall(r"(?m)^\| [\d, ]+ \| ([A-Z][A-Za-z, ]+) \|", file.read())
    return sorted({kind for cell in found for kind in cell.split(", ")} - {"IncludeHere"})


def rows_of(heads: Sequence[str], columns: Sequence[str], number: Callable[[int, int], int]) -> list[str]:
    """A block of text with a number for each row and column."""
    lines = ["".join([" " * len(heads[0]), *(f"{column:>5}" for column in columns)])]
    for row, head in enumerate(heads):
        lines.append(head + "".join(f"{number(row, column):5}" for column in range(len(columns))))
    return ["```text", *lines, "```"]


def instructions(counts: Counter[int]) -> list[str]:
    """A row for each operation, a column for each mode."""
    columns = ["-" if mode == "" else mode for mode in MODES]
    return rows_of(NAMES[1:], columns, lambda row, column: counts[32 * column + row + 1])


def ports(counts: Counter[int]) -> list[str]:
    """A row for each device, a column for each of its ports."""
    heads, columns = [f"{row:x}0" for row in range(16)], [f"{column:x}" for column in range(16)]
    return rows_of(heads, columns, lambda row, column: counts[16 * row + column])


def listed(counts: list[tuple[str, int]]) -> list[str]:
    """Names with their numbers, as a sentence."""
    return textwrap.wrap(", ".join(f"{name} {count}" for name, count in counts) + ".", 100)


def missing(found: Coverage) -> list[str]:
    """The rows that no test shows."""
    rows = [f"the instruction {code:02x} {name_of(code)}" for code in range(256) if not found.opcodes[code]]
    rows += [f"a read of the port {port:02x}" for port in range(256) if not found.reads[port]]
    rows += [f"a write of the port {port:02x}" for port in range(256) if not found.writes[port]]
    return rows + [f"the fault {kind}" for kind in fault_kinds() if not found.faults[kind]]


CLAIMS = """
## What the suite claims to find

A bug is found if it changes what one of these lines says, with the places of the command that the
line needs. With `{events}`, `{frames}`, `{samples}` and `--profile` all lines hold.

- **Processor**: each of the 256 instructions: its result over edge values, what it takes and leaves
  on both stacks, wraps of both pointers, of addresses and of the program counter, its jumps.
- **System and console**: pointers, state and status, stored ports, the debug text, fills and copies
  in and between all banks, their wraps, records of unknown operations and banks, arguments, input,
  its types and its end.
- **Screen**: sizes, both layers, pixels, fills, tiles of one and two bits, all blends, flips, auto,
  rows of tiles, edges of the screen, wraps of addresses, colours, the vector.
- **Sound**: pitches, lengths, envelopes, volumes, repeats, ends, position and output, vectors.
- **Controller, mouse, date and time**: each button, player, key and part, at edges.
- **Files**: reads, writes, appends, stats, listings, deletes, both devices, names of 1 to 253
  bytes, names that lead out.
- **Language**: each blank, number, name, reserved sign, rune, scope, comment, text, lambda, macro
  and include; addresses, distances, limits; each kind of fault; the ROM and the symbol file.
- **Disassembly**: the text of ROMs with and without a symbol file.

## What it does not show

- An instruction that is wrong for single values that are no edges. Random programs find these.
- Stores to places in memory that no sum and no program reads.
- Times, windows, real keyboards, real sound, a clock that runs, and more than some 1,200 frames.
- File names beyond 253 bytes or of other bytes than printable ASCII, and files beyond 64 kilobytes.
- The texts of messages, except a word and the form that the README names.
- Sources of more than four megabytes, and what a limit is where it is greater than `uxn`'s.
- Bugs that show only after several devices act together in an unusual order.

`conformance/planted` plants 351 bugs into the second programs, one after the other, in all that the
lines above name. The suite finds all of them. The bugs are by the authors of the suite, so bugs of
others are found less often.
"""


def page(found: Coverage) -> str:
    lines = [
        "# Coverage of the suite",
        "",
        "For authors of emulators, assemblers and tests: what the suite claims to find, and what not.",
        "After this page you know how many tests show each instruction, each port and each kind of fault.",
        "",
        "`conformance/coverage` writes this page from runs of the second emulator, and the gate holds it to",
        "them. A test counts once for a row. What runs the cases of the processor's tests does not count.",
        *CLAIMS.rstrip().split("\n"),
        "",
        "## Instructions",
        "",
        *instructions(found.opcodes),
        "",
        *listed([(name, found.opcodes[code]) for code, name in IMMEDIATE.items()]),
        "",
        "## Ports that are read",
        "",
        *ports(found.reads),
        "",
        "## Ports that are written",
        "",
        *ports(found.writes),
        "",
        "## Kinds of faults",
        "",
        *listed([(kind, found.faults[kind]) for kind in fault_kinds()]),
    ]
    return "\n".join(lines) + "\n"
