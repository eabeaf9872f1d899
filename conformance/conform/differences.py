"""What differs between what a test expects and what a run gave, as lines; the first line of a source that it came from."""
from __future__ import annotations

import re
from collections.abc import Iterator
from dataclasses import dataclass, field

from conform import tests
from conform.tests import Test, Tree

# What `uxn` says of a fault: a place, the kind and the word.
FAULT = re.compile(r"(?m)^source ((?:\S+ )?\d+:\d+: \w+: .*)$")


@dataclass
class Got:
    """What a run gave."""

    status: int | None
    out: bytes = b""
    err: bytes = b""
    after: Tree = field(default_factory=dict)
    frames: bytes | None = None
    picture: bytes | None = None
    samples: bytes | None = None
    rom: bytes | None = None
    symbols: bytes | None = None
    # The run of the repaired source of a refused one.
    twin: Got | None = None


def shown(data: bytes, most: int = 100) -> str:
    """Bytes as a line shows them."""
    text = data[:most].decode("ascii", errors="backslashreplace")
    text = "".join(sign if sign.isprintable() else f"\\x{ord(sign):02x}" for sign in text)
    return text + (" .." if len(data) > most else "")


def first_difference(wanted: bytes, got: bytes) -> int:
    for at, (a, b) in enumerate(zip(wanted, got)):
        if a != b:
            return at
    return min(len(wanted), len(got))


def line_of_source(test: Test, suite: str, wanted: bytes, number: int) -> str | None:
    """The line of the source that a line of the output or a byte of the ROM came from, by its number from 0."""
    lines = tests.bytes_of(suite, test.source).decode("latin-1").split("\n")
    if test.lines == "cases":
        rows = wanted.split(b"\n")
        label = b"@case-" + rows[number][:4] + b" " if number < len(rows) else b"@"
        found = [at for at, line in enumerate(lines, 1) if line.encode("latin-1").startswith(label)]
    else:
        found = list(test.lines[number : number + 1]) if isinstance(test.lines, list) else []
    return (
        f"{test.source}:{found[0]}: {lines[found[0] - 1].strip()[:160]}"
        if found and 0 < found[0] <= len(lines)
        else None
    )


def text_difference(test: Test, suite: str, name: str, wanted: bytes, got: bytes) -> list[str]:
    """The first line of an output that differs."""
    at = first_difference(wanted, got)
    number = wanted.count(b"\n", 0, at)
    rows = [text.split(b"\n")[number : number + 1] or [b""] for text in (wanted, got)]
    said = [
        f"{name}, line {number + 1}: wanted {shown(rows[0][0])}",
        f"{name}, line {number + 1}: got    {shown(rows[1][0])}",
    ]
    where = line_of_source(test, suite, wanted, number) if name == "output" else None
    return said + ([where] if where else [])


def binary_difference(name: str, wanted: bytes, got: bytes | None) -> list[str]:
    if got is None:
        return [f"{name}: wanted {len(wanted)} bytes, got none"]
    at = first_difference(wanted, got)
    return [
        f"{name}: wanted {wanted[at:at + 16].hex(' ') or 'the end'} at byte {at} of {len(wanted)}",
        f"{name}: got    {got[at:at + 16].hex(' ') or 'the end'} at byte {at} of {len(got)}",
    ]


def picture_difference(wanted: bytes, got: bytes | None) -> list[str]:
    """The first pixel that differs, where both are pictures of one size."""
    head = re.match(rb"P6\n(\d+) (\d+)\n255\n", wanted)
    if got is None or not head or got[: head.end()] != wanted[: head.end()]:
        return binary_difference("pictures", wanted, got)
    at = first_difference(wanted, got)
    size = head.end() + 3 * int(head[1]) * int(head[2])
    pixel = max(0, at % size - head.end()) // 3
    start = at - (at % size - head.end()) % 3
    return [
        f"picture {at // size + 1}, pixel ({pixel % int(head[1])}, {pixel // int(head[1])}): "
        f"wanted {wanted[start:start + 3].hex()}, got {got[start:start + 3].hex() or 'none'}"
    ]


def shown_file(data: str | None) -> str:
    return "a folder" if data is None else shown(tests.unpacked(data))


def after_difference(wanted: Tree, got: Tree) -> list[str]:
    said = []
    for path in sorted(wanted.keys() | got.keys()):
        if path not in got:
            said.append(f"files: {path} is not there")
        elif path not in wanted:
            said.append(f"files: {path} is there, and should not be")
        elif wanted[path] != got[path]:
            said.append(f"files: {path}: wanted {shown_file(wanted[path])}, got {shown_file(got[path])}")
    return said


def ended_by(status: int | None) -> str | None:
    """How a run ended that did not end itself."""
    if status is None:
        return None
    return f"it was ended by signal {-status}" if status < 0 else None


def of_emulator(test: Test, suite: str, got: Got, has_picture: bool) -> Iterator[str]:
    want = test.want
    for name, wanted, given in (("output", want.out, got.out), ("error output", want.err, got.err)):
        data = tests.bytes_of(suite, wanted)
        if wanted is not None and data != given:
            yield from text_difference(test, suite, name, data, given)
    if want.status is not None and want.status != got.status:
        yield ended_by(got.status) or f"exit status: wanted {want.status}, got {got.status}"
    if want.after is not None and want.after != got.after:
        yield from after_difference(want.after, got.after)
    if want.frames is not None:
        pictures = got.picture if has_picture else got.frames
        if (data := tests.bytes_of(suite, want.frames)) != pictures:
            yield from picture_difference(data, pictures)
    if want.samples is not None and (data := tests.bytes_of(suite, want.samples)) != got.samples:
        yield from binary_difference("samples", data, got.samples)


def of_rom(name: str, wanted: bytes, got: Got) -> list[str]:
    """What is wrong with the ROM of a source that has to assemble."""
    if got.status != 0:
        return [ended_by(got.status) or f"{name}: wanted a ROM, got the status {got.status}: {shown(got.err or got.out)}"]
    return [] if wanted == got.rom else binary_difference(f"{name}: ROM", wanted, got.rom)


def of_refusal(test: Test, suite: str, got: Got) -> Iterator[str]:
    """What is wrong with the refusal of a source, and with the ROM of its repaired twin."""
    want = test.want
    if got.status is not None and not 0 < got.status < 126:
        yield ended_by(got.status) or f"wanted a refusal ({want.refused}), got the status {got.status}"
    said = FAULT.search(got.err.decode(errors="backslashreplace"))
    if said and want.fault and said[1] != want.fault:
        yield f"fault: wanted {want.fault}"
        yield f"fault: got    {said[1]}"
    elif want.names and want.names.encode() not in got.err + got.out:
        yield f"wanted a refusal that names {want.names}, got {shown(got.err or got.out)}"
    if test.twin and got.twin:
        yield from of_rom("the source without the fault", tests.bytes_of(suite, test.twin.rom), got.twin)


def of_assembler(test: Test, suite: str, got: Got, has_symbols: bool) -> Iterator[str]:
    want = test.want
    if want.refused is not None:
        yield from of_refusal(test, suite, got)
        return
    data = tests.bytes_of(suite, want.rom)
    said = of_rom("the source", data, got)
    yield from said
    if said and got.status == 0:
        where = line_of_source(test, suite, b"", first_difference(data, got.rom or b""))
        yield from [where] if where else []
    elif not said and has_symbols and want.symbols and (data := tests.bytes_of(suite, want.symbols)) != got.symbols:
        yield from binary_difference("symbol file", data, got.symbols)


def of_disassembler(test: Test, suite: str, got: Got) -> Iterator[str]:
    if got.status != 0:
        yield ended_by(got.status) or f"exit status: wanted 0, got {got.status}: {shown(got.err)}"
    elif (data := tests.bytes_of(suite, test.want.text)) != got.out:
        yield from text_difference(test, suite, "text", data, got.out)
