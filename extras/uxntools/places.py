"""Places of a program as a user names them: labels, addresses, lines of its files; and how they are shown."""
from __future__ import annotations

import os
import re

from uxntools import log, ports
from uxntools.cli import Failure
from uxntools.target import Program

DISTANCE = re.compile(r"(?P<label>.+)\+(?P<distance>[0-9a-f]{1,4})")
LINE = re.compile(r"(?P<path>.*):(?P<line>[0-9]{1,9})")
ADDRESS = re.compile(r"[0-9a-f]{4}")
# How many addresses are ports too.
PORTS = 0x100


def address_of(program: Program, text: str, path: str = "") -> int:
    """The address that a text names: `LABEL` or `@LABEL`, `LABEL+N` with a distance in hexadecimal, four
    hexadecimal digits, or `FILE:LINE`, where `:LINE` is one of the file `path`."""
    name = os.fsencode(text.removeprefix("@")).decode("latin-1")
    labels = program.labels.by_name
    if name in labels:
        return labels[name]
    if ADDRESS.fullmatch(text):
        return int(text, 16)
    distance = DISTANCE.fullmatch(name)
    if distance and distance["label"] in labels:
        return (labels[distance["label"]] + int(distance["distance"], 16)) & 0xFFFF
    line = LINE.fullmatch(text)
    if line:
        return address_of_line(program, line["path"] or path, int(line["line"]))
    raise Failure(f"there is no label {text}{suggestion(program, text)}")


def address_of_line(program: Program, path: str, line: int) -> int:
    """The first address of a line, or of the next one that has bytes."""
    if path not in program.files:
        raise Failure(f"there is no file {path} in this source")
    later = [row for row in program.rows if row.path == path and row.line >= line]
    if not later:
        raise Failure(f"{path} has no bytes at line {line} or behind it")
    return min(later, key=lambda row: (row.line, row.column, row.address)).address


def suggestion(program: Program, text: str) -> str:
    """Some labels that have the text in them, or end like it."""
    wanted = text.removeprefix("@").rpartition("/")[2].lower()
    found = [log.readable(name) for name in program.labels.by_name if wanted and wanted in name.lower()]
    return f"; there are {', '.join(found[:5])}" if found else ""


def of_address(program: Program, address: int) -> str:
    """The nearest label at or below an address, with the distance, as the debugger's log has it."""
    near = program.labels.nearest(address)
    return f"{log.readable(near[0])}+{near[1]:04x}" if near else ""


def is_port(program: Program, address: int) -> bool:
    """Whether the nearest label of an address is that of a device."""
    near = program.labels.nearest(address)
    return address < PORTS and near is not None and is_port_label(program, near[0])


def is_port_label(program: Program, name: str) -> bool:
    """Whether a label names a port: by the source, or by its name where there is none."""
    return name in program.ports if program.ports is not None else ports.is_of_device(name)


def refuse_port(program: Program, text: str, address: int) -> None:
    """Refuses the label of a device where the stores to a byte of memory are looked for."""
    name = text.removeprefix("@")
    distance = DISTANCE.fullmatch(name)
    label = os.fsencode(distance["label"] if distance else name).decode("latin-1")
    if address < PORTS and is_port_label(program, label):
        raise Failure(f"{name} is a port, and only memory is watched: `print {name}` in uxn-debug shows the port")


def note_of_ports(address: int) -> str:
    """What is said beside an address that is a port too, where nothing was found in memory."""
    return " (in memory; `ports` in uxn-debug shows the ports)" if address < PORTS else ""


def line_of(program: Program, address: int | None) -> tuple[str, int] | None:
    """The file and the line of an address."""
    row = None if address is None else program.by_address.get(address)
    return (row.path, row.line) if row else None


def source_line(program: Program, address: int | None) -> str:
    """The line of an address with its file and number; nothing where no word of the source gave its byte."""
    at = line_of(program, address)
    return f"{at[0]}:{at[1]}: {program.text(*at).strip()}" if at else ""
