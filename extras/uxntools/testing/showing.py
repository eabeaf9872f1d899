"""Showing what differs: texts as lines with their control bytes, other bytes from the first that differs, pictures
and sounds as PNG files."""
from __future__ import annotations

import difflib
import os
import re
from dataclasses import dataclass, field

from uxntools import files, pictures, samples
from uxntools.pictures import Picture
from uxntools.testing.comparing import Fault
from uxntools.testing.discovery import Test
from uxntools.testing.keeping import KEPT
from uxntools.testing.running import Result
from uxntools.testing.tables import TABLES

# How many lines, pictures and places are shown; all else is in the files that are kept.
LINES = 40
LONG_TEXT = 4000
# How many bytes two texts have together at most that are compared line by line.
MOST_TEXT = 4_000_000
PICTURES = 4
PLACES = 4
LONG_LINE = 200


@dataclass
class Shown:
    """How a fault is shown: its lines, and the files that are kept of it."""

    lines: list[str]
    files: dict[str, bytes] = field(default_factory=dict)


def visible(line: str) -> str:
    """A line of text with its control signs made visible, as \\x1b."""
    shown = "".join(sign if sign.isprintable() else _escape(sign) for sign in line)
    return shown if len(shown) <= LONG_LINE else f"{shown[:LONG_LINE]}.. ({len(shown)} signs)"


def _escape(sign: str) -> str:
    named = {"\t": "\\t", "\r": "\\r", "\n": "\\n"}.get(sign)
    return named or (f"\\x{ord(sign):02x}" if ord(sign) < 256 else f"\\u{ord(sign):04x}")


def is_text(data: bytes) -> bool:
    """Whether bytes are shown as text: UTF-8 without zero bytes, most of which are no control bytes."""
    try:
        text = data.decode()
    except UnicodeDecodeError:
        return False
    controls = len(re.findall(r"[\x00-\x08\x0e-\x1a\x1c-\x1f\x7f]", text))
    return "\0" not in text and controls * 10 <= len(text)


def _text_lines(data: bytes) -> list[str]:
    lines = [visible(line) for line in data.decode().split("\n")]
    return lines[:-1] if lines[-1] == "" else [*lines[:-1], lines[-1] + "\\ (without a newline at its end)"]


def text_difference(wanted: bytes, got: bytes) -> list[str]:
    """The difference of two texts, line by line: `-` is wanted, `+` came."""
    before, after = _text_lines(wanted), _text_lines(got)
    if len(before) + len(after) > LONG_TEXT:
        before, after = _around(before, after)
    return [line.rstrip("\n") for line in list(difflib.unified_diff(before, after, lineterm="", n=2))[2:]]


def _around(before: list[str], after: list[str]) -> tuple[list[str], list[str]]:
    """The lines of two long texts around the first that differ."""
    first = next((at for at, (old, new) in enumerate(zip(before, after)) if old != new), min(len(before), len(after)))
    start = max(0, first - 2)
    head = [f"(line {start + 1} on)"]
    return head + before[start : start + LINES // 2], head + after[start : start + LINES // 2]


def first_difference(wanted: bytes, got: bytes) -> int:
    """The place of the first byte that differs, from 0; the shorter length where one is a prefix of the other."""
    least, most = 0, min(len(wanted), len(got))
    while least < most:
        middle = (least + most + 1) // 2
        if wanted[:middle] == got[:middle]:
            least = middle
        else:
            most = middle - 1
    return least


def binary_difference(wanted: bytes, got: bytes) -> list[str]:
    """The first byte that differs, and the bytes around it."""
    at = first_difference(wanted, got)
    row = at // 16 * 16
    ends = [f"{data[at]:02x}" if at < len(data) else "the end" for data in (wanted, got)]
    return [
        f"byte {at} ({at:04x}) differs: wanted is {ends[0]}, it is {ends[1]}; {len(wanted)} bytes are wanted, "
        f"{len(got)} came",
        f"- {row:04x} {wanted[row:row + 16].hex(' ')}",
        f"+ {row:04x} {got[row:row + 16].hex(' ')}",
    ]


def bytes_difference(wanted: bytes, got: bytes) -> list[str]:
    is_short = len(wanted) + len(got) <= MOST_TEXT
    has_lines = is_short and is_text(wanted) and is_text(got)
    return text_difference(wanted, got) if has_lines else binary_difference(wanted, got)


def _differing_places(wanted: Picture, got: Picture) -> list[tuple[int, int]]:
    """The places, column and row from 0, of the pixels that differ in two pictures of one size."""
    found = []
    for y, (row, other) in enumerate(zip(wanted.rows(), got.rows())):
        if row != other:
            found += [(x, y) for x in range(wanted.width) if row[3 * x : 3 * x + 3] != other[3 * x : 3 * x + 3]]
    return found


def _difference_picture(got: Picture, places: list[tuple[int, int]]) -> Picture:
    """The picture that came in pale grey, with the places that differ in red."""
    pixels = bytearray()
    for at in range(0, len(got.pixels), 3):
        pale = 192 + (got.pixels[at] + got.pixels[at + 1] + got.pixels[at + 2]) // 12
        pixels += bytes((pale, pale, pale))
    for x, y in places:
        at = 3 * (y * got.width + x)
        pixels[at : at + 3] = b"\xe0\x00\x20"
    return Picture(got.width, got.height, bytes(pixels))


def _places_lines(wanted: Picture, got: Picture, places: list[tuple[int, int]]) -> list[str]:
    columns, rows = [x for x, _ in places], [y for _, y in places]
    lines = [
        f"  {len(places)} of {wanted.width * wanted.height} pixels differ, in columns {min(columns)} to {max(columns)}"
        f" and rows {min(rows)} to {max(rows)}"
    ]
    for x, y in places[:PLACES]:
        at = 3 * (y * wanted.width + x)
        lines.append(
            f"  column {x}, row {y}: wanted is {wanted.pixels[at:at + 3].hex()}, it is {got.pixels[at:at + 3].hex()}"
        )
    return lines


def _one_picture(number: int, wanted: Picture, got: Picture, shown: Shown) -> None:
    scale = max(1, min(8, 480 // max(wanted.width, got.width, 1)))
    name = f"picture-{number}"
    if (wanted.width, wanted.height) == (got.width, got.height):
        places = _differing_places(wanted, got)
        shown.lines += [
            f"picture {number} differs: see {name}-wanted.png, {name}-got.png, {name}-difference.png",
            *_places_lines(wanted, got, places),
        ]
        shown.files[f"{name}-difference.png"] = pictures.png(_difference_picture(got, places).scaled(scale))
    else:
        shown.lines.append(
            f"picture {number} has {got.width} by {got.height} pixels; wanted are {wanted.width} by {wanted.height}:"
            f" see {name}-wanted.png, {name}-got.png"
        )
    shown.files[f"{name}-wanted.png"] = pictures.png(wanted.scaled(scale))
    shown.files[f"{name}-got.png"] = pictures.png(got.scaled(scale))


def picture_difference(wanted: bytes, got: bytes) -> Shown:
    """Which pictures differ, and where; each that is shown as PNG files of what is wanted, what came, and the
    difference."""
    shown = Shown([])
    before, cut_before = pictures.whole_pictures(wanted)
    after, cut_after = pictures.whole_pictures(got)
    if len(before) != len(after):
        shown.lines.append(f"pictures that came: {len(after)}; wanted: {len(before)}")
    if cut_before < len(wanted) or cut_after < len(got):
        shown.lines.append(
            f"the wanted file is no row of pictures from byte {cut_before} on"
            if cut_before < len(wanted)
            else f"what came is cut at byte {cut_after}"
        )
    numbers = [at for at, (old, new) in enumerate(zip(before, after)) if old != new]
    for at in numbers[:PICTURES]:
        _one_picture(at + 1, before[at], after[at], shown)
    if len(numbers) > PICTURES:
        shown.lines.append(f"and more, {len(numbers)} pictures in all, up to picture {numbers[-1] + 1}")
    for at in range(len(before), min(len(after), len(before) + PICTURES)):
        shown.files[f"picture-{at + 1}-got.png"] = pictures.png(after[at])
    return shown


def samples_difference(wanted: bytes, got: bytes) -> Shown:
    """The first moment at which two sounds differ, with a picture of both waves around it."""
    moment = samples.first_difference(wanted, got)
    if moment is None:
        return Shown([])
    pairs = ["left {}, right {}".format(*pair) if pair else "the end" for pair in (moment.wanted, moment.got)]
    lines = [
        f"from frame {moment.frame}, pair {moment.pair % samples.FRAME} of it ({moment.seconds:.4f} s) on: "
        f"wanted is {pairs[0]}; it is {pairs[1]}",
        f"{len(wanted) // samples.PAIR} pairs are wanted, {len(got) // samples.PAIR} came;"
        " see samples.png (wanted is blue, what came is orange, grey is both), samples-got.wav, samples-wanted.wav",
    ]
    return Shown(
        lines,
        {
            "samples.png": pictures.png(samples.waves(wanted, got, moment.pair)),
            "samples-wanted.wav": samples.wav(wanted[: len(wanted) // 4 * 4]),
            "samples-got.wav": samples.wav(got[: len(got) // 4 * 4]),
        },
    )


def show(fault: Fault) -> Shown:
    """A fault as lines, the first of which says what is wrong."""
    head = f"{fault.part}: {fault.line}"
    if fault.wanted is None or fault.got is None:
        return Shown([head, *("  " + line for line in fault.more)])
    if fault.part == "ppm":
        inner = picture_difference(fault.wanted, fault.got)
    elif fault.part == "samples":
        inner = samples_difference(fault.wanted, fault.got)
    else:
        inner = Shown(bytes_difference(fault.wanted, fault.got))
        inner.files[f"{fault.part}.diff"] = "".join(line + "\n" for line in inner.lines).encode(
            "utf-8", "surrogateescape"
        )
        if len(inner.lines) > LINES:
            inner.lines[LINES:] = [f".. ({len(inner.lines) - LINES} lines more)"]
    return Shown([head, *("  " + line for line in inner.lines)], inner.files)


def folder_of(test: Test, kind: str) -> str:
    """The folder in which what came of a test is kept, from its project's: of one that failed, or of what was
    recorded."""
    return os.path.join(KEPT, kind, test.stem.removeprefix(f"{TABLES}/").replace("/", "."))


def keep(test: Test, result: Result | None, shown: list[Shown], kind: str = "failed") -> str:
    """Keeps what came of a test, and the files that show it, in a folder of its own; the path is the answer."""
    folder = folder_of(test, kind)
    forget(test, kind)
    files.make_folder(folder, test.folder)
    kept: dict[str, bytes] = {}
    for it in shown:
        for name, data in it.files.items():
            kept[name] = kept.get(name, b"") + data if name.endswith(".diff") else data
    if result:
        kept.update(result.parts)
        kept.update((f"after/{path}", data) for path, data in (result.after or {}).items())
    for name, data in kept.items():
        path = os.path.join(folder, name)
        if "/" in name:
            files.make_folder(os.path.dirname(path), test.folder)
        files.write(path, data, test.folder)
    return os.path.relpath(os.path.join(test.folder, folder))


def forget(test: Test, kind: str = "failed") -> None:
    if os.path.lexists(os.path.join(test.folder, folder_of(test, kind))):
        files.remove_folder(folder_of(test, kind), test.folder)
