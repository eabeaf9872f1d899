"""uxnasm: a source to a ROM and its symbol file."""
from __future__ import annotations

import os

from uxntools import plainfiles, signs
from uxntools.dropins import FAULT, Failure, call, limit_files, say, wrong

TYPE_CHECKING = False  # as `typing` has it, which takes long to load
if TYPE_CHECKING:
    from collections.abc import Iterable, Iterator

SETTINGS, INCLUDE_ROOT = "uxn-test.toml", b"include-from"
# How many files and bytes a source is read with; `uxn` takes 257, and 4,194,304.
MOST_FILES, MOST_BYTES = 600, 8_388_608
BLANKS = bytes.maketrans(bytes(range(0x20)), b" " * 0x20)


def words_of(data: bytes) -> Iterator[tuple[int, bytes]]:
    """The words of a source without its comments, each with its place."""
    depth = at = 0
    for word in data.translate(BLANKS).split(b" "):
        if word and depth:
            depth += (word == b"(") - (word == b")")
        elif word[:1] == b"(":
            depth = 1
        elif word:
            yield at, word
        at += len(word) + 1


def stand_in(name: bytes) -> bytes:
    """A path that `uxn` takes in place of one with `..`, `.`, an empty part or a leading `/`; it is as long."""
    name = b"/".join(b"_" * len(part) if part in (b".", b"..") else part for part in name.split(b"/"))
    last = len(name) - 1
    is_odd = [sign == 0x2F and (at in (0, last) or name[at + 1] == 0x2F) for at, sign in enumerate(name)]
    return bytes(0x5F if odd else sign for sign, odd in zip(name, is_odd))


def include_root(folder: str) -> str | None:
    """The include root of the project of a folder, if it has one."""
    place = os.path.abspath(folder)
    while True:
        path = os.path.join(place, SETTINGS)
        if plainfiles.is_file(path):
            data = plainfiles.read(path, plainfiles.SETTINGS)
            value = plain_setting(data)
            if value is None and INCLUDE_ROOT in data:
                return _root_of_project(folder)
            if value is not None:
                return os.path.normpath(os.path.join(place, value))
        above = os.path.dirname(place)
        if above == place:
            return None
        place = above


def plain_setting(data: bytes) -> str | None:
    """The path that a line `include-from = "PATH"` in the first lines of the settings has, if it is plain: a file that
    has it otherwise takes longer to read."""
    for line in data.split(b"\n"):
        name, _, value = line.partition(b"=")
        text = value.strip()
        if name.strip() == INCLUDE_ROOT and text[:1] + text[-1:] == b'""':
            path = text[1:-1].decode("latin-1")
            is_plain = path.replace("/", "").replace("-", "").replace("_", "").isalnum() and path.isascii()
            return path if path == "." or is_plain and not path.startswith("/") else None
        if line.strip() and not line.startswith(b"#"):
            return None
    return None


def _root_of_project(folder: str) -> str | None:
    from uxntools import includes

    project = includes.project_of(folder)
    return project.root if project else None


class Mirror:
    """A folder with copies of a source and of what it includes. An include word that `uxn` would not take has a
    stand-in there, which is as long, so that every word keeps its line and column."""

    def __init__(self, folder: str, path: str) -> None:
        self.folder = folder
        self.path = path
        root = include_root(os.path.dirname(path))
        self.begin = os.path.relpath(root) if root else ""
        self.names: dict[bytes, bytes] = {}
        self.order: list[bytes] = []
        self.macros = self.size = 0
        copies = [(b"", self._copy(path))]
        for name in self._names_to_come():
            if plainfiles.is_file(self.file_of(name)):
                copies.append((stand_in(name), self._copy(self.file_of(name))))
        for name, data in copies[1:]:
            self._write(name, data)
        self.main = self.unused("main.tal")
        self._write(self.main.encode(), copies[0][1])

    def file_of(self, name: bytes) -> str:
        """The file that an include word names: its path begins at the current folder, or at the include root."""
        path = os.path.join(self.begin, os.fsdecode(name))
        return path.removeprefix("./") if self.begin == "." else path

    def _names_to_come(self) -> Iterator[bytes]:
        """The names of included files, each once; more come while they are read."""
        done = 0
        while done < min(len(self.order), MOST_FILES) and self.size <= MOST_BYTES:
            yield self.order[done]
            done += 1

    def _copy(self, path: str) -> bytes:
        """The bytes of a file, with stand-ins; the names that it includes and the macros that it defines are noted."""
        data = plainfiles.read(path)
        self.size += len(data)
        parts, at = [], 0
        for start, word in words_of(data):
            if word[:1] == b"%":
                self.macros += 1
            elif word[:1] == b"~" and len(word) > 1:
                parts += [data[at : start + 1], self._noted(word[1:])]
                at = start + len(word)
        return b"".join(parts) + data[at:]

    def _noted(self, name: bytes) -> bytes:
        short = stand_in(name)
        if short not in self.names:
            self.order.append(name)
        other = self.names.setdefault(short, name)
        if other != name:
            raise Failure(f"~{os.fsdecode(name)} and ~{os.fsdecode(other)} cannot both be included")
        return short

    def _write(self, name: bytes, data: bytes) -> None:
        plainfiles.put(plainfiles.make_inner(self.folder, os.fsdecode(name)), data)

    def unused(self, name: str) -> str:
        """A name like this one that nothing in the folder has."""
        while os.path.lexists(os.path.join(self.folder, name)):
            name = f"_{name}"
        return name

    def name_of(self, copy: str) -> str:
        return os.fsdecode(self.names.get(os.fsencode(copy), os.fsencode(copy)))

    def line(self, refusal: bytes) -> str:
        """The line of a refused source as editors read it, with the file before the place."""
        from uxntools.program import Done

        fault = Done(131, b"", refusal).fault
        if fault is None:
            return os.fsdecode(refusal).rstrip("\n")
        word = f"~{self.name_of(fault.word[1:])}" if fault.word.startswith("~") else fault.word
        path = self.file_of(os.fsencode(self.name_of(fault.path))) if fault.path else self.path
        return f"{path}:{fault.line}:{fault.column}: {fault.kind}: {word}"


def _look_at_outputs(mirror: Mirror, outputs: list[str]) -> None:
    """Refuses an output that is a source."""
    for name in [mirror.path, *map(mirror.file_of, mirror.names.values())]:
        if any(os.path.exists(made) and os.path.exists(name) and os.path.samefile(made, name) for made in outputs):
            raise Failure(f"{name} is a source, and is not written over")


def count_labels(parts: Iterable[bytes]) -> int:
    """How many labels a symbol file has, which comes in parts: a zero byte ends each, past its address."""
    labels, skip = 0, 2
    for part in parts:
        at = 0
        while at < len(part):
            step = min(skip, len(part) - at)
            at, skip = at + step, skip - step
            if skip:
                break
            end = part.find(b"\0", at)
            if end < 0:
                break
            labels, at, skip = labels + 1, end + 1, 2
    return labels


def assemble(words: list[str]) -> int:
    """Writes the ROM of a source and its symbol file, and prints what they hold."""
    if len(words) != 2:
        raise wrong("uxnasm", "a source and the file for its ROM are required")
    path, rom = words
    with plainfiles.OwnFolder("uxnasm") as folder:
        mirror = Mirror(folder, path)
        _look_at_outputs(mirror, [rom, f"{rom}.sym"])
        made, symbols, errors = (mirror.unused(name) for name in ("made.rom", "made.sym", "made.err"))
        with plainfiles.opened(os.path.join(folder, errors)) as taken:
            options = ["asm", mirror.main, "--out", made, "--symbols", symbols]
            status = call(options, folder, taken.fileno(), limit_files)
        if status:
            said = mirror.line(plainfiles.read(os.path.join(folder, errors), plainfiles.OUTPUT))
            return say(signs.shown(said) or f"uxnasm: uxn ended with {status}", FAULT)
        data = plainfiles.read(os.path.join(folder, made), plainfiles.ROM)
        plainfiles.write(rom, data)
        plainfiles.move(os.path.join(folder, symbols), f"{rom}.sym")
        labels = count_labels(plainfiles.parts(os.path.join(folder, symbols)))
    used = f"{len(data)} bytes({len(data) / 652.80:.2f}% used)"
    print(f"Assembled {signs.shown(rom)} in {used}, {labels} labels, {mirror.macros} macros.")
    return 0
