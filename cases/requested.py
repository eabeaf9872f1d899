"""What a call requests of its folder, by the order of work in docs/commands.md: worked out from the command line, the files, and the
refusal that its case wants, and never from the program."""
from __future__ import annotations

import functools
import re
from dataclasses import dataclass, field

import phases
from stored import Case, Tree, above

LONGEST = 4194304
LONGEST_WORD = 255
# What parts words, as blanks.
BLANKS = b" " * 33 + bytes(range(33, 256))
DEEPEST = 15
MOST_FILES = 256
FLAGS = (b"--rom",)
OUTPUTS = {
    b"play": (b"--frames", b"--samples", b"--report"),
    b"debug": (b"--log", b"--frames", b"--samples", b"--report"),
    b"asm": (b"--out", b"--symbols", b"--listing"),
}
INPUTS = {
    b"play": (b"--script",),
    b"debug": (b"--symbols", b"--script", b"--commands"),
    b"dis": (b"--symbols",),
}
# The statuses with which an input of a kind is refused, and how their line begins.
REFUSALS = {
    "source": (131, b"source "),
    "rom": (134, b"rom: "),
    "setup": (139, b"setup "),
    "--symbols": (134, b"symbols "),
    "--script": (132, b"script "),
    "--commands": (133, b"commands "),
}


@dataclass
class Requested:
    """The paths whose contents are requested, there or not; the outputs that are tried; the root of a program that runs."""

    files: list[bytes] = field(default_factory=list)
    outputs: list[bytes] = field(default_factory=list)
    root: bytes | None = None


@dataclass
class Call:
    command: bytes
    file: bytes = b""
    options: dict[bytes, bytes] = field(default_factory=dict)

    def outputs(self) -> list[bytes]:
        return [self.options[name] for name in OUTPUTS.get(self.command, ()) if name in self.options]

    def inputs(self) -> list[tuple[str, bytes]]:
        is_rom = self.command == b"dis" or b"--rom" in self.options
        first = "setup" if self.command == b"line" else "rom" if is_rom else "source"
        return [(first, self.file)] + [(name.decode(), self.options[name]) for name in INPUTS.get(self.command, ()) if name in self.options]


class Stop(Exception):
    """Nothing is read behind this."""


def call_of(words: list[bytes]) -> Call:
    """A command line that is understood."""
    call, rest = Call(words[0]), iter(words[1:])
    for word in rest:
        name, is_joined, value = word.partition(b"=")
        if not word.startswith(b"--"):
            call.file = word
        elif word in FLAGS:
            call.options[word] = b""
        else:
            call.options[name] = value if is_joined else next(rest)
    return call


def clashes(one: bytes, other: bytes) -> bool:
    return one == other or one in above(other) or other in above(one)


def is_refused_by_words(call: Call) -> bool:
    """Whether the paths of a call alone say that an output has no place."""
    outputs, inputs = call.outputs(), [path for _, path in call.inputs()]
    root = call.options.get(b"--root")
    return any(output in inputs or root is not None and clashes(output, root) or any(clashes(output, other) for other in outputs[:at])
               for at, output in enumerate(outputs))


def is_path(text: bytes) -> bool:
    try:
        text.decode()
    except UnicodeDecodeError:
        return False
    names = text.split(b"/")
    return len(text) <= 255 and len(names) <= 16 and not {b"", b".", b".."} & set(names) and not re.search(rb"[\0-\x1f\x7f\\]", text)


def is_include(word: bytes) -> bool:
    return word.startswith(b"~") and len(word) > 1


def words_of(text: bytes) -> list[bytes]:
    """The words of a file; stops if one of them is faulty, or the file too long."""
    if len(text) > LONGEST:
        raise Stop
    if b"(" not in text and b")" not in text:
        words = text.translate(BLANKS).split()
        if any(len(word) > LONGEST_WORD for word in words):
            raise Stop
        return words
    try:
        return [word.text for word in phases.words_of(text)]
    except phases.Fault:
        raise Stop from None


@dataclass
class Piece:
    """Words of a file between two includes; or the path of an include."""

    words: list[bytes] = field(default_factory=list)
    length: int = 0
    path: bytes | None = None


@functools.lru_cache(maxsize=8)
def pieces_of(text: bytes) -> list[Piece]:
    """The words of a file, parted at its includes."""
    words, pieces, start = words_of(text), list[Piece](), 0
    places = [at for at, word in enumerate(words) if is_include(word)] if b"~" in text else []
    for at in [*places, len(words)]:
        part = words[start:at]
        if part:
            pieces.append(Piece(part, sum(map(len, part)) + len(part)))
        if at < len(words):
            pieces.append(Piece(path=words[at][1:]))
        start = at + 1
    return pieces


class Walk:
    """The files that a source includes, in order, and the words of them all, up to the piece with the first fault."""

    def __init__(self, tree: Tree, source: bytes):
        self.tree, self.files, self.parts, self.length = tree, [source], list[list[bytes]](), 0
        self.folder = source.rpartition(b"/")[0]
        self.is_whole = True
        try:
            self.visit(tree[source] or b"", 0)
        except Stop:
            self.is_whole = False

    @property
    def words(self) -> list[bytes]:
        return [word for part in self.parts for word in part]

    def visit(self, text: bytes, depth: int) -> None:
        for piece in pieces_of(text):
            if piece.path is not None:
                self.include(piece.path, depth + 1)
                continue
            self.parts.append(piece.words)
            self.length += piece.length
            if self.length > LONGEST and len(self.files) > 1:
                raise Stop

    def include(self, path: bytes, depth: int) -> None:
        full = self.folder + b"/" + path if self.folder else path
        if not is_path(path) or not is_path(full) or depth > DEEPEST or len(self.files) > MOST_FILES:
            raise Stop
        self.files.append(full)
        text = self.tree.get(full)
        if text is None:
            raise Stop
        self.visit(text, depth)


def is_faulty(walk: Walk) -> bool:
    """Whether a source is refused, by the slow assembler of this folder."""
    try:
        phases.assembled(b"\n".join(walk.words))
    except phases.Fault:
        return True
    return not walk.is_whole


def setup_paths(text: bytes) -> tuple[list[bytes], list[bytes]]:
    """The machines of a setup, and its script."""
    lines = [re.findall(rb"[^\t\r ]+", line) for line in text.split(b"\n")]
    named = [(line[0], line[1]) for line in lines if len(line) == 2]
    return [path for name, path in named if name == b"machine"], [path for name, path in named if name == b"script"]


def read_line(case: Case, setup: bytes, files: list[bytes]) -> bool:
    """The files of a setup; whether all of them are accepted."""
    if case.status == 139 and case.err != b"setup 0: Events\n":
        return False
    machines, scripts = setup_paths(setup)
    for path in machines:
        if case.tree.get(path) is None:
            files.append(path)
            return False
        walk = Walk(case.tree, path)
        files += walk.files
        if case.status == 131 and is_faulty(walk):
            return False
    files += scripts
    return case.status != 132 and all(case.tree.get(path) is not None for path in scripts)


def read_inputs(case: Case, call: Call, files: list[bytes]) -> bool:
    """The inputs of a call, one after the other; whether all of them are accepted."""
    for kind, path in call.inputs():
        files.append(path)
        data = case.tree.get(path)
        if data is None:
            return False
        if kind == "source":
            files += Walk(case.tree, path).files[1:]
        if kind == "setup":
            return read_line(case, data, files)
        status, start = REFUSALS[kind]
        if case.status == status and case.err.startswith(start):
            return False
    return True


def requested(case: Case) -> Requested:
    if case.status in (128, 129) or case.words[0] == b"gen":
        return Requested()
    call, files = call_of(case.words), []
    if is_refused_by_words(call) or not read_inputs(case, call, files):
        return Requested(files)
    outputs = call.outputs()
    if case.status == 135:
        return Requested(files, outputs[:outputs.index(case.err.removeprefix(b"output: ").rstrip(b"\n")) + 1])
    return Requested(files, outputs, call.options.get(b"--root"))


def named(case: Case) -> list[bytes]:
    """The paths that the command line, a setup and the sources name, whether they are requested or not."""
    found = [part for word in case.words for part in (word, word.partition(b"=")[2])]
    for path, data in case.tree.items():
        if data is not None and len(data) < 65536:
            folder = path.rpartition(b"/")[0]
            words = data.split()
            found += words[1:8:2] if words[:1] == [b"machine"] else []
            found += [folder + b"/" + word[1:] if folder else word[1:] for word in words if is_include(word)]
    return [path for path in dict.fromkeys(found) if is_path(path) and not path.startswith(b"-")]
