"""The library of cases: reads a case in the form of cases/README.md, makes its files, and says how a run differs from it.

All tools that use cases read them here: cases/run, cases/isolation, the tests of the tools, and conformance/make."""
from __future__ import annotations

import glob
import hashlib
import os
import re
import shutil
from dataclasses import dataclass, field

CASES = os.path.dirname(os.path.realpath(__file__))
TOP = os.path.dirname(CASES)
# The contents of each file, and None for each folder, by paths.
Tree = dict[bytes, "bytes | None"]
ESCAPE = re.compile(rb"\\([nrt\\]|0[0-7]{1,3})")
SIGNS = {b"n": b"\n", b"r": b"\r", b"t": b"\t", b"\\": b"\\"}
MAKES = (b"folder", b"file", b"line", b"part", b"hex", b"copy", b"long", b"blanks", b"filled", b"entries")
EXPECTS = (b"after", b"afterline", b"afterhex", b"aftercopy", b"aftersum", b"gone")


class FormError(ValueError):
    """A line that is not in the form of a case."""


@dataclass
class Case:
    """A call of the program, the files that it begins with, and all that it must leave."""

    name: str
    tree: Tree = field(default_factory=dict)
    words: list[bytes] = field(default_factory=list)
    status: int = 0
    err: bytes = b""
    about: str = ""
    out: bytes = b""
    out_sum: str = ""
    after: Tree = field(default_factory=dict)
    # The SHA-256 sums of files, for which `after` has no bytes.
    sums: dict[bytes, str] = field(default_factory=dict)


@dataclass
class Outcome:
    """What a run left."""

    status: int
    out: bytes
    err: bytes
    after: Tree


def unescaped(text: bytes) -> bytes:
    return ESCAPE.sub(lambda found: SIGNS.get(found[1]) or bytes([int(found[1], 8) & 255]), text) if b"\\" in text else text


def above(path: bytes) -> list[bytes]:
    """The folders that a path lies in, the outermost first."""
    names = path.split(b"/")
    return [b"/".join(names[:count]) for count in range(1, len(names))]


def put(tree: Tree, path: bytes, data: bytes | None) -> None:
    for folder in above(path):
        tree[folder] = None
    tree[path] = data


def append(tree: Tree, path: bytes, data: bytes) -> None:
    put(tree, path, (tree.get(path) or b"") + data)


def remove(tree: Tree, path: bytes) -> None:
    """Takes a file out, or a folder with all that it has."""
    for other in [other for other in tree if other == path or other.startswith(path + b"/")]:
        del tree[other]


def bytes_of(path: str | bytes) -> bytes:
    with open(path, "rb") as file:
        return file.read()


def source_of(text: bytes) -> bytes:
    """The path of a file or folder of the repository."""
    return os.path.join(os.fsencode(TOP), text)


def copy(tree: Tree, path: bytes, source: bytes) -> None:
    """Puts a file or folder in place of what a tree has there."""
    remove(tree, path)
    if not os.path.isdir(source):
        put(tree, path, bytes_of(source))
        return
    put(tree, path, None)
    for name in os.listdir(source):
        copy(tree, path + b"/" + name, source + b"/" + name)


def make(tree: Tree, kind: bytes, path: bytes, text: bytes) -> None:
    """Makes what a line says that is there before."""
    count, _, more = text.partition(b" ")
    if kind == b"folder":
        put(tree, path, None)
    elif kind == b"file":
        put(tree, path, unescaped(text))
    elif kind == b"line":
        append(tree, path, text + b"\n")
    elif kind == b"part":
        append(tree, path, bytes_of(os.path.join(os.fsencode(CASES), b"parts", text)).rstrip(b"\n") + b"\n")
    elif kind == b"hex":
        append(tree, path, bytes.fromhex(more.decode()) * int(count))
    elif kind == b"filled":
        append(tree, path, more * int(count))
    elif kind in (b"long", b"blanks"):
        end = unescaped(more)
        put(tree, path, (b"\0" if kind == b"long" else b" ") * (int(count) - len(end)) + end)
    elif kind == b"entries":
        put(tree, path, None)
        for number in range(1, int(count) + 1):
            put(tree, path + b"/%d" % number, b"")
    else:
        copy(tree, path, source_of(text))


def expect(case: Case, kind: bytes, path: bytes, text: bytes, begun: set[bytes]) -> None:
    """Takes a line that says what is there afterwards; `begun` has the files that such lines began."""
    if kind in (b"afterline", b"afterhex"):
        if path not in begun:
            put(case.after, path, b"")
        count, _, digits = text.partition(b" ")
        append(case.after, path, text + b"\n" if kind == b"afterline" else bytes.fromhex(digits.decode()) * int(count))
    elif kind == b"after":
        put(case.after, path, unescaped(text))
    elif kind == b"aftercopy":
        copy(case.after, path, source_of(text))
    elif kind == b"aftersum":
        put(case.after, path, None)
        case.sums[path] = text.decode()
    else:
        remove(case.after, path)
    begun.add(path)


@dataclass
class Reader:
    """A case in the making."""

    case: Case
    # The file that the lines below a `text` go to.
    block: bytes = b""
    outs: list[bytes] = field(default_factory=list)
    later: list[tuple[bytes, bytes, bytes]] = field(default_factory=list)

    def take(self, line: bytes) -> None:
        if self.block and line.startswith(b"    "):
            append(self.case.tree, self.block, line[4:] + b"\n")
            return
        self.block = b""
        kind, _, text = line.partition(b" ")
        if not line:
            return
        if kind.startswith(b"#"):
            self.case.about = self.case.about or line.lstrip(b"# ").decode(errors="backslashreplace")
        elif not self.take_call(kind, text):
            self.take_path(kind, text)

    def take_call(self, kind: bytes, text: bytes) -> bool:
        """Takes a line on the call, its status and its outputs; answers whether it is one."""
        case = self.case
        if kind == b"word":
            case.words.append(unescaped(text))
        elif kind == b"status":
            case.status = int(text)
        elif kind == b"out":
            self.outs.append(text)
        elif kind == b"err":
            case.err += unescaped(text)
        elif kind == b"outsum":
            case.out_sum = text.decode()
        elif kind == b"outcopy":
            case.out += bytes_of(source_of(text))
        elif kind == b"errcopy":
            case.err += bytes_of(source_of(text))
        else:
            return False
        return True

    def take_path(self, kind: bytes, text: bytes) -> None:
        """Takes a line on a file or folder."""
        path, _, more = text.partition(b" ")
        path = unescaped(path)
        if kind == b"text":
            self.block = path
        elif kind in MAKES:
            make(self.case.tree, kind, path, more)
        elif kind in EXPECTS:
            self.later.append((kind, path, more))
        elif kind != b"start":
            raise FormError(f"a line begins with '{kind.decode(errors='backslashreplace')}'")

    def end(self) -> Case:
        case, begun = self.case, set[bytes]()
        case.out += unescaped(b"".join(self.outs))
        case.after = dict(case.tree)
        for kind, path, text in self.later:
            expect(case, kind, path, text, begun)
        return case


def parsed(name: str, text: bytes) -> Case:
    """The case of a text; a line that is not in the form is a FormError. A line `start` is its caller's affair."""
    reader = Reader(Case(name))
    for number, line in enumerate(text.split(b"\n"), 1):
        try:
            reader.take(line)
        except (ValueError, OSError) as error:
            raise FormError(f"line {number}: {error}") from None
    return reader.end()


def name_of(path: str) -> str:
    """The name of a case: its path below cases/, or below the repository, without its ending."""
    for folder in (CASES, TOP):
        if os.path.realpath(path).startswith(folder + os.sep):
            return os.path.relpath(os.path.realpath(path), folder).removesuffix(".case")
    return path.removesuffix(".case")


def read(path: str) -> Case:
    return parsed(name_of(path), bytes_of(path))


def below(folder: str) -> list[str]:
    return sorted(glob.glob(os.path.join(glob.escape(folder), "**", "*.case"), recursive=True))


def find(name: str) -> list[str]:
    """The paths of the cases that a name means: a case, a folder of cases, or a path of one; none without one."""
    name = name.rstrip("/")
    here = os.path.join(CASES, name)
    if os.path.isdir(here) or os.path.isdir(name):
        return below(here if os.path.isdir(here) else name)
    for path in (name, here + ".case"):
        if os.path.isfile(path):
            return [path]
    return [path for path in below(CASES) if path.endswith(f"/{name}.case")]


def write_tree(tree: Tree, place: bytes) -> None:
    """Makes a new folder with what a tree has."""
    os.makedirs(place)
    for path in sorted(path for path, data in tree.items() if data is None):
        os.mkdir(os.path.join(place, path))
    for path, data in tree.items():
        if data is not None:
            with open(os.path.join(place, path), "wb", buffering=0) as file:
                file.write(data)


def read_tree(place: bytes, prefix: bytes = b"") -> Tree:
    tree: Tree = {}
    with os.scandir(place) as entries:
        for entry in entries:
            path = prefix + entry.name
            if entry.is_dir(follow_symlinks=False):
                tree[path] = None
                tree.update(read_tree(entry.path, path + b"/"))
            else:
                tree[path] = bytes_of(entry.path)
    return tree


def remove_tree(place: bytes) -> None:
    shutil.rmtree(place, ignore_errors=True)


def shown(data: bytes | None, most: int = 300) -> str:
    """Bytes as a message has them, on one line."""
    if data is None:
        return "a folder"
    text = data[:most].decode(errors="backslashreplace").replace("\n", "\\n")
    return "".join(sign if sign.isprintable() else f"\\x{ord(sign):02x}" for sign in text) + (" .." if len(data) > most else "")


def has_sum(data: bytes | None, wanted: str) -> bool:
    return data is not None and hashlib.sha256(data).hexdigest() == wanted


def output_faults(case: Case, outcome: Outcome) -> list[str]:
    found = []
    outs = (("out", case.out, outcome.out), ("err", case.err, outcome.err))
    for name, expected, given in outs:
        if expected != given and not (name == "out" and case.out_sum and has_sum(given, case.out_sum)):
            found += [f"{name} has: {shown(given)}", f"expected: {shown(expected)}"]
    return found


def tree_faults(case: Case, after: Tree) -> list[str]:
    """What differs of the files, at most ten lines of it."""
    found = []
    for path in sorted(case.after.keys() | after.keys()):
        name = shown(path)
        if path not in after:
            found.append(f"{name} is not there")
        elif path in case.sums:
            found += [] if has_sum(after[path], case.sums[path]) else [f"{name} has another sum than {case.sums[path]}"]
        elif path not in case.after:
            found.append(f"{name} is there and was not expected: {shown(after[path], 60)}")
        elif case.after[path] != after[path]:
            found += [f"{name} has: {shown(after[path])}", f"expected: {shown(case.after[path])}"]
    return found[:10]


def faults(case: Case, outcome: Outcome) -> list[str]:
    """How a run differs from its case: lines, none if it does not."""
    found = [] if outcome.status == case.status else [f"status {outcome.status} in place of {case.status}"]
    return found + output_faults(case, outcome) + tree_faults(case, outcome.after)
