"""Runs of untrusted programs: what a call of `uxn` names is looked at, copied to a scratch folder, and run there."""
from __future__ import annotations

import os
import re
import resource
import shutil
import signal
import stat
import subprocess
import sys
import threading
from collections.abc import Iterator
from contextlib import suppress
from dataclasses import dataclass, field
from typing import IO

from uxntools import attached, cli, facts, files, includes, program, source
from uxntools.cli import Failure
from uxntools.files import Kind
from uxntools.program import Done

NOTHING_WAS_RUN = 201
LIMIT_WAS_MET = 202
FILES_FAILED = 136
# How long any input is at most: that is a symbol file. And how often a run is looked at, in seconds.
MOST_INPUT = files.SYMBOLS.most
PAUSE = 0.05
# Nothing of the system, no other process, no network, no terminal, no rights, no environment; it ends with its caller.
BUBBLEWRAP = "--unshare-all --die-with-parent --new-session --cap-drop ALL --clearenv"
# Where a file of the C library may lie, as `ldd` names it.
LIBRARY = re.compile(r"(?:=> )?(/[^ ]+) \(0x")


class Refused(Failure):
    def __init__(self, line: str) -> None:
        super().__init__(line, NOTHING_WAS_RUN)


@dataclass(frozen=True)
class Limits:
    """The limits of a run: seconds of processor time, bytes of memory, of a file, of the root and the outputs together,
    and of what is printed, and files beneath the root."""

    seconds: int
    memory: int
    size: int
    files: int
    total: int
    printed: int

    def apply(self) -> None:
        """Sets the limits of the process that becomes `uxn`. A write past the size fails: no signal ends it."""
        resource.setrlimit(resource.RLIMIT_CPU, (self.seconds, self.seconds + 1))
        for what, most in (
            (resource.RLIMIT_AS, self.memory),
            (resource.RLIMIT_FSIZE, self.size),
            (resource.RLIMIT_CORE, 0),
        ):
            resource.setrlimit(what, (most, most))
        signal.signal(signal.SIGXFSZ, signal.SIG_IGN)


@dataclass
class Call:
    """The files that the words of a call name. Inputs are by the names that the call has for them: a file that a source
    includes from the include root of its project has another name than its path."""

    words: list[str]
    inputs: dict[str, str] = field(default_factory=dict)
    outputs: list[str] = field(default_factory=list)
    root: str | None = None

    def moved(self) -> dict[str, str]:
        """The inputs with another name in the call than their path."""
        return {name: path for name, path in self.inputs.items() if name != path}


def is_path(name: str) -> bool:
    """Whether `uxn` takes this as the path of a file (it looks closer yet)."""
    return bool(name) and "\0" not in name and all(part not in ("", ".", "..") for part in name.split("/"))


def _options(words: list[str]) -> Iterator[tuple[str, str]]:
    """Each option with its value, and each other word behind an empty name."""
    rest = iter(words)
    for word in rest:
        name, mark, value = word.partition("=")
        if not word.startswith("-") or name.removeprefix("--") in facts.SWITCHES:
            yield "", "" if word.startswith("-") else word
        else:
            yield name, value if mark else next(rest, "")


def read_call(words: list[str]) -> Call:
    """What a call names. Words that `uxn` refuses may name nothing here: it refuses them before it looks at a file."""
    call, command = Call(words), words[0]
    known = facts.COMMANDS.get(command)
    outputs, inputs = (known.outputs, known.inputs) if known else ((), ())
    for name, value in _options(words[1:]):
        if not is_path(value):
            continue
        if name == "--root":
            call.root = value
        elif name.removeprefix("--") in outputs:
            call.outputs.append(value)
        elif name.removeprefix("--") in inputs or not name and command != "gen":
            is_source = not name and "--rom" not in words and command not in ("dis", "line")
            _add(call, _sources(value) if is_source else {value: value})
            if command == "line":
                _add_of_setup(call, value)
    return call


def _add(call: Call, named: dict[str, str]) -> None:
    """Adds inputs. Two files cannot have one name in the call, and what lies beneath the root has its own alone."""
    for name, path in named.items():
        if call.inputs.setdefault(name, path) != path:
            raise Refused(f"input {path}: {call.inputs[name]} has its name in the call")


def _add_of_setup(call: Call, setup: str) -> None:
    """Adds the sources and the script that the lines of a setup name."""
    for line in read_text(setup).split(b"\n"):
        words = line.split()
        if len(words) == 2 and words[0] in (b"machine", b"script") and is_path(os.fsdecode(words[1])):
            name = os.fsdecode(words[1])
            _add(call, _sources(name) if words[0] == b"machine" else {name: name})


def read_text(path: str) -> bytes:
    """A source or setup as far as `uxn` takes it: nothing of one that is too long or not there. No link is followed."""
    look_at_path(path, "input")
    try:
        return source.read(path)
    except OSError:
        return b""


def _sources(path: str) -> dict[str, str]:
    """A source and the files that it includes, by their names in the call: `uxn` begins at the folder of the source."""

    def name_of(inner: str) -> str:
        return path if inner == path else os.path.join(os.path.dirname(path), includes.name_of(path, inner))

    def read_named(inner: str) -> bytes:
        return read_text(inner) if is_path(name_of(inner)) else b""

    found: dict[str, str] = {}
    for inner, _ in source.closure(path, read_named):
        name = name_of(inner)
        if is_path(name) and found.setdefault(name, inner) != inner:
            raise Refused(f"input {inner}: {found[name]} has its name in the call")
    return found


def look_at_path(path: str, what: str) -> None:
    """Refuses a path that leads over a symbolic link, or to a file with a second name or to no file and no folder."""
    parts = path.split("/")
    for count in range(1, len(parts) + 1):
        name = "/".join(parts[:count])
        try:
            _look_at(name, os.lstat(name), what)
        except (FileNotFoundError, NotADirectoryError):
            return


def _look_at(name: str, found: os.stat_result, what: str) -> None:
    if stat.S_ISLNK(found.st_mode):
        raise Refused(f"{what} {name}: it is a symbolic link")
    if stat.S_ISREG(found.st_mode) and found.st_nlink > 1:
        raise Refused(f"{what} {name}: the file has a second name")
    if not stat.S_ISREG(found.st_mode) and not stat.S_ISDIR(found.st_mode):
        raise Refused(f"{what} {name}: it is neither a file nor a folder")


def _raise(error: OSError) -> None:
    raise error


def look_at_root(root: str) -> int:
    """Refuses a root that is no folder, or holds what leads out of it. Answers how many files and folders it holds."""
    look_at_path(root, "root")
    if not os.path.isdir(root):
        raise Refused(f"root {root}: it is no folder")
    for inner in files.mounts_beneath(root):
        raise Refused(f"root {os.path.join(root, inner)}: it is another file system")
    device, count = os.stat(root).st_dev, 0
    for folder, folders, names in os.walk(root, onerror=_raise):
        for name in (*folders, *names):
            path = os.path.join(folder, name)
            found = os.lstat(path)
            _look_at(path, found, "root")
            if found.st_dev != device:
                raise Refused(f"root {path}: it is another file system")
        count += len(folders) + len(names)
    return count


def is_beneath(path: str, root: str | None) -> bool:
    return root is not None and (path == root or path.startswith(f"{root}/"))


def fill(folder: str, call: Call) -> None:
    """Makes the scratch folder: copies of the inputs, the folders of the outputs, and a place for the root."""
    for name, path in call.inputs.items():
        if is_beneath(name, call.root):
            if name != path:
                raise Refused(f"input {path}: its name in the call, {name}, lies beneath the root")
        elif os.path.isfile(path):
            files.copy_file(path, files.make_inner(folder, name), Kind(MOST_INPUT))
        elif os.path.isdir(path):
            files.make_inner(folder, os.path.join(name, ""))
    for path in call.outputs:
        made = path if os.path.isdir(path) else os.path.dirname(path)
        if os.path.isdir(made or ".") and not is_beneath(made, call.root):
            files.make_inner(folder, os.path.join(made, ""))
    if call.root is not None:
        files.make_inner(folder, call.root)


def look_at_input(path: str) -> None:
    """Refuses an input by its path, and one that is longer than any may be."""
    look_at_path(path, "input")
    if os.path.isfile(path) and os.path.getsize(path) > MOST_INPUT:
        raise Refused(f"input {path}: it has more than {MOST_INPUT:,} bytes")


def libraries(uxn: str) -> list[str]:
    """The files of the C library that a program needs."""
    if files.read_start(uxn, 4) != b"\x7fELF":
        raise Refused(f"{uxn}: it is a script; put the path of the program itself into UXN")
    said = subprocess.run(["ldd", uxn], capture_output=True, text=True, check=False).stdout
    return LIBRARY.findall(said)


def bubblewrap(uxn: str, folder: str, root: tuple[str, str] | None) -> list[str]:
    """The command that runs a program with the C library, a scratch folder, and a root (its path, and its place in that
    folder), and nothing else."""
    words = ["bwrap", *BUBBLEWRAP.split(), "--ro-bind", uxn, "/uxn"]
    for library in libraries(uxn):
        words += ["--ro-bind", os.path.realpath(library), library]
    words += ["--bind", folder, "/work"]
    if root:
        words += ["--bind", root[0], f"/work/{root[1]}"]
    return [*words, "--chdir", "/work", "--", "/uxn"]


def is_isolating(uxn: str, isolation: str) -> bool:
    """Whether bubblewrap is used. Whether it works is found out by a call that `uxn` refuses."""
    if isolation == "none":
        return False
    if shutil.which("bwrap") is None:
        why = "bubblewrap is not installed"
    else:
        with attached.scratch_folder("uxn-sandbox") as folder:
            tried = subprocess.run(
                bubblewrap(uxn, folder, None), stdin=subprocess.DEVNULL, capture_output=True, text=True, check=False
            )
        if tried.returncode == 128:
            return True
        why = f"bubblewrap does not work here ({' '.join(tried.stderr.split())})"
    if isolation == "need":
        raise Refused(f"{why}, and nothing was run")
    print(f"uxn-sandbox: {cli.shown(why)}: the run has its limits alone", file=sys.stderr)
    return False


def move_outputs(folder: str, call: Call) -> None:
    """Puts the outputs that were made into their places."""
    for path in call.outputs:
        made = os.path.join(folder, path)
        if os.path.isfile(made) and not os.path.islink(made) and not is_beneath(path, call.root):
            files.move(made, path)


def sizes(folder: str, call: Call) -> Iterator[tuple[str, int]]:
    """Each file that the run may have written, with its size."""
    yield from (
        (path, os.path.getsize(os.path.join(folder, path)))
        for path in call.outputs
        if os.path.isfile(os.path.join(folder, path))
    )
    for inner, _, names in os.walk(call.root) if call.root else ():
        yield from ((path, size) for path in (os.path.join(inner, name) for name in names) if (size := _size(path)))


def _size(path: str) -> int:
    """The size of a file; 0 of one that the run has just deleted."""
    try:
        return os.lstat(path).st_size
    except OSError:
        return 0


class Watch:
    """Watches a run beside it: hands on what it prints, and ends it where it prints or writes too much."""

    def __init__(self, folder: str, call: Call, limits: Limits) -> None:
        self.folder, self.call, self.limits = folder, call, limits
        self.said: list[str] = []
        self.left = limits.printed
        # What may be the line of a refused source, whose names are to be those of the files. Only the status says it.
        self.held: bytes | None = b"" if call.moved() else None
        self._lock = threading.Lock()
        self._is_over = threading.Event()
        self._threads: list[threading.Thread] = []

    def begin(self, started: subprocess.Popen[bytes]) -> None:
        assert started.stdout and started.stderr
        for given, taken in ((started.stdout, sys.stdout.fileno()), (started.stderr, sys.stderr.fileno())):
            self._start(self._hand_on, started, given, taken)
        self._start(self._watch, started)

    def _start(self, work: object, *words: object) -> None:
        thread = threading.Thread(target=work, args=words, daemon=True)  # type: ignore[arg-type]
        self._threads.append(thread)
        thread.start()

    def end(self) -> None:
        """Waits for what was printed last, and looks at the files once more."""
        self._is_over.set()
        for thread in self._threads:
            thread.join(10)
        self._look()

    def _hand_on(self, started: subprocess.Popen[bytes], given: IO[bytes], taken: int) -> None:
        """Hands on what comes from a pipe. Where nobody takes it the pipe is closed, as it would be without this."""
        with given:
            while data := os.read(given.fileno(), 1 << 16):
                with self._lock:
                    data, self.left = data[: self.left], self.left - len(data)
                if taken == sys.stderr.fileno() and self._holds(data):
                    continue
                try:
                    while data:
                        data = data[os.write(taken, data) :]
                except OSError:
                    return
                if self.left < 0:
                    self._stop(started, f"it has printed more than {self.limits.printed} bytes")
                    return

    def _holds(self, data: bytes) -> bool:
        """Holds back an error output that begins as the line of a refused source does."""
        if self.held is not None and (self.held or data.startswith(b"source ")):
            self.held += data
            return True
        self.held = None
        return False

    def hand_on_held(self, status: int) -> None:
        """Hands on what was held back, once the status of the run is known."""
        said = program.told(Done(status, b"", self.held or b""), self.call.moved()).err
        with suppress(OSError):
            sys.stderr.buffer.write(said)
            sys.stderr.flush()

    def _watch(self, started: subprocess.Popen[bytes]) -> None:
        while not self._is_over.wait(PAUSE):
            if self._look():
                started.kill()
                return

    def _stop(self, started: subprocess.Popen[bytes], line: str) -> None:
        with self._lock:
            if line not in self.said:
                self.said.append(line)
        started.kill()

    def _look(self) -> bool:
        """Whether the files are too much together."""
        total = sum(size for _, size in sizes(self.folder, self.call))
        line = f"the root and the outputs have more than {self.limits.total} bytes together"
        if total > self.limits.total and line not in self.said:
            self.said.append(line)
        return total > self.limits.total


def limits_met(status: int, folder: str, call: Call, limits: Limits) -> Iterator[str]:
    """What is to be said of a run that has ended: the limits that it met, and what it left beneath the root."""
    if status == 128 + signal.SIGXCPU:
        yield f"it was ended after {limits.seconds} seconds of processor time"
    if status == FILES_FAILED:
        yield from (
            f"{path}: it has reached {limits.size} bytes" for path, size in sizes(folder, call) if size >= limits.size
        )
    if call.root is not None:
        try:
            count = look_at_root(call.root)
        except Refused as refused:
            yield f"after the run: {refused.line}"
        else:
            if count > limits.files:
                yield f"root {call.root}: it has {count} files and folders, more than {limits.files}"


def run(words: list[str], limits: Limits, isolation: str) -> int:
    """Looks at what a call of `uxn` names, runs it, and answers the status."""
    uxn, call = os.path.realpath(program.path_of_uxn()), read_call(words)
    for path in call.inputs.values():
        look_at_input(path)
    for path in call.outputs:
        look_at_path(path, "output")
    if call.root is not None and look_at_root(call.root) > limits.files:
        raise Refused(f"root {call.root}: it has more than {limits.files} files and folders")
    isolated = is_isolating(uxn, isolation)
    with attached.scratch_folder("uxn-sandbox") as folder:
        fill(folder, call)
        root = (os.path.abspath(call.root), call.root) if call.root is not None else None
        if root and not isolated:
            files.link(root[0], os.path.join(folder, root[1]))
        command = bubblewrap(uxn, folder, root) if isolated else [uxn]
        watch = Watch(folder, call, limits)
        status = attached.call([*command, *words], folder, limits.apply, watch.begin)
        watch.end()
        watch.hand_on_held(status)
        if status not in facts.REFUSED:
            move_outputs(folder, call)
        said = [*watch.said, *limits_met(status, folder, call, limits)]
    for line in said:
        print(f"uxn-sandbox: {cli.shown(line)}", file=sys.stderr)
    return LIMIT_WAS_MET if said else status
