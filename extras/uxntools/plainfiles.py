"""Files that are read, written and deleted: what most calls need, with few modules to load. `files` has the rest, and
says what holds of all of it."""
from __future__ import annotations

import errno
import io
import os
import stat
import sys

TYPE_CHECKING = False  # as `typing` has it, which takes long to load
if TYPE_CHECKING:
    from collections.abc import Iterable, Iterator

MEBIBYTE = 1 << 20
# facts: words
MOST_INPUT = 4_194_304
MOST_ROM = 1_048_320
MOST_SYMBOLS = 16_777_216
# facts end
# How many files and folders a root has at most, how many bytes they have together, and how deep they lie.
MOST_FILES = 10_000
MOST_BYTES = 64 * MEBIBYTE
MOST_DEPTH = 64


class Ignoring:
    """Goes on after these exceptions. It is `contextlib.suppress`, which takes longer to load than all of this."""

    def __init__(self, *kinds: type[BaseException]) -> None:
        self._kinds = kinds

    def __enter__(self) -> None:
        pass

    def __exit__(self, kind: type[BaseException] | None, *_: object) -> bool:
        return kind is not None and issubclass(kind, self._kinds)


class Kind:
    """A kind of file: how many bytes it has at most, and what the program says past that, with its status."""

    def __init__(self, most: int, word: str = "Long", status: int = 1) -> None:
        self.most, self.word, self.status = most, word, status


SOURCE = Kind(MOST_INPUT, "LongSource", 131)
SCRIPT = Kind(MOST_INPUT, "LongScript", 132)
COMMANDS = Kind(MOST_INPUT, "LongCommands", 133)
SETUP = Kind(MOST_INPUT, "LongSetup", 139)
ROM = Kind(MOST_ROM, "rom", 134)
SYMBOLS = Kind(MOST_SYMBOLS, "Long", 134)
SETTINGS = Kind(MEBIBYTE)
# An output of a run: pictures, samples, a text, a log, or a file of its root.
OUTPUT = Kind(64 * MEBIBYTE)
# A listing or a symbol file that `uxn asm` makes. Of the longest names it makes longer ones.
MADE = Kind(64 * MEBIBYTE)


class Refused(OSError):
    """A file that is not read or written: why, and the status of the program for it."""

    def __init__(self, path: str, why: str, status: int = 1, number: int = errno.EINVAL) -> None:
        super().__init__(number, why, path)
        self.status = status


def kind_of(mode: int) -> str:
    """What a name is, in words."""
    if stat.S_ISLNK(mode):
        return "a symbolic link"
    if stat.S_ISDIR(mode):
        return "a folder"
    if stat.S_ISFIFO(mode):
        return "a named pipe"
    if stat.S_ISSOCK(mode):
        return "a socket"
    return "a file" if stat.S_ISREG(mode) else "a device"


def refuse_kind(path: str, mode: int) -> None:
    if stat.S_ISDIR(mode):
        raise IsADirectoryError(errno.EISDIR, os.strerror(errno.EISDIR), path)
    if not stat.S_ISREG(mode):
        raise Refused(path, f"missing: it is {kind_of(mode)}, and no regular file", 130)


def _refuse_size(path: str, size: int, kind: Kind) -> None:
    if size > kind.most:
        raise Refused(path, f"{kind.word}: it has more than {kind.most:,} bytes", kind.status, errno.EFBIG)


def read(path: str, kind: Kind = SOURCE) -> bytes:
    """The bytes of a regular file. One whose size is 0 has none: what a file of the system's own would give is not
    waited for."""
    if "\0" in path:
        raise FileNotFoundError(errno.ENOENT, os.strerror(errno.ENOENT), path)
    refuse_kind(path, os.stat(path).st_mode)
    handle = os.open(path, os.O_RDONLY | os.O_NONBLOCK | os.O_NOCTTY | os.O_CLOEXEC)
    try:
        return read_handle(handle, path, kind)
    finally:
        os.close(handle)


def read_handle(handle: int, path: str, kind: Kind) -> bytes:
    found = os.fstat(handle)
    refuse_kind(path, found.st_mode)
    _refuse_size(path, found.st_size, kind)
    parts, left = [], found.st_size
    while left and (part := os.read(handle, left)):
        parts.append(part)
        left -= len(part)
    return parts[0] if len(parts) == 1 else b"".join(parts)


def read_input(most: int = 64 * MEBIBYTE) -> bytes:
    """The standard input up to its end."""
    data = sys.stdin.buffer.read(most + 1)
    if len(data) > most:
        raise Refused("the standard input", f"it has more than {most:,} bytes")
    return data


def look_at_output(path: str) -> None:
    """Refuses an output that a call of `uxn` would write to another place: a link on its way, or a second name."""
    with Ignoring(FileNotFoundError, NotADirectoryError), Parent(path, None) as (above, name):
        found = os.stat(name, dir_fd=above, follow_symlinks=False)
        if stat.S_ISLNK(found.st_mode) or stat.S_ISREG(found.st_mode) and found.st_nlink > 1:
            what = "is a symbolic link" if stat.S_ISLNK(found.st_mode) else "has a second name"
            raise Refused(path, f"it {what}, and is not written over")


def open_streams() -> None:
    """Opens the standard streams that are closed: the input has nothing, an output takes nothing. So no file that is
    opened later gets the number of one of them."""
    for number in range(3):
        try:
            os.fstat(number)
        except OSError:
            os.set_inheritable(os.open(os.devnull, os.O_RDONLY), True)
    if sys.stdin is None:
        sys.stdin = open(0, encoding="utf-8", closefd=False)
    if sys.stdout is None:
        sys.stdout = open(1, "w", encoding="utf-8", closefd=False)
    if sys.stderr is None:
        sys.stderr = open(2, "w", encoding="utf-8", closefd=False)


def silence(number: int) -> None:
    """Lets an output take all that is still put there."""
    handle = os.open(os.devnull, os.O_WRONLY)
    os.dup2(handle, number)
    os.close(handle)


def is_file(path: str) -> bool:
    """Whether a path leads to a regular file."""
    with Ignoring(OSError, ValueError):
        return stat.S_ISREG(os.stat(path).st_mode)
    return False


# Folders that are opened without following a link.


def _parts(path: str, beneath: str | None) -> tuple[str, list[str]]:
    """The folder that is trusted, and the names from there on."""
    if beneath is not None:
        names = [name for name in path.split("/") if name not in ("", ".")]
        if path.startswith("/") or ".." in names or not names:
            raise Refused(path, f"it is no path beneath {beneath or '.'}")
        return beneath or ".", names
    if os.path.isabs(path):
        path = os.path.normpath(path)
        return os.path.dirname(path), [os.path.basename(path) or "."]
    names = os.path.normpath(path).split("/")
    above = next((at for at, name in enumerate(names) if name != ".."), len(names))
    return "/".join(names[:above]) or ".", names[above:] or ["."]


def open_folder(name: str, above: int | None, shown: str) -> int:
    flags = os.O_RDONLY | os.O_DIRECTORY | os.O_CLOEXEC | (0 if above is None else os.O_NOFOLLOW)
    try:
        return os.open(name, flags, dir_fd=above)
    except OSError as error:
        if error.errno in (errno.ELOOP, errno.ENOTDIR) and above is not None:
            mode = os.stat(name, dir_fd=above, follow_symlinks=False).st_mode
            raise Refused(shown, f"it is {kind_of(mode)}, and no folder") from None
        raise OSError(error.errno, error.strerror, shown) from None


class Parent:
    """The opened folder that a path lies in, and its last name. Folders on the way may be made."""

    def __init__(self, path: str, beneath: str | None, makes: bool = False) -> None:
        base, names = _parts(path, beneath)
        self.last = names[-1]
        self.handle, shown = open_folder(base, None, base), base if base != "." else ""
        try:
            for name in names[:-1]:
                shown = os.path.join(shown, name)
                self._go_into(name, shown, makes)
        except BaseException:
            os.close(self.handle)
            raise

    def _go_into(self, name: str, shown: str, makes: bool) -> None:
        if makes:
            with Ignoring(FileExistsError):
                os.mkdir(name, dir_fd=self.handle)
        inner = open_folder(name, self.handle, shown)
        os.close(self.handle)
        self.handle = inner

    def __enter__(self) -> tuple[int, str]:
        return self.handle, self.last

    def __exit__(self, *_: object) -> None:
        os.close(self.handle)


def _mode(name: str, above: int) -> int | None:
    """The mode of a name in a folder; None where it is not there."""
    try:
        return os.stat(name, dir_fd=above, follow_symlinks=False).st_mode
    except FileNotFoundError:
        return None


def make_folder(path: str, beneath: str | None = None) -> None:
    """Makes a folder, and those above it, where they are not there."""
    if beneath is None and os.path.isabs(path):
        os.makedirs(os.path.dirname(os.path.normpath(path)), exist_ok=True)
        beneath, path = os.path.split(os.path.normpath(path))
    with Parent(os.path.join(path, "_"), beneath, makes=True):
        pass


def write(path: str, data: bytes, beneath: str | None = None) -> None:
    """Writes a file at once, in place of an old one: what fails leaves that. A link is refused, and a file with a
    second name keeps its bytes there. A device beneath /dev that the user names is written to."""
    if beneath is None and path.startswith("/dev/"):
        _write_device(path, data)
    else:
        _write(path, [data], beneath)


def _write(path: str, parts: Iterable[bytes], beneath: str | None) -> None:
    with Parent(path, beneath) as (above, name):
        mode = _mode(name, above)
        if mode is not None and not stat.S_ISREG(mode):
            raise Refused(path, f"it is {kind_of(mode)}, and is not written over")
        new = f".uxn-new-{os.getpid()}-{os.urandom(4).hex()}"
        try:
            with _created(new, above, path) as file:
                for part in parts:
                    _write_all(file, part)
                if mode is not None:
                    os.fchmod(file.fileno(), stat.S_IMODE(mode) & 0o777)
            os.replace(new, name, src_dir_fd=above, dst_dir_fd=above)
        except BaseException:
            with Ignoring(OSError):
                os.unlink(new, dir_fd=above)
            raise


def _write_all(file: io.FileIO, data: bytes) -> None:
    while data:
        data = data[file.write(data) :]


def _created(name: str, above: int, path: str) -> io.FileIO:
    flags = os.O_WRONLY | os.O_CREAT | os.O_EXCL | os.O_NOFOLLOW | os.O_CLOEXEC
    try:
        return open(os.open(name, flags, 0o666, dir_fd=above), "wb", buffering=0)
    except OSError as error:
        raise OSError(error.errno, error.strerror, path) from None


def _write_device(path: str, data: bytes) -> None:
    with open(path, "wb") as file:
        file.write(data)


def parts(made: str) -> Iterator[bytes]:
    """The bytes of a file, of any size, in a folder that the tool has made for itself, part by part."""
    refuse_kind(made, os.lstat(made).st_mode)
    with open(made, "rb") as file:
        yield from iter(lambda: file.read(MEBIBYTE), b"")


def move(made: str, path: str) -> None:
    """Writes a file, as `write` does, that has the bytes of one in a folder that the tool has made for itself."""
    _write(path, parts(made), None)


def put(path: str, data: bytes) -> None:
    """Writes a file into a folder that the tool has made for itself."""
    flags = os.O_WRONLY | os.O_CREAT | os.O_TRUNC | os.O_NOFOLLOW | os.O_NONBLOCK | os.O_CLOEXEC
    with open(os.open(path, flags, 0o666), "wb") as file:
        file.write(data)


def opened(path: str) -> io.BufferedWriter:
    """A new file in a folder that the tool has made for itself, as an output of a call."""
    flags = os.O_WRONLY | os.O_CREAT | os.O_TRUNC | os.O_NOFOLLOW | os.O_NONBLOCK | os.O_CLOEXEC
    return open(os.open(path, flags, 0o666), "wb")


def open_null() -> int:
    """An input that has nothing, for a new process."""
    return os.open(os.devnull, os.O_RDONLY)


def link(path: str, name: str) -> None:
    """Makes a link in a folder that the tool has made for itself."""
    os.symlink(path, name)


def remove(path: str, beneath: str | None = None) -> None:
    """Deletes a file where it is there; of a link the link."""
    with Ignoring(FileNotFoundError), Parent(path, beneath) as (above, name):
        os.unlink(name, dir_fd=above)


def remove_folder(path: str, beneath: str | None = None) -> None:
    """Deletes a folder with all that it holds, where it is there. A link in its place is refused, and of a link in it
    the link is deleted."""
    with Ignoring(FileNotFoundError), Parent(path, beneath) as (above, name):
        _remove_all(name, above, path, 0)


def _remove_all(name: str, above: int, path: str, depth: int) -> None:
    if depth > MOST_DEPTH:
        raise Refused(path, f"it is over {MOST_DEPTH} folders deep")
    handle = open_folder(name, above, path)
    try:
        for inner in os.listdir(handle):
            mode = _mode(inner, handle)
            if mode is not None and stat.S_ISDIR(mode):
                _remove_all(inner, handle, os.path.join(path, inner), depth + 1)
            elif mode is not None:
                os.unlink(inner, dir_fd=handle)
    finally:
        os.close(handle)
    os.rmdir(name, dir_fd=above)


class OwnFolder:
    """A folder for copies of files and for links, which is gone at the end."""

    def __init__(self, name: str) -> None:
        self.path = os.path.abspath(os.path.join(os.environ.get("TMPDIR") or "/tmp", f"{name}-{os.urandom(8).hex()}"))

    def __enter__(self) -> str:
        os.mkdir(self.path, 0o700)
        return self.path

    def __exit__(self, *_: object) -> None:
        with Ignoring(OSError):
            remove_folder(self.path)


def make_inner(folder: str, path: str) -> str:
    """Makes the folders above a path in a folder that the tool has made for itself, and answers the whole path."""
    there = os.path.join(folder, path)
    os.makedirs(os.path.dirname(there), exist_ok=True)
    return there


# Folders over which a program runs as they are.


def _mount_points() -> frozenset[str]:
    """The folders at which a file system is mounted, by the mount table."""
    try:
        with open("/proc/self/mountinfo", "rb") as file:
            lines = file.read().split(b"\n")
    except OSError:
        return frozenset()
    points = (line.split(b" ")[4] for line in lines if line.count(b" ") > 4)
    return frozenset(os.fsdecode(point.decode("unicode_escape").encode("latin-1")) for point in points)


def mounts_beneath(folder: str) -> list[str]:
    """The paths in a folder at which another file system is mounted."""
    top = os.path.join(os.path.realpath(folder), "")
    return sorted(point[len(top) :] for point in _mount_points() if point.startswith(top))


def look_at_folder(folder: str) -> None:
    """Refuses a folder over which a program runs as it is, where a name of it leads out. A link may lead to what lies
    in the folder, or to a file that the user may not write. What git keeps is left alone."""
    top = os.path.join(os.path.realpath(folder), "")
    named: dict[int, tuple[int, str]] = {}
    for inner in mounts_beneath(folder):
        raise Refused(inner, "it is another file system, and the program could write there")
    for place, folders, names in os.walk(folder):
        folders[:] = [name for name in folders if name != ".git"]
        for name in (*folders, *names):
            path = os.path.normpath(os.path.join(place, name))
            found = os.lstat(path)
            if stat.S_ISLNK(found.st_mode):
                if not os.path.join(os.path.realpath(path), "").startswith(top) and not _is_kept_from(path):
                    raise Refused(path, "it is a symbolic link out of this folder, and the program could write there")
            elif not stat.S_ISREG(found.st_mode) and not stat.S_ISDIR(found.st_mode):
                raise Refused(path, f"it is {kind_of(found.st_mode)}, and the program could wait for it")
            elif stat.S_ISREG(found.st_mode) and found.st_nlink > 1:
                names_so_far, first = named.get(found.st_ino, (0, path))
                named[found.st_ino] = names_so_far + 1, first
    for count, first in named.values():
        if count < os.lstat(first).st_nlink:
            raise Refused(first, "the file has a second name outside of this folder, and the program could write there")


def _is_kept_from(path: str) -> bool:
    """Whether a link leads to a file that the user may not write."""
    return os.path.isfile(path) and not os.access(path, os.W_OK)


def is_long(error: OSError) -> bool:
    """Whether a file was refused since it is longer than its kind may be."""
    return isinstance(error, Refused) and error.errno == errno.EFBIG


def put_long(path: str, kind: Kind, size: int = 0) -> None:
    """Writes a file that is longer than its kind may be, and takes no room."""
    put(path, b"")
    os.truncate(path, max(kind.most + 1, min(size, OUTPUT.most)))


def copy_file(path: str, target: str, kind: Kind = SOURCE) -> None:
    """Copies a file that is read as others are, into a folder that the tool has made for itself. The copy of one that
    is too long is too long too, so that `uxn` says so."""
    try:
        put(target, read(path, kind))
    except Refused as refused:
        if not is_long(refused):
            raise
        put_long(target, kind, os.stat(path).st_size)
