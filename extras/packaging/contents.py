"""What is installed: the program, tools, manual pages, completions, editor files, pages and examples, at their places."""
from __future__ import annotations

import functools
import gzip
import hashlib
import json
import os
import re
import stat
import subprocess
import sys
import tempfile
import textwrap
import time
from calendar import timegm
from collections.abc import Iterator
from dataclasses import dataclass, replace

HERE = os.path.dirname(os.path.realpath(__file__))
EXTRAS = os.path.dirname(HERE)
TOP = os.path.dirname(EXTRAS)
MAINTAINER = "Jintugal maintainers <maintainers@users.noreply.jintugal.example>"
RELEASE = re.compile(r"(?m)^## (\S+) \((\d{4}-\d\d-\d\d)\)\n")
PAGES = "share/doc/uxn"
FILES = "share/uxn/files"
LINK = re.compile(r"(?<!!)\[((?:[^][]|\[[^]]*\])*)\]\(([^)#\s]*)(#[^)\s]*)?\)")


class NotMade(Exception):
    """Why nothing can be installed or packed, in one line."""


@dataclass(frozen=True)
class Entry:
    """A file: its bytes and whether it can be run, or, of a link, where it leads."""

    data: bytes = b""
    is_run: bool = False
    leads_to: str | None = None


Entries = dict[str, Entry]


@dataclass(frozen=True)
class Machine:
    """A kind of machine: its program in dist/, and its name in Debian."""

    name: str
    debian: str

    @property
    def file(self) -> str:
        return f"uxn-linux-{self.name}"


MACHINES = (Machine("x86_64", "amd64"), Machine("aarch64", "arm64"))


def read(path: str) -> bytes:
    with open(os.path.join(TOP, path), "rb") as file:
        return file.read()


def packed(data: bytes) -> bytes:
    return gzip.compress(data, 9, mtime=0)


def releases() -> list[tuple[str, str, list[str]]]:
    """Each version of CHANGELOG.md with its date and what is new in it, the newest first."""
    parts = RELEASE.split(read("CHANGELOG.md").decode())[1:]
    found = []
    for version, date, text in zip(parts[::3], parts[1::3], parts[2::3]):
        items = [" ".join(item.split()) for item in re.split(r"(?m)^- ", text)[1:]]
        found.append((version, date, items))
    return found


def moment(date: str) -> int:
    return timegm(time.strptime(date, "%Y-%m-%d"))


def newest() -> tuple[str, int]:
    """The version, and the moment of its day, which the files of a package have."""
    version, date, _ = releases()[0]
    named = read("VERSION").decode().strip()
    if version != named:
        raise NotMade(f"VERSION and CHANGELOG.md do not agree: {named} and {version}")
    return version, moment(date)


def made(folder: str, name: str) -> bytes:
    """A file of dist/, which is the one that the manifest names."""
    try:
        with open(os.path.join(folder, "manifest.json"), encoding="utf-8") as file:
            wanted = str(json.load(file)["files"][name])
        with open(os.path.join(folder, name), "rb") as there:
            data = there.read()
    except (OSError, ValueError, LookupError, TypeError):
        raise NotMade(f"{folder}: it has no {name} with its manifest") from None
    if hashlib.sha256(data).hexdigest() != wanted:
        raise NotMade(f"{folder}/{name}: it is not the file that manifest.json names")
    return data


def least_libc(data: bytes) -> str | None:
    """The least version of the C library that has all that a program needs; None if it needs no C library."""
    found = re.findall(rb"\0GLIBC_(\d+(?:\.\d+)+)(?=\0)", data)
    return max((name.decode() for name in found), key=lambda name: [int(part) for part in name.split(".")], default=None)


def copied(folder: str, to: str) -> Iterator[tuple[str, Entry]]:
    """The files beneath a folder of the repository, at their places."""
    for place, folders, names in os.walk(os.path.join(TOP, folder)):
        folders[:] = sorted(name for name in folders if name not in ("__pycache__", "out"))
        for name in sorted(names):
            path = os.path.join(place, name)
            is_run = bool(os.stat(path).st_mode & stat.S_IXUSR)
            there = os.path.normpath(os.path.join(to, os.path.relpath(path, os.path.join(TOP, folder))))
            yield there, Entry(read(path), is_run)


def tools() -> list[str]:
    """The tools for users: the one that makes the manual pages is not among them."""
    names = os.listdir(os.path.join(EXTRAS, "bin"))
    return sorted(name for name in names if name.startswith("uxn-") and name != "uxn-manual")


@functools.cache
def manual_pages() -> Entries:
    found: Entries = {}
    with tempfile.TemporaryDirectory() as folder:
        command = [sys.executable, os.path.join(EXTRAS, "bin", "uxn-manual"), "--out", folder]
        if subprocess.run(command, check=False).returncode:
            raise NotMade("the manual pages cannot be made")
        for name in sorted(os.listdir(folder)):
            with open(os.path.join(folder, name), "rb") as file:
                found[f"share/man/man{name[-1]}/{name}.gz"] = Entry(packed(file.read()))
    return found


def linked(path: str, text: str, places: set[str]) -> str:
    """A page whose links lead to what is installed: of a link that leads elsewhere the words are left."""

    def put(link: re.Match[str]) -> str:
        words, target, _ = link.groups()
        there = os.path.normpath(os.path.join(os.path.dirname(path), target))
        return link[0] if not target or re.match(r"[a-z]+:", target) or there in places else words

    return LINK.sub(put, text)


def with_pages(entries: Entries) -> Entries:
    """The same with the pages and examples."""
    found = dict(entries)
    for name in ("README.md", "CHANGELOG.md", "CONTRIBUTING.md", "extras/README.md"):
        found[f"{PAGES}/{name}"] = Entry(read(name))
    for folder in ("docs", "examples"):
        found.update(copied(folder, f"{PAGES}/{folder}"))
    places = {*found, *folders_of(found)}
    for path, entry in found.items():
        if path.startswith(f"{PAGES}/") and path.endswith(".md"):
            found[path] = replace(entry, data=linked(path, entry.data.decode(), places).encode())
    found[f"{PAGES}/copyright"] = Entry(read("extras/packaging/copyright"))
    return found


@dataclass(frozen=True)
class Built:
    """What a package has of dist/: the program of its machine, and the page."""

    program: bytes
    page: bytes

    @classmethod
    def read(cls, folder: str, machine: Machine) -> Built:
        return cls(made(folder, machine.file), made(folder, "uxn.html"))


def common(built: Built) -> Entries:
    """What is installed everywhere, at its place beneath the prefix."""
    version, _ = newest()
    entries: Entries = {
        "bin/uxn": Entry(read("extras/packaging/uxn.sh").replace(b"@VERSION@", version.encode()), True),
        "lib/uxn/uxn": Entry(built.program, True),
        f"{PAGES}/uxn.html": Entry(built.page),
        "share/uxn/help": Entry(read("tools/help.txt")),
        "share/bash-completion/completions/uxn": Entry(read("extras/completions/uxn.bash")),
    }
    for name in tools():
        entries[f"bin/{name}"] = Entry(leads_to=f"../share/uxn/bin/{name}")
        entries[f"share/bash-completion/completions/{name}"] = Entry(leads_to="uxn")
        entries[f"share/uxn/bin/{name}"] = Entry(read(f"extras/bin/{name}"), True)
    for folder in ("uxntools", "dropins", "project", "vscode"):
        entries.update(copied(f"extras/{folder}", f"share/uxn/{folder}"))
    entries.update(manual_pages())
    return with_pages(entries)


def for_neovim(to: str) -> Iterator[tuple[str, Entry]]:
    """Links where Neovim looks to the files for Vim, which are in a folder beside it."""
    for path, _ in copied("extras/vim", ""):
        place = f"share/nvim/site/{path}"
        yield place, Entry(leads_to=os.path.relpath(f"{to}/{path}", os.path.dirname(place)))


def for_folder(built: Built) -> Entries:
    """What a tar file and ./install have: some editors need a line that names a folder of it."""
    entries = common(built)
    entries["share/zsh/site-functions/_uxn"] = Entry(read("extras/completions/_uxn"))
    for folder in ("vim", "emacs"):
        entries.update(copied(f"extras/{folder}", f"share/uxn/{folder}"))
    entries.update(for_neovim("share/uxn/vim"))
    entries["share/uxn/remove"] = Entry(read("extras/packaging/remove.sh"), True)
    entries[FILES] = Entry()
    names = [*entries, *(f"{folder}/" for folder in folders_of(entries))]
    entries[FILES] = Entry("".join(f"{name}\n" for name in sorted(names)).encode())
    return entries


def for_debian(built: Built) -> Entries:
    """What a .deb has: each file where Debian's programs find it, and Debian's Python named in the tools."""
    entries = common(built)
    version, _ = newest()
    entries["share/zsh/vendor-completions/_uxn"] = Entry(read("extras/completions/_uxn"))
    entries.update(copied("extras/vim", "share/vim/vimfiles"))
    entries.update(for_neovim("share/vim/vimfiles"))
    folder = f"share/emacs/site-lisp/elpa/uxntal-mode-{version}"
    entries.update(copied("extras/emacs", folder))
    for name in ("autoloads", "pkg"):
        text = read(f"extras/packaging/uxntal-mode-{name}.el").replace(b"@VERSION@", version.encode())
        entries[f"{folder}/uxntal-mode-{name}.el"] = Entry(text)
    entries[f"{PAGES}/changelog.gz"] = Entry(packed(debian_changelog().encode()))
    entries["share/lintian/overrides/uxn"] = Entry(read("extras/packaging/overrides"))
    return {f"usr/{path}": replace(entry, data=with_python_of_debian(entry.data)) for path, entry in entries.items()}


def with_python_of_debian(data: bytes) -> bytes:
    """A tool whose first line names Debian's Python."""
    for start in (b"#!/usr/bin/env -S python3", b"#!/usr/bin/env python3"):
        if data.startswith(start):
            return b"#!/usr/bin/python3" + data.removeprefix(start)
    return data


def wrapped(item: str) -> str:
    """An item in lines of at most 80 columns."""
    return textwrap.fill(
        item, 80, initial_indent="  * ", subsequent_indent="    ", break_long_words=False, break_on_hyphens=False
    )


def debian_changelog() -> str:
    parts = []
    for version, date, items in releases():
        when = time.strftime("%a, %d %b %Y %H:%M:%S +0000", time.gmtime(moment(date)))
        lines = "".join(f"{wrapped(item)}\n" for item in items)
        parts.append(f"uxn ({version}) unstable; urgency=medium\n\n{lines}\n -- {MAINTAINER}  {when}\n")
    return "\n".join(parts)


def folders_of(entries: Entries) -> list[str]:
    """All folders above the files, each before what it holds."""
    return sorted({path[:at] for path in entries for at, sign in enumerate(path) if sign == "/"})


def write_tree(entries: Entries, folder: str, when: int | None = None) -> None:
    """Writes the files, in place of what is there by their names."""
    for path, entry in sorted(entries.items()):
        place = os.path.join(folder, path)
        os.makedirs(os.path.dirname(place), exist_ok=True)
        if os.path.lexists(place):
            os.remove(place)
        if entry.leads_to is not None:
            os.symlink(entry.leads_to, place)
        else:
            with open(place, "wb") as file:
                file.write(entry.data)
            os.chmod(place, 0o755 if entry.is_run else 0o644)
        if when is not None:
            os.utime(place, (when, when), follow_symlinks=False)
