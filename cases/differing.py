"""A tree that differs from that of a case in all that its call does not request."""
from __future__ import annotations

import zlib
from dataclasses import dataclass, field

from requested import Requested, named
from stored import Case, Tree, above

WAYS = ("bytes", "gone", "folder")
OTHER = b'( other ) LIT "Z #18 DEO\n'
BESIDE = (b"beside-%d", b".beside-%d", b"~beside-%d.tal")
LONGEST_NAME = 255
ENDINGS = (b".sym", b".rom", b".tal", b"~", b".bak")


def is_within(path: bytes, root: bytes | None) -> bool:
    return root is not None and (path == root or root in above(path))


@dataclass
class Kept:
    """What both trees have alike: files with their bytes, folders as such; and the paths that are no file, or no folder."""

    files: set[bytes] = field(default_factory=set)
    folders: set[bytes] = field(default_factory=set)
    no_file: set[bytes] = field(default_factory=set)
    no_folder: set[bytes] = field(default_factory=set)

    def keep_folders(self, tree: Tree, path: bytes) -> None:
        """The folders above a path, up to the first that is none."""
        for folder in above(path):
            if folder not in tree or tree[folder] is not None:
                self.no_folder.add(folder)
                return
            self.folders.add(folder)


def kept(tree: Tree, call: Requested) -> Kept:
    given = Kept()
    for path in call.files:
        if tree.get(path) is None:
            given.no_file.add(path)
        else:
            given.files.add(path)
            given.folders.update(above(path))
    for path in call.outputs:
        given.keep_folders(tree, path)
        if path in tree and tree[path] is None:
            given.folders.add(path)
        else:
            given.no_folder.add(path)
    if call.root is not None:
        given.keep_folders(tree, call.root)
    return given


class Other:
    """The differing tree, in the making."""

    def __init__(self, case: Case, call: Requested, shift: int):
        self.before, self.call, self.shift = case.tree, call, shift
        self.kept = kept(case.tree, call)
        self.tree: Tree = {}
        for path in sorted(case.tree):
            self.differ(path)
        for path in named(case):
            if path not in case.tree:
                self.add(path)
        for path in [*self.kept.files, *call.outputs]:
            for ending in ENDINGS:
                self.add(path + ending)
        for number, folder in enumerate([b"", *[path for path, data in sorted(self.tree.items()) if data is None]]):
            self.add_beside(folder + b"/" if folder else b"", number)

    def way(self, path: bytes) -> str:
        return WAYS[(zlib.crc32(path) + self.shift) % len(WAYS)]

    def is_same(self, path: bytes) -> bool:
        return path in self.kept.files or path in self.kept.folders or is_within(path, self.call.root)

    def has_place(self, path: bytes) -> bool:
        """Whether all folders above a path are there."""
        return all(folder in self.tree and self.tree[folder] is None for folder in above(path))

    def set(self, path: bytes, way: str, data: bytes) -> None:
        """Makes what a path is to be, as far as the replies that stay the same allow."""
        if way == "folder" and path in self.kept.no_folder or way == "bytes" and path in self.kept.no_file:
            way = "gone" if path in self.kept.no_file & self.kept.no_folder else "bytes" if way == "folder" else "folder"
        if way == "bytes":
            self.tree[path] = data
        elif way == "folder":
            self.tree[path] = None
            if path not in self.call.outputs:
                self.tree[path + b"/within"] = OTHER

    def differ(self, path: bytes) -> None:
        """Puts what is there in place of what a path was."""
        data = self.before[path]
        if self.is_same(path):
            self.tree[path] = data
        elif self.has_place(path) and path not in self.tree:
            way = self.way(path)
            self.set(path, "bytes" if data is None and way == "folder" else way, OTHER + b"( more )" if data == OTHER else OTHER)

    def add(self, path: bytes) -> None:
        """Puts something where nothing was, if that is allowed there."""
        if path in self.tree or is_within(path, self.call.root) or len(path.rpartition(b"/")[2]) > LONGEST_NAME:
            return
        for folder in above(path):
            if folder not in self.tree and folder not in self.kept.no_folder | self.kept.no_file and not is_within(folder, self.call.root):
                if self.has_place(folder):
                    self.tree[folder] = None
        if self.has_place(path):
            way = self.way(path)
            self.set(path, "bytes" if way == "gone" and path not in self.kept.no_file else way, OTHER)

    def add_beside(self, folder: bytes, number: int) -> None:
        if not is_within(folder[:-1], self.call.root):
            for form in BESIDE:
                self.tree[folder + form % number] = OTHER
            self.tree[folder + b"beside-folder"] = None
            self.tree[folder + b"beside-folder/a.tal"] = OTHER


def tree(case: Case, call: Requested, shift: int) -> Tree:
    return Other(case, call, shift).tree
