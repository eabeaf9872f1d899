"""The sources: which files they are, one checksum over them, and what each crate depends on."""
from __future__ import annotations

import hashlib
import os
from dataclasses import dataclass
from pathlib import Path

LIST = "crates.txt"
ENDINGS = (".rt", ".antt")
PROGRAM = "uxn_program"


def files_beneath(top: Path, folder: str) -> list[str]:
    """The sources in a folder, by their paths beneath `top`, in the order of their bytes. Folders named out have none."""
    found = []
    for above, folders, names in os.walk(top / folder):
        folders[:] = [name for name in folders if name != "out"]
        found += [os.path.relpath(os.path.join(above, name), top) for name in names if name.endswith(ENDINGS)]
    return sorted(found, key=os.fsencode)


def all_files(top: Path) -> list[str]:
    return sorted([LIST, *files_beneath(top, "crates")], key=os.fsencode)


def sum_of(data: bytes) -> str:
    return hashlib.sha256(data).hexdigest()


def sum_lines(top: Path, names: list[str]) -> bytes:
    """A line for each file: its SHA-256, two spaces and its path, as sha256sum prints them."""
    return b"".join(f"{sum_of((top / name).read_bytes())}  {name}\n".encode() for name in names)


def checksum(top: Path) -> str:
    """The checksum over all sources: the SHA-256 of what sha256sum prints for them. ./uxn has the same in shell."""
    return sum_of(sum_lines(top, all_files(top)))


def folders(top: Path) -> list[str]:
    """The folders that sources lie in, which change as one comes or goes."""
    return [folder for above, names, _ in os.walk(top / "crates") for folder in hidden_out(above, names) if above != str(top / "crates")]


def hidden_out(above: str, names: list[str]) -> list[str]:
    """The folders in a folder, without those named out, which are not walked either."""
    names[:] = [name for name in names if name != "out"]
    return [os.path.join(above, name) for name in names]


def is_newer_than_all(top: Path, program: Path) -> bool:
    """Whether no source has changed since the program was made. tools/choose has the same in shell."""
    if not program.is_file():
        return False
    made = program.stat().st_mtime_ns
    return all(os.stat(top / name).st_ctime_ns <= made for name in [*all_files(top), *folders(top)])


@dataclass(frozen=True)
class Crates:
    """The crates of a checkout, and what each depends on: crates, and libraries of the toolchain."""

    top: Path
    below: dict[str, list[str]]

    @classmethod
    def read(cls, top: Path) -> Crates:
        below = {}
        for line in (top / LIST).read_text(encoding="utf-8").splitlines():
            name, colon, rest = line.partition(":")
            if colon and not name.startswith("#"):
                below[name.strip()] = rest.split()
        return cls(top, below)

    def crates_below(self, name: str) -> list[str]:
        return [each for each in self.below[name] if each in self.below]

    def needed(self, name: str = PROGRAM) -> list[str]:
        """A crate with all that it depends on, each after those that it depends on."""
        order: list[str] = []

        def visit(each: str) -> None:
            if each not in order:
                for under in self.crates_below(each):
                    visit(under)
                order.append(each)

        visit(name)
        return order

    def files(self, name: str) -> list[str]:
        return files_beneath(self.top, f"crates/{name}")

    def weight(self, name: str) -> int:
        """How much there is to prove in a crate: the bytes of its sources, definitions and proofs."""
        return sum(os.stat(self.top / each).st_size for each in self.files(name))

    def by_longest_way(self) -> list[str]:
        """The crates that the program needs, those first whose way up to the program has most to prove."""
        needed = self.needed()
        weights = {name: self.weight(name) for name in needed}
        ways = dict.fromkeys(needed, 0)
        for name in reversed(needed):
            ways[name] += weights[name]
            for under in self.crates_below(name):
                ways[under] = max(ways[under], ways[name])
        return sorted(needed, key=lambda name: -ways[name])

    def sums(self, identity: str) -> dict[str, str]:
        """For each crate that the program needs a checksum over all that its proof reads: its files, those of the crates
        that it depends on, and the toolchain."""
        sums: dict[str, str] = {}
        for name in self.needed():
            below = [f"{under} {sums.get(under, '')}" for under in self.below[name]]
            head = "\n".join([identity, name, *below, ""]).encode()
            sums[name] = sum_of(head + sum_lines(self.top, self.files(name)))
        return sums
