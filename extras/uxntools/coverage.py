"""Which words of a source its runs executed, and what is shown of that: an annotated source, percentages, a file
for lcov."""
from __future__ import annotations

import os
from collections import Counter
from collections.abc import Iterable, Iterator
from dataclasses import dataclass, field

from uxntools import executed, log, opcodes
from uxntools.target import Program, Workspace

# What a word of a source begins with that pushes, jumps or calls.
CODE_RUNES = b"#,.;!?/{"
DATA_RUNES = b'"=_-'
HEX = b"0123456789abcdef"


def is_code(word: bytes) -> bool:
    """Whether a word of a source is an instruction: an opcode, a literal, a jump or a call, and no raw
    bytes, addresses or text."""
    if opcodes.instruction(word.decode("latin-1")):
        return True
    if word[:1] in CODE_RUNES:
        return True
    is_raw = len(word) in (2, 4) and all(byte in HEX for byte in word)
    return word[:1] not in DATA_RUNES and not is_raw


@dataclass(frozen=True)
class Part:
    """A word in its file, or one of those that a macro's use there is expanded to."""

    path: str
    line: int
    column: int
    number: int


@dataclass
class FileCoverage:
    """The lines of a file that have instructions, each with whether each of its words was executed."""

    path: str
    lines: dict[int, list[bool]] = field(default_factory=dict)

    @property
    def words(self) -> tuple[int, int]:
        """How many words were executed, and how many there are."""
        every = [word for words in self.lines.values() for word in words]
        return sum(every), len(every)

    @property
    def run_lines(self) -> int:
        """How many lines have a word that was executed."""
        return sum(map(any, self.lines.values()))

    def mark(self, line: int) -> str:
        """`+` for a line that was executed, `-` for one that was not, `~` where only some of its words were, and a
        blank without any."""
        words = self.lines.get(line)
        return " " if not words else "+" if all(words) else "~" if any(words) else "-"


@dataclass
class Coverage:
    """What some runs of some programs executed."""

    parts: dict[Part, bool] = field(default_factory=dict)
    labels: dict[tuple[str, int, str], bool] = field(default_factory=dict)
    texts: dict[str, list[str]] = field(default_factory=dict)
    unseen: list[str] = field(default_factory=list)
    runs: int = 0

    def add(self, name: str, workspace: Workspace, program: Program) -> None:
        """Follows a run, and adds what it executed of what no run before it did."""
        parts = dict(_parts(program, workspace.target.folder))
        left = {address for address, part in parts.items() if not self.parts.get(part)}
        found = executed.executed(workspace, left)
        self.runs += 1
        if found.followed is not None:
            self.unseen.append(f"{name}: the run was followed for {found.followed} instructions, and is longer")
        for address, part in parts.items():
            was_run = address in found.addresses
            if was_run or is_code(program.by_address[address].word):
                self.parts[part] = self.parts.get(part, False) or was_run
        self.texts.update((_shown(path, workspace.target.folder), lines) for path, lines in program.files.items())
        self._add_labels(program, parts)

    def _add_labels(self, program: Program, parts: dict[int, Part]) -> None:
        for label in program.labels.all:
            part = parts.get(label.address)
            if part is not None and part in self.parts:
                key = (part.path, part.line, log.readable(label.name))
                self.labels[key] = self.labels.get(key, False) or self.parts[part]

    def files(self) -> list[FileCoverage]:
        found = {path: FileCoverage(path) for path in sorted({part.path for part in self.parts})}
        for part, was_run in self.parts.items():
            found[part.path].lines.setdefault(part.line, []).append(was_run)
        return list(found.values())

    def never_reached(self) -> list[tuple[str, int, str]]:
        """The labels of instructions that no run executed, each with the file and the line of its instruction."""
        return sorted(key for key, was_reached in self.labels.items() if not was_reached)


def _shown(path: str, folder: str) -> str:
    """The path of a file of a program, from the current folder."""
    return os.path.relpath(os.path.join(folder, path)) if folder else path


def _parts(program: Program, folder: str) -> Iterator[tuple[int, Part]]:
    """The words of a program by their addresses. Words of one place, which are those of a macro's use, are
    counted."""
    numbers: Counter[tuple[str, int, int]] = Counter()
    paths = {path: _shown(path, folder) for path in program.files}
    for row in program.rows:
        place = (paths[row.path], row.line, row.column)
        yield row.address, Part(*place, numbers[place])
        numbers[place] += 1


def percent(some: int, every: int) -> str:
    """A part of a whole in percent, cut to one digit: 100.0 means all."""
    return f"{1000 * some // every / 10:.1f} %" if every else "100.0 %"


def summary(files: Iterable[FileCoverage]) -> Iterator[str]:
    """A line for each file, and of several one for all."""
    rows = [(file.path, [*file.words, file.run_lines, len(file.lines)]) for file in files]
    if len(rows) != 1:
        rows.append(("all", [sum(counts[at] for _, counts in rows) for at in range(4)]))
    width = max(len(path) for path, _ in rows)
    for path, (words, all_words, lines, all_lines) in rows:
        of_words, of_lines = percent(words, all_words), percent(lines, all_lines)
        yield f"{path:{width}}  {of_words:>7} of {all_words} words, {of_lines:>7} of {all_lines} lines"


def annotated(coverage: Coverage, file: FileCoverage) -> Iterator[tuple[str, str]]:
    """The lines of a file, each with its mark."""
    for number, text in enumerate(coverage.texts.get(file.path, []), 1):
        mark = file.mark(number)
        yield mark, f"{number:5} {mark} {text}".rstrip()


def lcov(coverage: Coverage) -> str:
    """The file that lcov, editors and CI services read: a line counts as executed where one of its words was;
    labels are its functions."""
    out = ["TN:"]
    for file in coverage.files():
        labels = [
            (line, name, was_run)
            for (path, line, name), was_run in sorted(coverage.labels.items())
            if path == file.path
        ]
        out.append(f"SF:{file.path}")
        out += [f"FN:{line},{name}" for line, name, _ in labels]
        out += [f"FNDA:{int(was_run)},{name}" for _, name, was_run in labels]
        out += [f"FNF:{len(labels)}", f"FNH:{sum(was_run for *_, was_run in labels)}"]
        out += [f"DA:{line},{int(any(words))}" for line, words in sorted(file.lines.items())]
        out += [f"LF:{len(file.lines)}", f"LH:{file.run_lines}", "end_of_record"]
    return "".join(f"{line}\n" for line in out)
