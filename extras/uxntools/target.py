"""A program with the options of its run, as `uxn play` takes them, and a workspace in which it runs again and
again: each run begins with the same files, and none of the user's files changes."""
from __future__ import annotations

import argparse
import os
from collections.abc import Iterator, Mapping, Sequence
from concurrent.futures import ThreadPoolExecutor
from contextlib import ExitStack, contextmanager
from dataclasses import dataclass, field, replace
from types import MappingProxyType

from uxntools import files, includes, listing, ports, program, sharing, source, symbols
from uxntools.cli import Failure
from uxntools.files import Kind
from uxntools.listing import Row
from uxntools.program import Calls, Done
from uxntools.symbols import Labels

# What a tool itself writes into the folder of a run; no input has these names.
OWN = ".uxn-tool-"


@dataclass(frozen=True)
class Target:
    """A source or a ROM, and the options of its run. Its paths begin at a folder: the current one, if it has no
    name. A root that is not there is an empty folder where it is to be made."""

    source: str
    rom: bool = False
    script: str | None = None
    root: str | None = None
    budget: str | None = None
    symbols: str | None = None
    folder: str = ""
    makes_root: bool = False

    def options(self) -> list[str]:
        """The options for `uxn play`."""
        valued = {"--script": self.script, "--root": self.root, "--budget": self.budget}
        return ["--rom"] * self.rom + [f"{name}={value}" for name, value in valued.items() if value is not None]

    def inputs(self) -> list[tuple[str, str, Kind]]:
        """The files that a run reads, but for those beneath its root: the name of each in the call, its path, and its
        kind."""
        named = ((self.script, files.SCRIPT), (self.symbols, files.SYMBOLS))
        found = [(path, path, kind) for path, kind in named if path is not None]
        if self.rom:
            return [*found, (self.source, self.source, files.ROM)]
        return found + [(name, path, files.SOURCE) for name, path in self.sources().items()]

    def sources(self) -> dict[str, str]:
        """The source and the files that it includes, by their names in the call: those of the include words, from
        the folder of the source on."""
        main, own = os.path.join(self.folder, self.source), os.path.dirname(self.source)
        found = {self.source: self.source}
        for path in source.files_of(main)[0][1:]:
            name = os.path.join(own, includes.name_of(main, path))
            shown = os.path.relpath(path, self.folder) if self.folder else path
            if found.setdefault(name, shown) != shown:
                raise Failure(f"{found[name]} and {shown}, which it includes, need different names", 131)
        return found


def add_arguments(parser: argparse.ArgumentParser) -> None:
    """The arguments of a tool that runs a program: SRC and the options of `uxn play`."""
    parser.add_argument("source", metavar="SRC", help="the source, or with --rom the ROM")
    add_options(parser)


def add_options(parser: argparse.ArgumentParser) -> None:
    options = parser.add_argument_group("options of uxn play")
    options.add_argument("--rom", action="store_true", help="SRC is a ROM")
    options.add_argument("--script", metavar="S", help="the script of the run")
    options.add_argument("--root", metavar="R", help="the folder of its files; it is copied, and stays as it is")
    options.add_argument("--budget", metavar="N", help="the greatest number of instructions of each vector")
    options.add_argument("--symbols", metavar="Y", help="a symbol file, whose labels take the place of the source's")
    for name in ("--frames", "--samples", "--report"):
        options.add_argument(name, metavar="P", help="is taken, and not written")


def of(given: argparse.Namespace) -> Target:
    if not given.rom:
        sharing.look_at_program(given.source)
    return Target(given.source, given.rom, given.script, given.root, given.budget, given.symbols)


@dataclass
class Program:
    """What is known of a program beside its run: where each of its bytes comes from, its labels, the lines of its
    files, and which labels of its source name ports."""

    rows: list[Row]
    labels: Labels
    files: dict[str, list[str]]
    ports: frozenset[str] | None = None
    by_address: dict[int, Row] = field(init=False)

    def __post_init__(self) -> None:
        self.by_address = listing.by_address(self.rows)

    def text(self, path: str, line: int) -> str:
        """A line of a file, without its end; nothing where there is none."""
        lines = self.files.get(path, [])
        return lines[line - 1] if 0 < line <= len(lines) else ""


def is_plain(path: str) -> bool:
    """Whether a path stays beneath the current folder, as `uxn` wants it. It refuses all others itself."""
    return all(part not in ("", ".", "..") for part in path.split("/"))


class Workspace:
    """Copies of all that a run reads. Each call of `uxn` has a folder of its own, with the files under their own
    names. Where they are set, `shortened` takes the place of the run's script, and `cut` that of its budget."""

    def __init__(self, target: Target) -> None:
        self.target = target
        self.shortened: bytes | None = None
        self.cut: int | None = None
        self._calls = Calls()
        self._sources = {} if target.rom else target.sources()
        self._kept = ExitStack()
        self._scratch = self._kept.enter_context(files.scratch_folder("uxn-tool-"))
        self._files = os.path.join(self._scratch, "files")
        files.make_folder(self._files)
        try:
            self._fill()
        except BaseException:
            self.close()
            raise

    def _fill(self) -> None:
        for name, path, kind in self.target.inputs():
            here = os.path.join(self.target.folder, path)
            if (there := self._place(name, here)) and files.is_file(here):
                files.copy_file(here, there, kind)
        root = self.target.root
        here = os.path.join(self.target.folder, root or "")
        if root is not None and (there := self._place(root, here)):
            if files.is_file(here):
                files.copy_file(here, there, files.OUTPUT)
            elif os.path.lexists(here):
                files.copy_root(here, there, self.target.folder or ".")
        if root is not None and self.target.makes_root:
            files.make_folder(self.path(root))

    def close(self) -> None:
        self._kept.close()

    def __enter__(self) -> Workspace:
        return self

    def __exit__(self, *_: object) -> None:
        self.close()

    def _place(self, name: str, here: str) -> str | None:
        """Where the copy of a file is made, if `uxn` takes its name and it is not there yet."""
        if not is_plain(name) or os.path.lexists(self.path(name)) or not os.path.exists(here):
            return None
        return files.make_inner(self._files, name)

    def path_of(self, name: str) -> str:
        """The path of a file that a call names, from the folder of the target."""
        return self._sources.get(name, name)

    def told(self, done: Done) -> Done:
        """What a call gave, with the paths of the files in the place of the names of their copies."""
        return program.told(done, self._sources)

    def path(self, name: str) -> str:
        """Where the copy of an input lies."""
        return os.path.join(self._files, name)

    @contextmanager
    def side_by_side(self, count: int) -> Iterator[ThreadPoolExecutor]:
        """So many threads that look at runs. At the end no call is left, also where an exception is the end."""
        with ThreadPoolExecutor(count) as pool:
            try:
                yield pool
            finally:
                self._calls.end()
                pool.shutdown(cancel_futures=True)
                self._calls = Calls()

    @contextmanager
    def folder(self) -> Iterator[str]:
        """A folder for one call: its root is a copy, all else are links."""
        with files.scratch_folder("run-", self._scratch) as folder:
            root = self.target.root
            parts = root.split("/") if root is not None and is_plain(root) else []
            self._link_all(folder, parts)
            yield folder

    def _link_all(self, folder: str, root: Sequence[str]) -> None:
        """Links to what lies in the folder of copies, but copies of what lies on the way to the root."""
        copies = self._files
        for depth, part in enumerate(root):
            _link(copies, folder, part)
            copies, folder = os.path.join(copies, part), os.path.join(folder, part)
            if depth < len(root) - 1:
                files.make_folder(folder)
        if not root:
            _link(copies, folder, None)
        elif os.path.isdir(copies):
            files.copy_root(copies, folder)
        elif os.path.exists(copies):
            files.copy_file(copies, folder, files.OUTPUT)

    def debug(self, commands: Sequence[str]) -> list[str]:
        """The lines of the log of these commands (latin-1), over the present run."""
        named = [f"--symbols={self.target.symbols}"] if self.target.symbols is not None else []
        words = [self.target.source, *self._options(self.shortened, self.cut), *named]
        text = "\n".join([*commands, ""]).encode("latin-1")
        return self._log(words, text, self.shortened).decode("latin-1").split("\n")[:-1]

    def debug_rom(self, rom: bytes, commands: bytes, run: tuple[bytes | None, int | None]) -> bytes:
        """The log of these commands without labels, over the run of the ROM with a script and a budget."""
        options = [word for word in self._options(*run) if word != "--rom"]
        return self._log([f"{OWN}rom", "--rom", *options], commands, run[0], {"rom": rom})

    def _log(
        self,
        words: Sequence[str],
        commands: bytes,
        script: bytes | None,
        given: Mapping[str, bytes] = MappingProxyType({}),
    ) -> bytes:
        own = {**given, "commands": commands} | ({} if script is None else {"script": script})
        done, outputs = self.call(["debug", *words, f"--commands={OWN}commands", f"--log={OWN}log"], own, ["log"])
        program.accepted(done)
        return outputs["log"]

    def play(self, script: bytes, *outputs: str, budget: int | None = None) -> dict[str, bytes]:
        """The outputs (`frames`, `report`, ..) of a run over the given script, and with another budget where one is
        given."""
        done, made = self.try_play(script, *outputs, budget=budget)
        program.accepted(done)
        return made

    def try_play(self, script: bytes, *outputs: str, budget: int | None = None) -> tuple[Done, dict[str, bytes]]:
        """The same of a call that may be refused or end early."""
        options = self._options(script, budget)
        words = ["play", self.target.source, *options, *(f"--{name}={OWN}{name}" for name in outputs)]
        return self.call(words, {"script": script}, outputs)

    def script(self) -> bytes:
        """The script of the run; an empty one where it has none, which means the same."""
        path = self.target.script
        return b"" if path is None or not is_plain(path) else _data(self.path(path))

    def _options(self, script: bytes | None, budget: int | None = None) -> list[str]:
        """The options of the run, with a script and a budget in the place of its own."""
        own = {} if script is None else {"--script=": f"{OWN}script"}
        own |= {} if budget is None else {"--budget=": str(budget)}
        kept = [word for word in self.target.options() if not word.startswith(tuple(own))]
        return kept + [name + value for name, value in own.items()]

    def call(
        self, words: Sequence[str], given: Mapping[str, bytes], outputs: Sequence[str]
    ) -> tuple[Done, dict[str, bytes]]:
        """Calls `uxn` with files of the tool's own, and answers those that it was to write: empty where it did
        not."""
        with self.folder() as folder:
            for name, data in given.items():
                files.put(os.path.join(folder, OWN + name), data)
            done = self.told(program.call_for_files(*words, folder=folder, calls=self._calls))
            return done, {name: _data(os.path.join(folder, OWN + name)) for name in outputs}

    def prepared(self, folder: str, script: bytes) -> list[str]:
        """The words of a call of `play` over a script, which is put into the folder of the call."""
        files.put(os.path.join(folder, f"{OWN}script"), script)
        return ["play", self.target.source, *self._options(script)]

    def output(self) -> Done:
        """What the whole run puts out."""
        with self.folder() as folder:
            return self.told(program.call("play", self.target.source, *self._options(None), folder=folder))

    def rom(self) -> bytes:
        """The ROM, as it is loaded."""
        if self.target.rom:
            return _data(self.path(self.target.source))
        done, made = self.call(["asm", self.target.source, f"--out={OWN}rom"], {}, ["rom"])
        program.accepted(done)
        return made["rom"]

    def program(self) -> Program:
        """The program's rows, labels and lines. One that is refused ends the tool with its line."""
        return self._rom_program() if self.target.rom else self._source_program()

    def _labels(self, made: bytes) -> Labels:
        """The labels of a symbol file that the run is given, or else those that were made. A faulty file `uxn`
        itself refuses."""
        path = self.target.symbols
        if path is None:
            return Labels(symbols.read(made))
        try:
            return Labels(symbols.read(files.read(self.path(path), files.SYMBOLS) if is_plain(path) else b""))
        except (Failure, OSError):
            return Labels([])

    def _source_program(self) -> Program:
        path = self.target.source
        words = ["asm", path, f"--out={OWN}rom", f"--listing={OWN}listing", f"--symbols={OWN}symbols"]
        done, made = self.call(words, {}, ["listing", "symbols"])
        program.accepted(done)
        found = listing.read(made["listing"], path, self._files)
        rows = [replace(row, path=self.path_of(row.path)) for row in found]
        names = dict.fromkeys([path, *(row.path for row in found)])
        texts = {self.path_of(name): lines_of(_data(self.path(name))) for name in names}
        flat = source.flat_words(self.path(path), os.path.dirname(self.path(path)))
        return Program(rows, self._labels(made["symbols"]), texts, ports.labels(word.text for word in flat))

    def _rom_program(self) -> Program:
        """Of a ROM the lines are those of its disassembly, where it has one: `uxn dis` takes 65,280 bytes."""
        path = self.target.source
        labels = self._labels(b"")
        named = [] if self.target.symbols is None else [f"--symbols={self.target.symbols}"]
        with self.folder() as folder:
            done = program.call("dis", path, *named, folder=folder)
        if done.status not in (0, 134):
            program.accepted(done)
        lines = lines_of(done.out)
        return Program(listing.of_disassembly(lines, path), labels, {path: lines})


def _link(copies: str, folder: str, leave: str | None) -> None:
    """Makes links in a folder to what another has, but for one name."""
    for name in os.listdir(copies) if os.path.isdir(copies) else []:
        if name != leave:
            files.link(os.path.join(copies, name), os.path.join(folder, name))


def _data(path: str) -> bytes:
    try:
        return files.read(path, files.MADE)
    except FileNotFoundError:
        return b""


def lines_of(data: bytes) -> list[str]:
    """The lines of a source, for the eye."""
    return [line.rstrip("\r") for line in data.decode(errors="replace").split("\n")]
