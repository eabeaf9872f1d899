"""Proves the crates and links the program: side by side, as far as processors and memory go, and only what changed."""
from __future__ import annotations

import contextlib
import fcntl
import os
import queue
import shutil
import signal
import subprocess
import sys
import threading
import time
from collections.abc import Iterator
from dataclasses import dataclass, field
from pathlib import Path

from . import lanes
from .sources import PROGRAM, Crates, is_newer_than_all, sum_of
from .toolchain import KILLED, Toolchain

SHOWN_LINES = 20
WAYS_FOR_OTHERS = 5


class Failed(Exception):
    """The program was not built. The text says why, in lines."""


class Ended(Exception):
    """A signal ended the build."""

    def __init__(self, number: int) -> None:
        super().__init__()
        self.number = number


def say(text: str) -> None:
    print(f"uxn: {text}", file=sys.stderr, flush=True)


@dataclass(frozen=True)
class Places:
    """Where a build has its files."""

    top: Path

    @property
    def out(self) -> Path:
        return self.top / "crates" / PROGRAM / "out"

    @property
    def program(self) -> Path:
        return self.out / PROGRAM

    @property
    def libraries(self) -> Path:
        return self.out / "libs"

    @property
    def state(self) -> Path:
        return self.out / "state"

    @property
    def log(self) -> Path:
        return self.out / "build.log"

    def library(self, name: str) -> Path:
        return self.libraries / f"{name}.rlib"

    def library_sum(self, name: str) -> Path:
        """The file with the checksum over all that the proof of a library read."""
        return self.libraries / f"{name}.sum"

    def program_sum(self) -> Path:
        """The file with that of the program, and the SHA-256 of its file."""
        return self.out / f"{PROGRAM}.sum"


def text_of(path: Path) -> str:
    return path.read_text() if path.is_file() else ""


@dataclass
class Build:
    places: Places
    crates: Crates
    toolchain: Toolchain
    lanes: int
    order: list[str] = field(init=False)
    sums: dict[str, str] = field(init=False)
    running: dict[str, subprocess.Popen[bytes] | None] = field(default_factory=dict)
    waiting: list[str] = field(default_factory=list)
    proved: int = 0
    ended: queue.Queue[tuple[str, int]] = field(default_factory=queue.Queue)

    def __post_init__(self) -> None:
        self.order = self.crates.by_longest_way()
        self.sums = self.crates.sums(self.toolchain.identity)

    def run(self) -> None:
        begun = time.time_ns()
        say(f"building, which takes minutes once: {len(self.order)} crates, up to {self.lanes} at a time")
        self.prove_libraries()
        self.link_program()
        # What changed during the build is newer than the program then.
        os.utime(self.places.program, ns=(begun, begun))
        digest = sum_of(self.places.program.read_bytes())
        self.places.program_sum().write_text(f"{self.sums[PROGRAM]} {digest}\n")

    def prove_libraries(self) -> None:
        """Proves all libraries. A check that was killed, most likely for memory, is tried once more with nothing beside it."""
        self.waiting = [name for name in self.order if name != PROGRAM]
        while self.waiting or self.running:
            self.start_ready()
            name, status = self.ended.get()
            del self.running[name]
            self.append_log(name)
            if status == 0:
                self.proved += 1
                say(f"{name} is proved ({self.proved} of {len(self.order)})")
            elif status in KILLED and self.lanes > 1:
                say(f"the proof of {name} was killed, most likely for memory: from here on one at a time")
                self.lanes = 1
                self.waiting.insert(0, name)
            else:
                raise Failed(self.failure(name))

    def start_ready(self) -> None:
        """Starts what is ready, as far as there are lanes. All give way to what others wait for longest."""
        ready = [name for name in self.waiting if self.is_ready(name)]
        unproved = (name for name in self.order if name in self.waiting or name in self.running)
        longest = next(unproved, None)
        for name in ready[: max(0, self.lanes - len(self.running))]:
            self.waiting.remove(name)
            self.running[name] = None
            if self.is_proved(name):
                self.log_of(name).write_text("")
                self.ended.put((name, 0))
            else:
                self.start_proof(name, 0 if name == longest else WAYS_FOR_OTHERS)

    def is_ready(self, name: str) -> bool:
        return not any(under in self.waiting or under in self.running for under in self.crates.crates_below(name))

    def is_proved(self, name: str) -> bool:
        """Whether the library was made of just the files that are there."""
        made = self.places.library(name) / "format"
        return made.exists() and text_of(self.places.library_sum(name)) == f"{self.sums[name]}\n"

    def below(self, name: str) -> dict[str, Path]:
        own = self.crates.below
        return {each: self.places.library(each) if each in own else self.toolchain.library(each) for each in own[name]}

    def log_of(self, name: str) -> Path:
        return self.places.state / f"{name}.log"

    def start(self, name: str, words: list[str], way: int = 0) -> subprocess.Popen[bytes]:
        """Starts a command in the crate's folder, in a session of its own, giving way to others by `way`."""
        with open(self.log_of(name), "ab") as log:
            started = subprocess.Popen(
                ["nice", "-n", str(way), *words], cwd=self.crates.top / "crates" / name,
                stdin=subprocess.DEVNULL, stdout=log, stderr=subprocess.STDOUT, start_new_session=True,
            )  # fmt: skip
        self.running[name] = started
        return started

    def start_proof(self, name: str, way: int) -> None:
        """Starts the proof of a library, of which only what others can cite is kept, so that these read less."""
        self.places.library_sum(name).unlink(missing_ok=True)
        self.log_of(name).unlink(missing_ok=True)
        made = self.places.library(name)
        words = self.toolchain.build_words(name, self.below(name), made, ["--statements"])
        started = self.start(name, [*words, "src/lib.rt"], way)

        def wait() -> None:
            status = started.wait()
            if status == 0:
                self.keep_sum(name)
            self.ended.put((name, status))

        threading.Thread(target=wait, daemon=True).start()

    def keep_sum(self, name: str) -> None:
        """Writes what a library was made of, if its files are still those that the build began with."""
        with contextlib.suppress(OSError):
            if self.crates.sums(self.toolchain.identity)[name] == self.sums[name]:
                self.places.library_sum(name).write_text(f"{self.sums[name]}\n")

    def link_program(self) -> None:
        """A program is linked only where it is proved."""
        made = self.places.state / "program.o"
        words = self.toolchain.build_words(PROGRAM, self.below(PROGRAM), made, ["--toolchain", str(self.toolchain.llvm())])
        self.log_of(PROGRAM).unlink(missing_ok=True)
        done = self.start(PROGRAM, [*words, "src/main.rt"]).wait() == 0
        linked = self.places.state / PROGRAM
        if done:
            done = self.start(PROGRAM, self.toolchain.link_words(linked, made)).wait() == 0
        self.running.clear()
        self.append_log(PROGRAM)
        if not done:
            raise Failed(self.failure(PROGRAM))
        os.replace(linked, self.places.program)
        say(f"{PROGRAM} is proved ({len(self.order)} of {len(self.order)})")

    def append_log(self, name: str) -> None:
        with open(self.places.log, "a", encoding="utf-8") as log:
            log.write(f"== {name}\n{self.said(name)}")

    def said(self, name: str) -> str:
        path = self.log_of(name)
        return path.read_text(encoding="utf-8", errors="replace") if path.exists() else ""

    def failure(self, name: str) -> str:
        lines = [line for line in self.said(name).splitlines() if not line.startswith("statements ")]
        return "\n".join([f"{name} is not proved", *lines[-SHOWN_LINES:]])

    def stop(self) -> None:
        """Ends what is still at work."""
        for started in list(self.running.values()):
            if started is not None:
                with contextlib.suppress(ProcessLookupError):
                    os.killpg(started.pid, signal.SIGTERM)
        for started in list(self.running.values()):
            if started is not None:
                started.wait()


@contextlib.contextmanager
def signals_raise() -> Iterator[None]:
    """A signal that ends a build raises Ended here. One that is ignored, as nohup lets hang-ups be, stays so."""

    def end(number: int, _frame: object) -> None:
        raise Ended(number)

    ends = [number for number in (signal.SIGHUP, signal.SIGINT, signal.SIGTERM) if signal.getsignal(number) != signal.SIG_IGN]
    before = {number: signal.signal(number, end) for number in ends}
    try:
        yield
    finally:
        for number, handler in before.items():
            signal.signal(number, handler)


@contextlib.contextmanager
def locked(path: Path) -> Iterator[None]:
    """One build at a time: a second waits for the first."""
    with open(path, "a", encoding="utf-8") as lock:
        try:
            fcntl.flock(lock, fcntl.LOCK_EX | fcntl.LOCK_NB)
        except BlockingIOError:
            say("another build is at work here; waiting for it")
            fcntl.flock(lock, fcntl.LOCK_EX)
        yield


def is_built(places: Places, crates: Crates, toolchain: Toolchain) -> bool:
    """Whether the program was made of just the files that are there. If so it is marked as made now."""
    if is_newer_than_all(places.top, places.program):
        return True
    begun = time.time_ns()
    if not places.program.is_file():
        return False
    digest = sum_of(places.program.read_bytes())
    if text_of(places.program_sum()) != f"{crates.sums(toolchain.identity)[PROGRAM]} {digest}\n":
        return False
    os.utime(places.program, ns=(begun, begun))
    return True


def build(top: Path) -> None:
    """Leaves the program in crates/uxn_program/out/uxn_program, made of the sources that are there."""
    places = Places(top)
    toolchain = Toolchain.find()
    places.libraries.mkdir(parents=True, exist_ok=True)
    with signals_raise(), locked(places.out / "lock"):
        crates = Crates.read(top)
        if is_built(places, crates, toolchain):
            return
        shutil.rmtree(places.state, ignore_errors=True)
        places.state.mkdir()
        places.log.write_text("")
        at_work = Build(places, crates, toolchain, lanes.count())
        try:
            at_work.run()
        finally:
            at_work.stop()
            shutil.rmtree(places.state, ignore_errors=True)
