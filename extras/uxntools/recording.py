"""A session at the terminal that becomes a script: each line is added to it, and the program runs again from the
start."""
from __future__ import annotations

import os
from collections.abc import Callable
from dataclasses import dataclass, field

from uxntools import files, pictures, program, report, script
from uxntools.cli import Failure

KEYS = {"enter": "0d", "escape": "1b", "tab": "09", "backspace": "08", "space": "20", "delete": "7f"}
HELP = """A line is input, with a newline behind it. Ctrl-D ends the input and the session.
A line that begins with : is a command:
  :key K [N]      a key: two digits, a sign, or enter, escape, tab, backspace, space, delete; N times
  :tap B [P]      a button, held for a frame: a b select start up down left right; of player P
  :down B [P]     :up B [P]      a button goes down, or up
  :frame [N]      N frames
  :mouse X Y      :press N       :release N      :scroll X Y
  :shot           the picture belongs to the test
  :expect PP [HH] expects the port PP to hold HH, or what it holds now
  :text TEXT      input without a newline; for a line that begins with : write ::
  :end            the end of the input; the session goes on
  :undo           takes the last line or command back
  :script         shows the script
  :done           ends the session and writes the test
  :quit           ends the session and writes nothing"""
EVENTS = {"key", "tap", "down", "up", "frame", "mouse", "press", "release", "scroll", "shot"}


class Wrong(Exception):
    """A line of the session that cannot be done: the session goes on."""


@dataclass
class State:
    """What a run over the script came to: the bytes on both outputs, its report, whether it is over, and the last
    picture."""

    out: bytes = b""
    err: bytes = b""
    status: int = 0
    report: dict[str, str] = field(default_factory=dict)
    is_over: bool = False
    picture: pictures.Picture | None = None

    def count(self, name: str) -> int:
        return int(self.report.get(name, "0"))


@dataclass
class Recorder:
    """The script as groups of lines, one for each line of the session, and how the program is called."""

    words: list[str]
    scratch: str
    head: list[str] = field(default_factory=list)
    root: str | None = None
    groups: list[list[str]] = field(default_factory=list)
    state: State = field(default_factory=State)

    @property
    def lines(self) -> list[str]:
        return ["script 2", *self.head, *(line for group in self.groups for line in group)]

    def text(self) -> bytes:
        return "".join(line + "\n" for line in self.lines).encode("utf-8", "surrogateescape")

    def _path(self, name: str) -> str:
        return f"{self.scratch}/{name}"

    def _play(self, *options: str) -> tuple[program.Done, dict[str, str]]:
        """Plays the script of the scratch folder over a copy of the files beneath the root: what the call gave, and
        its report."""
        words = [*self.words, "--script", self._path("script"), "--report", self._path("report"), *options]
        if self.root is not None:
            files.remove_folder(self._path("root"))
            files.copy_root(self.root, self._path("root"))
            words += ["--root", self._path("root")]
        done = program.call("play", *words)
        if done.status >= 128:
            raise Wrong(done.line or f"uxn ended with {done.status}")
        return done, report.read(files.read(self._path("report"), files.OUTPUT))

    def run(self) -> State:
        """Runs the program over the script, with a picture at its end. Whether the run is over by then tells an
        expect behind it, which is then not given."""
        files.put(self._path("script"), self.text() + b"shot\nexpect 0f 00\n")
        done, counts = self._play("--frames", self._path("frames"))
        films = pictures.whole_pictures(files.read(self._path("frames"), files.OUTPUT))[0]
        expects = len(script.expects(self.text()))
        return State(
            done.out, done.err, done.status, counts, int(counts["expects"]) <= expects, films[-1] if films else None
        )

    def add(self, lines: list[str]) -> tuple[bytes, bytes]:
        """Adds lines to the script, and answers what is new on both outputs. Lines that are refused are taken back."""
        if lines:
            self.groups.append(lines)
        try:
            new, old = self.run(), self.state
        except Wrong:
            self.groups[len(self.groups) - bool(lines) :] = []
            raise
        for before, after in ((old.out, new.out), (old.err, new.err)):
            if not after.startswith(before):
                raise Failure("the output of the longer script does not begin with that of the shorter one")
        self.state = new
        return new.out[len(old.out) :], new.err[len(old.err) :]

    def undo(self) -> None:
        if not self.groups:
            raise Wrong("there is nothing to take back")
        self.groups.pop()
        self.state = self.run()

    def held(self, port: str) -> str:
        """What a port holds now: the number of the expects that hit, each value expected as often as it says, is
        that value."""
        lines = "".join(f"expect {port} {value:02x}\n" * value for value in range(256))
        files.put(self._path("script"), self.text() + lines.encode())
        before = self.state.count("expects") - self.state.count("misses") - 1
        _, counts = self._play()
        hits = int(counts["expects"]) - int(counts["misses"])
        return f"{hits - before:02x}"


def input_group(text: bytes) -> list[str]:
    """A typed text as lines of the script; none of an empty one."""
    return [f"input {script.input_words(text)}"] if text else []


def key_lines(words: list[str]) -> list[str]:
    if not words:
        raise Wrong(":key needs a key")
    key = KEYS.get(words[0], words[0])
    if len(key) == 1 and key.isascii():
        key = f"{ord(key):02x}"
    return [" ".join(["key", key, *words[1:]])]


def tap_lines(words: list[str]) -> list[str]:
    button = " ".join(words)
    return [f"down {button}", "frame", f"up {button}"]


def event_lines(name: str, words: list[str]) -> list[str]:
    """The lines of the script that a command stands for."""
    if name == "key":
        return key_lines(words)
    if name == "tap":
        return tap_lines(words)
    return [" ".join([name, *words])]


Say = Callable[[str], None]


@dataclass
class Session:
    """A session over a recorder: each line that is typed, what it shows, whether the session goes on, and how many
    lines could not be done."""

    recorder: Recorder
    show: Callable[[bytes, bytes], None]
    say: Say
    png: str
    is_written: bool = True
    wrong: int = 0

    def start(self) -> bool:
        self._add([])
        return self._goes_on()

    def line(self, line: str) -> bool:
        """Does a line; False where the session is over."""
        try:
            if line.startswith(":") and not line.startswith("::"):
                return self._command(*_split(line[1:]))
            text = os.fsencode(line[1:] if line.startswith("::") else line)
            self._add(input_group(text + b"\n"))
        except Wrong as wrong:
            self.wrong += 1
            self.say(str(wrong))
        return self._goes_on()

    def end_of_input(self) -> None:
        """Ctrl-D: the end of the input, and of the session."""
        self._add(["end"])
        self._goes_on()

    def _goes_on(self) -> bool:
        if self.recorder.state.is_over:
            self.say(f"the program has ended with status {self.recorder.state.status}")
        return not self.recorder.state.is_over

    def _add(self, lines: list[str]) -> None:
        old = self.recorder.state
        self.show(*self.recorder.add(lines))
        new = self.recorder.state
        if new.count("cuts") > old.count("cuts"):
            self.say("a vector used up its budget and was cut")

    def _command(self, name: str, rest: str) -> bool:
        words = rest.split()
        if name in EVENTS:
            self._add(event_lines(name, words))
            self._write_picture()
        elif name == "text":
            self._add(input_group(os.fsencode(rest)))
        elif name == "end":
            self._add(["end"])
        elif name == "expect":
            self._expect(words)
        elif name == "undo":
            self.recorder.undo()
            self.say("taken back")
        elif name == "script":
            self.say("\n".join(self.recorder.lines))
        elif name in ("done", "quit"):
            self.is_written = name == "done"
            return False
        elif name == "help":
            self.say(HELP)
        else:
            raise Wrong(f"there is no command :{name}; :help shows them")
        return self._goes_on()

    def _expect(self, words: list[str]) -> None:
        if len(words) == 1:
            words = [words[0], self.recorder.held(words[0])]
        misses = self.recorder.state.count("misses")
        self._add([" ".join(["expect", *words])])
        if self.recorder.state.count("misses") > misses:
            self.recorder.undo()
            raise Wrong(f"port {words[0]} holds {self.recorder.held(words[0])}: the expect is taken back")
        self.say(f"port {words[0]} holds {words[1]}")

    def _write_picture(self) -> None:
        picture = self.recorder.state.picture
        if picture is not None and not self.recorder.state.is_over:
            files.make_folder(os.path.dirname(self.png) or ".")
            files.write(self.png, pictures.png(picture))
            self.say(f"the picture is in {self.png}")


def _split(line: str) -> tuple[str, str]:
    name, _, rest = line.partition(" ")
    return name, rest
