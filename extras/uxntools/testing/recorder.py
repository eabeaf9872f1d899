"""The command `uxn-record`: a session at the terminal, and the test that it becomes."""
from __future__ import annotations

import argparse
import json
import os
import sys
from collections.abc import Iterator
from contextlib import contextmanager

from uxntools import cli, files, program, script, sharing, source
from uxntools.cli import Failure
from uxntools.recording import Recorder, Session, Wrong
from uxntools.testing import comparing, configuration, updating, warning
from uxntools.testing.discovery import Test, discover
from uxntools.testing.keeping import kept_folder
from uxntools.testing.running import run

DESCRIPTION = """Records a session at the terminal as a test: uxn-record game.tal --to tests/win

Each line that is typed is input of the program, which runs again from the start with it; what is new of its output is
shown. Ctrl-D ends the input and the session. A line that begins with : is a command, as :key q, :tap a, :frame 10;
:help lists them. After each key, button and frame the picture is written to NAME.png. At the end the script and all
that is wanted stand as a test that uxn-test passes. If a line that comes from no terminal cannot be done, nothing is
written, and the status is 1."""


def arguments() -> argparse.Namespace:
    made = cli.Parser(prog="uxn-record", description=DESCRIPTION)
    made.add_argument("program", metavar="PROGRAM", help="a source, or a ROM whose name ends with .rom")
    made.add_argument("arguments", metavar="ARGUMENT", nargs="*", help="arguments of the program")
    made.add_argument(
        "--to", metavar="NAME", required=True, help="the path of the test without an ending, as tests/win"
    )
    made.add_argument(
        "--root", metavar="R", help="a folder of files that the program begins with; it is copied, not changed"
    )
    made.add_argument(
        "--budget", type=cli.number(1, 4294967295), help="the greatest number of instructions of each vector"
    )
    made.add_argument(
        "--clock",
        nargs=2,
        metavar=("S", "M"),
        help="the moment of the run: seconds since 1970, and the zone in minutes",
    )
    return made.parse_intermixed_args()


def check(given: argparse.Namespace) -> None:
    """Refuses what could not become a test, before anything is asked."""
    if given.program.endswith(".setup"):
        raise Failure(f"{given.program}: a line of machines is not recorded; write its script", 2)
    if not given.program.endswith(".rom"):
        sharing.look_at_program(given.program)
    if os.path.isabs(given.to) or os.path.normpath(given.to).startswith("..") or not os.path.basename(given.to):
        raise Failure(f"{given.to}: the test has to lie in this folder or beneath it", 2)
    if os.path.lexists(given.to + ".script"):
        raise Failure(f"{given.to}.script is there already: take it away, or choose another name")
    if given.root is not None and not os.path.isdir(given.root):
        raise Failure(f"{given.root}: there is no such folder")


def head_lines(given: argparse.Namespace) -> list[str]:
    lines = [f"clock {given.clock[0]} {given.clock[1]}"] if given.clock else []
    return lines + ([script.args_line([os.fsencode(word) for word in given.arguments])] if given.arguments else [])


def say(text: str) -> None:
    print(f"[{text}]" if "\n" not in text else text, file=sys.stderr, flush=True)


def show(out: bytes, err: bytes) -> None:
    """Shows what is new on both outputs; on a terminal the next line begins at its start."""
    sys.stdout.flush()
    for stream, data in ((sys.stderr, err), (sys.stdout, out)):
        if data and stream.isatty() and not data.endswith(b"\n"):
            data += b"\n"
        stream.buffer.write(data)
        stream.buffer.flush()


def typed_lines() -> Iterator[str]:
    """The lines of the standard input; at a terminal with a prompt, editing and history."""
    if not sys.stdin.isatty():
        yield from (os.fsdecode(line.rstrip(b"\n")) for line in sys.stdin.buffer)
        return
    try:
        import readline

        readline.parse_and_bind("set enable-bracketed-paste off")
    except ImportError:
        pass
    while True:
        try:
            yield input("> ")
        except EOFError:
            print()
            return


def converse(session: Session) -> None:
    """The session, to its end."""
    if not session.start():
        return
    for line in typed_lines():
        if not session.line(line):
            return
    session.end_of_input()


@contextmanager
def scratch_folder() -> Iterator[str]:
    with program.scratch_folder(os.path.relpath(kept_folder("."))) as folder:
        yield os.path.relpath(folder)


def find_test(name: str) -> Test | None:
    try:
        return discover([name])[0]
    except Failure:
        return None


def is_as_recorded(test: Test | None, given: argparse.Namespace) -> bool:
    """Whether `uxn-test` finds the test in this folder with the program and the budget of the session."""
    if test is None or os.path.realpath(test.folder) != os.path.realpath(".") or test.settings.program is None:
        return False
    budget: int | None = given.budget
    return os.path.normpath(test.program) == os.path.normpath(given.program) and test.settings.budget == budget


def name_program(given: argparse.Namespace) -> None:
    """Adds to `uxn-test.toml` which program the test has, where that does not say itself."""
    path, stem = configuration.NAME, os.path.normpath(given.to)
    is_there = os.path.exists(path)
    known = configuration.read(path) if is_there else configuration.Configuration()
    place, lines = os.path.dirname(stem) or ".", []
    places = known.folders or {"tests": {}}
    if not any(above == "." or place == above or place.startswith(above + "/") for above in places):
        lines += [
            f"[folder.{json.dumps(folder)}]"
            for folder in (place, *([] if known.folders or not os.path.isdir("tests") else ["tests"]))
        ]
    lines += [f"[test.{json.dumps(stem)}]", f"program = {json.dumps(os.path.normpath(given.program))}"]
    if given.budget is not None:
        lines.append(f"budget = {given.budget}")
    old = files.read(path, files.SETTINGS) if is_there else b""
    files.write(path, old + (("\n" if is_there else "") + "\n".join(lines) + "\n").encode())
    say(f"{path} now names the program of {stem}")


def write_test(given: argparse.Namespace, recorder: Recorder) -> int:
    """Writes the script and the files before the run, finds the test as `uxn-test` does, and records what is wanted
    of it."""
    files.make_folder(os.path.dirname(given.to) or ".")
    files.write(given.to + ".script", recorder.text())
    if given.root is not None:
        files.copy_root(given.root, given.to + ".root")
    if not is_as_recorded(find_test(given.to), given):
        name_program(given)
    test = discover([given.to])[0]
    result = run(test, updating.outputs_to_record(test))
    made = updating.recording(test, result, frozenset(), comparing.faults(test, result))
    if made.refused:
        raise Failure(f"{given.to}.script is written, and nothing else: {made.refused[0]}")
    updating.write(test, made)
    test = discover([given.to])[0]
    faults = comparing.faults(test, run(test))
    if faults:
        raise Failure(f"{test.name} is written, but fails: {faults[0].part}: {faults[0].line}")
    print(f"recorded {test.name}: {', '.join(sorted(test.parts))}; uxn-test passes it")
    for line in warning.empty_folders(test, None):
        say(line)
    return 0


def main() -> int:
    given = arguments()
    check(given)
    options = ["--rom"] if given.program.endswith(".rom") else []
    options += ["--budget", str(given.budget)] if given.budget else []
    with scratch_folder() as scratch:
        words = [given.program if "--rom" in options else source.linked(given.program, f"{scratch}/sources")[0], *options]
        recorder = Recorder(words, scratch, head_lines(given), given.root)
        session = Session(recorder, show, say, given.to + ".png")
        try:
            converse(session)
        except Wrong as wrong:
            raise Failure(str(wrong)) from None
        if session.wrong and not sys.stdin.isatty():
            raise Failure(f"nothing is written: lines that could not be done: {session.wrong}")
        if not session.is_written:
            print("nothing is written")
            return 0
        return write_test(given, recorder)
