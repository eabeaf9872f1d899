"""The command `uxn-explain`."""
from __future__ import annotations

import os
import subprocess
import sys

from uxntools import cli, files, program
from uxntools.cli import Failure
from uxntools.explaining import arguments, call
from uxntools.facts import COMMANDS

DESCRIPTION = """Runs a call of uxn and, if it is refused, explains why and what to write in its place:

    uxn-explain uxn asm game.tal --out game.rom

The call is made as it stands: its output, its line and its status are those of uxn; the explanation comes behind the
line. A line alone is explained too: `uxn-explain 'source 1:1: BadName: @c1'`, or the last line of the standard input:
`uxn asm .. 2>&1 | uxn-explain`."""


def explain_call(words: list[str]) -> int:
    """Makes the call, and explains its refusal. A call that would change a file by another name is not made."""
    known = arguments.read(words)
    for path in known.outputs().values():
        files.look_at_output(path)
    if os.path.isdir(known.options.get("root", "")):
        files.look_at_folder(known.options["root"])
    done = subprocess.run([program.path_of_uxn(), *words], stderr=subprocess.PIPE, check=False)
    sys.stdout.flush()
    is_long = done.returncode >= 128 and len(done.stderr) > cli.MOST_SIGNS
    if is_long:
        say(cli.shown(done.stderr.decode(errors="surrogateescape").rstrip("\n")) + "\n")
    else:
        sys.stderr.buffer.write(done.stderr)
    sys.stderr.flush()
    if 0 <= done.returncode < 128:
        return done.returncode
    line = done.stderr.decode(errors="surrogateescape").rstrip("\n")
    found = call.explain_line(line, known) if line else None
    found = found or call.explain_status(done.returncode)
    say(found.text() if found else f"There is nothing to say of status {done.returncode}.\n")
    return done.returncode


def explain_alone(line: str) -> int:
    """Explains a line of `uxn` without its call."""
    found = call.explain_line(line.strip("\n"), arguments.Words())
    if found is None:
        raise Failure(f"'{line}' is no line of a refusal by uxn", 2)
    print(found.text(), end="")
    return 0


def say(text: str) -> None:
    sys.stderr.buffer.write(text.encode("utf-8", "surrogateescape"))
    sys.stderr.flush()


def is_call(words: list[str]) -> bool:
    """Whether the words are those of a call: `uxn` and more, a command of it, or several words."""
    return os.path.basename(words[0]) == "uxn" or words[0] in COMMANDS or len(words) > 1


def main() -> int:
    words = sys.argv[1:]
    if words[:1] in (["-h"], ["--help"]):
        print(f"usage: uxn-explain CALL..|LINE\n\n{DESCRIPTION}")
        return 0
    if not words:
        if sys.stdin.isatty():
            raise Failure("give a call, as in uxn-explain uxn asm a.tal, or a line (see uxn-explain --help)", 2)
        said = files.read_input().decode(errors="surrogateescape").rstrip("\n")
        return explain_alone(said.rpartition("\n")[2])
    if words[0].startswith("-"):
        raise Failure(f"there is no option {words[0]} (see uxn-explain --help)", 2)
    if not is_call(words):
        return explain_alone(words[0])
    return explain_call(words[1:] if os.path.basename(words[0]) == "uxn" else words)
