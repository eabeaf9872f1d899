"""What the public uxnasm, uxncli and uxnemu do, by calls of `uxn`.

`uxn` takes relative paths alone, and the includes of a source begin at the folder of the source. So each call works
in a scratch folder: with copies of the sources under the names by which they are included, or with the ROM, the script
and a link to the current folder, which is the file root. What a call reads and writes may then stand anywhere.

Makefiles call these programs often. So they load few modules, and `_signal` for `signal`, which is as long as all
else together; what a fault needs is loaded then."""
from __future__ import annotations

import _signal as signal  # type: ignore[import]
import os
import resource
import sys

from uxntools import locating, plainfiles, signs

TYPE_CHECKING = False  # as `typing` has it, which takes long to load
if TYPE_CHECKING:
    from collections.abc import Callable, Iterable

ENDING = (signal.SIGINT, signal.SIGTERM, signal.SIGHUP)
# The statuses of `uxn` itself begin here. The public programs end with 1 for any fault.
OWN_STATUSES, FAULT, WRONG_CALL, NO_PROGRAM, INTERRUPTED, NOBODY_READS = 128, 1, 2, 127, 130, 141


class Failure(Exception):
    """Ends a drop-in with one line on the error output and a status."""

    def __init__(self, line: str, status: int = FAULT) -> None:
        super().__init__(line)
        self.line, self.status = line, status


# The command line.


def run(name: str, text: str, usage: str, main: Callable[[list[str]], int]) -> None:
    """Calls a drop-in with its words, and ends with its status."""
    words = sys.argv[1:]
    plainfiles.open_streams()
    try:
        if words[:1] in (["-h"], ["--help"]):
            print(f"usage: {usage}\n\n{text.strip()}")
            status = 0
        elif words[:1] == ["-v"]:
            print(f"{name}: {text.partition(',')[0]}")
            status = 0
        else:
            status = main(words)
        sys.stdout.flush()
    except Failure as failure:
        status = say(f"{name}: {signs.shown(failure.line)}", failure.status)
    except KeyboardInterrupt:
        status = INTERRUPTED
    except BrokenPipeError:
        plainfiles.silence(sys.stdout.fileno())
        status = NOBODY_READS
    except OSError as error:
        status = say(f"{name}: {signs.shown(signs.line_of(error))}", FAULT)
    for stream in (sys.stdout, sys.stderr):
        try:
            stream.flush()
        except (OSError, ValueError):
            plainfiles.silence(stream.fileno())
            status = status or FAULT
    sys.exit(status)


def say(line: str, status: int) -> int:
    with plainfiles.Ignoring(OSError, ValueError):
        sys.stderr.buffer.write(os.fsencode(f"{line}\n"))
        sys.stderr.flush()
    return status


def wrong(name: str, why: str) -> Failure:
    return Failure(f"{why} (see {name} --help)", WRONG_CALL)


# Calls of `uxn`.


def limit_files() -> None:
    """Limits the length of each file that is written: past it a signal ends the process."""
    resource.setrlimit(resource.RLIMIT_FSIZE, (plainfiles.OUTPUT.most, plainfiles.OUTPUT.most))


def call(words: list[str], folder: str, errors: int | None = None, before: Callable[[], None] | None = None) -> int:
    """Runs `uxn` in a folder, without an input, and answers its status: the negative number of a signal that ended it.
    The error output may go to an opened file. A drop-in that is ended ends the program first."""
    uxn = locating.uxn()
    if uxn is None:
        raise Failure(locating.missing(), NO_PROGRAM)
    ending = {number for number in ENDING if signal.getsignal(number) != signal.SIG_IGN}
    signal.signal(signal.SIGCHLD, lambda *_: None)
    mask = signal.pthread_sigmask(signal.SIG_BLOCK, {*ending, signal.SIGCHLD})
    sys.stdout.flush()
    process = os.fork()
    if process == 0:
        _become([uxn, *words], folder, errors, ending, mask, before)
    try:
        return _wait(process, ending)
    finally:
        signal.pthread_sigmask(signal.SIG_SETMASK, mask)


def _become(
    words: list[str],
    folder: str,
    errors: int | None,
    ending: Iterable[int],
    mask: Iterable[int],
    before: Callable[[], None] | None,
) -> None:
    """Becomes the program, in the new process."""
    try:
        os.chdir(folder)
        os.dup2(plainfiles.open_null(), 0)
        if errors is not None:
            os.dup2(errors, 2)
        for number in ending:
            signal.signal(number, signal.SIG_DFL)
        signal.pthread_sigmask(signal.SIG_SETMASK, mask)
        if before:
            before()
        os.execv(words[0], words)
    finally:
        os._exit(NO_PROGRAM)


def _wait(process: int, ending: set[int]) -> int:
    """The status of a program at its end. The signals are blocked and taken one by one, so that none of them comes
    unnoticed just before the wait for the program begins."""
    while True:
        ended, status = os.waitpid(process, os.WNOHANG)
        if ended:
            return os.waitstatus_to_exitcode(status)
        number = signal.sigwait({*ending, signal.SIGCHLD})
        if number in ending:
            os.kill(process, signal.SIGKILL)
            os.waitpid(process, 0)
            raise SystemExit(128 + number)
