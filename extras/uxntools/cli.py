"""The command line of a tool: `--help`, one line and status 2 for a wrong call, one line and no traceback for any other fault."""
from __future__ import annotations

import argparse
import io
import os
import signal
import sys
from collections.abc import Callable, Iterator
from contextlib import contextmanager, suppress
from types import FrameType
from typing import NoReturn

from uxntools import files
from uxntools.signs import MOST_SIGNS as MOST_SIGNS, line_of as line_of, shown as shown

# How often a wait for input is broken off, in seconds.
TICK = 0.2


class Failure(Exception):
    """Ends a tool with one line on the error output and a status."""

    def __init__(self, line: str, status: int = 1) -> None:
        super().__init__(line)
        self.line = line
        self.status = status


class Parser(argparse.ArgumentParser):
    """A parser that says a wrong call in one line, and takes no abbreviated option."""

    def __init__(self, **words: object) -> None:
        super().__init__(allow_abbrev=False, formatter_class=argparse.RawDescriptionHelpFormatter, **words)  # type: ignore[arg-type]

    def error(self, message: str) -> NoReturn:
        line = shown(" ".join(message.split()))
        self.exit(2, f"{self.prog}: {line} (see {self.prog} --help)\n")


def number(least: int, most: int) -> Callable[[str], int]:
    """The type of an argument that is a decimal number in a range."""

    def read(text: str) -> int:
        if not text.isascii() or not text.isdigit() or not least <= int(text) <= most:
            raise argparse.ArgumentTypeError(f"'{text}' is no number from {least} to {most}")
        return int(text)

    return read


def _end(number: int, _: FrameType | None) -> NoReturn:
    """Ends the tool as an exit does, so that it takes its folders away."""
    sys.exit(128 + number)


@contextmanager
def noticing_signals() -> Iterator[None]:
    """Lets a signal be noticed that comes in the instant before a wait for input: Python looks for it between its
    instructions, and within the wait only where that is broken off. So it is broken off again and again."""
    before = signal.signal(signal.SIGALRM, lambda *_: None)
    signal.setitimer(signal.ITIMER_REAL, TICK, TICK)
    try:
        yield
    finally:
        signal.setitimer(signal.ITIMER_REAL, 0)
        signal.signal(signal.SIGALRM, before)


def run(main: Callable[[], int | None], name: str) -> NoReturn:
    """Calls the tool and ends with its status: 130 when interrupted, 141 when nobody reads its output, 1 for a file that
    fails. A closed input has nothing; a closed output takes nothing."""
    files.open_streams()
    for number in (signal.SIGTERM, signal.SIGHUP):
        if signal.getsignal(number) is signal.SIG_DFL:
            signal.signal(number, _end)
    for stream in (sys.stdin, sys.stdout, sys.stderr):
        if isinstance(stream, io.TextIOWrapper):
            stream.reconfigure(errors="surrogateescape")
    status = _status(main, name)
    for stream in (sys.stdout, sys.stderr):
        try:
            stream.flush()
        except (OSError, ValueError):
            files.silence(stream.fileno())
            status = status or 1
    sys.exit(status)


def _status(main: Callable[[], int | None], name: str) -> int:
    """Calls the tool, says a fault in one line, and answers the status."""
    try:
        status = main() or 0
        sys.stdout.flush()
        return status
    except Failure as failure:
        return _say(name, failure.line, failure.status)
    except SystemExit as ended:
        return ended.code if isinstance(ended.code, int) else int(bool(ended.code))
    except KeyboardInterrupt:
        return 130
    except BrokenPipeError:
        return 141
    except OSError as error:
        return _say(name, line_of(error), error.status if isinstance(error, files.Refused) else 1)
    except RecursionError:
        return _say(name, "something is nested too deeply", 1)
    except MemoryError:
        return _say(name, "out of memory", 138)
    except Exception as error:
        return _say(name, f"{type(error).__name__}: {error} ({_place_of(error)}): this is a mistake of {name}", 1)


def _place_of(error: BaseException) -> str:
    """The innermost place of an exception."""
    trace = error.__traceback__
    while trace is not None and trace.tb_next is not None:
        trace = trace.tb_next
    return f"{os.path.basename(trace.tb_frame.f_code.co_filename)}:{trace.tb_lineno}" if trace else "nowhere"


def _say(name: str, line: str, status: int) -> int:
    with suppress(OSError, ValueError):
        print(f"{name}: {shown(line)}", file=sys.stderr, flush=True)
    return status
