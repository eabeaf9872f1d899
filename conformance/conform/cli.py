"""The command line of a tool: `--help`, one line and status 2 for a wrong call, one line and no traceback for any other fault."""
from __future__ import annotations

import argparse
import io
import os
import signal
import sys
from collections.abc import Callable
from types import FrameType
from typing import Any, NoReturn


class Failure(Exception):
    """Ends a tool with one line on the error output and a status."""

    def __init__(self, line: str, status: int = 1) -> None:
        super().__init__(line)
        self.line = line
        self.status = status


class Parser(argparse.ArgumentParser):
    """A parser that reports a wrong call in one line, and takes no abbreviated option."""

    def __init__(self, **words: Any) -> None:
        super().__init__(allow_abbrev=False, formatter_class=argparse.RawDescriptionHelpFormatter, **words)

    def error(self, message: str) -> NoReturn:
        line = " ".join(message.split())
        self.exit(2, f"{self.prog}: {line} (see {self.prog} --help)\n")


def number(least: int, most: int) -> Callable[[str], int]:
    """The type of an argument that is a decimal number in a range."""

    def read(text: str) -> int:
        if not text.isascii() or not text.isdigit() or not least <= int(text) <= most:
            raise argparse.ArgumentTypeError(f"'{text}' is no number from {least} to {most}")
        return int(text)

    return read


def processors() -> int:
    return len(os.sched_getaffinity(0)) if hasattr(os, "sched_getaffinity") else os.cpu_count() or 2


def _end(number: int, _: FrameType | None) -> NoReturn:
    """Ends the tool as an exit does, so that it deletes its folders."""
    sys.exit(128 + number)


def run(main: Callable[[], int | None], name: str) -> NoReturn:
    """Calls the tool and ends with its status: 130 if interrupted, 141 if nobody reads its output, 1 for a file that fails."""
    for number in (signal.SIGTERM, signal.SIGHUP):
        if signal.getsignal(number) is signal.SIG_DFL:
            signal.signal(number, _end)
    for stream in (sys.stdin, sys.stdout, sys.stderr):
        if isinstance(stream, io.TextIOWrapper):
            stream.reconfigure(errors="surrogateescape")
    try:
        status = main() or 0
        sys.stdout.flush()
    except Failure as failure:
        print(f"{name}: {failure.line}", file=sys.stderr)
        status = failure.status
    except KeyboardInterrupt:
        status = 130
    except BrokenPipeError:
        os.dup2(os.open(os.devnull, os.O_WRONLY), sys.stdout.fileno())
        status = 141
    except OSError as error:
        print(f"{name}: {os.fsdecode(error.filename or '')}: {error.strerror}".replace(": : ", ": "), file=sys.stderr)
        status = 1
    sys.exit(status)
