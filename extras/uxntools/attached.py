"""Calls of programs that take over the inputs and outputs of a tool, and end when it is ended."""
from __future__ import annotations

import signal
import subprocess
import sys
from collections.abc import Callable, Iterator, Sequence
from contextlib import contextmanager

from uxntools import files

ENDING = (signal.SIGINT, signal.SIGTERM, signal.SIGHUP)


@contextmanager
def scratch_folder(name: str) -> Iterator[str]:
    """A folder that is gone at the end, also where a signal ends the tool."""
    for number in ENDING:
        if _ends_by(number):
            signal.signal(number, _end)
    with files.scratch_folder(f"{name}-") as folder:
        yield folder


def _end(number: int, _frame: object) -> None:
    sys.exit(128 + number)


def _ends_by(number: int) -> bool:
    """Whether a signal ends the tool: one that a shell has it ignore, as Ctrl-C in the background, does not."""
    return signal.getsignal(number) != signal.SIG_IGN


def _wait(started: subprocess.Popen[bytes], ending: set[signal.Signals]) -> int:
    """The status of a program at its end. The signals are blocked and taken one by one, so that none of them comes
    unnoticed just before the wait for the program begins."""
    while (status := started.poll()) is None:
        number = signal.sigwait({*ending, signal.SIGCHLD})
        if number in ending:
            _end(number, None)
    return status


def call(
    words: Sequence[str],
    folder: str,
    before: Callable[[], None] | None = None,
    beside: Callable[[subprocess.Popen[bytes]], None] | None = None,
) -> int:
    """Runs a program in a folder, without an input, and answers its status as a shell would: 128 and the number of a
    signal that ended it. `before` is called in the new process. With `beside`, which is called once it runs, its
    outputs are pipes. A tool that ends early ends the program first."""
    ending = {number for number in ENDING if _ends_by(number)}
    signal.signal(signal.SIGCHLD, lambda *_: None)
    mask = signal.pthread_sigmask(signal.SIG_BLOCK, {*ending, signal.SIGCHLD})

    def prepare() -> None:
        for number in ending:
            signal.signal(number, signal.SIG_DFL)
        signal.pthread_sigmask(signal.SIG_SETMASK, mask)
        if before:
            before()

    try:
        pipe = subprocess.PIPE if beside else None
        started = subprocess.Popen(
            words, cwd=folder, stdin=subprocess.DEVNULL, stdout=pipe, stderr=pipe, preexec_fn=prepare
        )
        try:
            if beside:
                beside(started)
            status = _wait(started, ending)
        except BaseException:
            started.kill()
            started.wait()
            raise
    finally:
        signal.pthread_sigmask(signal.SIG_SETMASK, mask)
    return status if status >= 0 else 128 - status
