"""A tool at a pseudo-terminal."""
from __future__ import annotations

import fcntl
import os
import pty
import select
import subprocess
import termios
import time


def _own(terminal: int) -> None:
    """Gives the process a session of its own at the terminal, so that Ctrl-C interrupts it."""
    os.setsid()
    fcntl.ioctl(terminal, termios.TIOCSCTTY, 0)


class Terminal:
    """A tool at a pseudo-terminal: what is typed, and what is seen."""

    def __init__(self, words: list[str], folder: str, environment: dict[str, str]) -> None:
        self.outer, inner = pty.openpty()
        self.process = subprocess.Popen(
            words,
            cwd=folder,
            env={**environment, "TERM": "dumb"},
            stdin=inner,
            stdout=inner,
            stderr=inner,
            preexec_fn=lambda: _own(inner),
        )
        os.close(inner)
        self.seen = ""

    def wait_for(self, text: str, seconds: float = 20) -> str:
        """What is seen up to a text, since the last wait."""
        end = time.monotonic() + seconds
        while text not in self.seen and time.monotonic() < end:
            if select.select([self.outer], [], [], 0.1)[0]:
                try:
                    self.seen += os.read(self.outer, 65536).decode(errors="replace").replace("\r\n", "\n")
                except OSError:
                    break
        before, found, self.seen = self.seen.partition(text)
        if not found:
            raise AssertionError(f"{text!r} did not come; seen was {before!r}")
        return before + found

    def type(self, text: str) -> None:
        os.write(self.outer, text.encode())

    def end(self) -> int:
        """The status at the end of the session."""
        try:
            self.wait_for("never", 2)
        except AssertionError as error:
            self.seen = str(error)
        status = self.process.wait(20)
        os.close(self.outer)
        return status
