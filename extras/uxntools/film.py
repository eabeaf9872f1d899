"""Films: the picture of every frame of a run, without a change of its script. The pictures come through a pipe, and are
written as they come."""
from __future__ import annotations

import os
import struct
import subprocess
from collections.abc import Iterable, Iterator
from contextlib import contextmanager
from dataclasses import dataclass, field

from uxntools import files, pictures, program, script
from uxntools.cli import Failure
from uxntools.pictures import Picture
from uxntools.target import OWN, Workspace

RATE = 60
# A PNG says a time as a fraction of two numbers below this.
MOST_DELAY = 65_535
PART = 1 << 20
# The digits of the most events that a script has.
MOST_DIGITS = 7
FRAMES = f"{OWN}frames"
REFUSED_SCRIPT = 132


@dataclass(frozen=True)
class Choice:
    """Which frames are shown, from 1: the first, the last (None: to the end), and every so manieth."""

    first: int = 1
    last: int | None = None
    every: int = 1

    def __contains__(self, frame: int) -> bool:
        is_late = self.last is not None and frame > self.last
        return frame >= self.first and not is_late and (frame - self.first) % self.every == 0


def script_of(data: bytes, choice: Choice) -> bytes:
    """A script with a picture after each chosen frame, and no others; all else is the same."""
    out: list[bytes] = []
    frame = waiting = 0
    for _, words in script.lines(data):
        if words[0] == b"shot":
            continue
        count = b"1" if len(words) == 1 else words[1]
        if words[0] != b"frame" or len(words) > 2 or not count.isdigit() or len(count) > MOST_DIGITS:
            out.append(b" ".join(words))
            continue
        for _ in range(int(count)):
            frame, waiting = frame + 1, waiting + 1
            if frame in choice:
                out += [b"frame %d" % waiting, b"shot"]
                waiting = 0
        if waiting:
            out.append(b"frame %d" % waiting)
            waiting = 0
    return b"\n".join([*out, b""])


def from_pipe(end: int) -> Iterator[Picture]:
    """The pictures of a pipe, each as soon as it is whole."""
    parts: list[bytes] = []
    size = wanted = 0
    while part := os.read(end, PART):
        parts.append(part)
        size += len(part)
        if size < wanted:
            continue
        data = b"".join(parts)
        found, at = pictures.whole_pictures(data)
        parts, size = [data[at:]], len(data) - at
        wanted = len(found[-1].pixels) if found else 0
        yield from found
    if size:
        raise Failure("the last picture is cut")


@contextmanager
def pictures_of(workspace: Workspace, data: bytes) -> Iterator[Iterator[Picture]]:
    """The pictures of the run over a script, as they are taken. The run ends with the block."""
    end, start = os.pipe()
    with files.scratch_file() as errors, workspace.folder() as folder:
        words = workspace.prepared(folder, data)
        files.link(f"/proc/self/fd/{start}", os.path.join(folder, FRAMES))
        started = subprocess.Popen(
            [program.path_of_uxn(), *words, f"--frames={FRAMES}"],
            cwd=folder,
            stdin=subprocess.DEVNULL,
            stdout=subprocess.DEVNULL,
            stderr=errors,
            pass_fds=[start],
        )
        os.close(start)
        try:
            yield from_pipe(end)
            status = started.wait()
        finally:
            os.close(end)
            started.kill()
            started.wait()
        errors.seek(0)
        done = workspace.told(program.Done(status, b"", errors.read()))
        if done.status == REFUSED_SCRIPT:
            # The lines of the user's own script have other numbers.
            workspace.play(workspace.script())
        program.accepted(done)


@dataclass
class Part:
    """What changed with a picture: the rows from `top` on, and for how many pictures they stay."""

    width: int
    height: int
    top: int
    data: bytes
    shown: int = 1


@dataclass
class Film:
    """An animated PNG: each picture as the rows that changed. The first is written at last, when the size of the largest
    is known."""

    rate: float
    first: Picture | None = None
    now: Picture | None = None
    first_shown: int = 0
    parts: list[Part] = field(default_factory=list)
    width: int = 0
    height: int = 0

    @staticmethod
    def of(shown: Iterable[Picture], rate: float) -> Film:
        film = Film(rate)
        for picture in shown:
            film.add(picture)
        return film

    def add(self, picture: Picture) -> None:
        self.width, self.height = max(self.width, picture.width), max(self.height, picture.height)
        before, self.now = self.now, picture
        if before is None:
            self.first, self.first_shown = picture, 1
        elif before == picture:
            if self.parts:
                self.parts[-1].shown += 1
            else:
                self.first_shown += 1
        else:
            self.parts.append(_changed(before, picture))

    def png(self) -> bytes:
        """The file."""
        if self.first is None:
            raise Failure("the run has no frame to show")
        first = self.first.padded(self.width, self.height)
        out = [pictures.head(self.width, self.height)]
        out.append(pictures.chunk(b"acTL", struct.pack(">II", 1 + len(self.parts), 0)))
        out.append(self._control(0, Part(self.width, self.height, 0, b"", self.first_shown)))
        out.append(pictures.chunk(b"IDAT", pictures.packed(first.rows())))
        for at, part in enumerate(self.parts):
            out.append(self._control(1 + 2 * at, part))
            out.append(pictures.chunk(b"fdAT", struct.pack(">I", 2 + 2 * at) + part.data))
        return b"".join([*out, pictures.chunk(b"IEND", b"")])

    def _control(self, number: int, part: Part) -> bytes:
        """When and where a part is shown: for so many pictures, in thousandths of a second."""
        delay = min(round(1000 * part.shown / self.rate), MOST_DELAY)
        data = struct.pack(">IIIIIHHBB", number, part.width, part.height, 0, part.top, delay, 1000, 0, 0)
        return pictures.chunk(b"fcTL", data)


def _changed(before: Picture, now: Picture) -> Part:
    """The rows that another picture changes. Where the sizes differ all of both is drawn anew, black where the new one
    ends."""
    if (before.width, before.height) != (now.width, now.height):
        width, height = max(before.width, now.width), max(before.height, now.height)
        return Part(width, height, 0, pictures.packed(now.padded(width, height).rows()))
    old, new = before.rows(), now.rows()
    different = [at for at, (one, other) in enumerate(zip(old, new)) if one != other]
    top, end = different[0], different[-1] + 1
    return Part(now.width, end - top, top, pictures.packed(new[top:end]))
