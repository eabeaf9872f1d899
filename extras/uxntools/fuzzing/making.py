"""Making scripts: random lines of the devices that a program listens to, and changes of scripts that are known."""
from __future__ import annotations

import random
import re
from collections.abc import Sequence
from dataclasses import dataclass, field

from uxntools import facts, script
from uxntools.facts import BUTTONS

# What is tried where a number is wanted: edges of bytes, shorts and screens.
EDGES = (0, 1, 7, 8, 15, 16, 127, 128, 255, 256, 319, 320, 511, 512, 32767, 32768, 65535)
KEYS = b"\x08\x09\x0a\x0d\x1b\x7f abcxyzABCXYZ0123456789+-*/()[]{}<>=!?.,:;'\"\\#@&%$^_~|\x00\x80\xff"
LIT = 0x80
MOST_LINES, MOST_FRAMES, MOST_TEXT = 400, 60, 300
# The lines that run each vector: of the screen and the voices, frames.
OWN_LINES = {"Console": "console", "Controller": "controller", "Mouse": "mouse"}
VECTORS = {port: OWN_LINES.get(name, "frame") for name, port in facts.DEVICES.items() if port in facts.VECTORS}
Lines = tuple[str, ...]


def devices(ports: bytes, rom: bytes) -> list[str]:
    """The devices whose vectors are set in the ports of a program, and those that it reads; all of them if none is."""
    found = {device for port, device in VECTORS.items() if ports[port : port + 2] != b"\0\0"}
    found |= {VECTORS[port & 0xF0] for port in _read_ports(rom) if port & 0xF0 in VECTORS}
    return sorted(found) or sorted(set(VECTORS.values()))


def _read_ports(rom: bytes) -> set[int]:
    """The ports that a ROM reads by a literal and DEI or DEI2."""
    return {code[1] for code in re.findall(rb"\x80[\x00-\xff][\x16\x36]", rom, re.DOTALL)}


def dictionary(rom: bytes) -> list[bytes]:
    """The texts of a ROM: a program compares its input with them."""
    found = {text for text in re.findall(rb"[!-~]{2,20}", rom) if not text.isspace()}
    return sorted(found)[:500]


def literals(rom: bytes) -> bytes:
    """The bytes that a ROM pushes: a program compares keys with them."""
    return bytes(sorted({rom[at + 1] for at in range(len(rom) - 1) if rom[at] == LIT}))


def lines_of(data: bytes) -> Lines:
    """The lines of a script that give events or arguments."""
    kept = (b" ".join(words).decode("latin-1") for _, words in script.lines(data) if words[0] not in (b"script", b"expect"))
    return tuple(kept)


@dataclass
class Maker:
    """Makes scripts by a sequence of random numbers, which is the same for the same seed."""

    chance: random.Random
    devices: Sequence[str]
    texts: Sequence[bytes] = ()
    keys: bytes = b""
    known: list[Lines] = field(default_factory=list)

    def next(self) -> Lines:
        """A script: a change of a known one mostly."""
        if not self.known or self.chance.random() < 0.15:
            made = self._random()
        else:
            made = self._changed(self.chance.choice(self.known))
        return _ordered(made)[:MOST_LINES]

    def _random(self) -> list[str]:
        head = [self._arguments()] if self.chance.random() < 0.1 else []
        return head + [self._line() for _ in range(self.chance.choice((1, 2, 4, 8, 16, 32, 64)))]

    def _changed(self, lines: Lines) -> list[str]:
        made = list(lines)
        for _ in range(self.chance.choice((1, 1, 2, 3, 6))):
            at, end = sorted(self.chance.randrange(len(made) + 1) for _ in range(2))
            end = min(end, at + 8)
            kind = self.chance.randrange(6)
            if kind == 0:
                del made[at:end]
            elif kind == 1:
                made[at:at] = made[at:end]
            elif kind == 2 and self.known:
                other = self.chance.choice(self.known)
                start = self.chance.randrange(len(other) + 1)
                made[at:end] = other[start : start + 8]
            elif kind == 3 and end > at:
                made[at] = self._line()
            else:
                made[at:at] = [self._line() for _ in range(self.chance.choice((1, 1, 2, 5)))]
        return made

    def _line(self) -> str:
        device = self.chance.choice(self.devices)
        make = {"console": self._input, "frame": self._frame, "controller": self._controller, "mouse": self._mouse}
        return make[device]() if self.chance.random() < 0.9 else self._frame()

    def _frame(self) -> str:
        count = self.chance.choice((1, 1, 1, 2, 3, 8, self.chance.randint(1, MOST_FRAMES)))
        return "frame" if count == 1 else f"frame {count}"

    def _controller(self) -> str:
        kind = self.chance.randrange(5)
        if kind == 0:
            return f"key {self._key():02x}"
        return f"{'down' if kind < 4 else 'up'} {self.chance.choice(list(BUTTONS))}"

    def _key(self) -> int:
        return self.chance.choice(self.keys if self.keys and self.chance.random() < 0.5 else KEYS)

    def _mouse(self) -> str:
        kind = self.chance.randrange(6)
        if kind < 3:
            return f"mouse {self._number()} {self._number()}"
        if kind == 5:
            return f"scroll {self.chance.choice((-1, 0, 1))} {self.chance.choice((-1, 0, 1))}"
        return f"{'press' if kind == 3 else 'release'} {self.chance.randint(1, 3)}"

    def _number(self) -> int:
        return self.chance.choice(EDGES) if self.chance.random() < 0.4 else self.chance.randrange(512)

    def _text(self) -> bytes:
        kind = self.chance.randrange(8)
        if kind == 0 and self.texts:
            return self.chance.choice(self.texts)
        if kind == 1:
            return str(self.chance.choice(EDGES)).encode()
        if kind == 2:
            return bytes([self._key()]) * self.chance.choice((1, 8, 64, 129, 257, MOST_TEXT))
        if kind == 3:
            return self.chance.randbytes(self.chance.choice((1, 2, 8)))
        return bytes(self._key() for _ in range(self.chance.choice((0, 1, 2, 4, 9))))

    def _input(self) -> str:
        if self.chance.random() < 0.05:
            return "end"
        ending = b"\n" if self.chance.random() < 0.7 else b""
        text = self._text() + ending
        return f"input {script.input_words(text)}" if text else 'input "'

    def _arguments(self) -> str:
        return script.args_line([self._text() for _ in range(self.chance.choice((1, 1, 2, 3)))])


def _ordered(lines: Sequence[str]) -> Lines:
    """The lines with one of arguments at most, and what comes before events there."""
    first = [line for line in lines if line.startswith("clock ")][:1]
    arguments = [line for line in lines if line.startswith("args ")][:1]
    return tuple(first + arguments + [line for line in lines if not line.startswith(("clock ", "args "))])
