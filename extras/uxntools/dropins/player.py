"""uxncli and uxnemu: a ROM with arguments, the standard input and the files of the current folder."""
from __future__ import annotations

import os
import sys
import time

from uxntools import plainfiles, signs
from uxntools.dropins import FAULT, OWN_STATUSES, Failure, call, say, wrong

MOST_BUDGET = 4_294_967_295
# A script has at most 1,000,000 events: one for each byte of input, and one for its end.
MOST_INPUT = 999_999
ENDED_EARLY = range(136, 139)
SCALES, MOST_FRAMES = ("-1x", "-2x", "-3x", "-4x"), 1_000_000


def script_of(arguments: list[str], data: bytes, last: list[str]) -> str:
    """The script of a call: this moment, the arguments, the input, and the last lines."""
    lines = [f"clock {int(time.time())} {time.localtime().tm_gmtoff // 60}"]
    if arguments:
        lines.append(" ".join(["args", *(os.fsencode(word).hex() or '"' for word in arguments)]))
    lines += [f"input {data[at : at + 64].hex()}" for at in range(0, len(data), 64)]
    return "\n".join([*lines, *last, ""])


def input_of_call() -> bytes:
    """The standard input to its end; none from a terminal, nor where it is closed."""
    if sys.stdin is None or sys.stdin.isatty():
        return b""
    try:
        return plainfiles.read_input(MOST_INPUT)
    except plainfiles.Refused:
        raise Failure(f"the input has more than {MOST_INPUT:,} bytes") from None


class Picture:
    """The last picture of a run: the file for it, and how large a pixel becomes."""

    def __init__(self, path: str, scale: int) -> None:
        self.path, self.scale = path, scale

    def keep(self, frames: str) -> None:
        from uxntools import pictures

        found, _ = pictures.whole_pictures(plainfiles.read(frames, plainfiles.OUTPUT))
        if not found:
            raise Failure("the program has ended before its last frame, and there is no picture")
        plainfiles.write(self.path, pictures.png(found[-1].scaled(self.scale)))


def run_rom(name: str, rom: str, script: str, picture: Picture | None = None) -> int:
    """Runs a ROM over a script and the files of the current folder, and answers the program's status."""
    plainfiles.look_at_folder(".")
    with plainfiles.OwnFolder(name) as folder:
        plainfiles.link(os.getcwd(), os.path.join(folder, "files"))
        plainfiles.copy_file(rom, os.path.join(folder, "rom"), plainfiles.ROM)
        plainfiles.put(os.path.join(folder, "script"), script.encode("ascii"))
        options = ["--script", "script", "--root", "files", "--budget", str(MOST_BUDGET)]
        status = call(["play", "rom", "--rom", *options, *(["--frames", "frames"] if picture else [])], folder)
        if picture and 0 <= status < OWN_STATUSES:
            picture.keep(os.path.join(folder, "frames"))
    if status in ENDED_EARLY:
        raise Failure(f"the run ended early with {status} (docs/ended.md says why)")
    return 128 - status if status < 0 else min(status, FAULT) if status >= OWN_STATUSES else status


def play(words: list[str]) -> int:
    """Runs a ROM with arguments, the standard input and the files of the current folder."""
    if not words or words[0].startswith("-"):
        raise wrong("uxncli", f"there is no option {words[0]}" if words else "a ROM is required")
    return run_rom("uxncli", words[0], script_of(words[1:], input_of_call(), ["end"]))


def emulate(words: list[str]) -> int:
    """Runs frames of a ROM, and says what it does not do."""
    frames, path, scale, rest = 60, "", 1, list(words)
    while rest and rest[0].startswith("-"):
        option = rest.pop(0)
        if option in ("--frames", "--to") and not rest:
            raise wrong("uxnemu", f"{option} has no value")
        if option == "--to":
            path = rest.pop(0)
        elif option == "--frames":
            frames = _frames(rest.pop(0))
        elif option in SCALES:
            scale = int(option[1])
        elif option != "-f":
            raise wrong("uxnemu", f"there is no option {option}")
    if not rest:
        raise wrong("uxnemu", "a ROM is required")
    script = script_of(rest[1:], input_of_call(), [f"frame {frames}", "shot"])
    status = run_rom("uxnemu", rest[0], script, Picture(path, scale) if path else None)
    kept = f"the last picture is in {path}" if path else "--to FILE.png keeps the last picture"
    return say(f"uxnemu: {signs.shown(f'no window, keys, mouse or sound: it ran {frames} frames; {kept}')}", status)


def _frames(text: str) -> int:
    if not text.isascii() or not text.isdigit() or not 1 <= int(text) <= MOST_FRAMES:
        raise wrong("uxnemu", f"'{text}' is no number from 1 to {MOST_FRAMES}")
    return int(text)
