"""Keeps what a failed test wanted and got, so that a person can look at it and run it again."""
from __future__ import annotations

import os
import shlex
import shutil

from conform import images, sdl, tests
from conform.differences import Got
from conform.execute import ROM, SYMBOLS, Command, Result, clock_of
from conform.images import Picture
from conform.tests import Test, Tree

MOST_PICTURES = 10


def put(folder: str, name: str, data: bytes | None) -> None:
    if data is not None:
        path = os.path.join(folder, name)
        os.makedirs(os.path.dirname(path), exist_ok=True)
        with open(path, "wb") as file:
            file.write(data)


def put_tree(folder: str, name: str, tree: Tree | None) -> None:
    if tree is not None:
        place = os.path.join(folder, name)
        os.makedirs(place, exist_ok=True)
        tests.make_tree(tree, place)


def pairs_of(wanted: bytes, got: bytes | None) -> list[tuple[int, Picture | None, Picture | None]]:
    """The pictures that differ, by their numbers from 1."""
    left, right = images.pictures_of(wanted), images.pictures_of(got)
    count = max(len(left), len(right))
    both = [(left[at] if at < len(left) else None, right[at] if at < len(right) else None) for at in range(count)]
    return [(at, one, other) for at, (one, other) in enumerate(both, 1) if one != other][:MOST_PICTURES]


def pictures(test: Test, suite: str, got: Got) -> dict[str, bytes]:
    """PNG files of the pictures that differ, and of the waves; by their names."""
    found: dict[str, bytes] = {}
    if test.want.frames is not None:
        for number, one, other in pairs_of(tests.bytes_of(suite, test.want.frames), got.frames or got.picture):
            for name, picture in (("wanted", one), ("got", other)):
                if picture:
                    found[f"picture-{number}-{name}.png"] = images.png(picture)
            if one and other:
                found[f"picture-{number}-difference.png"] = images.png(images.difference(one, other))
    if test.want.samples is not None:
        wanted = tests.bytes_of(suite, test.want.samples)
        if wanted != got.samples:
            found["waves.png"] = images.png(images.waves(wanted, got.samples or b""))
    return found


def keep_outputs(test: Test, suite: str, got: Got, folder: str) -> None:
    """What came out, with what was wanted beside it."""
    put(folder, "got.out", got.out)
    put(folder, "got.err", got.err)
    for name, wanted in (("out", test.want.out), ("err", test.want.err), ("rom", test.want.rom), ("txt", test.want.text)):
        if wanted is not None:
            put(folder, f"wanted.{name}", tests.bytes_of(suite, wanted))
    put(folder, "got.rom", got.rom)
    put_tree(folder, "files-wanted", test.want.after)
    put_tree(folder, "files-got", got.after if test.want.after is not None else None)
    if got.twin:
        put(folder, "repaired.tal", tests.bytes_of(suite, test.twin.source if test.twin else None))
        put(folder, "repaired.err", got.twin.err)
    if test.want.samples is not None:
        put(folder, "wanted.wav", images.wav(tests.bytes_of(suite, test.want.samples)))
        put(folder, "got.wav", images.wav(got.samples or b""))


def keep_inputs(test: Test, suite: str, folder: str) -> dict[str, str]:
    """What goes in; answers what stands in the places of the command, as paths from a folder beside."""
    values = {"source": test.place or os.path.basename(test.source), "symbols": SYMBOLS, "rom": ROM}
    if test.kind == "assembler":
        put_tree(folder, "before", {**(test.files or {})})
        if values["source"] not in (test.files or {}):
            put(folder, f"before/{values['source']}", tests.bytes_of(suite, test.source))
        return values
    put(folder, "source.tal", tests.bytes_of(suite, test.source))
    put(folder, "program.rom", tests.bytes_of(suite, test.rom))
    put(folder, "input", bytes.fromhex(test.stdin or ""))
    put_tree(folder, "before", test.files or {})
    values = {"rom": "../program.rom", "clock": clock_of(test)}
    if test.want.symbols:
        put(folder, "program.sym", tests.bytes_of(suite, test.want.symbols))
        values["symbols"] = "../program.sym"
    if test.events is not None:
        put(folder, "events.json", tests.text_of_events(test.events).encode())
        put(folder, "events.sdl", sdl.lines_of(test.events).encode())
        values.update(events="../events.json", sdl="../events.sdl")
    for name, wanted in (("frames", test.want.frames), ("picture", test.want.frames), ("samples", test.want.samples)):
        if wanted is not None:
            values[name] = f"../again.{name}"
    return values


def keep(result: Result, command: Command, suite: str, folder: str) -> None:
    """Writes all of a failed test into a folder of its name."""
    test, place = result.test, os.path.join(folder, *result.test.name.split("/"))
    shutil.rmtree(place, ignore_errors=True)
    os.makedirs(place)
    put(place, "said.txt", "".join(line + "\n" for line in result.said).encode(errors="backslashreplace"))
    values = keep_inputs(test, suite, place)
    words = shlex.join(command.filled(values, test.args))
    stdin = "../input" if test.kind == "emulator" else "/dev/null"
    again = f'#!/bin/sh\n# Runs {test.name} again.\ncd "$(dirname "$0")" && rm -rf again && cp -r before again && cd again || exit\n'
    os.makedirs(os.path.join(place, "before"), exist_ok=True)
    put(place, "again.sh", f"{again}exec {words} <{stdin}\n".encode())
    os.chmod(os.path.join(place, "again.sh"), 0o755)
    if result.got:
        keep_outputs(test, suite, result.got, place)
        for name, data in pictures(test, suite, result.got).items():
            put(place, name, data)
