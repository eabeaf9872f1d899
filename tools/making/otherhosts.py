"""Runs the command-line cases where `cases/run` cannot run a program by itself: under qemu, and in Node."""
from __future__ import annotations

import base64
import json
import queue
import shutil
import subprocess
import sys
import tempfile
import threading
from collections.abc import Iterator
from pathlib import Path

TOP = Path(__file__).resolve().parent.parent.parent
sys.path.insert(0, str(TOP / "cases"))

import stored  # noqa: E402

DRIVER = TOP / "tools" / "cases.mjs"
NODES = (["node"], ["node", "--experimental-wasm-memory64"])
SECONDS = 120
EMULATOR = "qemu-aarch64-static"


class Skipped(Exception):
    """What is needed is not there. The text says what."""


def file_of(given: Path, name: str) -> Path:
    """The file of this name that a call means: by itself, in a folder, or, where another program is named, in dist/."""
    if given.name == name:
        return given
    found = (given if given.is_dir() else TOP / "dist") / name
    if not found.is_file():
        raise Skipped(f"there is no {found}")
    return found


def last_line(passed: int, failed: int, skipped: int) -> str:
    return f"{passed} passed, {failed} failed" + (f", {skipped} skipped" if skipped else "")


def run_emulated(program: Path, names: list[str]) -> int:
    """Runs cases/run on a command that emulates the program; returns its status."""
    if not shutil.which(EMULATOR):
        raise Skipped(f"{EMULATOR} is not installed (package qemu-user-static)")
    with tempfile.TemporaryDirectory() as folder:
        command = Path(folder) / "uxn"
        command.write_text(f"#!/bin/sh\nexec {EMULATOR} '{program.resolve()}' \"$@\"\n")
        command.chmod(0o755)
        return subprocess.run([str(TOP / "cases" / "run"), str(command), *names], check=False).returncode


class Node:
    """A process of Node that runs calls of the WebAssembly, one after the other."""

    def __init__(self, folder: Path, on_disk: Path | None) -> None:
        for words in NODES if shutil.which("node") else ():
            words = [*words, str(DRIVER), str(folder.resolve()), *(["--disk"] if on_disk else [])]
            how = {"stdin": subprocess.PIPE, "stdout": subprocess.PIPE, "stderr": subprocess.DEVNULL, "text": True}
            self.process = subprocess.Popen(words, cwd=on_disk, **how)
            self.answers: queue.Queue[str] = queue.Queue()
            threading.Thread(target=self.read, args=(self.process.stdout,), daemon=True).start()
            if self.answers.get() == "ready\n":
                return
            self.stop()
        raise Skipped("there is no Node 20 or later")

    def read(self, lines: Iterator[str]) -> None:
        for line in lines:
            self.answers.put(line)
        self.answers.put("")

    def call(self, case: stored.Case) -> stored.Outcome | str:
        """What came of a case; a text where nothing came."""
        tree = {path.decode("latin-1"): None if data is None else base64.b64encode(data).decode() for path, data in case.tree.items()}
        assert self.process.stdin
        self.process.stdin.write(json.dumps({"words": [word.decode() for word in case.words], "tree": tree}) + "\n")
        self.process.stdin.flush()
        try:
            line = self.answers.get(timeout=SECONDS)
        except queue.Empty:
            return "it did not end in two minutes"
        answer = json.loads(line) if line else {"error": "Node ended"}
        if "error" in answer:
            return str(answer["error"])
        after = {path.encode("latin-1"): None if text is None else base64.b64decode(text) for path, text in answer["after"].items()}
        return stored.Outcome(answer["status"], base64.b64decode(answer["out"]), base64.b64decode(answer["err"]), after)

    def stop(self) -> None:
        self.process.kill()
        self.process.wait()


def reason_to_skip(case: stored.Case) -> str | None:
    """Why Node cannot be given a case."""
    try:
        for word in case.words:
            word.decode()
    except UnicodeDecodeError:
        return "an argument is no UTF-8, which Node cannot pass on"
    return None


def paths_of(names: list[str]) -> tuple[list[str], list[str]]:
    """The cases that the names mean, all without one; and the names that mean none."""
    if not names:
        return stored.below(stored.CASES), []
    found = {name: stored.find(name) for name in names}
    return [path for paths in found.values() for path in paths], [name for name, paths in found.items() if not paths]


def run_in_node(folder: Path, names: list[str], on_disk: bool) -> int:
    """Runs the cases and prints what fails; returns the status."""
    paths, missing = paths_of(names)
    for name in missing:
        print(f"FAILED {name}\n    there is no such case")
    passed, failed, skipped = 0, len(missing), 0
    with tempfile.TemporaryDirectory() as place:
        node = Node(folder, Path(place) if on_disk else None)
        for path in paths:
            case = stored.read(path)
            if why := reason_to_skip(case):
                print(f"not tried: {case.name}: {why}")
                skipped += 1
                continue
            outcome = node.call(case)
            faults = [outcome] if isinstance(outcome, str) else stored.faults(case, outcome)
            if isinstance(outcome, str):
                node.stop()
                node = Node(folder, Path(place) if on_disk else None)
            if faults:
                print("\n    ".join([f"FAILED {case.name}", *faults]), flush=True)
            passed, failed = passed + (not faults), failed + bool(faults)
        node.stop()
    print(last_line(passed, failed, skipped))
    return 1 if failed else 0
