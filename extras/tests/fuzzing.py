"""Calls of every tool on random and mutated files, odd files and closed streams: what none of them may do."""
from __future__ import annotations

import json
import os
import random
import shutil
import signal
import stat
import subprocess
import sys
import tempfile
import time
from collections.abc import Callable
from dataclasses import dataclass, field

from support import EXAMPLES, EXTRAS

# What a call may take: seconds on a busy machine, and KiB of memory.
SECONDS, MEMORY = 120, 400 * 1024
TEXT = b"a \n\t\r\0\xff()[]{}@&%~#|$\"';.,_-=!?/0123456789abcdefBRK LIT2 input frame key expect 1f end script 2 clock"
# What an uncaught exception shows, and what `cli.run` says of one.
UNCAUGHT = (b"Traceback (most recent call last)", b"this is a mistake of", b"Exception ignored")
SETTINGS = b'program = "game.tal"\nbudget = 500\n[folder.tests]\n'


@dataclass
class Call:
    """A call of a tool, which standard streams are closed, and its input."""

    words: list[str]
    closed: tuple[int, ...] = ()
    stdin: bytes = b""


@dataclass
class World:
    """A folder with the files of the calls, and beside it what no call may change."""

    folder: str
    outside: str
    environment: dict[str, str] = field(default_factory=dict)

    def path(self, name: str) -> str:
        return os.path.join(self.folder, name)

    def put(self, name: str, data: bytes) -> None:
        os.makedirs(os.path.dirname(self.path(name)), exist_ok=True)
        with open(self.path(name), "wb") as file:
            file.write(data)


def state_of(folder: str) -> dict[str, tuple[object, ...]]:
    """All that lies beneath a folder: kinds, modes, sizes, and the bytes of files."""
    found: dict[str, tuple[object, ...]] = {}
    for place, folders, names in os.walk(folder):
        for name in (*folders, *names):
            path = os.path.join(place, name)
            status = os.lstat(path)
            data = b""
            if stat.S_ISREG(status.st_mode) and status.st_size < 1 << 20:
                with open(path, "rb") as file:
                    data = file.read()
            found[os.path.relpath(path, folder)] = (status.st_mode, status.st_size, data)
    return found


def examples() -> list[bytes]:
    found = []
    for name in sorted(os.listdir(EXAMPLES)):
        if name.endswith(".tal"):
            with open(os.path.join(EXAMPLES, name), "rb") as file:
                found.append(file.read())
    return found


def mutated(rng: random.Random, data: bytes) -> bytes:
    """Some bytes put in, left out, doubled or put in place of others."""
    made = bytearray(data)
    for _ in range(rng.choice((0, 1, 1, 3, 20))):
        at = rng.randrange(len(made) + 1)
        length = rng.choice((1, 1, 4, 40))
        new = rng.choice((b"", rng.randbytes(length), bytes(rng.choices(TEXT, k=length)), bytes(made[at : at + length]) * 3))
        made[at : at + rng.choice((0, length))] = new
    return bytes(made)


def odd(rng: random.Random, world: World, name: str) -> None:
    """Puts something in the place of a file that a tool may meet in a strange folder."""
    path = world.path(name)
    if os.path.lexists(path):
        shutil.rmtree(path) if os.path.isdir(path) and not os.path.islink(path) else os.unlink(path)
    os.makedirs(os.path.dirname(path), exist_ok=True)
    rc = os.path.join(world.outside, "rc")
    kinds: list[Callable[[], object]] = [
        lambda: os.mkfifo(path),
        lambda: os.symlink("/dev/zero", path),
        lambda: os.symlink("/proc/self/mem", path),
        lambda: os.symlink(os.path.relpath(rc, os.path.dirname(path)), path),
        lambda: os.symlink(world.outside, path),
        lambda: os.symlink(os.path.basename(path), path),
        lambda: os.symlink(os.path.join(world.outside, "new"), path),
        lambda: os.link(rc, path),
        lambda: os.makedirs(os.path.join(path, "a", "b")),
        lambda: os.makedirs(os.path.join(path, *["d"] * 80)),
        lambda: sparse(path, 6 << 30),
        lambda: unreadable(path),
        lambda: world.put(name, b""),
        lambda: world.put(name, b"[" * 100_000),
        lambda: world.put(name, b"a" * 70_000),
    ]
    rng.choice(kinds)()


def sparse(path: str, size: int) -> None:
    with open(path, "wb") as file:
        file.truncate(size)


def unreadable(path: str) -> None:
    sparse(path, 10)
    os.chmod(path, 0)


SCRIPT = b'script 2\nargs "a b c\ninput "hi 0a\nkey 71 2\nframe 3\nshot\nmouse 3 4\nexpect 0f 00\nend\n'
COMMANDS = b"break 0100\nrun\nstep 3\nstacks\nmem 0100 16\nports\nback 2\nwhere\n"
PICTURES = b"P6\n8 8\n255\n" + bytes(192)


def fill(rng: random.Random, world: World, sources: list[bytes]) -> None:
    """The files that the calls name, mutated, and some of them odd."""
    source = rng.choice(sources)
    files = {
        "game.tal": rng.choice((source, mutated(rng, source), source + b"\n~inc.tal\n", rng.randbytes(200))),
        "inc.tal": rng.choice((b"@inc JMP2r\n", b"~game.tal\n", mutated(rng, b"%M { ~inc.tal } ( lint-allow x )\n"))),
        "a.rom": b"\x80\x41\x80\x18\x17" + bytes(1),
        "s.script": mutated(rng, SCRIPT),
        "c.commands": mutated(rng, COMMANDS),
        "y.sym": mutated(rng, b"\x01\x00main\0\x01\x02main/a\0"),
        "frames": mutated(rng, PICTURES * 2),
        "samples": rng.randbytes(rng.choice((0, 3, 4000))),
        "setup": mutated(rng, b"machine game.tal\nmachine game.tal\nscript s.script\nturn 2 10\n"),
        "root/notes": b"some\n",
        "uxn-test.toml": rng.choice((SETTINGS, mutated(rng, SETTINGS))),
        "tests/one.script": mutated(rng, SCRIPT),
        "tests/one.out": b"x\n",
        "tests/one.root/rc": b"theirs\n",
        "tests/one.after/rc": b"theirs\n",
        "tests/two.script": b"end\n",
        "tests/two.ppm": mutated(rng, PICTURES),
        "tests/two.report": mutated(rng, b"cuts 0\nmisses \xb2\n"),
        "tests/two.status": rng.choice((b"0\n", b"\xb2", b"9" * 5000)),
        "tests/three.commands": mutated(rng, COMMANDS),
    }
    for name, data in files.items():
        world.put(name, data)
    places = [*files, "root", "tests", "tests/one.root", "tests/one.after", ".uxn-test", ".uxn-test/failed", "out.rom"]
    places += [".uxn-test/results.sqlite", "tests/new.script", "made-1.png", "made.wav", "tests/\x1b[2J\n.out"]
    for name in rng.sample(places, rng.choice((0, 1, 1, 2, 4))):
        try:
            odd(rng, world, name)
        except (FileExistsError, NotADirectoryError, FileNotFoundError):
            # It lies beneath what is odd already.
            continue


def message(body: bytes) -> bytes:
    return b"Content-Length: %d\r\n\r\n" % len(body) + body


def messages(rng: random.Random, world: World) -> bytes:
    """A session of an editor, some messages of which are no right ones."""
    uri = "file://" + world.path("game.tal")
    document = {"textDocument": {"uri": uri}, "position": {"line": rng.randrange(40), "character": rng.randrange(9)}}
    opened = {"textDocument": {"uri": uri, "languageId": "uxntal", "version": 1, "text": "@a ;b ~inc.tal\n" * 9}}
    said: list[object] = [
        {"id": 1, "method": "initialize", "params": {"rootUri": "file://" + world.folder, "capabilities": {}}},
        {"method": "textDocument/didOpen", "params": opened},
    ]
    for number, method in enumerate(
        ("hover", "definition", "references", "completion", "documentSymbol", "formatting", "rename", "foldingRange"), 2
    ):
        said.append({"id": number, "method": f"textDocument/{method}", "params": {**document, "newName": "\ud800"}})
    said += [None, [], 7, {"id": 99, "method": "textDocument/hover", "params": [1]}, {"id": 98, "method": 3}]
    rng.shuffle(said[1:])
    bodies = [json.dumps(one).encode() for one in said] + [b"[" * 50_000, b"\xff", b"nul"]
    chosen = bodies[:2] + rng.sample(bodies, rng.randrange(len(bodies)))
    data = b"".join(message(mutated(rng, body) if rng.random() < 0.2 else body) for body in chosen)
    return data if rng.random() < 0.8 else mutated(rng, data)


def commands_of(rng: random.Random) -> bytes:
    names = b"break run step next finish back reverse-run goto watch where calls list stacks mem ports print labels".split()
    names += b"shot output reload help save \xff 9999999999999999999999 #".split()
    words = [b"", b"0100", b"main", b"99999", b"-1", b"game.tal:3", b":1", b".", b"\xff", b"tests/new", b"0"]
    return b"".join(rng.choice(names) + b" " + rng.choice(words) + b"\n" for _ in range(rng.randrange(8)))


def typed(rng: random.Random) -> bytes:
    words = [b":key q", b":frame 2", b":frame 0", b":expect 0f", b":undo", b":script", b":shot", b"text", b":tap z", b":done"]
    return b"".join(rng.choice(words) + b"\n" for _ in range(rng.randrange(6)))


def call_of(rng: random.Random, world: World) -> Call:
    """A call of one of the tools."""
    play = ["--budget", "400"]
    for option, value in (("--script", "s.script"), ("--root", "root"), ("--symbols", "y.sym")):
        play += [option, value] if rng.random() < 0.4 else []
    source = rng.choice((["game.tal"], ["game.tal"], ["a.rom", "--rom"], ["none.tal"], ["\udcff"]))
    script = ["--script", "s.script", *(["--root", "root"] if rng.random() < 0.5 else [])]
    where = rng.choice(("main", "0100", "game.tal:3", "on-reset", "\udcff", "ffff"))
    text = rng.choice((b"", rng.randbytes(300), b"abc\n" * 40))
    tools: dict[str, tuple[list[str], bytes]] = {
        "uxn-check": (rng.choice((["game.tal"], ["./game.tal", "--out", "out.rom"])), b""),
        "uxn-cover": (rng.choice(([], ["--lcov", "out.rom"], ["game.tal", "--budget", "400"])), b""),
        "uxn-debug": ([*source, *play, *rng.choice(([], ["--commands", "c.commands"]))], commands_of(rng)),
        "uxn-explain": (
            rng.choice(
                (["uxn", "asm", "game.tal", "--out", "out.rom"], ["uxn", "play", *source, *play], ["uxn", "line", "setup"], [])
            ),
            text,
        ),
        "uxn-film": ([*source, *play, "--to", rng.choice(("made.png", "-", "root/made.png"))], b""),
        "uxn-fmt": (rng.choice((["game.tal"], ["--check", "game.tal", "inc.tal"], [])), text),
        "uxn-frames-to-png": (["frames", "made"], b""),
        "uxn-fuzz": (["game.tal", "--runs", "3", "--jobs", "1", *rng.choice(([], ["--root", "root"], ["--against", "a.rom"]))], b""),
        "uxn-lint": (["game.tal"], b""),
        "uxn-listing": (["game.tal", *rng.choice(([], ["--out", "out.rom"]))], b""),
        "uxn-dap": ([], messages(rng, world)),
        "uxn-lsp": ([], messages(rng, world)),
        "uxn-manual": ([rng.choice(("uxn.1", "uxn-script.5", "none"))], b""),
        "uxn-misses": (["game.tal", "--budget", "400", *script], b""),
        "uxn-needs": (["game.tal", *rng.choice(([], ["out.rom"]))], b""),
        "uxn-profile": ([*source, *play, *rng.choice(([], ["--flame", "made.svg"], ["--lines", "--lcov", "out.rom"]))], b""),
        "uxn-record": (["game.tal", "--to", "tests/new", "--budget", "400", *rng.choice(([], ["--root", "root"]))], typed(rng)),
        "uxn-samples-to-wav": (["samples", "made.wav"], b""),
        "uxn-sandbox": (["--seconds", "5", "play", *source, *play[:2], *rng.choice(([], ["--root", "root", "--report", "r"]))], b""),
        "uxn-test": (rng.choice(([], ["--update"], ["--junit", "out.rom"], ["--list"], ["tests/one", "--fresh"])), b""),
        "uxn-text-to-script": (rng.choice(([], ["a", "\udcff b"])), text),
        "uxn-trace": ([*source, *play, "--count", "20", *rng.choice(([], ["--at", where]))], b""),
        "uxn-watch": ([*source, where, *play], b""),
        "uxnasm": (["game.tal", "out.rom"], b""),
        "uxncli": (["a.rom", "an argument"], text),
        "uxnemu": (["--frames", "3", *rng.choice(([], ["--to", "out.rom"])), "a.rom"], text),
    }
    assert {*os.listdir(os.path.join(EXTRAS, "bin")), *os.listdir(os.path.join(EXTRAS, "dropins"))} <= {*tools, "__pycache__"}
    name = rng.choice(sorted(tools))
    words, stdin = tools[name]
    closed = rng.choice(((), (), (), (), (0,), (1,), (2,), (0, 1, 2)))
    return Call([name, *words], closed, stdin)


@dataclass
class Ended:
    """How a call ended: its status (None if it did not in time), what it said on both outputs, and its memory in KiB."""

    status: int | None
    said: bytes
    memory: int = 0


def ended(words: list[str], world: World, stdin: bytes = b"", closed: tuple[int, ...] = ()) -> Ended:
    """Makes a call in the folder of a world, with some standard streams closed."""

    def prepare() -> None:
        for number in closed:
            os.close(number)

    with tempfile.TemporaryFile() as given, tempfile.TemporaryFile() as out, tempfile.TemporaryFile() as err:
        given.write(stdin)
        given.seek(0)
        started = subprocess.Popen(
            list(map(os.fsencode, words)),
            cwd=world.folder,
            env=world.environment,
            stdin=given,
            stdout=out,
            stderr=err,
            preexec_fn=prepare,
            start_new_session=True,
        )
        end = time.monotonic() + SECONDS
        while not (waited := os.wait4(started.pid, os.WNOHANG))[0]:
            if time.monotonic() > end:
                os.killpg(started.pid, signal.SIGKILL)
                started.wait()
                return Ended(None, _read(out) + _read(err))
            time.sleep(0.005)
        started.returncode = os.waitstatus_to_exitcode(waited[1])
        return Ended(started.returncode, _read(out) + _read(err), waited[2].ru_maxrss)


def fault_of(call: Call, world: World, before: dict[str, tuple[object, ...]]) -> str:
    """Makes a call, and says what of it may not be; empty where all is well."""
    folder = EXTRAS + ("/dropins" if call.words[0] in ("uxnasm", "uxncli", "uxnemu") else "/bin")
    done = ended([os.path.join(folder, call.words[0]), *call.words[1:]], world, call.stdin, call.closed)
    if done.status is None:
        return "it did not end"
    if any(text in done.said for text in UNCAUGHT):
        return f"an uncaught exception: {done.said[-1500:].decode(errors='replace')}"
    if done.status < 0:
        return f"it was ended by signal {-done.status}"
    if done.memory > MEMORY:
        return f"it took {done.memory // 1024} MiB"
    if state_of(world.outside) != before:
        return "a file outside of its folder was changed"
    return ""


def _read(file: object) -> bytes:
    file.seek(0)  # type: ignore[attr-defined]
    return bytes(file.read(1 << 20))  # type: ignore[attr-defined]


def try_one(seed: int, top: str, sources: list[bytes], environment: dict[str, str]) -> str:
    """Makes the files and the call of a seed, and says what of it may not be."""
    rng = random.Random(seed)
    world = World(os.path.join(top, "in"), os.path.join(top, "outside"), environment)
    os.makedirs(world.folder)
    os.makedirs(os.path.join(world.outside, "more"))
    for name in ("rc", "more/rc"):
        with open(os.path.join(world.outside, name), "w", encoding="ascii") as file:
            file.write("mine\n")
    fill(rng, world, sources)
    before = state_of(world.outside)
    call = call_of(rng, world)
    fault = fault_of(call, world, before)
    return fault and f"seed {seed}: {call.words} with {call.closed} closed: {fault}"


def run(program: str, seconds: float, seed: int, most: int = 10**9) -> tuple[int, list[str]]:
    """Tries seeds from one on for some seconds: how many were tried, and what was found."""
    environment = {**os.environ, "UXN": program, "LC_ALL": "C.UTF-8", "PYTHONDONTWRITEBYTECODE": "1"}
    sources, found, tried = examples(), [], 0
    end = time.monotonic() + seconds
    while time.monotonic() < end and tried < most and len(found) < 20:
        top = tempfile.mkdtemp(prefix="uxn-fuzz-")
        try:
            fault = try_one(seed + tried, top, sources, environment)
        finally:
            subprocess.run(["chmod", "-R", "u+rwX", top], check=False, stderr=subprocess.DEVNULL)
            shutil.rmtree(top, ignore_errors=True)
        if fault:
            found.append(fault)
            print(fault, file=sys.stderr, flush=True)
        tried += 1
    return tried, found
