"""Random ROMs: by instruction mix, by device, and whole programs, each a list of pieces to be made smaller."""
from __future__ import annotations

import random
from collections.abc import Callable
from dataclasses import dataclass, field, replace

from conform import cases
from conform.cases import END, TO_SAVE, Case, join, poke, pops, push
from conform.instructions import KEEP, NAMES, RETURN, SHORT, name_of, sizes_of
from conform.tests import Event, Tree

# A piece of source that can be left out; a program is made of many.
Pieces = list[str]
EDGES = (0, 1, 2, 0x7F, 0x80, 0xFE, 0xFF)


@dataclass
class Program:
    """A random program: how a source is made of its pieces, and what goes in."""

    kind: str
    build: Callable[[Pieces], str]
    pieces: Pieces
    events: list[Event] | None = None
    files: Tree | None = None
    devices: list[str] = field(default_factory=lambda: ["console"])
    takes: tuple[str, ...] = ()

    def source(self) -> str:
        return self.build(self.pieces)

    def with_pieces(self, pieces: Pieces) -> Program:
        return replace(self, pieces=pieces)


def number(rng: random.Random, size: int) -> int:
    """A byte or a short, often at an edge."""
    if size == 1:
        return rng.choice(EDGES) if rng.random() < 0.3 else rng.randrange(256)
    return number(rng, 1) << 8 | number(rng, 1)


def operands(rng: random.Random, opcode: int) -> str:
    return cases.push_all(opcode, [number(rng, size) for size in sizes_of(opcode)])


def plain(rng: random.Random, opcode: int) -> str:
    """The instruction among others of its kind, with operands pushed for most."""
    parts = [pops(rng.choice((0, 0, 1, 2, 3, 5)), rng.random() < 0.5)]
    others = [code for code in range(1, 256) if is_plain(code)]
    for code in (opcode, *rng.choices(others, k=rng.randrange(4))):
        parts.append(join(operands(rng, code) if rng.random() < 0.8 else "", name_of(code)))
    return join(*parts, END)


def is_plain(opcode: int) -> bool:
    name = NAMES[opcode % 32]
    return opcode % 32 != 0 and name not in (
        "JMP",
        "JCN",
        "JSR",
        "LDZ",
        "STZ",
        "LDR",
        "STR",
        "LDA",
        "STA",
        "DEI",
        "DEO",
    )


def jump(rng: random.Random, opcode: int) -> str:
    word, here = name_of(opcode), bool(opcode & RETURN)
    before = pops(rng.choice((0, 0, 1, 2)), rng.random() < 0.5)
    condition = push(rng.choice((0, 1, 0x80, 0xFF)), 1, here) if NAMES[opcode % 32] == "JCN" else ""
    size = 2 if condition else 0
    if opcode & SHORT:
        literal = "LIT2r =&to" if here else ";&to"
        return join(before, condition, literal, word, "#22 !save", cases.SLED, "#ff !save")
    distance = rng.randrange(0x10, 0x80)
    if rng.random() < 0.5:
        return cases.forward(join(before, condition, push(distance, 1, here)), word, distance)
    return join(before, cases.backward(join(condition, push(256 - distance, 1, here)), size + 2, word, distance))


def memory(rng: random.Random, opcode: int) -> str:
    word, here, wide = name_of(opcode), bool(opcode & RETURN), 2 if opcode & SHORT else 1
    is_zero = NAMES[opcode % 32].endswith("Z")
    address = (
        number(rng, 1)
        if is_zero
        else rng.choice((rng.randrange(256), 0xB000 + rng.randrange(510), 0xFF00 + number(rng, 1)))
    )
    below = push(number(rng, wide), wide, here) if NAMES[opcode % 32].startswith("ST") else ""
    return join(pops(rng.randrange(3), here), below, push(address, 1 if is_zero else 2, here), word, END)


def relative(rng: random.Random, opcode: int) -> str:
    here, wide = bool(opcode & RETURN), 2 if opcode & SHORT else 1
    below = push(number(rng, wide), wide, here) if NAMES[opcode % 32] == "STR" else ""
    at = rng.choice((0xB0F0, 0xFFF0, 0xFFFF, 0x0005))
    # Away from the instruction itself and the code behind it.
    distance = rng.choice((rng.randrange(0x10, 0x80), rng.randrange(0x80, 0xF0)))
    return cases.placed(opcode, at, join(pops(rng.randrange(3), here), below, push(distance, 1, here)))


def device(rng: random.Random, opcode: int) -> str:
    word, here, wide = name_of(opcode), bool(opcode & RETURN), 2 if opcode & SHORT else 1
    port = rng.choice((0xFF, rng.randrange(0xD0, 0x100)))
    before = " ".join(f"#{number(rng, 1):02x} #{(port + at) & 255:02x} DEO" for at in range(wide))
    below = push(number(rng, wide), wide, here) if NAMES[opcode % 32] == "DEO" else ""
    after = " ".join(f"#{(port + at) & 255:02x} DEI" for at in range(wide))
    return join(before, pops(rng.randrange(3), here), below, push(port, 1, here), word, after, END)


def immediate(rng: random.Random, opcode: int) -> str:
    before = pops(rng.randrange(4), bool(opcode & RETURN))
    if opcode & KEEP:
        size = 2 if opcode & SHORT else 1
        if rng.random() < 0.3:
            data = bytes([opcode]) + number(rng, size).to_bytes(size, "big") + b"\x80\xaa" + TO_SAVE
            at = rng.choice((0xFFFF, 0xFFFE, 0xFFF0, 0x0005))
            return join(before, poke(at, data), f"!at-{at:04x}")
        return join(before, name_of(opcode), cases.digits(number(rng, size), size), END)
    target = {0x20: "?&to", 0x40: "!&to", 0x60: "/to"}[opcode]
    condition = push(rng.choice((0, 1, 0x80)), 1, False) if opcode == 0x20 else ""
    if rng.random() < 0.5:
        return join("!&go", cases.SLED, f"#bb !save ${rng.randrange(64):x} &go", before, condition, target, "#22 !save")
    return join(before, condition, target, f"#22 !save ${rng.randrange(64):x}", cases.SLED, "#ff !save")


def random_case(rng: random.Random) -> str:
    opcode = rng.randrange(1, 256)
    name = NAMES[opcode % 32]
    if opcode % 32 == 0:
        return immediate(rng, opcode)
    kinds = {"JMP": jump, "JCN": jump, "JSR": jump, "LDR": relative, "STR": relative, "DEI": device, "DEO": device}
    return kinds.get(name, memory if name in ("LDZ", "STZ", "LDA", "STA") else plain)(rng, opcode)


def instructions(rng: random.Random, driver: str) -> Program:
    """Sixty cases; a piece is a case."""

    def build(pieces: Pieces) -> str:
        return cases.source_of([Case("random", piece) for piece in pieces], driver, "random cases", True)

    return Program("instructions", build, [random_case(rng) for _ in range(60)])


def one_case(code: str, driver: str) -> Program:
    """A single case; a piece is a group of its words that belong together."""

    def build(pieces: Pieces) -> str:
        return cases.source_of([Case("made smaller", " ".join(pieces))], driver, "a random case, made smaller", True)

    return Program("instructions", build, groups(code.split(" ")))


def groups(words: list[str]) -> Pieces:
    """Words, each LIT of the return stack with its value, and each poke as a whole."""
    found: Pieces = []
    for word in words:
        if found and found[-1].startswith("LIT") and " " not in found[-1]:
            found[-1] += " " + word
        elif word in ("STA", "STA2") and len(found) > 1:
            address, value = found.pop(), found.pop()
            found.append(f"{value} {address} {word}")
        else:
            found.append(word)
    return found


PRINT = """
@short ( value* -- ) SWP byte
@byte ( value -- ) DUP #04 SFT digit #0f AND
@digit ( value -- ) #30 ADD DUP #39 GTH #27 MUL ADD #18 DEO JMP2r
"""


def write1(port: int, value: int) -> str:
    return f"#{value & 255:02x} #{port:02x} DEO"


def write2(port: int, value: int) -> str:
    return f"#{value & 0xffff:04x} #{port:02x} DEO2"


def show(*ports: int) -> str:
    return " ".join(f"#{port:02x} DEI byte" for port in ports) + " #0a18 DEO"


def screen_piece(rng: random.Random, profile: bool) -> str:
    """A drawing at a place; what is this project's profile only where it is asked for."""
    place = join(
        write2(0x28, rng.choice((rng.randrange(40), 0xFFFC))), write2(0x2A, rng.choice((rng.randrange(40), 0xFFFB)))
    )
    automatic = write1(0x26, rng.randrange(256) if profile else 0)
    address = write2(0x2C, 0x0100 + rng.randrange(256))
    small = join(write2(0x28, rng.randrange(40)), write2(0x2A, rng.randrange(40)))
    shown = show(*range(0x28, 0x2E))
    makers: tuple[Callable[[], str], ...] = (
        lambda: join(place, automatic, write1(0x2E, rng.randrange(4) | 0x40 * rng.randrange(2)), shown),
        lambda: join(small, write1(0x2E, 0x80 | rng.randrange(128) & 0x73)),
        *[lambda: join(place, automatic, address, write1(0x2F, rng.randrange(256)), shown)] * 4,
        lambda: join(
            place, write1(0x26, rng.randrange(8)), address, write1(0x2F, rng.randrange(256) & 0xCF), shown
        ),
    )
    return rng.choice(makers)()


def screen(rng: random.Random, profile: bool) -> Program:
    def build(pieces: Pieces) -> str:
        head = "|0100 #0f7a #08 DEO2 #0a7f #0a DEO2 #07fa #0c DEO2 #0028 #22 DEO2 #0028 #24 DEO2\n"
        return head + "\n".join("    " + piece for piece in pieces) + "\n    BRK\n" + PRINT

    pieces = [screen_piece(rng, profile) for _ in range(12)]
    return Program("screen", build, pieces, [["shot"]], devices=["screen", "console"], takes=("frames",))


def system_piece(rng: random.Random) -> str:
    """A record of the expansion port, or a store of some port, and what is there then."""
    operation, length = rng.randrange(3), rng.randrange(12)
    first, second = (0x0400 + rng.randrange(16) for _ in range(2))
    banks = [rng.choice((0, 0, 0, 1, 15)) for _ in range(2)]
    record = bytes([operation]) + b"".join(value.to_bytes(2, "big") for value in (length, banks[0], first))
    record += bytes([rng.randrange(256)]) if operation == 0 else banks[1].to_bytes(2, "big") + second.to_bytes(2, "big")
    at = 0x0300 + rng.randrange(4)
    makers: tuple[Callable[[], str], ...] = (
        *[lambda: join(poke(at, record), write2(0x02, at), "dump")] * 4,
        lambda: join(
            write2(0xD0 + rng.randrange(47), number(rng, 2)), show(*range(0xD0, 0xE0)), show(*range(0xF0, 0x100))
        ),
        lambda: join(write2(rng.choice((0x06, 0x08, 0x0A, 0x0C)), number(rng, 2)), show(*range(0x06, 0x0E))),
    )
    return rng.choice(makers)()


def system(rng: random.Random) -> Program:
    def build(pieces: Pieces) -> str:
        dump = "@dump ;area &loop LDAk byte INC2 DUP2 ;end NEQ2 ?&loop POP2 #0a18 DEO JMP2r\n"
        body = "\n".join("    " + piece for piece in pieces)
        area = "|0400 @area 0102 0304 0506 0708 090a 0b0c 0d0e 0f10 $c @end\n"
        return f"|0100\n{body}\n    #800f DEO BRK\n{dump}{PRINT}{area}"

    return Program("system", build, [system_piece(rng) for _ in range(12)], devices=["system", "console"])


def file_piece(rng: random.Random) -> str:
    base = rng.choice((0xA0, 0xB0))
    length = write2(base + 10, rng.choice((0, 1, 3, 8, 16)))
    shown = show(base + 2, base + 3)
    makers: tuple[Callable[[], str], ...] = (
        lambda: join(f";name-{rng.randrange(6)} #{base + 8:02x} DEO2", shown),
        lambda: join(length, f";area #{base + 12:02x} DEO2", shown, "dump"),
        lambda: join(length, f";text #{base + 14:02x} DEO2", shown),
        lambda: write1(base + 7, rng.randrange(2)),
        lambda: join(length, f";area #{base + 4:02x} DEO2", "dump"),
    )
    return rng.choice(makers)()


def files(rng: random.Random) -> Program:
    def build(pieces: Pieces) -> str:
        dump = "@dump ;area &loop LDAk byte INC2 DUP2 ;end NEQ2 ?&loop POP2 #0a18 DEO JMP2r\n"
        body = "\n".join("    " + piece for piece in pieces)
        names = '@name-0 "one 00 @name-1 "two.txt 00 @name-2 "three 00 @name-3 "in/a-file 00\n'
        names += f'@name-4 "{"long-" * 12}name.bin 00 @name-5 "none/file 00 @text "abcdefghijklmnop\n'
        return f"|0100\n{body}\n    #800f DEO BRK\n{dump}{PRINT}{names}|0800 @area $10 @end\n"

    # A name comes first, and each device has one before anything else is done.
    pieces = [f";name-{rng.randrange(6)} #{base + 8:02x} DEO2" for base in (0xA0, 0xB0)] + [
        file_piece(rng) for _ in range(16)
    ]
    return Program(
        "files",
        build,
        pieces,
        files={"one": "31", "two.txt": "74776f2062797465730a", "in": None, "in/a-file": "6162636465666768"},
        devices=["file", "console"],
        takes=("after",),
    )


def random_event(rng: random.Random) -> Event:
    button = rng.choice("a b select start up down left right".split())
    events: list[Event] = [
        ["frame"],
        ["key", rng.randrange(256)],
        ["down", button],
        ["up", button],
        ["input", rng.randrange(256)],
        ["mouse", rng.randrange(600), rng.randrange(65536)],
        ["press", rng.randrange(1, 9)],
        ["release", rng.randrange(1, 9)],
        ["scroll", rng.randrange(-3, 4), rng.randrange(-3, 4)],
    ]
    return rng.choice(events)


def inputs(rng: random.Random) -> Program:
    """Vectors that show what their device reads, and random events."""
    shown = {
        "10": show(0x12, 0x17),
        "20": show(0x28),
        "80": show(0x82, 0x83),
        "90": show(*range(0x92, 0x97), *range(0x9A, 0x9E)),
    }

    def build(pieces: Pieces) -> str:
        vectors = "".join(f"@on-{port} #{port} byte #2018 DEO {code} BRK\n" for port, code in shown.items())
        return "|0100\n" + "\n".join("    " + piece for piece in pieces) + "\n    BRK\n" + vectors + PRINT

    pieces = [f";on-{port} #{port} DEO2" for port in shown]
    events = [random_event(rng) for _ in range(20)]
    return Program("inputs", build, pieces, events, devices=["controller", "mouse", "screen", "console"])


WORDS2 = "ADD2 SUB2 MUL2 DIV2 AND2 ORA2 EOR2".split()


def routine_piece(rng: random.Random, index: int, at: int) -> str:
    """A piece of a routine, which takes a short and leaves one."""
    value, word, other = f"#{number(rng, 2):04x}", rng.choice(WORDS2), rng.choice(WORDS2)
    comparison = rng.choice(("GTH2", "LTH2", "EQU2", "NEQ2"))
    count = rng.randrange(1, 6)
    return rng.choice(
        (
            f"{value} {word}",
            f"{value} {word}",
            f"#{rng.randrange(256):02x} SFT2",
            f"DUP2 {value} {comparison} ?{{ {value} {word} }}",
            f"LITr {count:02x} &loop-{at} {value} {word} LITr 01 SUBr STHkr ?&loop-{at} POPr",
            f"{{ {value[1:]} }} STH2r LDA2 {word}",
            f"STH2k {value} {word} STH2r SWP2 {other}",
            f"routine-{rng.randrange(index)}" if index else "INC2",
        )
    )


def routine(rng: random.Random, index: int) -> str:
    """A routine that makes a short of a short: arithmetic, branches, loops and calls of earlier routines."""
    parts = [routine_piece(rng, index, at) for at in range(rng.randrange(2, 7))]
    return f"@routine-{index} ( value* -- value* ) " + " ".join(parts) + " JMP2r"


def whole(rng: random.Random) -> Program:
    """Calls of routines with numbers, of which each prints what comes of it; a piece is a call or a routine."""
    count = rng.randrange(3, 9)
    calls = [f"#{number(rng, 2):04x} routine-{rng.randrange(count)} short #0a18 DEO" for _ in range(16)]

    def build(pieces: Pieces) -> str:
        body = [piece for piece in pieces if not piece.startswith("@")]
        routines = [piece for piece in pieces if piece.startswith("@")]
        return (
            "|0100\n"
            + "\n".join("    " + piece for piece in body)
            + "\n    #800f DEO BRK\n"
            + "\n".join(routines)
            + PRINT
        )

    return Program("programs", build, calls + [routine(rng, index) for index in range(count)])


def clock_piece(rng: random.Random) -> str:
    return show(*rng.sample(range(0xC0, 0xCB), rng.randrange(1, 11)))


def clock(rng: random.Random) -> Program:
    """Ports of date and time, at the start and at frames; the clock is set once."""

    def build(pieces: Pieces) -> str:
        body = "\n".join("    " + piece for piece in pieces)
        frame = f"@on-frame {show(*range(0xC0, 0xCB))} BRK\n"
        return f"|0100 ;on-frame #20 DEO2\n{body}\n    BRK\n{frame}{PRINT}"

    seconds = rng.choice((rng.randrange(2**31), rng.randrange(253_370_000_000), 951_782_399, 1_709_251_199, 4_107_542_399, 0))
    events: list[Event] = [["clock", seconds, rng.choice((0, 0, rng.randrange(-840, 841)))]]
    events += [["frame"]] * rng.choice((1, 59, 60, 61, 130))
    pieces = [clock_piece(rng) for _ in range(4)]
    return Program("clock", build, pieces, events, devices=["datetime", "screen", "console"])


def note_piece(rng: random.Random) -> str:
    """A note of a voice, with all that its ports say."""
    base = 0x30 + 16 * rng.randrange(4)
    return join(
        write2(base + 8, rng.choice((0, rng.randrange(65536), rng.randrange(16) << 12 | rng.randrange(16)))),
        write2(base + 10, rng.choice((1, 2, 8, 255, 256, 257, rng.randrange(1024)))),
        write2(base + 12, rng.choice((0x0100, 0xFFF0, rng.randrange(65536)))),
        write1(base + 14, rng.randrange(256)),
        write1(base + 15, rng.choice((rng.randrange(108), rng.randrange(128), 0x80 | rng.randrange(128)))),
        show(base + 2, base + 3, base + 4),
    )


def sound(rng: random.Random) -> Program:
    """Notes at the start and at frames, whose samples are compared."""

    def build(pieces: Pieces) -> str:
        frame = f"@on-frame {show(0x32, 0x33, 0x34, 0x42, 0x43, 0x44, 0x52, 0x54, 0x62, 0x64)} BRK\n"
        vectors = "".join(f"@on-{voice} LIT \"{voice} #18 DEO BRK\n" for voice in range(4))
        begin = " ".join(f";on-{voice} #{0x30 + 16 * voice:02x} DEO2" for voice in range(4))
        return f"|0100 ;on-frame #20 DEO2 {begin}\n" + "\n".join("    " + piece for piece in pieces) + f"\n    BRK\n{frame}{vectors}{PRINT}"

    events: list[Event] = [["frame"]] * rng.randrange(1, 8)
    pieces = [note_piece(rng) for _ in range(rng.randrange(1, 6))]
    return Program("sound", build, pieces, events, devices=["audio", "screen", "console"], takes=("samples",))


KINDS = ("instructions", "instructions", "programs", "system", "screen", "files", "inputs", "clock", "sound")


def random_program(kind: str, rng: random.Random, driver: str, profile: bool) -> Program:
    if kind == "instructions":
        return instructions(rng, driver)
    if kind == "screen":
        return screen(rng, profile)
    makers = {"programs": whole, "system": system, "files": files, "inputs": inputs, "clock": clock, "sound": sound}
    return makers[kind](rng)
