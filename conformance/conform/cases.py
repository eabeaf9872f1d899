"""The cases of each instruction: lines of Uxntal that end with `#id !save`, for sources/driver.tal."""
from __future__ import annotations

from collections.abc import Iterator, Sequence
from typing import NamedTuple

from conform.instructions import IMMEDIATE, KEEP, NAMES, OPERANDS, RETURN, SHORT, name_of, sizes_of

BYTES = (0x00, 0x01, 0x7F, 0x80, 0xFF)
SHORTS = (0x0000, 0x0001, 0x00FF, 0x0100, 0x7FFF, 0x8000, 0xFFFF)
MIXED = {
    1: ((0x12, 0x34, 0x56), (0xC5, 0x3A, 0x07), (0x0B, 0xFD, 0x81)),
    2: ((0x1234, 0x5678, 0x9ABC), (0xC53A, 0x0203, 0xFF00), (0x00C8, 0xFFFE, 0x8001)),
}
SHIFTS = (0x00, 0x01, 0x04, 0x07, 0x08, 0x0F, 0x10, 0x11, 0x34, 0x70, 0x80, 0xC3, 0xF0, 0xFF)
END = "#aa !save"
# To `save` from code that stands anywhere: LIT2 =save JMP2.
TO_SAVE = bytes.fromhex("a0d8002c")
# What follows a jump target: how many of the INC are run shows where it led.
SLED = "INC INC &to INC INC INC"


class Case(NamedTuple):
    """What it is about, and its code."""

    note: str
    code: str


def digits(value: int, size: int) -> str:
    return f"{value:0{2 * size}x}"


def push(value: int, size: int, to_return: bool) -> str:
    if to_return:
        return f"LIT{'2' * (size == 2)}r {digits(value, size)}"
    return "#" + digits(value, size)


def push_all(opcode: int, values: Sequence[int]) -> str:
    """The operands of an instruction, onto the stack that it takes them from."""
    return " ".join(push(value, size, bool(opcode & RETURN)) for value, size in zip(values, sizes_of(opcode)))


def pops(count: int, of_return: bool) -> str:
    return " ".join(["POPr" if of_return else "POP"] * count)


def join(*parts: str) -> str:
    return " ".join(part for part in parts if part)


def poke(address: int, data: bytes) -> str:
    """Code that puts bytes into memory."""
    pairs = [(at, data[at : at + 2]) for at in range(0, len(data), 2)]
    return " ".join(f"#{pair.hex()} #{(address + at) & 0xffff:04x} STA{'2' * (len(pair) == 2)}" for at, pair in pairs)


def values_of(opcode: int) -> Iterator[tuple[int, ...]]:
    """The operands that an arithmetic or stack instruction is tried with."""
    sizes = sizes_of(opcode)
    edges = [BYTES if size == 1 else SHORTS for size in sizes]
    if NAMES[opcode % 32] == "SFT":
        yield from ((value, shift) for value in edges[0][1:] for shift in SHIFTS)
    elif len(sizes) == 1:
        yield from ((value,) for value in edges[0])
    elif len(sizes) == 2:
        yield from ((a, b) for a in edges[0] for b in edges[1])
    else:
        yield from ((a, b, c) for a, b, c in zip(edges[0], edges[1][1:], edges[2][2:]))
    yield from (values[: len(sizes)] for values in MIXED[max(sizes)] if NAMES[opcode % 32] != "SFT")


def pointer_cases(opcode: int, values: Sequence[int], rest: str = END) -> Iterator[Case]:
    """An instruction with its operands and results across the end of its stack, and with none pushed."""
    word, here = name_of(opcode), bool(opcode & RETURN)
    count = sum(sizes_of(opcode))
    for number in range(1, count + (7 if opcode & KEEP else 4)):
        note = f"{word} with the pointer at {(256 - number + count) & 255:02x}"
        yield Case(note, join(pops(number, here), push_all(opcode, values), word, rest))
    for number in range(3):
        note = f"{word} with what stands below {(256 - number) & 255:02x}"
        yield Case(note, join(pops(number, here), word, rest))


def other_pointer_cases(opcode: int, values: Sequence[int], rest: str = END) -> Iterator[Case]:
    """What is pushed on the other stack, across its end."""
    word, here = name_of(opcode), bool(opcode & RETURN)
    for number in range(1, 4):
        note = f"{word} with the other pointer at {256 - number:02x}"
        yield Case(note, join(pops(number, not here), push_all(opcode, values), word, rest))


def plain_cases(opcode: int) -> Iterator[Case]:
    word = name_of(opcode)
    for values in values_of(opcode):
        shown = " ".join(digits(value, size) for value, size in zip(values, sizes_of(opcode)))
        yield Case(f"{word} of {shown}", join(push_all(opcode, values), word, END))
    middle = MIXED[max(sizes_of(opcode))][0]
    yield from pointer_cases(opcode, [value & (256**size - 1) for value, size in zip(middle, sizes_of(opcode))])
    if NAMES[opcode % 32] == "STH":
        yield from other_pointer_cases(opcode, middle)


def forward(prelude: str, word: str, distance: int) -> str:
    """A jump by so many bytes forward, and where it is not taken."""
    if distance >= 7:
        return join(prelude, word, f"#22 !save ${distance - 7:x}", SLED.replace("&to ", ""), "#ff !save")
    return join(prelude, word, *["INC"] * 6, "#ff !save")


def backward(prelude: str, size: int, word: str, distance: int) -> str:
    """A jump by so many bytes back; the prelude has so many bytes."""
    return join(
        "!&go", SLED.replace("&to ", ""), f"#bb !save ${distance - 3 - 5 - size - 1:x} &go", prelude, word, "#22 !save"
    )


def jump_preludes(opcode: int) -> Iterator[tuple[str, str, int]]:
    """What is pushed below the target: nothing, or the conditions of JCN; with a note and the size."""
    if NAMES[opcode % 32] != "JCN":
        yield "", "", 0
        return
    for condition in (0x00, 0x01, 0x80, 0xFF):
        yield f" if {condition:02x}", push(condition, 1, bool(opcode & RETURN)), 2


def byte_jump_cases(opcode: int) -> Iterator[Case]:
    word, here = name_of(opcode), bool(opcode & RETURN)
    for note, condition, size in jump_preludes(opcode):
        for distance in (0x00, 0x01, 0x08, 0x40, 0x7F):
            yield Case(
                f"{word} by +{distance:02x}{note}", forward(join(condition, push(distance, 1, here)), word, distance)
            )
        for distance in (0x10, 0x40, 0x7F, 0x80):
            prelude = join(condition, push(256 - distance, 1, here))
            yield Case(f"{word} by -{distance:02x}{note}", backward(prelude, size + 2, word, distance))
        for label, distance in (("at-ffff", 0x10), ("at-fff0", 0x40), ("at-0005", 0xE0)):
            at = int(label[3:], 16)
            target = at + 1 + (distance - 256 if distance > 127 else distance)
            code = join(poke(at, bytes([opcode, 0x80, 0x22]) + TO_SAVE), poke(target, b"\1\1\1\x80\xdd" + TO_SAVE))
            yield Case(
                f"{word} at {at:04x} by {distance:02x}{note}",
                join(code, condition, push(distance, 1, here), f"!{label}"),
            )


def short_jump_cases(opcode: int) -> Iterator[Case]:
    word, here = name_of(opcode), bool(opcode & RETURN)
    literal = "LIT2r =&to" if here else ";&to"
    for note, condition, _ in jump_preludes(opcode):
        yield Case(f"{word} forward{note}", join(condition, literal, word, "#22 !save", SLED, "#ff !save"))
        yield Case(f"{word} back{note}", join("!&go", SLED, "#bb !save &go", condition, literal, word, "#22 !save"))
        for target in (0x0010, 0xFFFF, 0xFFFD):
            code = poke(target, b"\1\1\1\x80\xdd" + TO_SAVE)
            yield Case(f"{word} to {target:04x}{note}", join(code, condition, push(target, 2, here), word, "#22 !save"))


def jump_cases(opcode: int) -> Iterator[Case]:
    short = bool(opcode & SHORT)
    yield from short_jump_cases(opcode) if short else byte_jump_cases(opcode)
    word, here = name_of(opcode), bool(opcode & RETURN)
    condition = push(1, 1, here) if NAMES[opcode % 32] == "JCN" else ""
    target = "LIT2r =&to" if short and here else ";&to" if short else push(8, 1, here)
    after = join("#22 !save $1", SLED, "#ff !save") if not short else join("#22 !save", SLED, "#ff !save")
    for number in range(1, 4):
        yield Case(
            f"{word} with its pointer at {256 - number:02x}", join(pops(number, here), condition, target, word, after)
        )
        yield Case(
            f"{word} with the other pointer at {256 - number:02x}",
            join(pops(number, not here), condition, target, word, after),
        )


def placed(opcode: int, at: int, prelude: str) -> str:
    """The instruction at an address, with operands."""
    return join(poke(at, bytes([opcode, 0x80, 0xAA]) + TO_SAVE), prelude, f"!at-{at:04x}")


def memory_addresses(opcode: int) -> tuple[int, ...]:
    return {"Z": (0x00, 0x01, 0x7F, 0x80, 0xFE, 0xFF), "A": (0x0000, 0x00FE, 0x00FF, 0xB000, 0xB0FF, 0xFFFE, 0xFFFF)}[
        NAMES[opcode % 32][2]
    ]


def memory_cases(opcode: int) -> Iterator[Case]:
    word, here, wide = name_of(opcode), bool(opcode & RETURN), 2 if opcode & SHORT else 1
    is_store = NAMES[opcode % 32].startswith("ST")
    values = ((0x12, 0xFF) if wide == 1 else (0x1234, 0xFF00)) if is_store else (None,)
    size = sizes_of(opcode)[-1]
    for value in values:
        below = push(value, wide, here) if value is not None else ""
        for address in memory_addresses(opcode):
            yield Case(f"{word} at {digits(address, size)}", join(below, push(address, size, here), word, END))
    operands = (
        [0x12 if wide == 1 else 0x1234, 0xFF if size == 1 else 0xFFFF] if is_store else [0xFF if size == 1 else 0xFFFF]
    )
    yield from pointer_cases(opcode, operands)


def relative_cases(opcode: int) -> Iterator[Case]:
    word, here, wide = name_of(opcode), bool(opcode & RETURN), 2 if opcode & SHORT else 1
    is_store = NAMES[opcode % 32] == "STR"
    below = push(0x12 if wide == 1 else 0x1234, wide, here) if is_store else ""
    for at, distances in (
        (0xB0F0, (0x10, 0x40, 0x7E, 0x7F, 0x80, 0x81, 0xC0, 0xF0)),
        (0xFFFF, (0x10, 0x7F, 0x80, 0xF0)),
        (0xFFF0, (0x0D, 0x0E, 0x0F, 0x7F, 0x80)),
        (0x0005, (0x10, 0x7F, 0x80, 0xF0, 0xF9)),
    ):
        for distance in distances:
            prelude = join(below, push(distance, 1, here))
            yield Case(f"{word} at {at:04x} by {distance:02x}", placed(opcode, at, prelude))
    values = [0x12 if wide == 1 else 0x1234, 0x40] if is_store else [0x40]
    count = sum(sizes_of(opcode))
    for number in range(1, count + 7):
        note = f"{word} with the pointer at {(256 - number + count) & 255:02x}"
        yield Case(note, placed(opcode, 0xB0F0, join(pops(number, here), push_all(opcode, values))))


# Ports that no device has: they only store.
FREE_PORTS = (0xD0, 0xD7, 0xDF, 0xE5, 0xFE)


def store_ports(port: int, wide: int) -> str:
    return " ".join(f"#{(0x9a + 0x21 * at) & 255:02x} #{(port + at) & 255:02x} DEO" for at in range(wide))


def device_cases(opcode: int) -> Iterator[Case]:
    word, here, wide = name_of(opcode), bool(opcode & RETURN), 2 if opcode & SHORT else 1
    is_output = NAMES[opcode % 32] == "DEO"
    values = ((0x00, 0x12, 0xFF) if wide == 1 else (0x0000, 0x1234, 0xFF00)) if is_output else (0,)
    ports = (*FREE_PORTS, 0xFF) if wide == 2 else (*FREE_PORTS, 0xFF)
    for port in ports:
        for value in values:
            before = store_ports(port, wide)
            below = push(value, wide, here) if is_output else ""
            after = " ".join(f"#{(port + at) & 255:02x} DEI" for at in range(wide)) if is_output else ""
            yield Case(f"{word} at {port:02x}", join(before, below, push(port, 1, here), word, after, END))
    operands = [0x12 if wide == 1 else 0x1234, 0xD7] if is_output else [0xD7]
    yield from pointer_cases_of_ports(opcode, operands, wide)
    if is_output:
        port, value = (0x17, 0x7841) if wide == 2 else (0x18, 0x41)
        yield Case(f"{word} to the console", join(push(value, wide, here), push(port, 1, here), word, END))


def pointer_cases_of_ports(opcode: int, operands: Sequence[int], wide: int) -> Iterator[Case]:
    word, here, count = name_of(opcode), bool(opcode & RETURN), sum(sizes_of(opcode))
    before = store_ports(0xD7, wide)
    for number in range(1, count + (7 if opcode & KEEP else 4)):
        note = f"{word} with the pointer at {(256 - number + count) & 255:02x}"
        yield Case(note, join(before, pops(number, here), push_all(opcode, operands), word, "#d7 DEI #d8 DEI", END))


def literal_cases(opcode: int) -> Iterator[Case]:
    word, here, wide = name_of(opcode), bool(opcode & RETURN), 2 if opcode & SHORT else 1
    for value in BYTES if wide == 1 else SHORTS:
        yield Case(f"{word} of {digits(value, wide)}", join(word, digits(value, wide), END))
    for number in range(1, 4):
        yield Case(
            f"{word} with the pointer at {256 - number:02x}",
            join(pops(number, here), word, digits(0x1234 >> 8 * (2 - wide), wide), END),
        )
    data = (0x5678).to_bytes(2, "big")[:wide]
    for at in (0xFFFF, 0xFFFE, 0xFFF0, 0x0005):
        code = bytes([opcode]) + data + b"\x80\xaa" + TO_SAVE
        yield Case(f"{word} at {at:04x}", join(poke(at, code), f"!at-{at:04x}"))


def immediate_jump_cases(opcode: int) -> Iterator[Case]:
    rune = {0x20: "?", 0x40: "!", 0x60: ""}[opcode]
    word = IMMEDIATE[opcode]
    jump = f"{rune}&to" if rune else "/to"
    conditions = (0x00, 0x01, 0x80, 0xFF) if opcode == 0x20 else (None,)
    for condition in conditions:
        note, below = ("", "") if condition is None else (f" if {condition:02x}", f"#{condition:02x}")
        for distance in (0x00, 0x01, 0xF3, 0x200):
            yield Case(
                f"{word} over {distance:x} bytes{note}",
                join(below, jump, f"#22 !save ${distance:x}", SLED, "#ff !save"),
            )
            yield Case(
                f"{word} back over {distance:x} bytes{note}",
                join("!&go", SLED, f"#bb !save ${distance:x} &go", below, jump, "#22 !save"),
            )
        for at, target in ((0xFFFF, 0x0020), (0xFFFE, 0x0020), (0xFFF0, 0x0010), (0x0005, 0xFFE0), (0xB0F0, 0x0040)):
            data = bytes([opcode]) + ((target - at - 3) & 0xFFFF).to_bytes(2, "big") + b"\x80\x22" + TO_SAVE
            code = join(poke(at, data), poke(target, b"\1\1\1\x80\xdd" + TO_SAVE))
            yield Case(f"{word} from {at:04x} to {target:04x}{note}", join(code, below, f"!at-{at:04x}"))
        for distance in (0x0080, 0x00FF, 0x0100, 0x0101, 0xFF00, 0xFF7F, 0xFF80):
            data = bytes([opcode]) + distance.to_bytes(2, "big") + b"\x80\x22" + TO_SAVE
            code = join(poke(0xB0F0, data), poke((0xB0F3 + distance) & 0xFFFF, b"\1\1\1\x80\xdd" + TO_SAVE))
            yield Case(f"{word} by {distance:04x}{note}", join(code, below, "!at-b0f0"))
        for number in range(1, 4):
            other = pops(number, opcode == 0x60)
            yield Case(
                f"{word} with a pointer at {256 - number:02x}{note}",
                join(other, below, jump, "#22 !save", SLED, "#ff !save"),
            )


def cases_of(opcode: int) -> list[Case]:
    """All cases of an instruction but BRK, which ends a vector and has a program of its own."""
    name = NAMES[opcode % 32]
    if opcode % 32 == 0:
        return list(literal_cases(opcode) if opcode & KEEP else immediate_jump_cases(opcode))
    if name in ("JMP", "JCN", "JSR"):
        return list(jump_cases(opcode))
    if name in ("LDR", "STR"):
        return list(relative_cases(opcode))
    if name in ("DEI", "DEO"):
        return list(device_cases(opcode))
    return list(memory_cases(opcode) if name in ("LDZ", "STZ", "LDA", "STA") else plain_cases(opcode))


def needs_memory(opcode: int) -> bool:
    """Whether the cases of an instruction store in memory: their lines have its sums too."""
    return opcode % 32 == 0 or 0x0C <= opcode % 32 <= 0x15 and opcode % 32 != 0x0F


def some(cases: list[Case], count: int) -> list[Case]:
    """So many of the cases, from all over the list, the first and the last among them."""
    if len(cases) <= count:
        return cases
    return [cases[at * (len(cases) - 1) // (count - 1)] for at in range(count)]


def source_of(cases: Sequence[Case], driver: str, title: str, with_memory: bool) -> str:
    """The source of a ROM that runs the cases."""
    lines = [
        f"( {title} )",
        "",
        driver.rstrip("\n").replace("@entry 0000", f"@with-memory {with_memory:02x} @entry 0000"),
    ]
    at = lines[-1].index("( addresses that cases jump to")
    table = [
        " ".join(f"=case-{number:04x}" for number in range(first, min(first + 8, len(cases))))
        for first in range(0, len(cases), 8)
    ]
    body = ["@cases", *("    " + row for row in table), "    0000", ""]
    body += [f"@case-{number:04x} ( {case.note} ) {case.code}" for number, case in enumerate(cases)]
    lines[-1] = lines[-1][:at] + "\n".join(body) + "\n\n" + lines[-1][at:]
    return "\n".join(lines) + "\n"


assert set(OPERANDS) == set(NAMES[1:])
