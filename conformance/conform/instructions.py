"""The 256 instructions: their names, and what each operation takes, by the Uxntal opcode reference."""
from __future__ import annotations

# facts: words
NAMES = (
    "BRK", "INC", "POP", "NIP", "SWP", "ROT", "DUP", "OVR", "EQU", "NEQ", "GTH",
    "LTH", "JMP", "JCN", "JSR", "STH", "LDZ", "STZ", "LDR", "STR", "LDA", "STA",
    "DEI", "DEO", "ADD", "SUB", "MUL", "DIV", "AND", "ORA", "EOR", "SFT",
)
# The operands of each operation, the deepest first: w is a byte, or a short in short mode; b is a byte, s a short.
WIDTHS = (
    "w", "w", "ww", "ww", "www", "w", "ww", "ww", "ww", "ww", "ww",
    "w", "bw", "w", "w", "b", "wb", "b", "wb", "s", "ws", "b",
    "wb", "ww", "ww", "ww", "ww", "ww", "ww", "ww", "wb",
)
# The runes of references, and the signs that begin no name.
RUNES = ',_.-;=!?'
SIGNS = '|$#@&,_.-;=!?"%~()[]{}/'
# facts end
IMMEDIATE = {0x00: "BRK", 0x20: "JCI", 0x40: "JMI", 0x60: "JSI", 0x80: "LIT", 0xA0: "LIT2", 0xC0: "LITr", 0xE0: "LIT2r"}
SHORT, RETURN, KEEP = 0x20, 0x40, 0x80
OPERANDS = dict(zip(NAMES[1:], WIDTHS))
MODES = ("", "2", "r", "2r", "k", "2k", "kr", "2kr")


def name_of(opcode: int) -> str:
    """The word of an instruction, with its modes in the order 2, k, r."""
    if opcode % 32 == 0:
        return IMMEDIATE[opcode]
    modes = "".join(sign for sign, bit in (("2", SHORT), ("k", KEEP), ("r", RETURN)) if opcode & bit)
    return NAMES[opcode % 32] + modes


def modes_of(opcode: int) -> str:
    """The modes alone; an immediate instruction is counted to the mode that its bits say."""
    return "".join(sign for sign, bit in (("2", SHORT), ("k", KEEP), ("r", RETURN)) if opcode & bit)


def sizes_of(opcode: int) -> list[int]:
    """How many bytes each operand has, the deepest first."""
    wide = 2 if opcode & SHORT else 1
    return [{"w": wide, "b": 1, "s": 2}[sign] for sign in OPERANDS[NAMES[opcode % 32]]]


OPCODE_OF = {name_of(code): code for code in range(256)}
