"""The tables of crates/*/specs: what tools/facts reads of the definitions."""
from __future__ import annotations

import re
from dataclasses import dataclass
from functools import cached_property
from pathlib import Path

BYTE, BY_MODE, SHORT = 1, 0, 2
WIDTHS = {"w": BY_MODE, "Byte": BYTE, "Short": SHORT}
CODES = r'\(codes "(\w+)"\)'
# The definition of each row of the instruction table, by the variant of `Op`.
ROWS = {
    "Inc": "increment_row", "Sft": "shift_row", "Arithmetic": "arithmetic_row", "Compare": "compare_row", "Stack": "stack_row",
    "Sth": "stash_row", "Jump": "jump_row", "Load": "load_row", "Store": "store_row", "Dei": "read_row", "Deo": "write_row",
}


class NotRead(Exception):
    """A definition that is not there, or not in the form that is read."""


def required(found: re.Match[str] | None, what: str) -> re.Match[str]:
    if found is None:
        raise NotRead(f"{what} is not in the form that tools/facts reads")
    return found


@dataclass(frozen=True)
class Row:
    """What an operation takes and pushes: the width of each, the deepest first."""

    code: int
    name: str
    takes: tuple[int, ...]
    pushes: tuple[int, ...]
    other: tuple[int, ...]


@dataclass(frozen=True)
class Line:
    """A line of a text format: its first word, and how many values it has at least and at most (None for any number)."""

    name: str
    least: int
    most: int | None


@dataclass(frozen=True)
class Status:
    """A status: the refusal or early end that has it, and the form of its line, if it has one."""

    number: int
    name: str
    line: str


class Definitions:
    """The definitions of a repository."""

    def __init__(self, top: Path) -> None:
        self.top = top

    def text(self, module: str) -> str:
        crate, _, name = module.partition("/")
        path = self.top / "crates" / crate / "specs" / f"{name}.antt"
        try:
            return re.sub(r"(?m)^ *--.*\n", "", path.read_text(encoding="utf-8"))
        except OSError as error:
            raise NotRead(f"{path.relative_to(self.top)}: {error.strerror}") from None

    def clauses(self, module: str, name: str) -> dict[str, str]:
        """The right side of each clause of a definition, by the arguments of the left side."""
        rows = re.findall(rf"(?m)^{re.escape(name)}((?: [^\n=]*)?) =((?:.|\n    )*)", self.text(module))
        if not rows:
            raise NotRead(f"crates/{module}.antt: there is no definition {name}")
        return {left.strip(): " ".join(right.split()) for left, right in rows}

    def body(self, module: str, name: str) -> str:
        return next(iter(self.clauses(module, name).values()))

    def names_of_kinds(self, module: str, name: str) -> list[str]:
        """The texts that a definition by cases names its kinds by."""
        return [found for right in self.clauses(module, name).values() for found in re.findall(r'^codes "(\w+)"$', right)]

    @cached_property
    def limits(self) -> dict[str, int]:
        rows = re.findall(r"limit\.(\w+) ≡ ([0-9_]+)", self.text("uxn_limits/Limits"))
        return {name: int(number.replace("_", "")) for name, number in rows}

    @cached_property
    def port_names(self) -> dict[str, tuple[int, int]]:
        """The ports that more than one table names, with their widths, by their constants."""
        text = (self.top / "crates/uxn_limits/src/ports.rt").read_text(encoding="utf-8")
        rows = re.findall(r"/// (.*)\npub const (\w+): u8 = (0x\w+);", text)
        return {name: (int(number, 16), 2 if ", a short" in about else 1) for about, name, number in rows}

    # ---- instructions

    def operations(self) -> list[Row]:
        rows = re.findall(r'\(codes "(\w{3})", (None|Some (?:\w+|\(\w+ \w+\)))\)', self.body("uxn_opcodes/Table", "operation_rows"))
        return [self._operation(code, name, op.removeprefix("Some ").strip("()")) for code, (name, op) in enumerate(rows)]

    def _operation(self, code: int, name: str, op: str) -> Row:
        if op == "None":
            return Row(code, name, (), (BY_MODE,), ())
        kind, _, variant = op.partition(" ")
        clauses = self.clauses("uxn_opcodes/Table", ROWS[kind])
        right = next(right for left, right in clauses.items() if not variant or left.split()[0] == variant)
        found = required(re.match(r"(?:one|two|three) ((?:(?:w|Byte|Short) )+)\(λ [a-z ]+\. (.*)\)$", right), f"{ROWS[kind]} {variant}")
        takes = tuple(WIDTHS[width] for width in found[1].split())
        made = tuple(WIDTHS[width] for width in re.findall(r"\((w|Byte|Short), ", found[2])) or (BYTE,) * found[2].startswith("flag ")
        if kind in ("Jump", "Sth"):
            return Row(code, name, takes, (), made)
        return Row(code, name, takes, (BY_MODE,) if kind == "Dei" else () if kind in ("Store", "Deo") else made, ())

    def immediates(self) -> dict[str, int]:
        """The operations that name no row of the table: BRK and the jumps by a distance that follows them."""
        return {name: int(code) for code, name in re.findall(r'\((\d+), codes "(\w+)"\)', self.body("tal_words/Opcodes", "plain_names"))}

    # ---- ports

    @cached_property
    def actions(self) -> dict[int, str]:
        """The action of each port whose write acts."""
        voices = [self.port_names["AUDIO_VECTOR"][0] + self.port_names["VOICE_PORTS"][0] * number for number in range(4)]
        files = [int(base, 16) for base in self.clauses("varvara_bus/FileActs", "file_base").values()]
        found = {int(port, 16): action for port, action in re.findall(r"\((0x\w\w), (\w+)\)", self.body("varvara_bus/Effect", "actions"))}
        notes = required(re.search(r"base_of voice \+ (0x\w\w), (\w+) voice", self.body("varvara_bus/Effect", "actions")), "actions")
        found |= {base + int(notes[1], 16): notes[2] for base in voices}
        rows = re.findall(r"\((0x\w\w), (\w+)\)", self.body("varvara_bus/Effect", "file_actions"))
        return found | {base + int(port, 16): f"File{act}" for base in files for port, act in rows}

    def memory_ports(self) -> list[int]:
        """The ports whose write changes memory."""
        prints = self.clauses("varvara_bus/Effect", "footprint")
        filled = self.clauses("varvara_bus/Effect", "memory_filled")
        filling = {left for left, right in prints.items() if "memory = Some" in right}
        filling |= {f"File{left.split()[0]}" for left, right in filled.items() if right.startswith("Some")}
        return sorted(port for port, action in self.actions.items() if action in filling)

    def shown_ports(self) -> list[int]:
        """The ports that read something else than what was stored."""
        module = "varvara_bus/ReadsPort"
        found = {int(port, 16) for port in re.findall(r"\((0x\w\w), ", self.body(module, "shown_bytes"))}
        clock = self.body(module, "clock_bytes")
        for port in re.findall(r"short_stores (0x\w\w)", clock):
            found |= {int(port, 16), int(port, 16) + 1}
        found |= {int(port, 16) for port in re.findall(r"\((0x\w\w), ", clock)}
        for name in re.findall(r"short_stores ([A-Z_]+)", self.body(module, "shown_bytes")):
            found |= {self.port_names[name][0], self.port_names[name][0] + 1}
        own = [int(port, 16) for port in re.findall(r"base_of voice \+ (0x\w\w)", self.body(module, "voice_bytes"))]
        for number in range(4):
            base = self.port_names["AUDIO_VECTOR"][0] + self.port_names["VOICE_PORTS"][0] * number
            found |= {base + own[0], base + own[0] + 1, base + own[1]}
        return sorted(found)

    def vectors(self) -> list[int]:
        """The ports of the vectors that run."""
        first = [address for name, (address, _) in self.port_names.items() if name.endswith("_VECTOR")]
        voice, step = self.port_names["AUDIO_VECTOR"][0], self.port_names["VOICE_PORTS"][0]
        return sorted({*first, *(voice + step * number for number in range(4))})

    # ---- sources

    def runes(self) -> list[tuple[str, str, int]]:
        """The runes of references: the sign, the variant, and how many bytes a reference has."""
        rows = re.findall(r"\((\d+), (\w+)\)", self.body("tal_words/Names", "runes"))
        return [(chr(int(sign)), name, self.size_of_reference(name)) for sign, name in rows]

    def size_of_reference(self, rune: str) -> int:
        clauses = self.clauses("tal_words/Forms", "encoded_reference")
        right = next(right for left, right in clauses.items() if left.split()[0] == rune)
        head, _, rest = right.partition("short_bytes")
        return head.count("∷") + (2 if rest else 0)

    def reserved(self) -> str:
        """The signs that begin no name."""
        found = required(re.fullmatch(r'(\d+) ∷ codes "(.*)"', self.body("tal_words/Names", "reserved")), "reserved")
        return chr(int(found[1])) + found[2]

    # ---- calls

    def commands(self) -> dict[str, str]:
        """The variant of each command, by its name."""
        return dict(re.findall(rf"named {CODES} command\.(\w+)", self.body("uxn_arguments/Words", "commands")))

    def options(self, variant: str) -> list[tuple[str, str]]:
        """The options of a command, in the order of its usage line, each with its kind: Switch, Optional or Required."""
        clauses = self.clauses("uxn_arguments/Options", "choices_of")
        right = clauses.get(f"command.{variant}", "[]")
        text = right.replace("run_choices", self.body("uxn_arguments/Options", "run_choices"))
        return re.findall(rf"choice_of {CODES} (\w+)", text)

    def named_files(self, definition: str, variant: str) -> list[str]:
        """The options of a command that name a file, as a definition of its inputs or outputs has them."""
        tasks = {"Play": "Run", "Debug": "Run"}
        clauses = self.clauses("uxn_arguments/Options", definition)
        right = next((right for left, right in clauses.items() if left.strip("()").split()[0] == tasks.get(variant, variant)), "")
        debugger = {"debug_inputs debug": self.body("uxn_arguments/Options", "debug_inputs"), "log_of debug": "debug.log"}
        right = right.replace("run_outputs run debug", self.body("uxn_arguments/Options", "run_outputs"))
        for call, text in debugger.items():
            right = right.replace(call, text if variant == "Debug" else "")
        return [name for name in re.findall(r"\b(?:run|debug|task)\.(\w+)", right) if name != "file"]

    def statuses(self) -> list[Status]:
        lines = {left.strip("()").split()[0]: right for left, right in self.clauses("uxn_cli/Lines", "refusal_text").items()}
        refused = [
            Status(int(number), left.strip("()").split()[0], self._form(lines[left.strip("()").split()[0]]))
            for left, number in self.clauses("uxn_cli/Statuses", "status_of").items()
        ]
        early = [Status(int(number), left, "") for left, number in self.clauses("uxn_cli/Statuses", "early_status").items()]
        return refused + early

    def _form(self, text: str) -> str:
        """The form of a line: its literal parts, and what else is printed in capitals."""
        if text == "message_of fault":
            return self._form(self.body("tal_include/Lines", "message_of")).replace("FILE", "[PATH ]")
        parts = []
        for part in text.split(" ++ "):
            literal = re.fullmatch(r'codes "(.*)"', part)
            parts.append(literal[1] if literal else self._placeholder(part))
        return "".join(parts)

    @staticmethod
    def _placeholder(part: str) -> str:
        """What a part that is no literal prints, in capitals: the last name in it, without the type's own field."""
        name = part.removesuffix(".list").split()[-1].rpartition(".")[2]
        return "LINE" if name == "number" else name.upper()

    # ---- lines

    def lines(self, module: str, name: str) -> list[Line]:
        rows = re.findall(rf"named {CODES} \((Exactly|Between|AtLeast) (\d+)(?: (\d+))?, ", self.body(module, name))
        return [
            Line(word, int(first), int(second) if second else int(first) if kind == "Exactly" else None)
            for word, kind, first, second in rows
        ]

    def buttons(self) -> dict[str, int]:
        rows = re.findall(rf"named {CODES} (0x\w\w)", self.body("text_lines/ScriptRows", "buttons"))
        return {name: int(mask, 16) for name, mask in rows}
