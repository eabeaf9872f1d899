"""The checks of uxn-lint: what a source that `uxn` accepts is likely not to mean."""
from __future__ import annotations

import re
from collections.abc import Callable, Iterator, Sequence
from typing import NamedTuple

from uxntools import opcodes, ports
from uxntools.analysis import Analysis, Entity, Kind, Label, Placed, Shape, comments, full_name, shape
from uxntools.effects import Routines
from uxntools.source import Word

# The names of the alarms, as comments silence them.
NAMES = {
    "unused-label": "a label or sublabel that nothing refers to",
    "unused-macro": "a macro that nothing uses",
    "unreachable": "words behind a jump that no label precedes",
    "stack-effect": "a routine that does not do what its comment ( a b* -- c ) says",
    "lit-before-literal": "a LIT before a word that pushes itself",
    "shadowed-label": "a sublabel with the name of a label that its scope refers to",
    "zero-page-address": "a label of the zero page used with ; where one byte is meant",
    "far-zero-page": "a label above the zero page used with . where its address is meant",
    "zero-page-vector": "a vector set to an address of the zero page",
    "unknown-alarm": "a comment lint-allow with the name of no alarm",
}
ALLOW = re.compile(rb"\(\s*lint-allow(-file)?((?:\s+\S+)+)\s+\)")
CODE = (Kind.OPCODE, Kind.LITERAL, Kind.REFERENCE, Kind.OPENER)
RAW_RUNES = (b"_", b"-", b"=")


class Alarm(NamedTuple):
    """An alarm: the word, its name, and what is wrong."""

    word: Word
    name: str
    message: str

    def line(self, path: str | None = None) -> str:
        return f"{path or self.word.path}:{self.word.line}:{self.word.column}: {self.name}: {self.message}"


def _text(name: bytes) -> str:
    return name.decode("utf-8", "surrogateescape")


def _place(first: Placed, second: Placed | None = None) -> Word:
    """Where an alarm about words of the expanded source stands: in the body of a macro if all of them come from one
    use, else at the use."""
    return first.word if second is None or first.origin == second.origin else first.origin


def unused_labels(found: Analysis) -> Iterator[Alarm]:
    used = {entity.name for entity in found.references if not entity.is_macro}
    parents = {name.partition(b"/")[0] for name in used if b"/" in name}
    named_ports = _named_ports(found)
    for label in found.labels.values():
        is_used = label.name in used or label.name in parents and label.word.text[:1] == b"@"
        if not is_used and label.address != 0x100 and not label.is_from_macro and label.name not in named_ports:
            yield Alarm(label.word, "unused-label", f"nothing refers to {_text(label.name)}")


def _named_ports(found: Analysis) -> set[bytes]:
    """The labels that name ports: those of the zero page behind a pad that is not 0, and those of a device."""
    names, pad = set(), 0x100
    for placed in found.expanded:
        form = shape(placed.word.text)
        if form.kind is Kind.PAD:
            pad = int(form.name, 16)
        if form.kind in (Kind.LABEL, Kind.SUBLABEL) and placed.address < 0x100:
            name = placed.scope + b"/" + form.name if form.kind is Kind.SUBLABEL else form.name
            if 0 < pad < 0x100 or name.partition(b"/")[0].decode("latin-1") in ports.DEVICES:
                names.add(name)
    return names


def unused_macros(found: Analysis) -> Iterator[Alarm]:
    for macro in found.macros.values():
        if Entity(True, macro.name) not in found.references:
            yield Alarm(macro.word, "unused-macro", f"nothing uses {_text(macro.name)}")


class _Reach:
    """Whether the next word of the expanded source can be reached from the one before."""

    def __init__(self) -> None:
        self.jump: Placed | None = None
        self.is_unsure = False
        self.operand = 0
        self.before: Placed | None = None

    def step(self, placed: Placed, form: Shape) -> Placed | None:
        """Goes past a word, and answers the jump that keeps it from being reached, if one does."""
        if self.operand > 0 and form.size:
            self.operand -= form.size
            return None
        if form.kind in (Kind.LABEL, Kind.SUBLABEL, Kind.PAD, Kind.CLOSER):
            self.jump, self.is_unsure = None, False
        is_code = form.kind in CODE and form.rune not in RAW_RUNES
        jump, self.jump = (self.jump, None) if is_code else (None, self.jump)
        if is_code and not jump:
            self._go_past(placed, form)
        self.before = placed
        return jump

    def _go_past(self, placed: Placed, form: Shape) -> None:
        what = opcodes.instruction(placed.word.text.decode("latin-1")) if form.kind is Kind.OPCODE else None
        if form.kind in (Kind.REFERENCE, Kind.OPENER) and form.rune == b"!":
            self._end(placed)
        if not what:
            return
        name = what.operation.name
        self.operand = 1 + what.is_short if name == "LIT" else 2 * (name in ("JCI", "JMI", "JSI"))
        if name == "BRK" or name == "JMP" and what.is_short:
            self._end(placed)
        elif name in ("JMP", "JCN", "JSR") and not what.is_short:
            is_known = self.before is not None and self.before.word.text[:1] == b","
            if not is_known:
                self.is_unsure = True
            elif name == "JMP":
                self._end(placed)

    def _end(self, placed: Placed) -> None:
        if not self.is_unsure:
            self.jump = placed


def unreachable(found: Analysis) -> Iterator[Alarm]:
    reach = _Reach()
    for placed in found.expanded:
        form = shape(placed.word.text)
        if form.kind is Kind.BRACKET:
            continue
        jump = reach.step(placed, form)
        if jump:
            yield Alarm(
                _place(placed, jump),
                "unreachable",
                f"{_text(placed.word.text)} stands behind {_text(jump.word.text)}, and no label before it",
            )


def stack_effects(found: Analysis) -> Iterator[Alarm]:
    for label, message in Routines(found).mistakes():
        yield Alarm(label.word, "stack-effect", f"{_text(label.name)} {message}")


def _runs(found: Analysis, count: int) -> Iterator[tuple[Placed, ...]]:
    """Each so many words of the expanded source that follow one another, without brackets."""
    code = [placed for placed in found.expanded if placed.word.text not in (b"[", b"]")]
    return zip(*(code[at:] for at in range(count)))


def lits_before_literals(found: Analysis) -> Iterator[Alarm]:
    for lit, behind in _runs(found, 2):
        if lit.word.text[:3] != b"LIT" or shape(lit.word.text).kind is not Kind.OPCODE:
            continue
        form = shape(behind.word.text)
        if form.kind is Kind.LITERAL or form.kind is Kind.REFERENCE and form.rune in (b",", b".", b";"):
            yield Alarm(
                _place(lit, behind),
                "lit-before-literal",
                f"{_text(behind.word.text)} pushes itself: {_text(lit.word.text)} pushes its opcode",
            )


def shadowed_labels(found: Analysis) -> Iterator[Alarm]:
    first_in: dict[Entity, dict[bytes, Word]] = {}
    for label in found.labels.values():
        scope, _, name = label.name.partition(b"/")
        if label.word.text[:1] != b"&" or label.is_from_macro:
            continue
        for entity in (Entity(False, name), Entity(True, name)):
            if name == scope or entity not in found.references or not found.definition(entity):
                continue
            if entity not in first_in:
                first_in[entity] = _first_in_scopes(found, entity)
            first = first_in[entity].get(scope)
            if first:
                what = "macro" if entity.is_macro else "label"
                yield Alarm(
                    label.word,
                    "shadowed-label",
                    f"{_text(scope)} refers to the {what} {_text(name)} at {first.line}:{first.column}",
                )


def _first_in_scopes(found: Analysis, entity: Entity) -> dict[bytes, Word]:
    """The first word in each scope that refers to a name."""
    words: dict[bytes, Word] = {}
    for word in found.references[entity]:
        words.setdefault(found.scope_at(word.path, word.line, word.column), word)
    return words


def _label_of(found: Analysis, placed: Placed) -> Label | None:
    form = shape(placed.word.text)
    return found.labels.get(full_name(placed.scope, form.name)) if form.kind is Kind.REFERENCE else None


def _is_instruction(placed: Placed, *names: str) -> bool:
    if shape(placed.word.text).kind is not Kind.OPCODE:
        return False
    what = opcodes.instruction(placed.word.text.decode())
    return what is not None and what.operation.name in names and not what.in_return_mode


def zero_page_addresses(found: Analysis) -> Iterator[Alarm]:
    for address, behind in _runs(found, 2):
        label = _label_of(found, address) if address.word.text[:1] == b";" else None
        if label and label.address < 0x100 and _is_instruction(behind, "LDA", "STA", "LDZ", "STZ", "DEI", "DEO"):
            text = _text(address.word.text)
            better = f".{text[1:]} {_text(behind.word.text).replace('LDA', 'LDZ').replace('STA', 'STZ')}"
            yield Alarm(_place(address, behind), "zero-page-address", f"{text} is in the zero page: {better}")


def far_zero_page(found: Analysis) -> Iterator[Alarm]:
    for address, behind in _runs(found, 2):
        label = _label_of(found, address) if address.word.text[:1] == b"." else None
        if label and label.address > 0xFF and _is_instruction(behind, "LDZ", "STZ", "DEI", "DEO"):
            yield Alarm(
                _place(address, behind),
                "far-zero-page",
                f"{_text(address.word.text)} keeps the low byte of {label.address:04x}",
            )


def zero_page_vectors(found: Analysis) -> Iterator[Alarm]:
    for value, port, write in _runs(found, 3):
        if (
            not _is_instruction(write, "DEO")
            or b"2" not in write.word.text
            or _number(found, port) not in ports.VECTORS
        ):
            continue
        label = _label_of(found, value)
        is_byte = value.word.text[:1] == b"." and label is not None
        number = _number(found, value)
        is_address = label is not None or number != 0 and shape(value.word.text).size == 3
        text = _text(value.word.text)
        if number is not None and number < 0x100 and is_address:
            yield Alarm(
                _place(value, write),
                "zero-page-vector",
                f"{text} is {number:04x}, in the zero page: no code stands there",
            )
        elif is_byte:
            yield Alarm(
                _place(value, write), "zero-page-vector", f"{text} pushes one byte: a vector is a short, as ; pushes it"
            )


def _number(found: Analysis, placed: Placed) -> int | None:
    """The number that a word pushes: a literal, or the address of a label."""
    form = shape(placed.word.text)
    if form.kind is Kind.LITERAL:
        return int(form.name, 16)
    label = _label_of(found, placed) if form.rune in (b".", b";") else None
    return label.address if label else None


Check = Callable[[Analysis], Iterator[Alarm]]
# What a shared file may have as long as another program uses it.
UNUSED_CHECKS: list[Check] = [unused_labels, unused_macros, unreachable]
UNUSED = ("unused-label", "unused-macro", "unreachable")
CHECKS: list[Check] = [
    *UNUSED_CHECKS,
    stack_effects,
    lits_before_literals,
    shadowed_labels,
    zero_page_addresses,
    far_zero_page,
    zero_page_vectors,
]


class _Silence:
    """What the comments of a source silence: ( lint-allow NAME .. ) in its line, or in the next one with words where
    it stands alone, and ( lint-allow-file NAME .. ) in its file."""

    def __init__(self, found: Analysis) -> None:
        self.allowed: set[tuple[str, int, str]] = set()
        self.unknown: list[Alarm] = []
        for path, lines in found.lines.items():
            if any(b"lint-allow" in line for line in lines):
                self._read(found, path, lines)

    def _read(self, found: Analysis, path: str, lines: list[bytes]) -> None:
        rows = found.rows[path]
        next_with_words = list(range(1, len(rows) + 1))
        for at in range(len(rows) - 2, -1, -1):
            if not rows[at].words:
                next_with_words[at] = next_with_words[at + 1]
        for comment, last in comments(lines, rows, path):
            said = ALLOW.fullmatch(comment.text)
            for name in said[2].split() if said else ():
                if _text(name) not in NAMES:
                    self.unknown.append(Alarm(comment, "unknown-alarm", f"no alarm has the name {_text(name)}"))
                line = 0 if said and said[1] else next_with_words[last - 1]
                self.allowed.add((path, line, _text(name)))

    def allows(self, alarm: Alarm) -> bool:
        path, line = alarm.word.path, alarm.word.line
        return (path, line, alarm.name) in self.allowed or (path, 0, alarm.name) in self.allowed


def alarms(found: Analysis, checks: Sequence[Check] = CHECKS) -> list[Alarm]:
    """All alarms of an expanded source that no comment silences, file by file in the order of reading."""
    silence = _Silence(found)
    order = {path: at for at, path in enumerate(found.rows)}
    given = {alarm for check in checks for alarm in check(found) if not silence.allows(alarm)} | set(silence.unknown)
    return sorted(given, key=lambda alarm: (order[alarm.word.path], alarm.word.line, alarm.word.column, alarm.name))
