"""What a word means, as an editor shows it beside the cursor."""
from __future__ import annotations

import os

from uxntools import includes, opcodes, ports
from uxntools.analysis import Analysis, Entity, Kind, Label, Shape, shape
from uxntools.lsp import names
from uxntools.lsp.documents import range_of
from uxntools.lsp.protocol import Json
from uxntools.lsp.workspace import Spot
from uxntools.source import Word

# How many words of a macro are shown, and how many programs are named.
SHOWN_WORDS, MOST_PROGRAMS = 40, 4


def text_of(data: bytes) -> str:
    return data.decode("utf-8", "replace")


def hover(spot: Spot) -> Json | None:
    word = spot.word()
    said = about(spot, word) if word else ""
    if not word or not said:
        return None
    return {"contents": {"kind": "markdown", "value": said}, "range": range_of(word, spot.found.lines[word.path])}


def about(spot: Spot, word: Word) -> str:
    """What a word means, in Markdown; empty for one that means nothing by itself."""
    form = shape(word.text)
    entity = spot.found.entity_at(word)
    if entity:
        uses = Uses(spot)
        return macro(spot.found, entity, uses) if entity.is_macro else label(spot.found, entity, uses)
    if form.kind is Kind.OPCODE:
        return instruction(text_of(word.text))
    if form.kind in (Kind.LITERAL, Kind.RAW):
        return number(form, _word_behind(spot, word))
    if form.kind in (Kind.PAD, Kind.SKIP):
        value = int(form.name, 16)
        verb = "goes on at" if form.kind is Kind.PAD else "leaves out"
        return f"`{text_of(word.text)}` {verb} {value:04x}, which is {value}" + " bytes" * (form.kind is Kind.SKIP)
    if form.kind is Kind.TEXT:
        return f"{form.size} bytes of text: `{form.name.hex(' ')}`" if form.size else "a text without bytes"
    if form.kind is Kind.INCLUDE:
        path = os.path.join(includes.folder_of(spot.found.path), os.fsdecode(form.name))
        return f"the words of `{path}`" + ("" if path in spot.found.rows else ", which cannot be read")
    return ""


def _word_behind(spot: Spot, word: Word) -> bytes:
    words = spot.found.rows[word.path][word.line - 1].words
    return next((text for at, text in words if at + 1 > word.column), b"")


def instruction(name: str) -> str:
    """An instruction: what it does, in its modes, and its effect on both stacks."""
    what = opcodes.instruction(name)
    if not what:
        return ""
    operation = what.operation
    head = f"**{name}** `{what.code:02x}`: {operation.does}" + "".join(f", {mode}" for mode in what.modes())
    working, returning = what.effects()
    lines = [f"working stack: `{working}`"] * bool(working) + [f"return stack: `{returning}`"] * bool(returning)
    return "\n\n".join([head, *lines])


def number(form: Shape, behind: bytes) -> str:
    """A number in other bases, and the port that it is where the next word reads or writes one."""
    value, bits = int(form.name, 16), 4 * len(form.name)
    parts = [f"{value}"]
    if value >> (bits - 1):
        parts.append(f"{value - (1 << bits)} with a sign")
    parts.append(f"binary `{value:0{bits}b}`")
    if 0x20 < value < 0x7F:
        parts.append(f"`{chr(value)}` as a sign")
    lines = [f"`{text_of(form.name)}` is " + ", ".join(parts)]
    port = ports.port_at(value) if bits == 8 and behind[:3] in (b"DEI", b"DEO") else None
    return "\n\n".join(lines + ([port.text()] if port else []))


class Uses:
    """The words that refer to a name, in all programs that have it, and where it is in each of them."""

    def __init__(self, spot: Spot) -> None:
        self.names = names.meant(spot)
        self.count = len(names.places_of(self.names, False))
        self.mains = list(dict.fromkeys(one.found.path for one in self.names))
        self.top = spot.workspace.top

    def said(self, what: str) -> str:
        return counted(self.count, what) + (f" in {len(self.mains)} programs" if len(self.mains) > 1 else "")

    def addresses(self) -> str:
        """The addresses of a label, if the programs have it at several."""
        labels = [(one.found.labels.get(one.entity.name), one.found.path) for one in self.names]
        found = [(address_of(label), os.path.relpath(path, self.top)) for label, path in labels if label]
        if len({address for address, _ in found}) < 2:
            return ""
        rest = len(found) - MOST_PROGRAMS
        shown = [f"`{address}` in {path}" for address, path in found[:MOST_PROGRAMS]]
        return ", ".join(shown) + (f", and {rest} more" if rest > 0 else "")


def address_of(known: Label) -> str:
    return f"{known.address:02x}" if known.address < 0x100 else f"{known.address:04x}"


def macro(found: Analysis, entity: Entity, uses: Uses) -> str:
    known = found.macros.get(entity.name)
    if not known:
        return ""
    body = " ".join(text_of(word.text) for word in known.body[:SHOWN_WORDS]) + " .." * (len(known.body) > SHOWN_WORDS)
    lines = [
        f"macro **{text_of(entity.name)}**, {uses.said('use')}",
        f"`%{text_of(entity.name)} {{ {body} }}`",
        *_comments(found, known.end, known.word),
    ]
    return "\n\n".join(lines)


def counted(count: int, what: str) -> str:
    return f"{count} {what}{'s' * (count != 1)}"


def _comments(found: Analysis, last: Word, first: Word) -> list[str]:
    texts = [found.comment_behind(last), found.comment_above(first)]
    return [" ".join(text_of(text).strip("()").split()) for text in texts if text]


def label(found: Analysis, entity: Entity, uses: Uses) -> str:
    """A label: its address, its comments, and what the port means that it names."""
    known = found.labels.get(entity.name)
    name = text_of(entity.name)
    if not known:
        return f"`{name}` is defined nowhere"
    place = f"{os.path.relpath(known.word.path, os.path.dirname(found.path))}:{known.word.line}"
    kind = "sublabel" if known.word.text[:1] == b"&" else "label"
    lines = [f"{kind} **{name}** at `{address_of(known)}`, {uses.said('reference')}, in {place}"]
    addresses = uses.addresses()
    lines += [addresses] * bool(addresses)
    effect = found.comment_behind(known.word)
    lines += [f"`{text_of(effect)}`"] * bool(effect)
    above = found.comment_above(known.word)
    lines += [" ".join(text_of(above).strip("()").split())] * bool(above)
    port = _port(name, known.address)
    return "\n\n".join(lines + ([port.text()] if port else []))


def _port(name: str, address: int) -> ports.Port | None:
    """The port that a label names: one of a device's name, at the address of the port, or at that of the device."""
    base = ports.DEVICES.get(name.partition("/")[0])
    if base is None or not base <= address < base + 16:
        return None
    return ports.port_at(address) if "/" in name else None
