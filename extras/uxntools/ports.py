"""The ports by their addresses and devices."""
from __future__ import annotations

import re
from collections.abc import Iterable

from uxntools.facts import DEVICES, PORTS, VECTORS, Port

__all__ = ["DEVICES", "PORTS", "VECTORS", "Port", "declaration", "is_of_device", "labels", "port_at"]

# The names that the devices have in most sources.
NAMED = re.compile(r"(System|Console|Screen|Audio\d*|Controller|Mouse|File\d*|DateTime)(/.*)?", re.DOTALL)
PAD = re.compile(r"\|([0-9a-f]{1,4})")
MEMORY = re.compile(r"(LD|ST)[ZAR]2?k?r?")
COUNT = 0x100


BY_ADDRESS = {port.address: port for port in PORTS}


def port_at(address: int) -> Port | None:
    """The port of an address, also where it is the low byte of a short."""
    found = BY_ADDRESS.get(address)
    if found:
        return found
    before = BY_ADDRESS.get(address - 1)
    return before if before and before.width == 2 else None


def declaration(device: str) -> str:
    """The line of a source that names the ports of a device."""
    parts, at = [], 0
    base = DEVICES[device]
    for port in (port for port in PORTS if port.device == device):
        gap = port.address - base - at
        parts += [f"&pad ${gap:x}"] if gap else []
        parts.append(f"&{port.name} ${port.width}")
        at = port.address - base + port.width
    return f"|{base:02x} @{device} " + " ".join(parts)


def is_of_device(name: str) -> bool:
    """Whether a label has a name that devices have in most sources."""
    return NAMED.fullmatch(name) is not None


def labels(words: Iterable[bytes]) -> frozenset[str]:
    """The labels of a source that name ports, by its words: those of the zero page after a pad that is not 0, and those
    of the devices; but none that is read or written as memory."""
    found: set[str] = set()
    memory: set[str] = set()
    pad, scope, before = COUNT, "", ""
    for word in words:
        text = word.decode("latin-1")
        padded = PAD.fullmatch(text)
        if padded:
            pad = int(padded[1], 16)
        elif text[:1] in ("@", "&") and len(text) > 1:
            scope = text[1:].partition("/")[0] if text[0] == "@" else scope
            name = _full(scope, text[text[0] == "@" :])
            if 0 < pad < COUNT or pad == 0 and is_of_device(name):
                found.add(name)
        elif MEMORY.fullmatch(text) and before[:1] in (".", ";", ","):
            memory.add(_full(scope, before[1:]))
        before = text
    return frozenset(found - memory)


def _full(scope: str, name: str) -> str:
    """The whole name of a label that stands in a scope."""
    return f"{scope}/{name[1:]}" if name[:1] in ("&", "/") else name
