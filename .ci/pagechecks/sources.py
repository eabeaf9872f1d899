"""The public functions of the crates, with their conditions (`requires`), and the names of clauses and definitions."""
from __future__ import annotations

import glob
import os
import re
from collections.abc import Iterator
from dataclasses import dataclass, field

FUNCTION = re.compile(r"\s*(pub )?(?:const )?fn (\w+)")
OWNER = re.compile(r"(?:pub )?(impl|trait)\b(?:<[^>]*>)? ?(.*)")
CONDITION = re.compile(r"requires(?: (\w+))? \{")


@dataclass
class Function:
    """A public function: its crate, its name with its type's, and its conditions by name (or none) and text."""

    crate: str
    name: str
    conditions: list[tuple[str, str]] = field(default_factory=list)


def read(path: str) -> str:
    with open(path, encoding="utf-8") as file:
        return file.read()


def crates() -> list[str]:
    return re.findall(r"(?m)^(\w+):", read("crates.txt"))


def sources(crate: str) -> list[str]:
    return sorted(glob.glob(f"crates/{crate}/src/**/*.rt", recursive=True))


def public_names(crate: str) -> set[str]:
    """What a crate offers: what its lib.rt declares as public, or passes on from its own modules."""
    path = f"crates/{crate}/src/lib.rt"
    if not os.path.isfile(path):
        return set()
    text = read(path)
    modules = set(re.findall(r"(?m)^(?:pub )?mod (\w+);", text))
    names = set(re.findall(r"(?m)^pub (?:const )?(?:fn|struct|enum|trait|type|const) (\w+)", text))
    for module, one, several in re.findall(r"(?m)^pub use (\w+)::(?:(\w+)|\{([^}]*)\});", text):
        if module in modules:
            names |= {one, *re.findall(r"\w+", several)} - {""}
    return names


def owner_of(line: str) -> str | None:
    """The type or trait whose functions follow behind a line that begins an `impl` or a `trait`."""
    found = OWNER.match(line)
    if not found:
        return None
    rest = found[2].split(" for ")[-1]
    name = re.match(r"(\w+)", rest.strip())
    return name[1] if name else None


def braced(text: str, at: int) -> str:
    """What stands between the brace at a place and the one that closes it."""
    depth = 0
    for end in range(at, len(text)):
        depth += (text[end] == "{") - (text[end] == "}")
        if depth == 0:
            return " ".join(text[at + 1:end].split())
    return ""


def conditions_behind(lines: list[str], at: int) -> list[tuple[str, str]]:
    """The conditions of the function whose signature begins at a line."""
    indent = lines[at][:len(lines[at]) - len(lines[at].lstrip())]
    ends = {f"{indent}{{", f"{indent}{{}}", indent[4:] + "}"}
    end = at + 1
    while end < len(lines) and not FUNCTION.match(lines[end]) and (not lines[end] or lines[end] not in ends):
        end += 1
    text = "\n".join(lines[at:end])
    return [(found[1] or "", braced(text, found.end() - 1)) for found in CONDITION.finditer(text)]


def functions_of(crate: str) -> Iterator[Function]:
    """The public functions of a crate: those that it offers, the public ones of its types, and those of its traits."""
    offered = public_names(crate)
    for path in sources(crate):
        owner, is_open = "", False
        lines = read(path).split("\n")
        for at, line in enumerate(lines):
            if named := owner_of(line):
                owner, is_open = named, line.startswith("pub trait") or " for " in line
            elif line.startswith("}"):
                owner, is_open = "", False
            elif found := FUNCTION.match(line):
                is_public = bool(found[1] or is_open) and "pub(crate)" not in line
                if is_public and (owner or found[2]) in offered:
                    yield Function(crate, f"{owner}::{found[2]}" if owner else found[2], conditions_behind(lines, at))


def names_in(crate: str) -> set[str]:
    """Every name that a crate gives to a function, a clause, a type, a module, a definition or a field of one."""
    found: set[str] = set()
    for path in sources(crate):
        words = "fn|struct|enum|trait|type|const|mod|impl|requires|ensures|ghost"
        found |= set(re.findall(rf"\b(?:{words})\s+(\w+)", read(path)))
        found |= set(re.findall(r"(?m)^\s*(?:pub )?(\w+)(?:,|\(|:)", read(path)))
    for path in glob.glob(f"crates/{crate}/specs/**/*.antt", recursive=True):
        words = "pub|mod|abbrev|record|data|unfoldable"
        found |= set(re.findall(rf"\b(?:{words})\s+(?!(?:record|mod|data)\b)([\w-]+)", read(path)))
        found |= set(re.findall(r"(?m)^\s*([\w-]+)(?:\s+[^\n:=]*)?\s*[:=]", read(path)))
    return found
