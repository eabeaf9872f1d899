"""Pages: their prose, their headings and their blocks of code."""
from __future__ import annotations

import re
from dataclasses import dataclass, field

FENCE = re.compile(r"( {0,3})```(.*)$")
SPAN = re.compile(r"`([^`\n]+)`")
COMMAND = "$ "


@dataclass
class Block:
    """A block of code: the info string of its fence, its lines, the number of the first, their indentation, and the
    paragraph before it."""

    info: str
    lines: list[str]
    start: int
    indent: str = ""
    before: str = ""

    @property
    def language(self) -> str:
        return self.info.split(" ")[0]

    @property
    def words(self) -> list[str]:
        """The words of the info string behind the language."""
        return self.info.split()[1:]

    @property
    def is_console(self) -> bool:
        return self.language == "console" or (not self.info and any(line.startswith(COMMAND) for line in self.lines))


@dataclass
class Page:
    """A page by its path, with its lines, its blocks and the lines that are prose (with their numbers, from 1)."""

    path: str
    lines: list[str]
    blocks: list[Block] = field(default_factory=list)
    prose: list[tuple[int, str]] = field(default_factory=list)

    @property
    def text(self) -> str:
        """The prose alone."""
        return "\n".join(line for _, line in self.prose)

    @property
    def spans(self) -> list[str]:
        return SPAN.findall(self.text)

    def headings(self) -> set[str]:
        """The anchors of the headings, as links have them."""
        found: dict[str, int] = {}
        anchors = set()
        for _, line in self.prose:
            if title := re.fullmatch(r"#+ (.*)", line):
                name = re.sub(r"[^\w\- ]", "", title[1].lower()).replace(" ", "-")
                count = found.get(name, 0)
                found[name] = count + 1
                anchors.add(f"{name}-{count}" if count else name)
        return anchors


def paragraph_before(lines: list[str], at: int) -> str:
    """The paragraph that ends right before a line."""
    end = at
    while end and not lines[end - 1].strip():
        end -= 1
    start = end
    while start and lines[start - 1].strip():
        start -= 1
    return " ".join(lines[start:end])


def fenced(lines: list[str], at: int) -> tuple[Block, int]:
    """The block whose fence opens at a line, and the line behind its closing fence."""
    opening = FENCE.match(lines[at])
    assert opening
    indent = opening[1]
    end = at + 1
    while end < len(lines) and lines[end].strip() != "```":
        end += 1
    inner = [line.removeprefix(indent) for line in lines[at + 1:end]]
    return Block(opening[2].strip(), inner, at + 2, indent, paragraph_before(lines, at)), end + 1


def indented(lines: list[str], at: int) -> tuple[Block, int]:
    """The block of lines that begin with four spaces, from a line on, and the line behind it."""
    end = at
    while end < len(lines) and (lines[end].startswith("    ") or not lines[end].strip()):
        end += 1
    while not lines[end - 1].strip():
        end -= 1
    inner = [line[4:] for line in lines[at:end]]
    return Block("", inner, at + 1, "    ", paragraph_before(lines, at)), end


def read(path: str, text: str) -> Page:
    page = Page(path, text.split("\n"))
    at = 0
    while at < len(page.lines):
        line = page.lines[at]
        is_new = at == 0 or not page.lines[at - 1].strip()
        if FENCE.match(line):
            block, at = fenced(page.lines, at)
            page.blocks.append(block)
        elif line.startswith("    ") and line.strip() and is_new:
            block, at = indented(page.lines, at)
            page.blocks.append(block)
        else:
            page.prose.append((at + 1, line))
            at += 1
    return page
