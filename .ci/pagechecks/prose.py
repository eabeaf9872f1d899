"""How a page is written: its width, its length, its first paragraph, its words, and blocks that hide a command."""
from __future__ import annotations

import re
from collections.abc import Iterator

from pagechecks.markdown import Block, Page

WIDTH = 100
LENGTH = 400
REFERENCES = {"docs/commands.md", "docs/uxntal.md", "docs/varvara.md", "docs/formats.md"}

# Words that only the authors of this project use, each with the standard word.
WORDS = {
    r"fronts?": "prefix, beginning",
    r"want of memory|memory is wanting": "out of memory",
    r"told|tells|untold": "known, says",
    r"surely|sure": "guaranteed, certain",
    r"trails?": "trace",
    r"gifts?|givers?": "pending input",
    r"home": "file root",
    r"stands for|stand for": "represents, means",
    r"rings?": "stack, queue",
    r"deeds?|landings?|yielded": "effect, jump target, results",
    r"judges?|judged": "validate",
    r"asked|asks for|ask for": "requested, needs",
    r"seen": "read, observed",
    r"lent|lends|lets go|let go": "borrowed, dropped",
    r"way out|ways out": "return path, escape",
    r"cut off|cut short": "truncated, stopped early",
    r"texts of lines": "line-oriented text",
    r"hangs? on": "depends on",
    r"comes? to|comes? out as": "results in, is",
    r"passed over": "each is reported",
    r"strangers?'s? (?:program|ROM)|stranger's": "an untrusted program",
    r"dear": "expensive",
}
BANNED = re.compile(r"(?i)(?<![\w-])(?:" + "|".join(WORDS) + r")(?![\w-])")
SPEED = re.compile(r"(?i)\b(?:speed|(?:fast|slow|quick)(?:er|est|ly)?)\b")
MEASURED = "docs/dev/measurements.md"
HIDDEN = re.compile(r"\$ |(?:\./)?uxn |uxn-[a-z-]+ |rt ")


def plain(line: str) -> str:
    """A line of prose without its code and the targets of its links."""
    return re.sub(r"\]\([^)]*\)", "]", re.sub(r"`[^`]*`", "", line))


def better(word: str) -> str:
    return next(standard for pattern, standard in WORDS.items() if re.fullmatch(pattern, word, re.IGNORECASE))


def line_faults(page: Page) -> Iterator[str]:
    for number, line in enumerate(page.lines, 1):
        if len(line) > WIDTH:
            yield f"{number}: {len(line)} columns"
    for number, line in page.prose:
        for word in BANNED.findall(plain(line)):
            yield f"{number}: '{word}': write '{better(word)}'"
        if page.path != MEASURED and (found := SPEED.search(plain(line))):
            yield f"{number}: '{found[0]}': what is measured stands in {MEASURED}"


def opening_faults(page: Page) -> Iterator[str]:
    """A page begins with a title and a paragraph of one or two lines."""
    if not page.lines[0].startswith("# "):
        yield "1: the page does not begin with its title"
        return
    if len(page.lines) < 4 or page.lines[1].strip() or not page.lines[2].strip():
        yield "2: no paragraph behind the title says who the page is for"
    elif page.lines[3].strip() and page.lines[4].strip():
        yield "3: the first paragraph has more than two lines"


def block_faults(block: Block) -> Iterator[str]:
    if block.language == "console":
        if block.words and block.words[0] not in ("norun:", "needs:") or len(block.words) == 1:
            yield f"{block.start}: behind `console` stands `norun: REASON` or `needs: PROGRAM ..`"
    elif not block.is_console and not block.words:
        for at, line in enumerate(block.lines):
            if HIDDEN.match(line):
                yield f"{block.start + at}: a command outside of a `console` block: {line}"


def faults(page: Page) -> list[str]:
    found = [*line_faults(page), *opening_faults(page)]
    found += [fault for block in page.blocks for fault in block_faults(block)]
    if len(page.lines) - 1 > LENGTH and page.path not in REFERENCES:
        found.append(f"{LENGTH}: the page has {len(page.lines) - 1} lines")
    return [f"{page.path}:{fault}" for fault in found]
