"""Manual pages: roff made of pages in Markdown, and of what tools say for `--help`."""
from __future__ import annotations

import re
from collections.abc import Iterator
from dataclasses import dataclass, field

# A table whose rows are at most so wide stands as a table, another one as a list.
TABLE_WIDTH = 66


@dataclass(frozen=True)
class Title:
    """What stands above and below each page: its name and section, what it is about, the version and its date."""

    name: str
    section: int
    about: str
    version: str
    date: str

    def head(self) -> list[str]:
        kind = {1: "User Commands", 5: "File Formats"}[self.section]
        return [
            f'.TH {self.name.upper()} {self.section} "{self.date}" "uxn {self.version}" "{kind}"',
            ".SH NAME",
            f"{escaped(self.name)} \\- {text(self.about)}",
        ]


def escaped(line: str) -> str:
    """Characters that stand for themselves, at any place of a line."""
    line = (
        line.replace("\\", "\\e")
        .replace("-", "\\-")
        .replace("'", "\\(aq")
        .replace("`", "\\(ga")
        .replace("^", "\\(ha")
        .replace("~", "\\(ti")
    )
    return f"\\&{line}" if line[:1] == "." else line


def text(markdown: str) -> str:
    """A piece of Markdown: code and strong words are bold; links keep their words, those in brackets go."""
    markdown = re.sub(r"\s*\(\[[^]]*\]\([^)]*\)\)", "", markdown.strip())
    markdown = re.sub(r"\[([^]]*)\]\([^)]*\)", r"\1", markdown)
    parts = re.split(r"(``.*?``|`[^`]+`|\*\*[^*]+\*\*|(?<!\w)\*[^*\s][^*]*\*)", markdown)
    return "".join(_styled(part) for part in parts if part)


def _styled(part: str) -> str:
    if part.startswith("`"):
        return f"\\fB{escaped(part.strip('`').strip() if part.startswith('``') else part[1:-1])}\\fR"
    if part.startswith("**"):
        return f"\\fB{text(part[2:-2])}\\fR"
    if part.startswith("*") and len(part) > 2 and part.endswith("*"):
        return f"\\fI{text(part[1:-1])}\\fR"
    return escaped(part)


def cells(line: str) -> list[str]:
    return [cell.strip().replace("\\|", "|") for cell in re.split(r"(?<!\\)\|", line)[1:-1]]


@dataclass
class Block:
    """A heading, a paragraph, the items of a list, the lines of a code block, or the rows of a table with its head."""

    kind: str
    lines: list[str] = field(default_factory=list)
    rows: list[list[str]] = field(default_factory=list)


def _kind(line: str) -> str:
    for kind, form in (
        ("heading", r"#+ "),
        ("table", r"\|"),
        ("code", r"    "),
        ("item", r"(?:-|\d+\.) "),
        ("image", r"!\["),
    ):
        if re.match(form, line):
            return kind
    return "text" if line.strip() else "blank"


def section_of(markdown: str, title: str) -> str:
    """What stands under a heading of a page, up to the next one as high; its own headings come up by one step."""
    found = re.search(rf"(?ms)^(#+) {re.escape(title)}\n(.*?)(?=^#{{1,2}} |\Z)", _indented(markdown))
    return re.sub(r"(?m)^###", "##", found[2]) if found else ""


def _indented(markdown: str) -> str:
    """A page whose fenced blocks of code are indented ones."""

    def block(found: re.Match[str]) -> str:
        return re.sub(r"(?m)^", "    ", found[1]).rstrip(" ")

    return re.sub(r"(?ms)^```[^\n]*\n(.*?)^```$", block, markdown)


def blocks(markdown: str) -> list[Block]:
    """The blocks of a page in order."""
    found: list[Block] = [Block("blank")]
    for line in re.sub(r"(?m)^<!-- .* -->\n+", "", _indented(markdown)).splitlines():
        kind, last = _kind(line), found[-1]
        if (
            last.kind == "item"
            and kind == "text"
            or last.kind == "item"
            and re.match(r"  +\S", line)
            and kind != "item"
        ):
            last.lines[-1] += " " + line.strip()
        elif kind == "code" and last.kind == "blank" and len(found) > 1 and found[-2].kind == "code":
            found.pop()
            found[-1].lines += ["", line[4:]]
        elif kind == last.kind and kind not in ("heading", "item"):
            last.lines.append(line[4:] if kind == "code" else line)
        elif kind == "item" and last.kind == "item":
            last.lines.append(line)
        else:
            found.append(Block(kind, [line[4:] if kind == "code" else line]))
    for block in found:
        if block.kind == "table":
            block.rows = [cells(line) for line in block.lines if not re.fullmatch(r"[-|:\s]+", line)]
    return [block for block in found if block.kind not in ("blank", "image")]


def _paragraph(block: Block) -> list[str]:
    return [".PP", text(" ".join(line.strip() for line in block.lines))]


def _code(block: Block) -> list[str]:
    return [".PP", ".RS 4", ".nf", *(escaped(line) or "\\&" for line in block.lines), ".fi", ".RE"]


def _items(block: Block) -> Iterator[str]:
    for line in block.lines:
        mark, _, rest = line.partition(" ")
        yield from ([".IP \\(bu 2"] if mark == "-" else [f".IP {mark} 4"])
        yield text(rest)


def _as_list(rows: list[list[str]]) -> Iterator[str]:
    """A table as a list: the first cell heads the others; from the third on they have the names of their columns. A
    second column `of` belongs to the head."""
    has_of = len(rows[0]) > 2 and rows[0][1] == "of"
    names = ["", "", *rows[0][3 if has_of else 2 :]]
    for row in rows[1:]:
        if has_of:
            row = [f"{row[0]} ({row[1]})", *row[2:]]
        said = [
            f"{text(name)}: {text(cell)}" if name else text(cell)
            for name, cell in zip(names[1:], row[1:])
            if cell and cell != "none"
        ]
        yield from (".TP 7", text(row[0]) or "\\&")
        for at, line in enumerate(said or ["\\&"]):
            yield from ([".br", line] if at else [line])


def _as_table(rows: list[list[str]]) -> list[str]:
    form = " ".join("l" for _ in rows[0])
    return [".PP", ".TS", "tab(\t);", f"{form}.", *("\t".join(map(text, row)) for row in rows if any(row)), ".TE"]


def _table(block: Block) -> list[str]:
    plain = [[re.sub(r"[`*]|\]\([^)]*\)|\[", "", cell) for cell in row] for row in block.rows]
    width = sum(max(len(row[at]) for row in plain if at < len(row)) + 3 for at in range(len(plain[0])))
    return _as_table(block.rows) if width <= TABLE_WIDTH else list(_as_list(block.rows))


def roff(found: list[Block], sections: dict[str, str]) -> list[str]:
    """The lines of roff for blocks. A table whose first column is named in `sections` begins a section."""
    out: list[str] = []
    for block in found:
        if block.kind == "heading":
            level, _, title = block.lines[0].partition(" ")
            out.append(
                f".SH {text(title.replace('`', '')).upper()}"
                if len(level) < 3
                else f".SS {text(title.replace('`', ''))}"
            )
        elif block.kind == "table":
            if block.rows[0][0] in sections:
                out.append(f".SH {sections[block.rows[0][0]]}")
            out += _table(block)
        elif block.kind == "code":
            out += _code(block)
        elif block.kind == "item":
            out += _items(block)
        else:
            out += _paragraph(block)
    return [line for at, line in enumerate(out) if line != ".PP" or not at or not out[at - 1].startswith(".S")]


def see_also(others: list[str]) -> list[str]:
    names = [
        f"\\fB{escaped(name)}\\fR({section})" for name, _, section in (other.rpartition(".") for other in others)
    ]
    return [".SH SEE ALSO", ", ".join(names) + ".", ".PP", "All pages are in \\fI/usr/share/doc/uxn/docs\\fR."]


def page(title: Title, markdown: str, sections: dict[str, str], others: list[str]) -> str:
    """A manual page of a page in Markdown. What stands before its first section is the description."""
    found = [block for block in blocks(markdown) if not (block.kind == "heading" and block.lines[0].startswith("# "))]
    out = ["'\\\" t", *title.head()]
    usage = [
        row[0] for block in found if block.kind == "table" and block.rows[0][0] == "command" for row in block.rows[1:]
    ]
    if title.section == 1:
        out += [".SH SYNOPSIS", *(line for each in usage for line in (text(each), ".br"))]
    first = found[0] if found else Block("heading")
    if first.kind != "heading" and not (first.kind == "table" and first.rows[0][0] in sections):
        out.append(".SH DESCRIPTION")
    return "\n".join([*out, *roff(found, sections), *see_also(others), ""])


def about_of(help_text: str) -> str:
    """What a tool does, in one phrase: the beginning of what it says of itself."""
    told = help_text.partition("\n\n")[2].split("\n\n")[0]
    phrase = re.split(r"[.:](?:\s|$)", " ".join(told.split()))[0]
    return phrase[:1].lower() + phrase[1:]


def page_of_help(title: Title, help_text: str, others: list[str]) -> str:
    """A manual page of what a tool says for `--help`."""
    usage, _, rest = help_text.partition("\n\n")
    out = [
        *title.head(),
        ".SH SYNOPSIS",
        f"\\fB{escaped(' '.join(usage.removeprefix('usage:').split()))}\\fR",
        ".SH DESCRIPTION",
    ]
    for part in rest.rstrip("\n").split("\n\n"):
        lines = part.split("\n")
        if re.fullmatch(r"[a-z ]+:", lines[0]) and len(lines) > 1:
            out += [f".SH {lines[0][:-1].upper()}", *_options(lines[1:])]
        elif all(line.startswith(" ") for line in lines):
            out += _code(Block("code", lines))
        else:
            out += _paragraph(Block("text", lines))
    return "\n".join([*out, *see_also(others), ""]).replace(".SH DESCRIPTION\n.PP\n", ".SH DESCRIPTION\n")


def _options(lines: list[str]) -> Iterator[str]:
    """The arguments or options of a tool: heads two columns in, what they mean beside or beneath."""
    for line in lines:
        found = re.fullmatch(r"  (\S.*?)(?:\s{2,}(\S.*))?", line)
        if found and not line.startswith("   "):
            yield from (".TP 7", f"\\fB{escaped(found[1])}\\fR")
            if found[2]:
                yield escaped(found[2])
        else:
            yield escaped(line.strip())
