"""Links, anchors, files, cases, options and names of crates that pages name: each is there."""
from __future__ import annotations

import functools
import os
import re
from collections.abc import Iterator
from dataclasses import dataclass, field

from pagechecks import files, markdown
from pagechecks.markdown import Page

# What users make or builds leave, and files that are no part of the repository.
MADE = re.compile(r"/out\b|\*|[A-Z]{3,}|\.\.|^tests/|^tools/|^~|^lib/")
LINK = re.compile(r"\]\(([^)\s]+)\)")


@functools.cache
def read(path: str) -> str:
    with open(path, encoding="utf-8") as file:
        return file.read()


@dataclass
class Repository:
    """The files of the repository (the current folder is its top), and what pages may name of it."""

    files: list[str] = field(default_factory=list)
    places: set[str] = field(default_factory=set)
    crates: list[str] = field(default_factory=list)
    options: set[str] = field(default_factory=set)
    tool_options: set[str] = field(default_factory=set)
    anchors: dict[str, set[str]] = field(default_factory=dict)

    def __post_init__(self) -> None:
        self.files = files.listed()
        self.places = {*self.files, *(file[:at] for file in self.files for at, sign in enumerate(file) if sign == "/")}
        self.crates = re.findall(r"(?m)^(\w+):", read("crates.txt"))
        table = read("crates/uxn_arguments/src/options.rt")
        self.options = set(re.findall(r'\("(\w+)", ChoiceKind::', table))
        self.tool_options = self.options_of_tools() | {"help", "version"}

    def options_of_tools(self) -> set[str]:
        """The options of the tools that come with `uxn`, and of other programs that pages call."""
        places = re.compile(r"extras/(bin|dropins|uxntools)/|extras/package|conformance/[^/]+$|\.ci/|tools/|(test|install|uxn)$")
        tools = [file for file in self.files if places.match(file)]
        found = {option for tool in tools for option in re.findall(r"--([a-z][a-z-]+)", self.text_of(tool))}
        return found | {"sshlogin", "dirty"}

    @staticmethod
    def text_of(path: str) -> str:
        if not os.path.isfile(path):
            return ""
        with open(path, "rb") as file:
            return file.read().decode(errors="replace")

    @property
    def pages(self) -> list[str]:
        return [file for file in self.files if file.endswith(".md")]

    def is_there(self, page: str, path: str) -> bool:
        """Whether a path is there: from the top, the page's folder, or where pages leave out the first folder."""
        near = f"{os.path.dirname(page)}/"
        roots = ["", "crates/", "docs/", "extras/", "examples/", near, *(f"crates/{crate}/" for crate in self.crates)]
        return any(os.path.normpath(root + path.rstrip("/.:")) in self.places for root in roots)

    def anchors_of(self, path: str) -> set[str]:
        if path not in self.anchors:
            self.anchors[path] = markdown.read(path, read(path)).headings()
        return self.anchors[path]


def link_faults(page: Page, there: Repository) -> Iterator[str]:
    for number, line in page.prose:
        for target in LINK.findall(re.sub(r"`[^`]*`\w", "", line)):
            path, _, name = target.partition("#")
            if re.match(r"[a-z]+:", target):
                continue
            file = os.path.normpath(os.path.join(os.path.dirname(page.path), path)) if path else page.path
            if file not in there.places:
                yield f"{number}: no file {target}"
            elif name and file.endswith(".md") and name not in there.anchors_of(file):
                yield f"{number}: no heading {target}"


def path_faults(page: Page, there: Repository) -> Iterator[str]:
    """Files of the repository, and cases, that code spans name."""
    folders = {place.split("/")[0] for place in there.places if "/" in place} | {*there.crates, "specs", "src"}
    for span in page.spans:
        for word in re.split(r"[\s,;()\[\]=\"']+", span):
            word = word.removeprefix("./").removeprefix("../")
            first = word.split("/")[0]
            if "/" not in word or MADE.search(word):
                continue
            if first in folders and not there.is_there(page.path, word):
                yield f"no file {word}"
            elif re.fullmatch(r"\w+/\w+", word) and f"cases/{first}" in there.places:
                if f"cases/{word}.case" not in there.places and not there.is_there(page.path, word):
                    yield f"no case {word}"


def option_faults(page: Page, there: Repository) -> Iterator[str]:
    """Options of `uxn` behind its name, and of the tools anywhere else."""
    inner = "\n".join(line for block in page.blocks for line in block.lines) + "\n" + "\n".join(page.spans)
    for command in re.findall(r"(?<![\w/-])uxn (?:play|debug|asm|dis|gen|line)\b[^\n|>;&]*", inner):
        for option in re.findall(r"(?<![\w-])--([a-z-]+)", command):
            if option not in there.options | {"help", "version"}:
                yield f"uxn has no option --{option}"
    for span in page.spans:
        for option in re.findall(r"(?<![\w-])--([a-z][a-z-]+)", "" if span.startswith("uxn ") else span):
            if option not in there.options | there.tool_options:
                yield f"no tool has an option --{option}"


def name_faults(page: Page, there: Repository) -> Iterator[str]:
    """`crate::name` in a page is a name in that crate."""
    for crate, name in re.findall(r"`(\w+)::(?:\w+::)?(\w+)`", page.text):
        sources = [file for file in there.files if re.match(rf"crates/{crate}/(src|specs)/", file)]
        if crate in there.crates and not any(re.search(rf"\b{name}\b", read(file)) for file in sources):
            yield f"no name {crate}::{name}"


def faults(page: Page, there: Repository) -> list[str]:
    """What is wrong with the names of a page."""
    found = [fault for check in (link_faults, path_faults, option_faults, name_faults) for fault in check(page, there)]
    return [f"{page.path}:{fault}" if fault[0].isdigit() else f"{page.path}: {fault}" for fault in dict.fromkeys(found)]
