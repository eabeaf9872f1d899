"""Where the facts stand outside the crates: files between marks, the grammar for Visual Studio Code, and whole files."""
from __future__ import annotations

import json
import re
from collections.abc import Callable
from pathlib import Path

from tables import rendering
from tables.definitions import NotRead
from tables.gathering import Json

FACTS = "extras/uxntools/facts.json"
PAGE = "web/src/words.js"
GRAMMAR = "extras/vscode/syntaxes/uxntal.tmLanguage.json"
# What begins a comment in each kind of file, and what ends it.
COMMENTS = {".md": ("<!--", " -->"), ".py": ("#", ""), ".bash": ("#", ""), "": ("#", ""), ".vim": ('"', ""), ".el": (";;", "")}

MARKED: dict[str, dict[str, Callable[[Json], str]]] = {
    "docs/commands.md": {
        "commands": rendering.commands,
        "options": rendering.options,
        "statuses": rendering.statuses,
    },
    "docs/limits.md": {"limits": rendering.limits},
    "docs/varvara.md": {
        "operations": rendering.operations,
        "immediates": rendering.immediates,
        **{device: rendering.ports(device) for device in ("System", "Console", "Controller", "Mouse", "DateTime")},
    },
    "docs/screen.md": {"Screen": rendering.ports("Screen")},
    "docs/audio.md": {"Audio0": rendering.ports("Audio0")},
    "docs/files.md": {"File1": rendering.ports("File1")},
    "docs/formats.md": {
        "script": rendering.script_lines(1),
        "script 2": rendering.script_lines(2),
        "kinds of scripts": rendering.kinds("script"),
        "setup": rendering.setup_lines,
        "kinds of setups": rendering.kinds("setup"),
        "debugger": rendering.debugger_lines,
        "kinds of commands": rendering.kinds("commands"),
        "kinds of symbol files": rendering.kinds("symbols"),
    },
    "conformance/conform/instructions.py": {"words": rendering.suite_words},
    "extras/uxntools/plainfiles.py": {"words": rendering.limits_of_files},
    "cases/phases.py": {"words": rendering.phases_words},
    "extras/completions/uxn.bash": {"words": rendering.bash_words},
    "extras/completions/_uxn": {"words": rendering.zsh_words},
    "extras/vim/syntax/uxntal.vim": {"words": rendering.vim_words},
    "extras/vim/indent/uxntal.vim": {"words": rendering.vim_opener},
    "extras/emacs/uxntal-mode.el": {"words": rendering.emacs_words},
}


def read(top: Path, path: str) -> str:
    """The text of a file; nothing if it is not there."""
    try:
        return (top / path).read_text(encoding="utf-8")
    except FileNotFoundError:
        return ""


def marked(path: str, text: str, name: str, inner: str) -> str:
    """A text with `inner` between the marks of a name."""
    begin, end = COMMENTS[Path(path).suffix]
    first, last = f"{begin} facts: {name}{end}\n", f"{begin} facts end{end}\n"
    blank = "\n" if path.endswith(".md") else ""
    head, mark, rest = text.partition(first)
    _, closing, tail = rest.partition(last)
    if not mark or not closing:
        raise NotRead(f"{path}: there are no marks `{first.strip()}` and `{last.strip()}`")
    return f"{head}{first}{blank}{inner}\n{blank}{last}{tail}"


def with_patterns(text: str, patterns: dict[str, str]) -> str:
    """The grammar with each regular expression in the rule that a comment names."""
    for name, pattern in patterns.items():
        rule = re.compile(rf'("comment": "facts: {name}",\s*"match": )"(?:[^"\\]|\\.)*"')
        quoted = json.dumps(pattern).replace("\\", r"\\")
        text, count = rule.subn(rf"\g<1>{quoted}", text)
        if count != 1:
            raise NotRead(f"{GRAMMAR}: there is no rule `facts: {name}`")
    return text


def texts(top: Path, facts: Json) -> dict[str, str]:
    """The text of each file that has facts."""
    found = {FACTS: rendering.facts_file(facts), PAGE: rendering.page_words(facts)}
    for path, parts in MARKED.items():
        text = read(top, path)
        for name, render in parts.items():
            text = marked(path, text, name, render(facts))
        found[path] = text
    found[GRAMMAR] = with_patterns(read(top, GRAMMAR), rendering.vscode_patterns(facts))
    return found
