"""The commands of a page: run in order in one shell, in a folder of the page's own, and compared with what it shows."""
from __future__ import annotations

import difflib
import filecmp
import os
import re
import shlex
import shutil
import subprocess
import tempfile
from collections.abc import Iterator
from dataclasses import dataclass

from pagechecks.markdown import COMMAND, Block, Page

HERE_DOCUMENT = re.compile(r"<<-?\s*(['\"]?)(\w+)\1")
MARK = re.compile(rb"\x01(\d+) (\d+)\x01\n")
SECONDS = 120
# What a page that is read in a clone finds there; it may write into the examples, which are its own.
COPIED = ["examples"]


@dataclass
class Step:
    """A command with the output that the page shows; or, if `file` is not empty, a file that its reader writes."""

    command: str
    shown: list[str]
    line: int
    block: Block
    file: str = ""
    first: int = 0
    last: int = 0


@dataclass
class Ran:
    """What a command printed, and its status."""

    out: str
    status: int


@dataclass
class Report:
    """What came of a page: how many of its commands did what it shows, what is wrong, and what was not tried."""

    passed: int
    faults: list[str]
    skipped: list[str]


def command_at(lines: list[str], at: int) -> tuple[str, int]:
    """The command that begins at a line, with its further lines, and the line behind it."""
    text = lines[at].removeprefix(COMMAND)
    at += 1
    while text.endswith("\\") and at < len(lines):
        text += "\n" + lines[at].removeprefix("> ")
        at += 1
    if found := HERE_DOCUMENT.search(text):
        end = at
        while end < len(lines) and lines[end].removeprefix("> ") != found[2]:
            end += 1
        inner = lines[at:end + 1]
        is_prompted = all(line.startswith(">") for line in inner)
        text += "".join("\n" + (line[1:].removeprefix(" ") if is_prompted else line) for line in inner)
        at = end + 1
    return text, at


def steps_of_block(block: Block) -> Iterator[Step]:
    at = 0
    while at < len(block.lines) and not block.lines[at].startswith(COMMAND):
        at += 1
    while at < len(block.lines):
        line = at
        command, at = command_at(block.lines, at)
        first = at
        while at < len(block.lines) and not block.lines[at].startswith(COMMAND):
            at += 1
        yield Step(command, block.lines[first:at], block.start + line, block, "", first, at)


def missing_tools(block: Block) -> list[str]:
    """The programs that a block needs and that are not there."""
    words = block.words
    return [tool for tool in words[1:] if shutil.which(tool) is None] if words[:1] == ["needs:"] else []


def steps_of(page: Page) -> tuple[list[Step], list[str]]:
    """The steps of a page in order, and the blocks that are not tried for want of a tool."""
    steps: list[Step] = []
    skipped = []
    for block in page.blocks:
        if block.is_console and block.words[:1] != ["norun:"]:
            if missing := missing_tools(block):
                skipped.append(f"{page.path}:{block.start}: there is no {' '.join(missing)}")
            else:
                steps += steps_of_block(block)
        elif not block.is_console and block.words:
            steps.append(Step("", block.lines, block.start, block, block.words[0]))
    return steps, skipped


def script_of(steps: list[Step]) -> str:
    """The shell script that makes the files and runs the commands, with a mark and the last status behind each."""
    parts = ["exec 2>&1", "true"]
    for number, step in enumerate(steps):
        if step.file:
            text = "".join(line + "\n" for line in step.shown)
            parts.append(f"printf %s {shlex.quote(text)} >{shlex.quote(step.file)}")
        else:
            parts.append(step.command)
        parts.append(f"__status=$?; printf '\\001%d %d\\001\\n' {number} $__status; (exit $__status)")
    return "\n".join(parts) + "\n"


def is_of_dist(top: str, program: str) -> bool:
    """Whether a program is one of those of dist/, byte for byte."""
    folder = os.path.join(top, "dist")
    names = os.listdir(folder) if os.path.isdir(folder) else []
    return any(filecmp.cmp(program, os.path.join(folder, name), shallow=False) for name in names)


def make_clone(folder: str, top: str, program: str) -> str:
    """A folder that looks like a clone of the repository. Its `uxn` never builds: it is the launcher only beside a program of dist/."""
    clone = os.path.join(folder, "uxn")
    os.mkdir(clone)
    for name in os.listdir(top):
        if name in COPIED:
            shutil.copytree(os.path.join(top, name), os.path.join(clone, name), symlinks=True)
        elif name not in (".git", "uxn"):
            os.symlink(os.path.join(top, name), os.path.join(clone, name))
    os.symlink(os.path.join(top, "uxn") if is_of_dist(top, program) else program, os.path.join(clone, "uxn"))
    return clone


def environment(folder: str, top: str, program: str) -> dict[str, str]:
    tools = os.path.join(folder, "bin")
    os.mkdir(tools)
    os.symlink(os.path.realpath(program), os.path.join(tools, "uxn"))
    extras = [os.path.join(top, "extras", name) for name in ("bin", "dropins")]
    path = os.pathsep.join([tools, *extras, os.environ["PATH"]])
    return {"PATH": path, "HOME": folder, "TMPDIR": folder, "LC_ALL": "C.UTF-8", "TZ": "UTC", "TERM": "dumb",
            "COLUMNS": "100", "PYTHONDONTWRITEBYTECODE": "1", "UXN_JOBS": "1", "GIT_CONFIG_GLOBAL": os.devnull}


def run(steps: list[Step], top: str, program: str) -> list[Ran]:
    """What each step gave; fewer than the steps where the shell ended before."""
    with tempfile.TemporaryDirectory(prefix="uxn-page-", ignore_cleanup_errors=True) as folder:
        variables = environment(folder, top, program)
        script = os.path.join(folder, "script")
        with open(script, "w", encoding="utf-8") as file:
            file.write(script_of(steps))
        with open(os.path.join(folder, "said"), "w+b") as said:
            try:
                subprocess.run(["bash", "--norc", script], cwd=make_clone(folder, top, program), env=variables, timeout=SECONDS,
                               stdin=subprocess.DEVNULL, stdout=said, stderr=subprocess.STDOUT, check=False)
            except subprocess.TimeoutExpired:
                pass
            said.seek(0)
            parts = MARK.split(said.read().replace(os.fsencode(folder), b"~"))
    return [Ran(out.decode(errors="replace"), int(status)) for out, status in zip(parts[0::3], parts[2::3])]


def lines_of(text: str) -> list[str]:
    return [line.rstrip() for line in text.removesuffix("\n").split("\n")] if text else []


def is_shown(shown: list[str], came: list[str]) -> bool:
    """Whether the lines that came are those of the page, where `...` is any text of a line, and alone any lines."""
    parts = []
    for line in shown:
        if line.strip() == "...":
            parts.append(r"(?:.*\n)*?")
        else:
            parts.append(".*".join(map(re.escape, line.rstrip().split("..."))) + r"\n")
    return re.fullmatch("".join(parts), "".join(line + "\n" for line in came)) is not None


def fault_of(step: Step, following: Step | None, ran: Ran, path: str) -> str:
    """What is wrong with a command, or nothing."""
    came = lines_of(ran.out)
    shown = step.shown
    while shown and not shown[-1].strip():
        shown = shown[:-1]
    if step.file:
        is_named = f"`{step.file}`" in step.block.before and ran.status == 0
        return "" if is_named else f"{path}:{step.line}: the paragraph before does not name `{step.file}`"
    if not is_shown(shown, came):
        difference = list(difflib.unified_diff(shown, came, "the page", "what came", lineterm="", n=1))[:40]
        return "\n    ".join([f"{path}:{step.line}: $ {step.command}", *difference])
    says_status = following is not None and following.command.startswith("echo $?")
    if ran.status and not came and not says_status:
        return f"{path}:{step.line}: $ {step.command}: it ends with {ran.status}, and the page does not say so"
    return ""


def check(page: Page, top: str, program: str) -> Report:
    steps, skipped = steps_of(page)
    if not steps:
        return Report(0, [], skipped)
    ran = run(steps, top, program)
    faults = []
    for number, (step, came) in enumerate(zip(steps, ran)):
        following = steps[number + 1] if number + 1 < len(steps) else None
        if fault := fault_of(step, following, came, page.path):
            faults.append(fault)
    passed = len(ran) - len(faults)
    if len(ran) < len(steps):
        step = steps[len(ran)]
        faults.append(f"{page.path}:{step.line}: $ {step.command}: it did not end, or it ended the shell")
    return Report(passed, faults, skipped)


def rewritten(page: Page, top: str, program: str) -> str:
    """The page with what its commands print in place of what it shows where the two differ."""
    steps, _ = steps_of(page)
    lines = list(page.lines)
    for step, came in reversed(list(zip(steps, run(steps, top, program)))):
        if step.file or is_shown(step.shown, lines_of(came.out)):
            continue
        start = step.block.start - 1
        shown = [(step.block.indent + line).rstrip() for line in lines_of(came.out)]
        lines[start + step.first:start + step.last] = shown
    return "\n".join(lines)
