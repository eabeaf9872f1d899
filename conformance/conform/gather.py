"""All tests before they are made: the processor's by tables, those of the cases, and those that stand in sources/."""
from __future__ import annotations

import fnmatch
import glob
import itertools
import json
import os
from collections.abc import Iterator
from typing import Any

from conform import cases, from_cases, language, scripts, sweeps
from conform.drafts import Draft
from conform.instructions import MODES, NAMES, name_of, modes_of
from conform.tests import TOP, Tree, tree_of
from conform.tests import driver as tests_driver
from conform.cli import Failure

SOURCES = os.path.join(TOP, "sources")


def text_of(name: str) -> str:
    with open(os.path.join(SOURCES, name), encoding="utf-8") as file:
        return file.read()


def processor_draft(name: str, shows: str, reference: str, chosen: list[cases.Case], with_memory: bool) -> Draft:
    source = cases.source_of(chosen, tests_driver(), shows, with_memory)
    return Draft(f"processor/{name}", shows, reference, "processor", source.encode(), ["console"], by_cases=True)


def processor_drafts() -> list[Draft]:
    """A test for each instruction, one for each mode, and one for all."""
    drafts = []
    by_opcode = {opcode: cases.cases_of(opcode) for opcode in range(1, 256)}
    for opcode, found in by_opcode.items():
        word = name_of(opcode)
        shows = f"{word} over edge values of operands and pointers: {len(found)} cases"
        drafts.append(
            processor_draft(
                f"{opcode:02x}-{word}",
                shows,
                f"Uxntal opcodes: {NAMES[opcode % 32]}" if opcode % 32 else f"Uxntal opcodes: {word}",
                found,
                cases.needs_memory(opcode),
            )
        )
    for mode in MODES:
        chosen = [
            case
            for opcode, found in by_opcode.items()
            if set(modes_of(opcode)) == set(mode)
            for case in cases.some(found, 6)
        ]
        name = f"mode-{mode}" if mode else "no-mode"
        shows = f"all instructions in the mode {mode}" if mode else "all instructions without a mode"
        drafts.append(processor_draft(name, shows, "Uxntal opcodes: modes", chosen, True))
    chosen = [case for found in by_opcode.values() for case in cases.some(found, 2)]
    drafts.append(processor_draft("all", "all instructions but BRK, each in two cases", "Uxntal opcodes", chosen, True))
    return drafts + list(sweep_drafts())


def sweep_drafts() -> Iterator[Draft]:
    """A test of each arithmetic instruction over many values."""
    for name, is_short in itertools.product(sweeps.OPERATIONS, (False, True)):
        word = f"{name}2" if is_short else name
        shows = f"{word} over {'65,536 pairs of shorts' if is_short else 'all pairs of bytes'}"
        source = sweeps.source_of(name, is_short).encode()
        yield Draft(f"processor/sweep-{word}", shows, f"Uxntal opcodes: {name}", "processor", source, ["console"])


def stdin_of(events: list[Any]) -> bytes | None:
    """The input of events that are nothing but input and its end; None for others."""
    if events and events[-1] == ["end"]:
        events = events[:-1]
    if any(event[0] != "input" for event in events):
        return None
    return bytes(event[1] for event in events)


def ruled(draft: Draft, rule: dict[str, Any]) -> Draft:
    """The draft of a case as its rule says; where its events are only input, as a test without events."""
    draft.level, draft.reference = rule["level"], rule["reference"]
    draft.devices, draft.profile = list(rule.get("devices", [])), rule.get("profile", False)
    draft.takes += tuple(rule.get("takes", ()))
    draft.endless = rule.get("endless")
    if "frames" in draft.takes and "screen" not in draft.devices:
        draft.devices.append("screen")
    if "datetime" in draft.devices and ["clock"] not in [event[:1] for event in draft.events or []]:
        draft.events = [["clock", 0, 0], *(draft.events or [])]
    stdin = stdin_of(draft.events or [])
    if (
        draft.level != "assembler"
        and stdin is not None
        and "screen" not in draft.devices
        and "audio" not in draft.devices
    ):
        draft.case_events, draft.stdin, draft.events = draft.events or [], stdin, None
    return draft


def case_drafts() -> list[Draft]:
    drafts = []
    rules = json.loads(text_of("cases.json"))
    for folder in sorted({rule["pattern"].split("/")[0] for rule in rules if "/" in rule["pattern"]}):
        for path in sorted(glob.glob(os.path.join(from_cases.CASES, folder, "*.case"))):
            name = f"{folder}/{os.path.basename(path)[:-5]}"
            rule = next(rule for rule in rules if fnmatch.fnmatchcase(name, rule["pattern"]))
            if rule["level"] is None:
                continue
            word = name.split("/")[1].replace("_", "-")
            is_source = rule["level"] == "assembler"
            draft = (from_cases.source_of_case if is_source else from_cases.run_of_case)(
                f"{rule['level']}/{word}", path
            )
            if draft:
                drafts.append(with_twin(ruled(draft, rule)))
    return drafts


def with_twin(draft: Draft) -> Draft:
    """The draft with the repaired source that sources/twins.json has for it, if there is one."""
    found = json.loads(text_of("twins.json")).get(draft.name)
    if found:
        draft.twin, draft.twin_files = found.get("source"), found.get("files")
    return draft


def read_beside(folder: str, path: str) -> bytes:
    with open(os.path.join(folder, path), "rb") as file:
        return file.read()


def files_of(item: dict[str, Any], folder: str) -> Tree | None:
    """The files of a test: those of its entry, a copy of a folder, and copies of single files."""
    if not any(name in item for name in ("files", "tree", "copies")):
        return None
    found = dict(item.get("files", {}))
    if "tree" in item:
        found.update(tree_of(os.path.join(folder, item["tree"])))
    for path, source in item.get("copies", {}).items():
        found[path] = read_beside(folder, source).hex()
    return found


def stored_draft(item: dict[str, Any], folder: str) -> Draft:
    """A test that stands in sources/, as its entry in a table says."""
    name = item["name"]
    source = read_beside(folder, item.get("source", name.split("/")[1] + ".tal"))
    source += b"".join(read_beside(folder, part) for part in item.get("with", ()))
    stdin = bytes.fromhex(item["stdin"]) if "stdin" in item else item.get("text", "").encode()
    draft = Draft(
        name,
        item["shows"],
        item["reference"],
        name.split("/")[0],
        source,
        item.get("devices", ["console"]),
        item.get("profile", False),
        files_of(item, folder),
        item.get("args", []),
        stdin,
        item.get("events"),
        tuple(item.get("takes", ())),
        place=item.get("place"),
        twin=item.get("twin"),
        twin_files=item.get("twin-files"),
        names=item.get("names"),
        endless=item.get("endless"),
    )
    if "behind" in item:
        draft.behind_rom = read_beside(folder, item["behind"])
    if "script" in item:
        draft.args, events = scripts.events_of(read_beside(folder, item["script"])) or ([], [])
        typed = stdin_of(events)
        draft.stdin, draft.events = (draft.stdin, events) if typed is None else (typed, None)
    return draft


def stored_drafts() -> list[Draft]:
    drafts = []
    for path in sorted(glob.glob(os.path.join(SOURCES, "*", "tests.json"))):
        folder = os.path.dirname(path)
        try:
            with open(path, encoding="utf-8") as file:
                drafts += [stored_draft(item, folder) for item in json.load(file)]
        except (ValueError, KeyError) as error:
            raise Failure(f"{path}: {error!r}") from None
    return drafts


def all_drafts() -> list[Draft]:
    drafts = processor_drafts() + case_drafts() + stored_drafts() + language.drafts()
    names = [draft.name for draft in drafts]
    twice = {name for name in names if names.count(name) > 1}
    if twice:
        raise Failure(f"tests of one name: {', '.join(sorted(twice))}")
    return drafts
