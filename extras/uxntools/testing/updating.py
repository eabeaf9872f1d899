"""Recording what came of a test as what is wanted of it, after showing it."""
from __future__ import annotations

import os
from dataclasses import dataclass, field, replace

from uxntools import files
from uxntools.testing import comparing, showing
from uxntools.testing.comparing import ALLOWED, Fault
from uxntools.testing.discovery import Test
from uxntools.testing.running import Result, usual_outputs
from uxntools.testing.showing import Shown


@dataclass
class Recording:
    """What is recorded of a test: the lines that show it, the bytes of each part (None: the part goes), and why
    nothing is recorded."""

    lines: list[str] = field(default_factory=list)
    parts: dict[str, bytes | None] = field(default_factory=dict)
    after: dict[str, bytes] | None = None
    refused: list[str] = field(default_factory=list)
    shown: list[Shown] = field(default_factory=list)

    def show(self, shown: Shown) -> None:
        self.shown.append(shown)
        self.lines += shown.lines

    @property
    def has_pictures(self) -> bool:
        return any(name.endswith(".png") for it in self.shown for name in it.files)

    @property
    def is_empty(self) -> bool:
        return not self.parts and self.after is None


def outputs_to_record(test: Test) -> frozenset[str]:
    """The outputs that a run is to give: pictures always, samples where the test has a file for them."""
    return usual_outputs(test) | {"ppm"}


def _status(result: Result) -> bytes | None:
    return b"%d\n" % result.status if result.status else None


def _pictures(test: Test, result: Result) -> bytes | None:
    return result.parts.get("ppm") or (b"" if test.has("ppm") else None)


def _report(test: Test, result: Result, allowed: frozenset[str]) -> bytes | None:
    """The lines of the report that the test names with what they are now, and the cuts where these are wanted."""
    names = list(comparing.wanted_lines(test))
    has_cuts = comparing.CUT in allowed and result.count("cuts") and test.settings.cuts is None
    if has_cuts and "cuts" not in names:
        names.append("cuts")
    lines = [f"{name} {result.report[name]}\n" for name in names if name in result.report and name != "misses"]
    if "misses" in names:
        lines.append(f"misses {test.settings.misses}\n")
    return "".join(lines).encode() if lines or test.has("report") else None


def _new_parts(test: Test, result: Result, allowed: frozenset[str]) -> dict[str, bytes | None]:
    parts: dict[str, bytes | None] = {
        "status": _status(result),
        "report": _report(test, result, allowed),
        "ppm": _pictures(test, result),
    }
    for part in ("out", "err"):
        if part not in test.settings.ignore:
            parts[part] = result.parts[part] or None
    for part in ("samples", "log"):
        if part in result.parts:
            parts[part] = result.parts[part]
    return parts


def _kinds(found: list[Fault]) -> dict[str, str]:
    return {fault.kind: fault.line for fault in found if fault.kind}


def _refusal(kind: str, line: str) -> str:
    """Why something is not recorded that was not allowed."""
    return line if kind not in ALLOWED else f"not without --allow {kind}: {line}"


def recording(test: Test, result: Result, allowed: frozenset[str], found: list[Fault]) -> Recording:
    """What is to be recorded of a result with these faults, shown beside what was wanted before. A refusal, an early
    end, a cut or a miss is recorded only where it is allowed."""
    made = Recording()
    if test.row:
        made.refused = [f"it is a row of a table: write what is wanted at {test.row}"]
        return made
    kinds = _kinds(found)
    made.refused = [_refusal(kind, line) for kind, line in kinds.items() if kind not in allowed]
    if made.refused:
        return made
    parts = _new_parts(test, result, allowed)
    if not any(parts.values()) and result.after is None and not comparing.has_expects(test):
        parts["out"] = b""
    for part, data in parts.items():
        old = comparing.wanted_bytes(test, part) if test.has(part) else None
        if old != data:
            made.parts[part] = data
            made.show(_shown(part, old, data))
    _record_after(test, result, made)
    if comparing.MISS in kinds:
        made.lines.append(f"the test still fails, until its `misses` in uxn-test.toml is {result.count('misses')}")
    return made


def _shown(part: str, old: bytes | None, new: bytes | None) -> Shown:
    if new is None:
        return Shown([f"{part}: nothing any more"])
    return showing.show(Fault(part, f"{len(new)} bytes" + ("" if old is not None else ", new"), old or b"", new))


def _record_after(test: Test, result: Result, made: Recording) -> None:
    """The files after the run, where they are others than those that are wanted."""
    if result.after is None or comparing.wanted_after(test) == result.after and (test.has("after") or test.root):
        return
    made.after = result.after
    for fault in comparing.after_faults(test, result):
        made.show(_shown_after(fault))


def _shown_after(fault: Fault) -> Shown:
    """A file after the run as it is recorded: one that is not wanted so far is new."""
    path = fault.line.rpartition(": ")[0]
    if fault.got is None:
        return Shown([f"after: {path}: nothing any more"])
    if fault.wanted is None:
        fault = replace(fault, line=f"{path}: {len(fault.got)} bytes, new", wanted=b"")
    return showing.show(fault)


def write(test: Test, made: Recording) -> None:
    """Writes what is recorded in place of what was wanted before."""
    for part, data in made.parts.items():
        if data is not None:
            files.write(test.path(part), data, test.folder)
        else:
            files.remove(test.path(part), test.folder)
    if made.after is not None:
        folder = test.path("after")
        files.remove_folder(folder, test.folder)
        files.make_folder(folder, test.folder)
        for path, data in made.after.items():
            files.make_folder(os.path.dirname(os.path.join(folder, path)), test.folder)
            files.write(os.path.join(folder, path), data, test.folder)


def allowed_kinds(text: str) -> frozenset[str]:
    """The kinds that an option names, parted by commas."""
    kinds = frozenset(text.split(","))
    unknown = sorted(kinds - set(ALLOWED))
    if unknown:
        raise ValueError(f"'{unknown[0]}' is none of {', '.join(ALLOWED)}")
    return kinds
