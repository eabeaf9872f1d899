"""Comparing what came of a test with what is wanted of it."""
from __future__ import annotations

import os
import signal
from dataclasses import dataclass

from uxntools import assertions, files, program, report, script
from uxntools.facts import REFUSED
from uxntools.testing.configuration import NAME
from uxntools.testing.discovery import WANTED, Test
from uxntools.testing.running import Result

# The kinds of faults that are recorded only by name.
REFUSAL, EARLY, CUT, MISS = "refusal", "early", "cut", "miss"
ALLOWED = (REFUSAL, EARLY, CUT, MISS)
# An expect after the end of the run: nothing records that.
UNREACHED = "unreached"
NO_CALL = "ended like one that a shell cannot make,"
# A source is refused with this status.
REFUSED_SOURCE = 131
# 200 is of a launcher that has no program to run.
REFUSED_STATUSES = {*REFUSED, 200}


@dataclass(frozen=True)
class Fault:
    """Why a test fails: the part that is wrong, a line that says how, lines that say more, where bytes differ those
    that are wanted and those that came, and the line of the script that it is about."""

    part: str
    line: str
    wanted: bytes | None = None
    got: bytes | None = None
    kind: str = ""
    more: tuple[str, ...] = ()
    at: int = 0


def wanted_bytes(test: Test, part: str) -> bytes:
    """The bytes of a part that is there."""
    return files.read(test.full_path(part), files.SCRIPT if part == "script" else files.OUTPUT)


def wanted_status(test: Test) -> int:
    """The status that a test wants: 0 where it has no file that says so; -1 where that file holds no number."""
    text = wanted_bytes(test, "status").strip() if test.has("status") else b"0"
    number = report.number(text.decode("latin-1"))
    return -1 if number is None else number


def wanted_lines(test: Test) -> dict[str, str]:
    """The lines of the report that a test names."""
    text = wanted_bytes(test, "report").decode("latin-1") if test.has("report") else ""
    return {
        name: value.strip() for name, _, value in (line.strip().partition(" ") for line in text.splitlines()) if name
    }


def wanted_after(test: Test) -> dict[str, bytes]:
    """The files beneath the root after the run: as before it where nothing else is said."""
    part = "after" if test.has("after") else None
    folder = test.full_path(part) if part else os.path.join(test.folder, test.root or "")
    return files.read_all(folder, test.folder) if part or test.root else {}


def script_bytes(test: Test) -> bytes:
    return wanted_bytes(test, "script") if test.script else b""


def script_expects(test: Test) -> int:
    """How many expects the script has."""
    return len(script.expects(script_bytes(test)))


def has_expects(test: Test) -> bool:
    """Whether the script says itself what is wanted: by expects or by assertions."""
    return script_expects(test) > 0 or assertions.has_any(script_bytes(test))


def _ended(test: Test, result: Result) -> Fault | None:
    """A call that was refused, ended early or was none, unless its status and its line are wanted."""
    if result.is_done:
        return None
    wants_status = test.has("status") and wanted_status(test) == result.status
    wanted_err = wanted_bytes(test, "err") if test.has("err") else b""
    if wants_status and wanted_err == result.err:
        return None
    is_refused = result.status in REFUSED_STATUSES
    how = (
        "was refused"
        if is_refused
        else "ended early"
        if result.status > 127
        else "was ended by a signal"
        if result.status < 0
        else NO_CALL
    )
    line = f"the call {how} with status {result.status}" + (f": {result.line}" if result.line else "")
    if result.status == -signal.SIGXFSZ:
        line = f"the call was ended: it has written a file of {program.MOST_WRITTEN:,} bytes"
    return Fault("status", line, kind=REFUSAL if is_refused else EARLY)


def _status(test: Test, result: Result) -> Fault | None:
    wanted = wanted_status(test)
    if wanted == result.status:
        return None
    shown = str(wanted) if wanted >= 0 else f"a number in {test.path('status')}"
    return Fault("status", f"it is {result.status}; wanted is {shown}")


def _bytes(test: Test, result: Result, part: str) -> Fault | None:
    """A part whose bytes are compared: the outputs always, unless they are to be ignored; the others where they are
    wanted."""
    is_output = part in ("out", "err")
    if part in test.settings.ignore or not is_output and not test.has(part):
        return None
    wanted = wanted_bytes(test, part) if test.has(part) else b""
    got = result.parts.get(part, b"")
    if wanted == got:
        return None
    line = (
        f"it differs from {test.path(part)}" if test.has(part) else f"nothing is wanted: there is no {test.path(part)}"
    )
    return Fault(part, line, wanted, got)


def after_faults(test: Test, result: Result) -> list[Fault]:
    """The files that differ, that are missing and that are too many."""
    if result.after is None:
        return []
    wanted, got, found = wanted_after(test), result.after, []
    for path in sorted(wanted.keys() | got.keys()):
        if path not in got:
            found.append(Fault("after", f"{path}: it is not there", wanted[path], None))
        elif path not in wanted:
            found.append(Fault("after", f"{path}: it is not wanted", None, got[path]))
        elif wanted[path] != got[path]:
            found.append(Fault("after", f"{path}: it differs", wanted[path], got[path]))
    return found


def wanted_cuts(test: Test) -> int:
    if test.settings.cuts is not None:
        return test.settings.cuts
    number = report.number(wanted_lines(test).get("cuts", "0"))
    return -1 if number is None else number


def _report(test: Test, result: Result) -> list[Fault]:
    """The lines of the report that are named; cuts, misses and expects that were not reached, named or not."""
    found, lines, settings = [], wanted_lines(test), test.settings
    for name, value in lines.items():
        if name not in ("cuts", "misses") and result.report.get(name) != value:
            found.append(Fault("report", f"{name} is {result.report.get(name, 'not there')}; wanted is {value}"))
    cuts, misses = result.count("cuts"), result.count("misses")
    if wanted_cuts(test) < 0:
        found.append(Fault("report", f"there is no number in the wanted line `cuts {lines['cuts']}`"))
    elif cuts != wanted_cuts(test):
        found.append(Fault("report", f"{_cuts(cuts)}; wanted is {wanted_cuts(test)}", kind=CUT if cuts else ""))
    if misses != settings.misses:
        found.append(
            Fault(
                "report",
                _misses(misses, result, settings.misses) + _miss_hint(test, lines),
                kind=MISS if misses else "",
            )
        )
    expects = script_expects(test)
    if "expects" not in lines and result.count("expects") < expects:
        found.append(
            Fault(
                "report",
                f"the run ended before {expects - result.count('expects')} of its {expects} expects",
                kind=UNREACHED,
            )
        )
    return found


def _cuts(count: int) -> str:
    if not count:
        return "no vector was cut"
    return f"{count} vectors used up their budgets and were cut" if count > 1 else "a vector used up its budget and was cut"


def _misses(count: int, result: Result, wanted: int) -> str:
    if not count:
        return f"no expect missed; wanted are {wanted} misses"
    return f"{count} of {result.count('expects')} expects missed"


def _miss_hint(test: Test, lines: dict[str, str]) -> str:
    """What a test says wrongly where it means to want misses."""
    if lines.get("misses", "0") == "0":
        return ""
    return (
        f"; the line `misses {lines['misses']}` does not excuse them: {NAME} does, by `misses = "
        f"{lines['misses']}` of this test"
    )


def wants_nothing(test: Test) -> bool:
    """Whether a test has neither a file that says what is wanted nor an expect."""
    if any(test.has(part) for part in WANTED if part not in ("report", *test.settings.ignore)) or wanted_lines(test):
        return False
    return not has_expects(test) and test.settings.cuts is None


def faults(test: Test, result: Result) -> list[Fault]:
    """All that is wrong with what came of a test: nothing of one that passes."""
    ended = _ended(test, result)
    if ended:
        return [ended]
    found = [_status(test, result), *(_bytes(test, result, part) for part in ("out", "err", "ppm", "samples", "log"))]
    all_found = [fault for fault in found if fault] + after_faults(test, result)
    if 0 <= result.status < 128 and test.kind != "line":
        all_found += _report(test, result)
    if wants_nothing(test):
        all_found.append(
            Fault("test", "it wants nothing: `uxn-test --update` records what comes, or write what is wanted")
        )
    return all_found
