"""A profile in the formats of other tools: folded stacks, speedscope, callgrind and lcov."""
from __future__ import annotations

import json
from collections import Counter

from uxntools.profiling.contexts import ROOT
from uxntools.profiling.result import Profile

SPEEDSCOPE = "https://www.speedscope.app/file-format-schema.json"


def folded(found: Profile) -> str:
    """A line for each way through routines, as flamegraph.pl and inferno read them."""
    rows = sorted(found.stacks().items())
    return "".join(f"{';'.join(name.replace(';', ',') for name in names)} {count}\n" for names, count in rows if count)


def speedscope(found: Profile, name: str) -> str:
    """The file that speedscope opens: a sample for each way, with its instructions as weight."""
    frames: dict[str, int] = {}
    samples, weights = [], []
    for names, count in sorted(found.stacks().items()):
        samples.append([frames.setdefault(routine, len(frames)) for routine in names])
        weights.append(count)
    profile = {
        "type": "sampled",
        "name": name,
        "unit": "none",
        "startValue": 0,
        "endValue": sum(weights),
        "samples": samples,
        "weights": weights,
    }
    shared = {"frames": [{"name": routine} for routine in frames]}
    return json.dumps({"$schema": SPEEDSCOPE, "shared": shared, "profiles": [profile], "exporter": "uxn-profile"}) + "\n"


def _wholes(found: Profile) -> dict[int, int]:
    """The instructions of each context with those beneath it."""
    contexts = found.contexts
    whole = [found.own[context] for context in range(len(contexts.parents))]
    for context in range(len(whole) - 1, ROOT, -1):
        whole[contexts.parents[context]] += whole[context]
    return dict(enumerate(whole))


def callgrind(found: Profile, name: str) -> str:
    """The file that KCachegrind and callgrind_annotate read: own instructions by line, and calls."""
    out = ["# callgrind format", "version: 1", "creator: uxn-profile", f"cmd: {name}", "positions: line"]
    out += ["events: Instructions", f"summary: {found.found.goal}", ""]
    own, calls = _own_lines(found), _calls(found)
    for routine, label in enumerate(found.names):
        lines, called = own.get(routine, Counter()), calls.get(routine, {})
        if not lines and not called:
            continue
        path, first = _place(found, routine)
        out += [f"fl={path}", f"fn={label}"]
        out += [f"{line} {count}" for line, count in sorted(lines.items())] or [f"{first} 0"]
        for callee, (entered, count) in sorted(called.items()):
            its_path, its_line = _place(found, callee)
            out += [f"cfi={its_path}", f"cfn={found.names[callee]}", f"calls={entered} {its_line}", f"{first} {count}"]
        out.append("")
    return "\n".join(out)


def _own_lines(found: Profile) -> dict[int, Counter[int]]:
    made: dict[int, Counter[int]] = {}
    for address, count in found.found.counts.items():
        row = found.program.by_address.get(address)
        made.setdefault(found.known.routine_of[address], Counter())[row.line if row else 0] += count
    return made


def _calls(found: Profile) -> dict[int, dict[int, tuple[int, int]]]:
    """For each routine what it entered: how often, and the instructions of that. A routine within itself is counted
    in the outermost."""
    made: dict[int, dict[int, tuple[int, int]]] = {}
    wholes, contexts = _wholes(found), found.contexts
    for context in range(1, len(contexts.parents)):
        parent = contexts.parents[context]
        if parent == ROOT or not found.entered[context]:
            continue
        row = made.setdefault(contexts.routines[parent], {})
        entered, count = row.get(contexts.routines[context], (0, 0))
        row[contexts.routines[context]] = entered + found.entered[context], count + wholes[context]
    return made


def _place(found: Profile, routine: int) -> tuple[str, int]:
    """The file and the line at which a routine begins."""
    row = found.program.by_address.get(found.known.starts[routine])
    return (row.path, row.line) if row else ("?", 0)


def lcov(found: Profile) -> str:
    """How often the lines of each file ran, as lcov, editors and CI services read it: the count of a line is that of its
    most frequent word."""
    most: dict[str, dict[int, int]] = {}
    for row in found.program.rows:
        lines = most.setdefault(row.path, {})
        lines[row.line] = max(lines.get(row.line, 0), found.found.counts[row.address])
    out = ["TN:"]
    for path, lines in sorted(most.items()):
        out.append(f"SF:{path}")
        out += [f"DA:{line},{count}" for line, count in sorted(lines.items())]
        out += [f"LF:{len(lines)}", f"LH:{sum(map(bool, lines.values()))}", "end_of_record"]
    return "".join(f"{line}\n" for line in out)
