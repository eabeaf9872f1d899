"""Tests that are made of the repository's command-line cases. Only conformance/make needs them: cases/stored.py reads them."""
from __future__ import annotations

import hashlib
import os
import re
import sys

from conform import scripts, tests
from conform.differences import Got
from conform.drafts import Draft
from conform.tests import Tree

TOP = os.path.join(tests.TOP, "..")
CASES = os.path.join(TOP, "cases")
sys.path.append(CASES)

import stored  # noqa: E402
from stored import Case  # noqa: E402

OUTPUTS = {"--frames": "frames", "--samples": "samples"}
MOST = 20_000
MOST_FILES = 300


def text_of(path: bytes) -> str:
    return path.decode(errors="surrogateescape")


def as_tree(files: stored.Tree) -> Tree | None:
    """Files in the form of the manifest, the folders that have something in them left out."""
    full = {folder for path in files for folder in stored.above(path)}
    found = {text_of(path): None if data is None else data.hex() for path, data in sorted(files.items()) if path not in full}
    return found or None


def tree_beneath(files: stored.Tree, root: bytes) -> Tree | None:
    """The files beneath a folder; none where it is not there or is a file."""
    if files.get(root, b"") is not None:
        return None
    beneath = {path[len(root) + 1 :]: data for path, data in files.items() if path.startswith(root + b"/")}
    return {text_of(path): None if data is None else data.hex() for path, data in sorted(beneath.items())}


def options_of(case: Case) -> dict[str, bytes]:
    words = [text_of(word) for word in case.words]
    return dict(zip(words[2::2], case.words[3::2]))


def run_of_case(name: str, path: str) -> Draft | None:
    """A case that plays a source over a script, as a test; none where it has more than the neutral form can say."""
    case = stored.read(path)
    if case.words[:2] != [b"play", b"a.tal"] or case.status >= 128:
        return None
    options = options_of(case)
    if set(options) - {"--script", "--root", "--report", *OUTPUTS}:
        return None
    given = scripts.events_of(case.tree.get(options.get("--script", b""), b"") or b"")
    tree = tree_beneath(case.tree, options["--root"]) if "--root" in options else None
    if given is None or len(given[1]) > 2000 or ("--root" in options and tree is None):
        return None
    if sum(len(data or "") for data in (tree or {}).values()) > 2 * MOST or len(tree or {}) > 100:
        return None
    takes = tuple(OUTPUTS[option] for option in options if option in OUTPUTS) + (("after",) if tree is not None else ())
    if not shows_something(case, options):
        return None
    source = case.tree[b"a.tal"] or b""
    return Draft(name, case.about, "", "", source, files=tree, args=given[0], events=given[1], takes=takes, case=case)


def shows_something(case: Case, options: dict[str, bytes]) -> bool:
    """Whether a run leaves more than a report: an output, a status, files, pictures or sound."""
    if case.out or case.out_sum or case.err or case.status or set(options) & set(OUTPUTS):
        return True
    root = options.get("--root")
    return root is not None and tree_beneath(case.tree, root) != tree_beneath(case.after, root)


def source_of_case(name: str, path: str) -> Draft | None:
    """A case's source, with the files that it includes, as a test of an assembler."""
    case = stored.read(path)
    if len(case.words) < 2 or case.words[0] not in (b"play", b"asm") or b"--rom" in case.words:
        return None
    place = case.words[1]
    if case.status not in range(0, 128) and case.status != 131:
        return None
    included = {path: data for path, data in case.tree.items() if path != place}
    source = case.tree.get(place)
    if source is None or sum(len(data or b"") for data in case.tree.values()) > MOST or len(included) > MOST_FILES:
        return None
    return Draft(name, case.about, "", "assembler", source, files=as_tree(included), place=text_of(place), case=case)


def expected(case: Case, path: bytes) -> tuple[bytes | None, str]:
    """The bytes of a file that a case expects, or their sum."""
    return case.after.get(path), case.sums.get(path, "")


def differs(data: bytes | None, given: tuple[bytes | None, str]) -> bool:
    wanted, digest = given
    return hashlib.sha256(data or b"").hexdigest() != digest if digest else wanted != data


def faults_of_source(case: Case, got: Got) -> list[str]:
    """What an assembled source gives otherwise than its case says."""
    if (case.status == 131) != (got.status != 0):
        return [f"the case ends with {case.status}, the source with {got.status}"]
    if case.status == 131:
        return [] if case.err == got.err else [f"the case says {case.err!r}, the source {got.err!r}"]
    options = options_of(case) if case.words[0] == b"asm" else {}
    for option, data in (("--out", got.rom), ("--symbols", got.symbols)):
        if option in options and differs(data, expected(case, options[option])):
            return [f"the file of {option} is not that of the case"]
    return []


def faults_of_run(case: Case, got: Got, takes: tuple[str, ...]) -> list[str]:
    """What a run gives otherwise than its case says."""
    found = [f"the case ends with {case.status}, the run with {got.status}"] if case.status != got.status else []
    if differs(got.out, (case.out, case.out_sum)):
        found.append(f"the case prints {case.out[:80]!r}, the run {got.out[:80]!r}")
    options = options_of(case)
    for option, name in OUTPUTS.items():
        if name in takes and option in options and differs(getattr(got, name), expected(case, options[option])):
            found.append(f"the {name} are not those of the case")
    if "after" in takes and "--root" in options:
        wanted = tree_beneath(case.after, options["--root"]) or {}
        sums = {path for path in case.sums if path.startswith(options["--root"] + b"/")}
        if not sums and wanted != got.after:
            found.append("the files are not those of the case")
    return found


def kind_of(err: bytes) -> str | None:
    found = re.match(rb"source (?:\S+ )?\d+:\d+: (\w+): ", err)
    return found[1].decode() if found else None
