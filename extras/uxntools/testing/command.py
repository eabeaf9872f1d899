"""The command `uxn-test`."""
from __future__ import annotations

import argparse
import os
import re
import signal
import sys
import time
from collections.abc import Callable, Sequence
from dataclasses import replace

from uxntools import cli, files
from uxntools.testing import comparing, opening, showing, updating, warning
from uxntools.testing.discovery import Test, discover
from uxntools.testing.formats import GithubReporter, TapReporter, junit
from uxntools.testing.page import Page
from uxntools.testing.reporting import Reporter, failures
from uxntools.testing.session import Options, Outcome, Session
from uxntools.testing.watching import Watch

DESCRIPTION = """Runs tests of Uxn programs, and says what differs from what is wanted.

A test is a set of files with one name, as tests/win.script and tests/win.out, or a folder with files script and out.
It runs the program with the script (or a setup of machines, .setup; or in the debugger, .commands), over a copy of the
files .root/, and compares the results with .out, .err, .status, .ppm, .samples, .report, .log and .after/.
The program is the only source beside the folder tests, or the one that uxn-test.toml names. Without a FOLDER or NAME
the tests of every folder tests are run, in this folder and at any depth beneath it; a copy of the folder extras, with
these tools, is skipped. The status is 1 where a test failed or there are none."""


# How long a test may run, in seconds, where no option says another number.
SECONDS = 60
REPORTERS: dict[str, Callable[[int, bool], Reporter]] = {
    "text": Reporter,
    "tap": lambda total, _: TapReporter(total),
    "github": lambda total, _: GithubReporter(total),
}


def shard(text: str) -> tuple[int, int]:
    found = re.fullmatch(r"([1-9]\d{0,5})/([1-9]\d{0,5})", text)
    if not found or int(found[1]) > int(found[2]):
        raise argparse.ArgumentTypeError(f"'{text}' is no shard as 2/4")
    return int(found[1]), int(found[2])


def kinds(text: str) -> frozenset[str]:
    try:
        return updating.allowed_kinds(text)
    except ValueError as error:
        raise argparse.ArgumentTypeError(str(error)) from None


def parser() -> cli.Parser:
    made = cli.Parser(prog="uxn-test", description=DESCRIPTION)
    made.add_argument(
        "names",
        metavar="FOLDER|NAME",
        nargs="*",
        help="folders with tests, tests, tables, programs, or patterns of tests (all beneath this folder)",
    )
    made.add_argument(
        "-j",
        "--jobs",
        type=cli.number(1, 1000),
        default=len(os.sched_getaffinity(0)),
        help="how many run at a time (all processors)",
    )
    made.add_argument("-v", "--verbose", action="store_true", help="name each test that passes too")
    made.add_argument("-l", "--list", action="store_true", help="only name the tests")
    made.add_argument("--fresh", action="store_true", help="run unchanged tests too")
    made.add_argument(
        "--seconds", type=cli.number(1, 1000000), default=SECONDS, help=f"a test that runs longer fails ({SECONDS})"
    )
    add_choice(made)
    made.add_argument(
        "--strict", action="store_true", help="a stack that is not empty at the end of a vector fails the test"
    )
    made.add_argument("--update", action="store_true", help="show what came, and record it as what is wanted")
    made.add_argument(
        "--allow",
        metavar="KIND,..",
        type=kinds,
        default=frozenset(),
        help=f"of --update: record these too, of tests that are named: {', '.join(comparing.ALLOWED)}",
    )
    made.add_argument("--watch", action="store_true", help="run again what a changed file concerns, until Ctrl-C")
    made.add_argument("--debug", action="store_true", help="open uxn-debug on the first failed test, at its first miss")
    made.add_argument("--durations", metavar="N", type=cli.number(1, 1000000), default=0, help="list the N longest runs")
    made.add_argument("--tap", action="store_const", dest="format", const="tap", default="text", help="the same as --format tap")
    made.add_argument(
        "--format",
        choices=REPORTERS,
        default="text",
        help="text, the Test Anything Protocol, or annotations for GitHub (text)",
    )
    made.add_argument("--junit", metavar="FILE", help="write the outcomes as JUnit's XML too")
    made.add_argument("--html", metavar="FILE", help="write the outcomes as one page too")
    made.add_argument("--cover", action="store_true", help="of --html: show which lines the tests ran")
    return made


def add_choice(made: cli.Parser) -> None:
    """The options that choose among the tests."""
    group = made.add_argument_group("which of them")
    group.add_argument("--tag", metavar="TAG", action="append", default=[], help="those with this tag of uxn-test.toml")
    group.add_argument("--no-tag", metavar="TAG", action="append", default=[], help="those without this tag")
    group.add_argument("--last-failed", action="store_true", help="those that failed when they were run last")
    group.add_argument("--max-failures", metavar="N", type=cli.number(1, 1000000), help="end after N failed tests")
    group.add_argument(
        "--shard", metavar="K/N", type=shard, help="each N-th test, from the K-th on (a shard without tests passes)"
    )


def check(given: argparse.Namespace, wrong: cli.Parser) -> None:
    """Refuses options that do not go together."""
    has_format = given.format != "text" or given.junit or given.html
    if given.cover and not given.html:
        wrong.error("--cover goes with --html")
    if given.allow and not given.update:
        wrong.error("--allow goes with --update")
    if given.allow and not given.names:
        wrong.error("--allow needs the names of the tests that it is for")
    if given.watch and (given.update or has_format or given.list or given.debug):
        wrong.error("--watch goes alone")
    if given.update and has_format:
        wrong.error("--update goes without --format, --junit and --html")
    if given.debug and (given.update or has_format):
        wrong.error("--debug goes without --update, --format, --junit and --html")


def chosen_tests(given: argparse.Namespace) -> list[Test]:
    """The tests of the command line; none is a failure, but an empty shard is not."""
    tests = [test for test in discover(given.names) if has_tags(test, given.tag, given.no_tag)]
    if not tests:
        raise cli.Failure("no test has these tags")
    if given.last_failed:
        tests = [test for test in tests if has_failed(test)]
    if given.shard:
        tests = tests[given.shard[0] - 1 :: given.shard[1]]
    for test in tests:
        _ = test.program
    return [replace(test, settings=replace(test.settings, strict=True)) for test in tests] if given.strict else tests


def has_tags(test: Test, wanted: Sequence[str], unwanted: Sequence[str]) -> bool:
    tags = set(test.settings.tags)
    return tags.issuperset(wanted) and tags.isdisjoint(unwanted)


def has_failed(test: Test) -> bool:
    """Whether a test failed when it was run last: what came is kept then."""
    return os.path.isdir(os.path.join(test.folder, showing.folder_of(test, "failed")))


def warn(lines: Sequence[str]) -> None:
    """Says what a user should know beside the outcome."""
    for line in lines:
        print(cli.shown(f"uxn-test: {line}"), file=sys.stderr, flush=True)


def run_all(tests: Sequence[Test], session: Session, reporter: Reporter, most: int | None = None) -> int:
    """Runs tests, up to so many failures."""
    reporter.progress(session.finished)
    try:
        for outcome in session.outcomes(tests, lambda: reporter.progress(session.finished)):
            reporter.add(outcome)
            reporter.progress(session.finished)
            if most is not None and failures(reporter.outcomes) >= most:
                break
    except KeyboardInterrupt:
        reporter.clear()
        raise
    return reporter.end()


def write_junit(path: str, outcomes: Sequence[Outcome], start: float) -> None:
    files.write(path, junit(outcomes, time.monotonic() - start).encode(errors="replace"))


def update(tests: Sequence[Test], session: Session, allowed: frozenset[str]) -> int:
    """Records what comes of each test, after showing it."""
    recorded = refused = 0
    for test in tests:
        result = session.result(test, updating.outputs_to_record(test))
        made = updating.recording(test, result, allowed, session.faults(test, result))
        head = "NOT RECORDED" if made.refused else "unchanged" if made.is_empty else "recorded"
        if made.has_pictures:
            made.lines.append(f"the pictures are in {showing.keep(test, None, made.shown, 'recorded')}")
        lines = map(cli.shown, [f"{head} {test.name}", *made.refused, *made.lines])
        print("\n    ".join(lines), flush=True)
        if not made.refused:
            updating.write(test, made)
            warn(warning.empty_folders(test, made.after))
        refused, recorded = refused + bool(made.refused), recorded + (head == "recorded")
    print(f"{recorded} recorded, {len(tests) - recorded - refused} unchanged, {refused} not recorded")
    return 1 if refused else 0


def watch(given: argparse.Namespace, session: Session) -> int:
    """Runs the tests, and then, as often as files change, those that these concern."""
    tests = chosen_tests(given)
    warn(warning.unknown_files(tests) + warning.pictures(tests))
    concerned: list[Test] = tests
    while True:
        state = Watch(tests, session)
        run_all(concerned, session, Reporter(len(concerned), given.verbose, sys.stdout))
        changed = state.wait()
        try:
            session.look_anew()
            tests = chosen_tests(given)
            concerned = state.concerned(tests, changed)
        except cli.Failure as failure:
            print(f"uxn-test: {failure.line}", flush=True)
            concerned = []


def main() -> int:
    for number in (signal.SIGINT, signal.SIGTERM, signal.SIGHUP):
        signal.signal(number, signal.default_int_handler)
    made = parser()
    given = made.parse_intermixed_args()
    check(given, made)
    options = Options(given.jobs, given.fresh, given.seconds)
    if given.list:
        print("".join(f"{cli.shown(test.name)}\n" for test in chosen_tests(given)), end="")
        return 0
    if given.watch:
        return watch(given, Session(options))
    start = time.monotonic()
    tests, session = chosen_tests(given), Session(options)
    warn(warning.unknown_files(tests) + ([] if given.update else warning.pictures(tests)))
    if given.update:
        return update(tests, session, given.allow)
    reporter = REPORTERS[given.format](len(tests), given.verbose)
    reporter.durations = given.durations
    status = run_all(tests, session, reporter, given.max_failures)
    if given.junit:
        write_junit(given.junit, reporter.outcomes, start)
    if given.html:
        page = Page(reporter.outcomes, time.monotonic() - start, given.cover).made()
        files.write(given.html, page.encode(errors="replace"))
    failed = next((it for it in reporter.outcomes if not it.has_passed), None)
    if given.debug and failed:
        opening.debug(failed.test, failed.result)
    return status
