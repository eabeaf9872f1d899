"""How results are shown: lines, a table by level and device, TAP and JUnit."""
from __future__ import annotations

from collections import Counter
from collections.abc import Iterable
from xml.sax.saxutils import escape, quoteattr

from conform import tests
from conform.execute import FAILED, NOT_RUN, PASSED, Result

STATES = (PASSED, FAILED, NOT_RUN)


def failure_lines(result: Result) -> list[str]:
    return [f"FAILED {result.test.name}: {result.test.shows}", *("    " + line for line in result.said)]


def tap_line(number: int, result: Result) -> str:
    """The lines of a result in the Test Anything Protocol."""
    if result.state == NOT_RUN:
        return f"ok {number} - {result.test.name} # SKIP {result.said[0]}"
    head = f"{'ok' if result.state == PASSED else 'not ok'} {number} - {result.test.name}"
    return "\n".join([head, *("# " + line for line in result.said)])


def table(results: list[Result]) -> str:
    """How many passed, failed and were not run, by level and by device."""
    rows: list[tuple[str, ...]] = [("level", *STATES)]
    counts = Counter((result.test.level, result.state) for result in results)
    rows += [
        (level, *(str(counts[level, state]) for state in STATES))
        for level in tests.LEVELS
        if any(counts[level, state] for state in STATES)
    ]
    rows.append(("device", *STATES))
    counts = Counter((device, result.state) for result in results for device in result.test.devices)
    rows += [
        (device, *(str(counts[device, state]) for state in STATES))
        for device in tests.DEVICES
        if any(counts[device, state] for state in STATES)
    ]
    rows.append(("all", *(str(sum(result.state == state for result in results)) for state in STATES)))
    return "\n".join(f"{row[0]:<12}" + "".join(f"{cell:>9}" for cell in row[1:]) for row in rows)


def junit(results: Iterable[Result]) -> str:
    """The results as JUnit's XML, a suite for each level."""
    found = list(results)
    parts = ['<?xml version="1.0" encoding="UTF-8"?>', "<testsuites>"]
    for level in tests.LEVELS:
        group = [result for result in found if result.test.level == level]
        if not group:
            continue
        states = Counter(result.state for result in group)
        parts.append(
            f'<testsuite name="{level}" tests="{len(group)}" failures="{states[FAILED]}" skipped="{states[NOT_RUN]}" '
            f'time="{sum(result.seconds for result in group):.3f}">'
        )
        parts += [junit_case(result) for result in group]
        parts.append("</testsuite>")
    return "\n".join([*parts, "</testsuites>"]) + "\n"


def junit_case(result: Result) -> str:
    head = f'<testcase classname={quoteattr(result.test.level)} name={quoteattr(result.test.name)} time="{result.seconds:.3f}"'
    if result.state == PASSED:
        return head + "/>"
    if result.state == NOT_RUN:
        return f"{head}><skipped message={quoteattr(result.said[0])}/></testcase>"
    return (
        f"{head}><failure message={quoteattr(result.said[0])}>{escape(chr(10).join(result.said))}</failure></testcase>"
    )
