"""A run as one page of HTML with its pictures in it, and as a badge."""
from __future__ import annotations

import base64
from collections import Counter
from html import escape

from conform import keeping, tests
from conform.execute import FAILED, NOT_RUN, PASSED, Result

STATES = (PASSED, FAILED, NOT_RUN)
STYLE = """
body { font: 16px/1.45 system-ui, sans-serif; margin: 2em auto; max-width: 62em; padding: 0 1em; color: #222; background: #fff }
h1 { font-size: 1.5em } h2 { font-size: 1.2em; margin-top: 2em } code, pre { font: 13px/1.4 ui-monospace, monospace }
table { border-collapse: collapse; margin: 1em 2em 1em 0; display: inline-table; vertical-align: top }
th, td { padding: .25em .8em; text-align: right; border-bottom: 1px solid #ddd } th:first-child, td:first-child { text-align: left }
tr:last-child td { border-top: 2px solid #888; font-weight: 600 } .failed { color: #b00020; font-weight: 600 } .none { color: #999 }
details { border: 1px solid #ddd; border-left: 4px solid #b00020; border-radius: 4px; margin: .6em 0; padding: .4em .8em }
summary { cursor: pointer } pre { background: #f6f6f6; padding: .6em; overflow-x: auto; white-space: pre-wrap; word-break: break-all }
figure { display: inline-block; margin: .4em 1em .4em 0 } figcaption { font-size: .85em; color: #555 }
figure img { image-rendering: pixelated; border: 1px solid #ccc; min-width: 240px; max-width: 100% }
.bar { display: flex; height: 14px; border-radius: 7px; overflow: hidden; background: #ddd } .bar span { display: block }
"""


def count_of(results: list[Result], state: str) -> int:
    return sum(result.state == state for result in results)


def table(head: str, groups: list[tuple[str, list[Result]]], results: list[Result]) -> str:
    rows = [f"<tr><th>{head}</th>" + "".join(f"<th>{state}</th>" for state in STATES) + "</tr>"]
    for name, found in [*((name, found) for name, found in groups if found), ("all", results)]:
        cells = ""
        for state in STATES:
            count = count_of(found, state)
            kind = ' class="failed"' if state == FAILED and count else ' class="none"' if not count else ""
            cells += f"<td{kind}>{count}</td>"
        rows.append(f"<tr><td>{escape(name)}</td>{cells}</tr>")
    return "<table>" + "".join(rows) + "</table>"


def figures(result: Result, suite: str) -> str:
    if not result.got:
        return ""
    parts = []
    for name, data in keeping.pictures(result.test, suite, result.got).items():
        source = "data:image/png;base64," + base64.b64encode(data).decode()
        caption = escape(name.removesuffix(".png").replace("-", " "))
        if name == "waves.png":
            caption = "waves: wanted above in blue, got below in red, grey where they differ"
        parts.append(f'<figure><img alt="{caption}" src="{source}"><figcaption>{caption}</figcaption></figure>')
    return "".join(parts)


def failure(result: Result, suite: str) -> str:
    test = result.test
    said = escape("\n".join(result.said))
    errors = result.got.err[-2000:].decode(errors="backslashreplace").strip() if result.got else ""
    more = f"<p>Its error output:</p><pre>{escape(errors)}</pre>" if errors else ""
    head = f"<summary><b>{escape(test.name)}</b>: {escape(test.shows)}</summary>"
    return f"<details>{head}<pre>{said}</pre>{figures(result, suite)}{more}<p>Reference: {escape(test.reference)}</p></details>"


def bar(results: list[Result]) -> str:
    total = max(1, len(results))
    colours = {PASSED: "#2e7d32", FAILED: "#b00020", NOT_RUN: "#bbb"}
    spans = "".join(
        f'<span style="width:{100 * count_of(results, state) / total:.2f}%;background:{colours[state]}"></span>' for state in STATES
    )
    return f'<div class="bar">{spans}</div>'


def page(results: list[Result], command: str, suite: str) -> str:
    """The page of a run."""
    levels = [(level, [result for result in results if result.test.level == level]) for level in tests.LEVELS]
    devices = [(device, [result for result in results if device in result.test.devices]) for device in tests.DEVICES]
    failed = [result for result in results if result.state == FAILED]
    reasons = Counter(result.said[0] for result in results if result.state == NOT_RUN and result.said)
    seconds = sum(result.seconds for result in results)
    parts = [
        '<!doctype html><html lang="en"><head><meta charset="utf-8"><meta name="viewport" content="width=device-width">',
        f"<title>Conformance: {count_of(results, PASSED)} of {len(results)}</title><style>{STYLE}</style></head><body>",
        f"<h1>Conformance suite {tests.version()}: {count_of(results, PASSED)} of {len(results)} passed</h1>",
        f"<p><code>{escape(command)}</code></p>{bar(results)}",
        f"<p>{count_of(results, FAILED)} failed, {count_of(results, NOT_RUN)} were not run; the tests took {seconds:.1f} s.</p>",
        table("level", levels, results) + (table("device", devices, results) if any(found for _, found in devices) else ""),
    ]
    if failed:
        parts.append("<h2>Failed</h2>" + "".join(failure(result, suite) for result in failed))
    if reasons:
        rows = "".join(f"<li>{count}: {escape(reason)}</li>" for reason, count in reasons.most_common())
        parts.append(f"<h2>Not run</h2><ul>{rows}</ul>")
    return "\n".join([*parts, "</body></html>"]) + "\n"


def badge(results: list[Result]) -> str:
    """An SVG with how many of the tests that were run passed."""
    passed, run = count_of(results, PASSED), count_of(results, PASSED) + count_of(results, FAILED)
    left, right = f"uxn conformance {tests.version()}", f"{passed} of {run}"
    colour = "#2e7d32" if run and passed == run else "#a06a00" if run and passed >= 0.9 * run else "#b00020"
    a, b = 7 * len(left) + 12, 8 * len(right) + 12
    texts = "".join(
        f'<text x="{x}" y="14" fill="#fff" text-anchor="middle" font-family="Verdana,sans-serif" font-size="11">{text}</text>'
        for x, text in ((a // 2, left), (a + b // 2, right))
    )
    return (
        f'<svg xmlns="http://www.w3.org/2000/svg" width="{a + b}" height="20" role="img" aria-label="{left}: {right}">'
        f'<rect width="{a}" height="20" fill="#555"/><rect x="{a}" width="{b}" height="20" fill="{colour}"/>{texts}</svg>\n'
    )
