"""What stands outside the crates, made of the facts: tables of pages, completions and the word lists of editors."""
from __future__ import annotations

import json
import re
from collections.abc import Callable, Iterable, Iterator, Sequence

from tables.gathering import Json

# What is after the name of an item that is taken, and of one that is pushed, by its width: the mode chooses that of most.
TAKEN_WIDTHS = {0: ":w", 1: ":byte", 2: ":short"}
PUSHED_WIDTHS = {0: "", 1: ":byte", 2: ":short"}
# The rows of a page for LIT and its modes.
ROWS_OF_LIT = (("`80`, `a0`", "LIT, LIT2", "{does}"), ("`c0`, `e0`", "LITr, LIT2r", "the same on the return stack"))


def table(head: Sequence[str], rows: Iterable[Sequence[str]]) -> str:
    lines = [" | ".join(cell.replace("|", "\\|") for cell in row) for row in (head, *rows)]
    lines.insert(1, "|".join("---" for _ in head))
    return "\n".join([f"| {lines[0]} |", f"|{lines[1]}|", *(f"| {line} |".replace("|  |", "| |") for line in lines[2:])])


def plain(text: str) -> str:
    """A text of a page without its links and code."""
    return re.sub(r"\[([^]]*)\]\([^)]*\)", r"\1", text).replace("`", "")


# ---- pages


def operations(facts: Json) -> str:
    rows = []
    for row in facts["operations"]:
        if row["takes"] and row["code"] < 0x20 or row["name"] == "INC":
            takes = " ".join(item["name"] + TAKEN_WIDTHS[item["width"]] for item in row["takes"])
            pushes = " ".join(item["name"] + PUSHED_WIDTHS[item["width"]] for item in row["pushes"])
            rows.append((f"`{row['code']:02x}`", row["name"], takes, pushes, row["does"]))
    return table(("code", "name", "takes", "pushes", "does"), rows)


def immediates(facts: Json) -> str:
    rows = {row["name"]: row for row in facts["operations"]}
    found = [(f"`{rows[name]['code']:02x}`", name, rows[name]["does"]) for name in plain_names(facts)]
    found += [(code, name, does.format(does=rows["LIT"]["does"])) for code, name, does in ROWS_OF_LIT]
    return table(("byte", "name", "does"), found)


def ports(device: str) -> Callable[[Json], str]:
    def render(facts: Json) -> str:
        found = next(row for row in facts["devices"] if row["name"] == device)
        rows = ((f"`{port['address']:02x}{'*' * (port['width'] == 2)}`", port["name"], port["means"]) for port in found["ports"])
        return table(("port", "name", "what it is"), rows)

    return render


def commands(facts: Json) -> str:
    rows = ((f"`{row['short_usage']}`", row["does"]) for row in facts["commands"])
    return table(("command", "what it does"), rows)


def options(facts: Json) -> str:
    rows = ((f"`--{row['name']} {row['value']}".rstrip() + "`", ", ".join(f"`{name}`" for name in row["of"]), row["is"])
            for row in facts["options"])
    return table(("option", "of", "what it is"), rows)


def statuses(facts: Json) -> str:
    rows = [("0 to 127", "the work is done", "none")]
    for row in facts["statuses"]:
        rows += [(str(row["number"]), when, f"`{row['line']}`" if row["line"] else "none") for when in row["when"]]
    return table(("status", "when", "line on the error output"), rows)


def limits(facts: Json) -> str:
    return table(("what", "limit", "past it"), facts["rows_of_limits"])


def script_lines(version: int) -> Callable[[Json], str]:
    def render(facts: Json) -> str:
        rows = [row for row in facts["script"] if row["version"] == version and "form" in row]
        return table(("line", "what happens", "events"), ((row["form"], row["does"], row["events"]) for row in rows))

    return render


def setup_lines(facts: Json) -> str:
    return table(("line", "what it says"), ((row["form"], row["does"]) for row in facts["setup"]))


def debugger_lines(facts: Json) -> str:
    return table(("command", "what it does", "what it logs"), ((row["form"], row["does"], row["logs"]) for row in facts["debugger"]))


def kinds(section: str) -> Callable[[Json], str]:
    def render(facts: Json) -> str:
        return table(("kind", "what is wrong"), ((f"`{kind}`", means) for kind, means in facts["kinds"][section].items()))

    return render


# ---- tests


def suite_words(facts: Json) -> str:
    """The instructions of the conformance suite."""
    rows = {row["code"]: row for row in facts["operations"] if 0 < row["code"] < 0x20}
    names = [row["name"] for row in facts["operations"] if row["name"] == "BRK"] + [rows[code]["name"] for code in sorted(rows)]
    signs = {0: "w", 1: "b", 2: "s"}
    widths = ["".join(signs[item["width"]] for item in rows[code]["takes"]) for code in sorted(rows)]
    return "\n".join([
        f"NAMES = {_python(names)}",
        "# The operands of each operation, the deepest first: w is a byte, or a short in short mode; b is a byte, s a short.",
        f"WIDTHS = {_python(widths)}",
        "# The runes of references, and the signs that begin no name.",
        f"RUNES = {''.join(row['sign'] for row in facts['runes'])!r}",
        f"SIGNS = {with_quote_inside(facts['reserved'])!r}",
    ])


def with_quote_inside(reserved: str) -> str:
    """The reserved signs in the order of the suite, whose tests have names by them: the quote is before the percent sign."""
    return reserved.replace('"', "").replace("%", '"%')


def limits_of_files(facts: Json) -> str:
    """The limits of files, for what is loaded first in each call of a tool."""
    of = facts["limits"]
    rows = (("MOST_INPUT", "TEXT_LIMIT"), ("MOST_ROM", "LARGEST_ROM"), ("MOST_SYMBOLS", "SYMBOLS_LIMIT"))
    return "\n".join(f"{name} = {of[limit]:_}" for name, limit in rows)


def phases_words(facts: Json) -> str:
    """What the assembler of the cases knows of words."""
    return "\n".join([
        f"RUNES = b{''.join(row['sign'] for row in facts['runes'])!r}",
        f"RESERVED = b{with_quote_inside(facts['reserved'])!r}",
        f"OPCODES = {_python([name.encode() for name in moded_names(facts)])}",
    ])


def _python(items: Sequence[str | bytes]) -> str:
    """A tuple, some ten items a line."""
    texts = [repr(item).replace("'", '"') for item in items]
    return "\n".join(["(", *(f"    {', '.join(texts[at : at + 11])}," for at in range(0, len(texts), 11)), ")"])


# ---- completions


def bash_words(facts: Json) -> str:
    lines = [f"_uxn_commands='{' '.join(row['name'] for row in facts['commands'])}'", "", "_uxn_options_of() {", "    case $1 in"]
    for row in facts["commands"]:
        if row["options"]:
            lines.append(f"    {row['name']}) echo '{' '.join('--' + name for name in row['options'])}' ;;")
    return "\n".join([*lines, "    esac", "}"])


def zsh_words(facts: Json) -> str:
    lines = [f"_uxn_commands=({' '.join(row['name'] for row in facts['commands'])})", "", "_uxn_of_command() {", "  case $1 in"]
    for row in facts["commands"]:
        files = "_files" if row["name"] != "gen" else ""
        words = ["'1:command:'", f"'2:{plain(row['is'])}:{files}'"]
        words += [_zsh_option(option) for name in row["options"] for option in facts["options"]
                  if option["name"] == name and row["name"] in option["of"]]
        lines.append(f"  {row['name']}) _arguments " + " \\\n    ".join(words) + " ;;")
    return "\n".join([*lines, "  esac", "}"])


def _zsh_option(row: Json) -> str:
    about = plain(row["is"]).replace("'", "'\\''")
    values = {"switch": "", "file": ":file:_files", "folder": ":folder:_files -/", "number": ":number:"}
    return f"'--{row['name']}[{about}]{values[row['kind']]}'"


# ---- editors


def plain_names(facts: Json) -> list[str]:
    """The instructions that take no modes."""
    return [row["name"] for row in facts["operations"] if not row["code"] & 0x1F and row["name"] != "LIT"]


def moded_names(facts: Json) -> list[str]:
    return [row["name"] for row in facts["operations"] if row["name"] not in plain_names(facts)]


def runes(facts: Json) -> str:
    """The runes of references for a set of a regular expression: `-` is the last."""
    return "".join(sorted((row["sign"] for row in facts["runes"]), key=lambda sign: (sign == "-", ",_.;=!?".find(sign))))


def vim_words(facts: Json) -> str:
    begin, end, signs = r"\%(^\|\s\)\@<=", r"\%(\s\|$\)\@=", runes(facts)
    lines = [
        rf"syntax match uxntalReference /{begin}[\/{signs}]\S\+/",
        rf"syntax match uxntalBrace /{begin}[{signs}]\=[{{}}[\]]{end}/",
        rf"syntax match uxntalOpcode /{begin}\%(" + r"\|".join(plain_names(facts)) + rf"\){end}/",
    ]
    names = moded_names(facts)
    for at in range(0, len(names), 8):
        lines.append(rf"syntax match uxntalOpcode /{begin}\%(" + r"\|".join(names[at : at + 8]) + rf"\)[2kr]*{end}/")
    return "\n".join(lines)


def vim_opener(facts: Json) -> str:
    return f"let s:opener = '^[{runes(facts)}]\\={{$'"


def emacs_words(facts: Json) -> str:
    def strings(names: list[str]) -> str:
        quoted = [f'"{name}"' for name in names]
        return "\n    ".join(" ".join(quoted[at : at + 12]) for at in range(0, len(quoted), 12))

    return "\n".join([
        f'(defconst uxntal-runes "{runes(facts)}"', '  "The runes of references, for a set of a regular expression.")', "",
        f"(defconst uxntal-plain-opcodes\n  '({strings(plain_names(facts))})", '  "The instructions that take no modes.")', "",
        f"(defconst uxntal-moded-opcodes\n  '({strings(moded_names(facts))})", '  "The instructions that take modes.")',
    ])


def vscode_patterns(facts: Json) -> dict[str, str]:
    """The regular expressions of the grammar, by their names."""
    signs = runes(facts)
    return {
        "braces": rf"(?<!\S)[{signs}]?[{{}}\[\]](?!\S)",
        "references": rf"(?<!\S)[/{signs}]\S+",
        "plain opcodes": rf"(?<!\S)({'|'.join(plain_names(facts))})(?!\S)",
        "moded opcodes": rf"(?<!\S)({'|'.join(moded_names(facts))})[2kr]*(?!\S)",
    }


def page_words(facts: Json) -> str:
    """The module of the page's editor."""
    meanings = {kind: plain(means) for section in ("source", "include", "script") for kind, means in facts["kinds"][section].items()}
    return "\n".join([
        "/** The words that the definitions have: written by tools/facts. */", "",
        "/** The instructions that take no modes. */", f"export const PLAIN_OPCODES = {_js(plain_names(facts))};", "",
        "/** The instructions that take modes. */", f"export const MODED_OPCODES = {_js(moded_names(facts))};", "",
        "/** The runes of references, for a set of a regular expression. */", f"export const RUNES = '{runes(facts)}';", "",
        "/** What each kind of fault of a source or a script means. */", "export const MEANINGS = {",
        *(f"  {kind}: {_js_text(means)}," for kind, means in meanings.items()), "};", "",
    ])


def _js(names: list[str]) -> str:
    """A list of a module, 16 names a line."""
    lines = ["  " + " ".join(f"'{name}'," for name in names[at : at + 16]) for at in range(0, len(names), 16)]
    return "\n".join(["[", *lines, "]"])


def _js_text(text: str) -> str:
    return json.dumps(text, ensure_ascii=False) if "'" in text else f"'{text}'"


def facts_file(facts: Json) -> str:
    """The file that the tools read: a line for each row."""
    return "\n".join(_lines_of(facts)) + "\n"


def _lines_of(facts: Json) -> Iterator[str]:
    yield "{"
    for at, (name, value) in enumerate(facts.items()):
        end = "," * (at + 1 < len(facts))
        rows = value if isinstance(value, list) else value.items() if isinstance(value, dict) else None
        if rows is None:
            yield f'"{name}": {_json(value)}{end}'
            continue
        opening, closing = ("[", "]") if isinstance(value, list) else ("{", "}")
        yield f'"{name}": {opening}'
        texts = [_json(row) if isinstance(value, list) else f"{_json(row[0])}: {_json(row[1])}" for row in rows]
        yield from (f"  {text}{',' * (place + 1 < len(texts))}" for place, text in enumerate(texts))
        yield f"{closing}{end}"
    yield "}"


def _json(value: object) -> str:
    return json.dumps(value, ensure_ascii=False)
