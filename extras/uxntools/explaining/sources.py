"""The faults of a source: why a word is refused, and what to write in its place."""
from __future__ import annotations

import os
import re
from collections.abc import Callable, Sequence
from difflib import get_close_matches

from uxntools import facts, includes, opcodes, source
from uxntools.explaining import Reason, quoted
from uxntools.facts import LIMITS

MARK = "\ufeff"
HEX = re.compile(r"[0-9a-fA-F]+")


def _is_opcode(word: str) -> bool:
    return opcodes.instruction(word) is not None


def _is_number(word: str) -> bool:
    return re.fullmatch(r"[0-9a-f]{2}|[0-9a-f]{4}", word) is not None


def _bad_number(word: str, names: Sequence[str]) -> Reason:
    rune, digits = word[0], word[1:]
    wanted = "two or four" if rune == "#" else "one to four"
    kind = {"#": "a literal", "|": "a pad", "$": "a skip"}.get(rune, "a number")
    if HEX.fullmatch(digits) and digits != digits.lower():
        return Reason(
            f"{quoted(digits)} has capitals: digits are lowercase, {wanted} behind `{rune}`.", rune + digits.lower()
        )
    if HEX.fullmatch(digits):
        padded = digits.zfill(2 if len(digits) < 2 else 4)
        write = (
            f"{rune}{padded}"
            if rune == "#" and len(digits) < 4
            else f"{rune}{digits[-4:]}"
            if digits[:-4].strip("0") == ""
            else ""
        )
        return Reason(f"{kind.capitalize()} has {wanted} digits behind `{rune}`; here are {len(digits)}.", write)
    if not digits:
        return Reason(f"There are no digits behind `{rune}`.", f"{rune}00" if rune == "#" else f"{rune}1")
    why = f"{quoted(digits)} is no number: {kind} takes {wanted} hexadecimal digits"
    if rune in "|$":
        return Reason(why + ", and no label.", f"the number itself, as {rune}0100")
    return Reason(
        why + ".",
        f";{digits} for the address of a label, .{digits} for one in the zero page"
        if digits in names
        else f'LIT "{digits[:1]} to push a character',
    )


def _bad_name(word: str, names: Sequence[str]) -> Reason:
    if word[0] in "[]{}":
        return Reason(
            f"A bracket or a brace stands alone: blanks part it from {quoted(word[1:])}.",
            f"{word[0]} {_spread(word[1:])}",
        )
    if len(word) > 2 and word[1] == "{":
        return Reason(
            f"{quoted(word[:2])} stands alone: a blank parts it from what follows.", f"{word[:2]} {_spread(word[2:])}"
        )
    name = word[1:]
    if _is_number(name):
        return Reason(
            f"{quoted(name)} is {'two' if len(name) == 2 else 'four'} lowercase hexadecimal digits, which is a "
            f"number and can be no name.",
            f"another name, as {word[0]}{name.capitalize() if name[0].isalpha() else 'n' + name} or {word}-",
        )
    if _is_opcode(name):
        return Reason(f"{quoted(name)} is an opcode and can be no name.", f"another name, as {word[0]}{name.lower()}")
    if name[:1] in facts.RESERVED:
        return Reason(
            f"A name does not begin with {quoted(name[:1])}, which is a rune.",
            f"{word[0]}{name.lstrip(facts.RESERVED) or 'name'}",
        )
    return Reason(f"{quoted(name)} is no name.", "a name that is no number, no opcode and does not begin with a rune")


def _spread(text: str) -> str:
    """A text with blanks around its brackets and braces."""
    return " ".join(re.sub(r"([\[\]{}])", r" \1 ", text).split())


def _unknown_name(word: str, names: Sequence[str]) -> Reason:
    for rule in (_mark, _of_other_assemblers, _wrong_case, _near_number, _later_macro, _near_opcode):
        found = rule(word, names)
        if found:
            return found
    return _unknown_label(word, names)


def _mark(word: str, _: Sequence[str]) -> Reason | None:
    if not word.startswith(MARK):
        return None
    return Reason(
        "The file begins with a byte-order mark, which belongs to its first word.",
        r"the file without it: sed -i '1s/^\xef\xbb\xbf//' FILE",
    )


def _of_other_assemblers(word: str, names: Sequence[str]) -> Reason | None:
    if word.startswith("'") and len(word) > 1:
        return Reason("There is no rune `'`.", f'"{word[1:]} for the byte; LIT "{word[1:]} to push it')
    if word.startswith(":") and len(word) > 1:
        return Reason("There is no rune `:`.", f"={word[1:]} for the address, two bytes")
    if word.startswith(("^", "*", "<", ">")) and len(word) > 1 and word[1:] in names:
        return Reason(
            f"There is no rune {quoted(word[0])}.", f";{word[1:]} to push the address, ={word[1:]} for its bytes"
        )
    return None


def _wrong_case(word: str, names: Sequence[str]) -> Reason | None:
    modes = word[3:].lower()
    proper = word[:3].upper() + modes
    if word != proper and _is_opcode(proper):
        return Reason("Opcodes are three capitals, their modes `2`, `k` and `r` are lowercase.", proper)
    if re.fullmatch(r"[A-Z]{3}[2kr]+", word) and _is_opcode(word[:3]):
        return Reason(
            f"{quoted(word[:3])} takes each of the modes `2`, `k` and `r` at most once; BRK, JCI, JMI and JSI "
            f"take none.",
            word[:3] + "".join(dict.fromkeys(word[3:])),
        )
    if HEX.fullmatch(word) and len(word) in (2, 4) and word != word.lower():
        return Reason(
            f"Digits are lowercase: {quoted(word)} is the call of a subroutine of that name, and there is none.",
            word.lower(),
        )
    return None


def _near_number(word: str, _: Sequence[str]) -> Reason | None:
    if re.fullmatch(r"[0-9][0-9a-f]*", word) and len(word) not in (2, 4):
        return Reason(
            f"A raw number has two or four digits; here are {len(word)}.",
            f"{word.zfill(2 if len(word) < 2 else 4)}" if len(word) < 4 else "",
        )
    return None


def _later_macro(word: str, names: Sequence[str]) -> Reason | None:
    if "%" + word in names:
        return Reason(
            f"The macro {quoted(word)} is defined behind this word, and is known only from its head on.",
            f"the head %{word} before it",
        )
    return None


def _near_opcode(word: str, _: Sequence[str]) -> Reason | None:
    """A word of capitals that is an opcode with its letters in another order, or with one letter changed."""
    found = re.fullmatch(r"([A-Z]{2,4})([2kr]*)", word)
    if not found:
        return None
    letters, modes = found[1], found[2]
    swapped = [name for name in opcodes.NAMES if sorted(name) == sorted(letters)]
    near = swapped or [name for name in opcodes.NAMES if _is_one_change(letters, name)]
    if not near:
        return None
    return Reason(f"{quoted(word)} is no opcode, and nothing of that name is defined.", ", ".join(name + modes for name in near[:4]))


def _is_one_change(word: str, name: str) -> bool:
    """Whether a letter that is changed, added or taken away makes one word of another."""
    if len(word) == len(name):
        return sum(one != other for one, other in zip(word, name)) == 1
    longer, shorter = sorted((word, name), key=len, reverse=True)
    return len(longer) == len(shorter) + 1 and any(longer[:at] + longer[at + 1 :] == shorter for at in range(len(longer)))


def _unknown_label(word: str, names: Sequence[str]) -> Reason:
    rune = word[0] if word[0] in (*facts.RUNES, "/") else ""
    name = word[len(rune) :]
    near = get_close_matches(name.lstrip("&/"), [it for it in names if not it.startswith("%")], 1, 0.6)
    why = f"Nothing of the name {quoted(name)} is defined, in the source or in what it includes."
    if name.startswith(("&", "/")) or rune == "/":
        why = (
            f"{quoted(word)} means a sublabel {quoted('&' + name.lstrip('&/'))} of the last label before it, "
            f"and that has none."
        )
    elif not rune:
        why = f"{quoted(word)} is the call of a subroutine, or a macro, and nothing of that name is defined."
    return Reason(why, f"{rune}{near[0]}" if near else f"@{name.lstrip('&/')} where it is to stand")


def _open_comment(word: str, _: Sequence[str]) -> Reason:
    inner = word.strip("()")
    if inner:
        return Reason(
            "This comment is not closed: only a `)` that stands alone closes one, and within it each `(` that "
            "stands alone opens another.",
            f"( {inner} )",
        )
    return Reason(
        "This comment is not closed: a `)` that stands alone is missing, one for each `(` that stands alone in it.",
        "( .. )",
    )


def _fixed(why: str, write: str = "") -> Callable[[str, Sequence[str]], Reason]:
    return lambda word, names: Reason(why, write)


def _macro_body(word: str, _: Sequence[str]) -> Reason:
    if word.startswith("%") and "{" in word:
        return Reason(
            "A blank stands between the name of a macro and its `{`.",
            word.replace("{", " { ").strip() + (" .. }" if "}" not in word else ""),
        )
    if word.startswith("%"):
        return Reason(
            "Behind the name of a macro stands a body `{ .. }`, whose `}` is not here, or in which no macro "
            "may be defined.",
            f"{word} {{ .. }}",
        )
    return Reason("A body has no `%`.")


def _twice(word: str, _: Sequence[str]) -> Reason:
    if word.startswith("&"):
        why = f"The sublabel {quoted(word)} is defined a second time behind one label."
        return Reason(why, "another name for one of the two, or a label before the second")
    return Reason(f"The label {quoted(word)} is defined a second time.", "another name for one of the two")


def _include_missing(word: str, _: Sequence[str]) -> Reason:
    return Reason(
        f"There is no file {quoted(word[1:])}: a path begins at the folder of the source that the call names, "
        f"in whatever file it stands."
    )


REASONS: dict[str, Callable[[str, Sequence[str]], Reason]] = {
    "BadNumber": _bad_number,
    "BadName": _bad_name,
    "UnknownName": _unknown_name,
    "OpenComment": _open_comment,
    "MacroBody": _macro_body,
    "LabelTwice": _twice,
    "IncludeMissing": _include_missing,
    "LongSource": _fixed(f"A source has at most {LIMITS.text:,} bytes."),
    "LongWord": _fixed(f"A word has at most {LIMITS.word} bytes.", 'a text in parts, each with its own `"`'),
    "StrayParen": lambda word, _: Reason(
        "This `)` closes no comment: a comment begins with a word that begins with `(`, and a `)` stands alone.",
        f"{word[1:]}" if len(word) > 1 else "nothing, or a `(` before",
    ),
    "NoName": lambda word, _: Reason(f"Behind {quoted(word)} there is no name.", f"{word}name"),
    "MacroTwice": lambda word, _: Reason(
        f"A macro {quoted(word[1:])} is defined already.", "one of the two, or another name"
    ),
    "MacroDeep": _fixed(
        f"The use of this macro goes more than {LIMITS.macro_depth} deep: it uses itself, or others that use it.",
        "a label and a call, `@name .. JMP2r`, for what repeats itself",
    ),
    "ManyWords": _fixed(
        f"With this word the source has more than {LIMITS.words:,} words, macros replaced: one doubles itself again and again."
    ),
    "StrayBrace": _fixed(
        "This `}` closes nothing: there is no `{`, `?{` or `!{` before it that is open.",
        "nothing, or the `{` that is missing",
    ),
    "OpenBrace": _fixed("This brace is not closed.", "a `}` that stands alone, behind what belongs to it"),
    "ZeroPage": _fixed(
        "Bytes stand below 0100: the zero page has labels and skips, no bytes.",
        "|0100 before the first bytes; `$1` reserves a byte of the zero page",
    ),
    "Outside": _fixed("It stands past ffff, where memory ends."),
    "Rewind": _fixed(
        "A pad leads back to where bytes stand already: no two words cover one address.",
        "one |0100, and what follows behind it",
    ),
    "TooFar": lambda word, _: Reason(
        f"{quoted(word)} is more than 128 bytes away: a relative byte reaches -128 to 127.",
        f";{word.lstrip(',_')} with JMP2, JCN2, JSR2, LDA or STA; or !{word.lstrip(',_')}, ?{word.lstrip(',_')}",
    ),
    "IncludePath": lambda word, _: Reason(
        _path_why(word[1:]), "the file in the source's folder or beneath it, as ~lib/print.tal"
    ),
    "IncludeDeep": _fixed(f"Includes go at most {LIMITS.include_depth} deep: a file includes itself, or others that include it."),
    "IncludeMany": _fixed(f"A source follows at most {LIMITS.included_files} include words."),
    "IncludeLong": _fixed(f"The included file has more than {LIMITS.text:,} bytes."),
    "IncludeLongText": _fixed(f"With this word the source and what it includes have more than {LIMITS.text:,} bytes."),
    "IncludeHere": _fixed("An include word is not followed here."),
}


def _path_why(path: str) -> str:
    from uxntools.explaining.arguments import path_fault

    found = path_fault(path)
    return (
        f"{quoted(path)} is no path. {found.why}"
        if found
        else f"{quoted(path)} is no path behind the source's folder: with it there are more than 16 names or 255 bytes."
    )


def include_place(path: str, word: str, command: str) -> Reason | None:
    """Where the file of an include word lies, if it can be found: beneath the include root of the project, without the
    first folder of its path, or beneath the current folder."""
    top, name = os.path.dirname(path), word[1:]
    begin = includes.folder_of(path)
    if begin != top and os.path.isfile(os.path.join(begin, name)):
        why = f"{_include_missing(word, ()).why} Only the tools read include-from of {includes.SETTINGS}."
        return Reason(why, _call_of_tools(path, command))
    for wanted in (name.partition("/")[2], os.path.basename(name)):
        if wanted and os.path.isfile(os.path.join(top, wanted)):
            return Reason(_include_missing(word, ()).why, f"~{wanted}")
    if top and os.path.isfile(name):
        setting = f'{includes.SETTINGS} with the line {includes.KEY} = "."'
        return Reason(_include_missing(word, ()).why, f"{setting}, and {_call_of_tools(path, command)}")
    return None


def _call_of_tools(path: str, command: str) -> str:
    """The calls that do with a source of a project what a command does."""
    rom = f"{os.path.splitext(os.path.basename(path))[0]}.rom"
    made = f"uxn-check {path} --out {rom}"
    return made if command == "asm" else f"{made}, and uxn {command} {os.path.join(os.path.dirname(path), rom)} --rom"


def names_of(path: str) -> list[str]:
    """The names that a source and its includes define: labels, sublabels with their labels, and macros with a `%`."""
    found, scope = [], "RESET"
    try:
        words = [word.text.decode("latin-1") for word in source.flat_words(path)]
    except (OSError, RecursionError):
        return []
    for word in words:
        if word.startswith("@"):
            scope = word[1:].split("/")[0]
            found.append(word[1:])
        elif word.startswith("&"):
            found.append(f"{scope}/{word[1:]}")
        elif word.startswith("%"):
            found.append(word)
    return found


def reason(kind: str, word: str, names: Sequence[str] = ()) -> Reason | None:
    """Why a word is refused with this kind of fault; None of a kind that there is not."""
    rule = REASONS.get(kind)
    if rule is None:
        return None
    return rule(word or " ", names)
