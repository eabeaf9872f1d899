"""An assembler by the text of docs/uxntal.md, one phase after the other, for sources without includes: what the program's one is
compared with. It is slow, and knows nothing of how the program goes about it."""
import re
import typing

# facts: words
RUNES = b',_.-;=!?'
RESERVED = b'|$#@&,_.-;=!?"%~()[]{}/'
OPCODES = (
    b"LIT", b"INC", b"POP", b"NIP", b"SWP", b"ROT", b"DUP", b"OVR", b"EQU", b"NEQ", b"GTH",
    b"LTH", b"JMP", b"JCN", b"JSR", b"STH", b"LDZ", b"STZ", b"LDR", b"STR", b"LDA", b"STA",
    b"DEI", b"DEO", b"ADD", b"SUB", b"MUL", b"DIV", b"AND", b"ORA", b"EOR", b"SFT",
)
# facts end
SIZES = dict(zip(RUNES, (2, 1, 2, 1, 3, 2, 3, 3)))
CALL = 0x60
FIRST = {ord(","): 0x80, ord("."): 0x80, ord(";"): 0xa0, ord("!"): 0x40, ord("?"): 0x20}
BARE = {b"BRK": 0, b"JCI": 0x20, b"JMI": 0x40, b"JSI": 0x60}
MODES = {ord("2"): 0x20, ord("r"): 0x40, ord("k"): 0x80}
KINDS = ("OpenComment LongWord StrayParen BadNumber BadName NoName IncludeHere LongSource MacroTwice MacroBody MacroDeep ManyWords StrayBrace "
         "OpenBrace LabelTwice ZeroPage Outside Rewind UnknownName TooFar").split()
DEEPEST = 32
MOST = 1_000_000


class Fault(Exception):
    """The kinds that a word has, and the word of the source."""

    def __init__(self, kinds, word):
        super().__init__(min(kinds, key=KINDS.index), word)

    def line(self):
        kind, word = self.args
        return f"source {word.line}:{word.column}: {kind}: ".encode() + word.text + b"\n"


class Word(typing.NamedTuple):
    text: bytes
    line: int
    column: int


def check(kinds, word):
    if kinds:
        raise Fault(kinds, word)


def tokens(source):
    line, start = 1, 0
    for found in re.finditer(rb"\n|[^\0- ]+", source):
        if found[0] == b"\n":
            line, start = line + 1, found.end()
        else:
            yield Word(found[0], line, found.start() - start + 1)


def words_of(source):
    """The words of a source, without its comments."""
    words, depth, opener = [], 0, None
    for token in tokens(source):
        if depth:
            depth += (token.text == b"(") - (token.text == b")")
        elif token.text.startswith(b"("):
            depth, opener = 1, token
        else:
            check(["LongWord"] * (len(token.text) > 255) + ["StrayParen"] * token.text.startswith(b")"), token)
            words.append(token)
    check(["OpenComment"] * (depth > 0), opener)
    return words


def opcode(text):
    """The byte of an opcode with its modes, or None."""
    name, modes = text[:3], text[3:]
    if text in BARE:
        return BARE[text]
    if name not in OPCODES or set(modes) - set(MODES) or len(set(modes)) < len(modes):
        return None
    return OPCODES.index(name) | sum(MODES[mode] for mode in modes) | 0x80 * (name == b"LIT")


def digits(text, least, most):
    return least <= len(text) <= most and re.fullmatch(rb"[0-9a-f]+", text) is not None


def name_faults(name):
    if not name:
        return ["NoName"]
    is_bad = name[0] in RESERVED or opcode(name) is not None or digits(name, 2, 2) or digits(name, 4, 4)
    return ["BadName"] * is_bad


def opens(text):
    return text == b"{" or len(text) == 2 and text[0] in RUNES and text[1:] == b"{"


def body_end(words, at):
    """Where the body ends that begins at a `{`, or None."""
    depth = 0
    for end in range(at, len(words)):
        depth += opens(words[end].text) - (words[end].text == b"}")
        if depth == 0:
            return end
    return None


def expanded(words):
    """The words with their origins: those of macros' bodies in the place of their uses."""
    macros, given, at, count = {}, [], 0, 0

    def visit(text, origin, depth):
        nonlocal count
        is_use = text in macros
        check(["MacroDeep"] * (is_use and depth > DEEPEST) or ["ManyWords"] * (count == MOST), origin)
        count += 1
        if not is_use:
            given.append((text, origin))
            return
        for inner in macros[text]:
            visit(inner, origin, depth + 1)

    while at < len(words):
        word = words[at]
        if not word.text.startswith(b"%"):
            visit(word.text, word, 1)
            at += 1
            continue
        name = word.text[1:]
        end = body_end(words, at + 1) if at + 1 < len(words) and words[at + 1].text == b"{" else None
        check(name_faults(name) + ["MacroTwice"] * (name in macros) + ["MacroBody"] * (end is None), word)
        for inner in words[at + 2:end]:
            check(["MacroBody"] * inner.text.startswith(b"%"), inner)
        macros[name] = [inner.text for inner in words[at + 2:end]]
        at = end + 1
    return given


def form_faults(text):
    first, rest = text[0], text[1:]
    if first in b"|$":
        return ["BadNumber"] * (not digits(rest, 1, 4))
    if first in b"#":
        return ["BadNumber"] * (not (digits(rest, 2, 2) or digits(rest, 4, 4)))
    if first in b"@":
        return name_faults(rest)
    if first in b"&/":
        return ["NoName"] * (not rest)
    if first in b"~":
        return ["IncludeHere" if rest else "NoName"]
    if first in b"{}[]":
        return ["BadName"] * (rest != b"")
    if first in RUNES:
        return ["NoName"] * (rest in (b"", b"&", b"/")) + ["BadName"] * (rest.startswith(b"{") and rest != b"{")
    return []


def matches(given):
    """The index of the brace that matches each opener; the first faulty form or brace."""
    closers, open_ones = {}, []
    for at, (text, _) in enumerate(given):
        if opens(text):
            open_ones.append(at)
        elif text == b"}" and open_ones:
            closers[open_ones.pop()] = at
    matched = set(closers.values())
    for at, (text, origin) in enumerate(given):
        check(form_faults(text) + ["StrayBrace"] * (text == b"}" and at not in matched)
              + ["OpenBrace"] * (opens(text) and at not in closers), origin)
    return closers


def is_reference(text):
    if text[0] in b"|$#\"@&}[]":
        return False
    return text[0] in RUNES or not (digits(text, 2, 2) or digits(text, 4, 4) or opcode(text) is not None)


def size(text):
    if text[0] in b"|$@&}[]":
        return 0
    if text[0] in b"#":
        return 2 if len(text) == 3 else 3
    if text[0] in b"\"":
        return len(text) - 1
    if is_reference(text):
        return SIZES.get(text[0], 3)
    return 2 if digits(text, 4, 4) else 1


def full_name(scope, name):
    return scope + b"/" + name[1:] if name[:1] in (b"&", b"/") else name


def placed(given):
    """The address and the scope of each word, and the labels."""
    places, labels, address, end, scope = [], {}, 0x100, 0, b"RESET"
    for text, origin in given:
        much, kinds = size(text), []
        name = full_name(scope, text) if text[0] in b"&" else text[1:]
        is_label = text[0] in b"@&"
        if is_label and name in labels:
            kinds.append("LabelTwice")
        if much and address < 0x100:
            kinds.append("ZeroPage")
        if (much and address + much > 0x10000) or (is_label or text == b"}") and address > 0xffff:
            kinds.append("Outside")
        if much and address < end:
            kinds.append("Rewind")
        check(kinds, origin)
        places.append((address, scope))
        if is_label:
            labels[name] = address
        if text[0] in b"@":
            scope = name.split(b"/")[0]
        end = max(end, address + much) if much else end
        number = int(text[1:], 16) if text[0] in b"|$" else 0
        address = number if text[0] in b"|" else address + much + number
    return places, labels


def near(distance):
    return -128 <= distance <= 127


def encoded(text, address, target):
    """The bytes of a word, and whether it reaches its target."""
    rune, rest = text[0], text[1:]
    if text[0] in b"|$@&}[]":
        return b"", True
    if rune in b"#":
        return (b"\x80" if len(rest) == 2 else b"\xa0") + bytes.fromhex(rest.decode()), True
    if rune in b"\"":
        return rest, True
    if not is_reference(text):
        return bytes.fromhex(text.decode()) if opcode(text) is None else bytes([opcode(text)]), True
    if rune in b",_.-":
        opening = bytes([FIRST[rune]]) if rune in FIRST else b""
        if rune in b".-":
            return opening + bytes([target % 256]), True
        distance = target - (address + len(opening)) - 2
        return opening + bytes([distance % 256]), near(distance)
    if rune in b";=":
        return (b"\xa0" if rune in b";" else b"") + target.to_bytes(2, "big"), True
    return bytes([FIRST.get(rune, CALL) if rune in RUNES else CALL]) + ((target - address - 3) % 0x10000).to_bytes(2, "big"), True


def assembled(source):
    """The ROM of a source; raises its first fault."""
    given = expanded(words_of(source))
    closers = matches(given)
    places, labels = placed(given)
    memory = bytearray(0x10000)
    for at, (text, origin) in enumerate(given):
        address, scope = places[at]
        target = 0
        if is_reference(text):
            name = text[1:] if text[0] in RUNES else text
            target = places[closers[at]][0] if opens(text) else labels.get(full_name(scope, name))
            check(["UnknownName"] * (target is None), origin)
        data, reaches = encoded(text, address, target)
        check(["TooFar"] * (not reaches), origin)
        memory[address:address + len(data)] = data
    return bytes(memory[0x100:]).rstrip(b"\0")
