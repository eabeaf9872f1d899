"""Random sources for assemblers, of one file or of several: mostly without a fault, in all forms that a word can have."""
from __future__ import annotations

import random
from dataclasses import dataclass, field, replace

from conform.instructions import NAMES, RUNES, SIGNS, name_of

LABELS = ("main", "draw", "on-key", "a-b", "loop")
SUBLABELS = ("next", "end")
# Labels of more than one part, with where a sublabel after them goes.
DEEP = ("main/inner", "draw/a/b", "loop//c", "a-b/", "x/y/z/w")
BLANKS = "\n\n\n    \t\t\r\v\f\x01\x1f\x00"
# Relative bytes that just reach, and that just do not.
FARTHEST = (
    "@edge $7e _edge", "@edge $7d ,edge", "@edge $7f _edge", "@edge $7e ,edge", "_edge $80 @edge", ",edge $80 @edge", "_edge $81 @edge",
    ",edge $7f @edge", ",{ $7f }", ",{ $80 }",
)
COMMENTS = (
    "( a comment )", "( one ( in ) one )", "( a )x b )", "( a x) b )", "( (x y )", "(x y )", "( (( y )", "( )) )", "( ( ) ( ) )", "( @a %b { ~c.tal )", "() )",
)
TEXTS = ('"a', '"text', '"(', '"#12', '"@x', '"', '""', '"a"b', '"{', '"}', '"~b', '"%m', '")', '"\xe9\xff', '"' + "long" * 40)
FAULTS = (
    ";nothing", "nothing", "@main", "@ADD", "@12", "#1", "#12345", "|x", "$", "@", ";", "&", "%twice { INC }", "}", "{", "( open", "|0000 01", ",far",
    "$9000 $9000 01", "%m { %n { } }", "%bad", "@draw &next &next", "#xy", "|0100 01", "@LIT2r", "@abcd", "%ab { }", "#AB", "$12345", "|12345", "[x", "}x",
    "ADD22", "BRK2", "JCI2", "12345", "abc", ";&nothing", "/nothing", ";/", "!", "~", "@main/next", "|ffff 1234", "|ffff INC @past", "(open", "?{x", "add",
)
PROFILE_FAULTS = (")", ")x", "x" * 256, "~nothing.tal", "~../b.tal", "~b.tal/c", "~/b.tal")
GOOD_NAMES = ("ADD22", "BRK2", "abc", "AB", "f", "12345", "Add", "x|", "x)", "a{", "n~", "z\xe9", "q\x7f", "n" * 60, "LIT3")


@dataclass
class Source:
    """The pieces of a source and of the files that it includes; a piece ends with its blanks."""

    pieces: list[str]
    files: dict[str, list[str]] = field(default_factory=dict)
    place: str = "a.tal"

    def all_files(self) -> dict[str, bytes]:
        folder = self.place.rpartition("/")[0]
        found = {f"{folder}/{path}" if folder else path: "".join(pieces) for path, pieces in self.files.items()}
        return {path: text.encode("latin-1") for path, text in {**found, self.place: "".join(self.pieces)}.items()}

    def with_pieces(self, pieces: list[str]) -> Source:
        return replace(self, pieces=pieces)

    def with_file(self, path: str, pieces: list[str]) -> Source:
        return replace(self, files={**self.files, path: pieces})


def reference(rng: random.Random) -> str:
    name = rng.choice((*LABELS, *DEEP, *(f"{label}/{sub}" for label in LABELS[:2] for sub in SUBLABELS), "&next", "/next", "main/tail"))
    rune = rng.choice(RUNES) if rng.random() < 0.7 else rng.choice(";=!?")
    return rune + name if rng.random() < 0.85 or name.startswith("&") else name


def opcode(rng: random.Random) -> str:
    code = rng.choice([code for code in range(256) if code % 32])
    modes = list(name_of(code)[3:])
    rng.shuffle(modes)
    return NAMES[code % 32] + "".join(modes) if rng.random() < 0.9 else rng.choice(("BRK", "LIT", "LIT2", "LITr", "LIT2r", "LIT2k"))


def number(rng: random.Random) -> str:
    digits = f"{rng.choice((rng.randrange(65536), 0, 0xffff, 0xff)):04x}"
    return rng.choice(("#" + digits, "#" + digits[:2], digits, digits[:2], f"${rng.randrange(20):x}", f"${rng.randrange(20):04x}", "$0"))


def group(rng: random.Random) -> str:
    """Words with braces or brackets."""
    inner = " ".join(rng.choice((opcode, number))(rng) for _ in range(rng.randrange(3)))
    forms = (
        "[ 12 ]", "[", "]", f"{{ {inner} }}", f"?{{ {inner} }}", f"!{{ {inner} ?{{ {opcode(rng)} }} }}", f";{{ {inner} }}", "={ 00 }", f",{{ {inner} }}",
        ".{ 01 }", "_{ 02 }", "-{ 03 }",
    )
    return rng.choice(forms)


def own_label(rng: random.Random) -> str:
    """A label that no other piece names, with a reference to it."""
    name = f"{rng.choice(GOOD_NAMES)}-{rng.randrange(10**6)}" if rng.random() < 0.7 else f"only-{rng.randrange(10**6)}{rng.choice(SIGNS)}"
    return rng.choice((f"@{name} ;{name}", f";{name} @{name}", f"@{name} &a {name}/a /a", f"@{name}/b &c ;{name.split('/')[0]}/c"))


def word(rng: random.Random) -> str:
    kinds = (opcode, opcode, opcode, reference, reference, number, number, group)
    drawn = rng.random()
    if drawn < 0.8:
        return rng.choice(kinds)(rng)
    if drawn < 0.9:
        return rng.choice((*COMMENTS, *TEXTS))
    return own_label(rng) if drawn < 0.95 else rng.choice(("twice", "deep", "far-away"))


def blank(rng: random.Random) -> str:
    return rng.choice(BLANKS) if rng.random() < 0.95 else "".join(rng.choice(BLANKS) for _ in range(3))


def label_pieces(rng: random.Random, name: str, is_deep: bool) -> list[str]:
    """A label with sublabels and words."""
    pieces = ["@" + name]
    pieces += [] if is_deep and name.split("/")[0] in LABELS else [f"&{sub}" for sub in SUBLABELS]
    if rng.random() < 0.3:
        sign = rng.choice(SIGNS)
        sub = f"{sign}sub-{rng.randrange(10**6)}"
        pieces += [f"&{sub} ;&{sub}"] if sign not in "({" else [f"&sub/{rng.randrange(10**6)}"]
    return pieces + [word(rng) for _ in range(rng.randrange(2, 9))]


def ends(rng: random.Random) -> list[str]:
    """Pieces near the limits of distances and of memory."""
    pieces = []
    if rng.random() < 0.4:
        pieces.append(rng.choice(("$78 ,loop", "_main", "$70 ,loop/next", ",Console", *FARTHEST)))
    if rng.random() < 0.3:
        pieces += [f"|{rng.choice((rng.randrange(0x800, 0xffff), 0xfffe, 0xffff)):04x}", rng.choice((word(rng), "01", "1234", "@last"))]
    return pieces


def split(rng: random.Random, pieces: list[str], files: dict[str, list[str]]) -> list[str]:
    """The pieces with a run of them in a file of its own."""
    start = rng.randrange(4, max(5, len(pieces) - 3))
    end = min(len(pieces), start + rng.randrange(1, 8))
    path = rng.choice(("b.tal", "lib/c.tal", "lib/d", "e-1.x.tal"))
    if path in files:
        return pieces
    files[path] = pieces[start:end]
    return [*pieces[:start], "~" + path, *pieces[end:]]


def random_source(rng: random.Random, profile: bool = False) -> Source:
    """A source, now and then with files, a fault, or a place in another folder."""
    pieces = ["%twice { DUP ADD }", "%deep { twice #01 ?{ twice } }", "%far-away\t{\n;main ( } ) }", "|10 @Console &vector $2 &write $1", "|0100"]
    for label in LABELS:
        pieces += label_pieces(rng, label, False)
    for label in DEEP:
        pieces += label_pieces(rng, label, True)
    pieces += ["@main/more", "&tail", ";main/tail", *ends(rng)]
    if rng.random() < 0.25:
        faults = (*FAULTS, *PROFILE_FAULTS) if profile else FAULTS
        fault = rng.choice(("@" + rng.choice(SIGNS) + "x", "%" + rng.choice(SIGNS) + "x { }", rng.choice(faults), rng.choice(faults)))
        pieces.insert(rng.randrange(4, len(pieces)), fault)
    files: dict[str, list[str]] = {}
    for _ in range(rng.choice((0, 0, 1, 2))):
        pieces = split(rng, pieces, files)
    found = Source([piece + blank(rng) for piece in pieces], {path: [piece + blank(rng) for piece in part] for path, part in files.items()})
    if profile and files and rng.random() < 0.5:
        found.place = "src/a.tal"
    return found
