"""The tests of the language that tables give: each blank, each reserved sign, each form of a number, a name, a reference."""
from __future__ import annotations

import itertools
from collections.abc import Iterable, Iterator

from conform.drafts import Draft
from conform.instructions import IMMEDIATE, NAMES, RUNES, SIGNS, name_of
from conform.tests import Tree

SIGN_NAMES = dict(
    zip(
        SIGNS,
        "bar dollar hash at ampersand comma underscore dot minus semicolon equals exclamation question quote percent tilde "
        "open-parenthesis close-parenthesis open-bracket close-bracket open-brace close-brace slash".split(),
    )
)
# What rests on limits, which the references leave.
OF_PROFILE = ("text-of-254-bytes", "macros-300", "labels-1000", "lambda-deep")


def draft(
    name: str, shows: str, source: str | bytes, about: str = "Uxntal syntax", files: dict[str, str] | None = None
) -> Draft:
    data = source if isinstance(source, bytes) else source.encode("latin-1")
    tree: Tree | None = {path: text.encode("latin-1").hex() for path, text in files.items()} if files else None
    return Draft(f"assembler/{name}", shows, about, "assembler", data, files=tree)


def blanks() -> Iterator[Draft]:
    about = "Uxntal syntax: words"
    yield draft("blank-all", "each byte from 00 to 20 parts words", b"".join(b"INC" + bytes([byte]) for byte in range(33)), about)
    for byte in (0x00, 0x01, 0x08, 0x09, 0x0B, 0x0C, 0x0D, 0x1F):
        sign = bytes([byte])
        words = [b"%m", b"{", b"#12", b"}", b"(", b"x", b")", b"@a", b"m", b"?{", b"INC", b"}", b"&b", b";a/b", b'"text', b"[", b"80", b"]"]
        yield draft(f"blank-{byte:02x}", f"the byte {byte:02x} parts words of all kinds", sign.join(words) + sign, about)
    yield draft("lines-of-two-bytes", "lines that end with a return and a newline", "%m {\r\n\tINC\r\n}\r\n@a ( a\r\n) m\r\n;a\r\n", about)
    yield draft("word-at-the-end", "a word at the end of the source without a newline", "INC POP", about)
    yield draft("blanks-alone", "blanks around all words", "\n\n \t INC \n\t\n POP \n\n", about)


def names() -> Iterator[Draft]:
    about = "Uxntal syntax: @ labels"
    for sign, word in SIGN_NAMES.items():
        yield draft(f"name-begins-with-{word}", f"no label begins with {sign}", f"INC\n@{sign}x\nPOP\n", about)
        yield draft(f"macro-begins-with-{word}", f"no macro begins with {sign}", f"%{sign}x {{ INC }}\nPOP\n", "Uxntal syntax: % macros")
    yield draft("names-of-all-signs", "signs that begin no name may be in it, and begin the names of sublabels",
                "@a " + " ".join(f"@x{sign} ;x{sign}" for sign in SIGNS)
                + " @a-b " + " ".join(f"&{sign}y ;a-b/{sign}y" for sign in SIGNS if sign not in "({") + "\n", about)
    inner = b"".join(b"@n" + bytes([byte]) + b" ;n" + bytes([byte]) + b"\n" for byte in range(0x21, 0x100))
    yield draft("names-of-all-bytes", "a name may hold each byte above 20", inner, about)
    first = [byte for byte in range(0x21, 0x100) if chr(byte) not in SIGNS]
    begun = b"".join(bytes([byte]) + b"-z @" + bytes([byte]) + b"-z\n" for byte in first)
    yield draft("names-by-first-byte", "a name may begin with each byte that is not reserved", begun, about)
    good = "ADD22 ADD3 ADDx add Add BRK2 BRKk BRKr LIT3 abc abcde AB ABCD f 1 123 12345 0x 12x x12 g0 a-1 ADD2krr LIT2rr ADDs".split()
    body = "\n".join(f"{word} ;{word} @{word}" for word in good)
    yield draft("names-near-others", "names that are nearly instructions or numbers", body + "\n", about)
    for word in "ADD ADD2 ADDk2 SFT2kr INCr LIT LIT2 LITr LITk BRK ab 00 ff abcd 0123".split():
        yield draft(f"name-{word}", f"no label is called {word}", f"POP\n@{word}\nINC\n", about)
    for word in "ADD2 LITr BRK ab abcd".split():
        yield draft(f"macro-{word}", f"no macro is called {word}", f"%{word} {{ INC }}\nPOP\n", "Uxntal syntax: % macros")
    yield draft("sublabels-of-all-names", "a sublabel may have a name that no label has",
                "@a &ADD &ab &0123 &LIT2 &| ;&ADD ;a/ab ,&0123 /LIT2 ;&|\n", about)


def words() -> Iterator[Draft]:
    about = "Uxntal opcodes"
    orders = [modes for size in range(4) for modes in itertools.permutations("2kr", size)]
    body = "\n".join(" ".join(name + "".join(modes) for modes in orders) for name in (*NAMES[1:], "LIT"))
    yield draft("modes-in-all-orders", "the modes of each instruction in all orders", body + "\n", about)
    body = "\n".join(" ".join(name_of(code) for code in range(row, row + 16) if code % 32 or code >= 0x80) for row in range(0, 256, 16))
    yield draft("instructions-by-number", "all instructions in the order of their bytes", body + " BRK INC\n", about)
    for word in "ADD22 ADDkk ADDrr ADD2k2 ADDx ADDK add Add ADD2R BRK2 BRKk BRKr LITx LIT22 ADDadd AD ADD-".split():
        yield draft(f"word-{word}", f"{word} is no instruction", f"INC {word} POP\n", about)
    yield draft("words-of-immediates", "the instructions with an operand after them, as words", " ".join(IMMEDIATE[code] for code in (0x20, 0x40, 0x60)) + " 01\n", about)


def numbers() -> Iterator[Draft]:
    about = "Uxntal syntax: numbers"
    yield draft("numbers", "numbers of all good lengths",
                "00 ff 0f a0 0000 ffff 0f0e #00 #ff #0a #0000 #ffff #0b0c $0 01 $1 02 $0001 03 $01 04 $001 05\n"
                "|200 06 |0300 07 |0000 |ff |3ff 08 |0400 09\n", about)
    for word in "#1 #123 #12345 # #AB #aB #0g #g0 #-1 #0x1 #12_ |12345 | |g |AB |-1 |0x |100h $12345 $ $g $AB $-1 1 123 12345 1g AB aB abcD".split():
        yield draft(f"number-{word}".replace("|", "pad-").replace("$", "skip-").replace("#", "literal-"),
                    f"{word} is no number", f"POP {word} INC\n", about)


def addresses() -> Iterator[Draft]:
    about = "Uxntal syntax: | $ padding"
    good = {
        "pad-back-over-skips": ("back over skipped bytes", "INC |0300 |0200 POP |0202 DUP"),
        "pad-to-the-same": ("to where the next byte is", "|0100 INC |0101 POP |0102"),
        "pad-zero-page": ("labels in the zero page", "|00 @a $1 @b $2 &c |80 @d |ff @e |0100 .a .b .b/c .d .e ;e -d =d"),
        "last-byte": ("a byte at ffff", "|ffff 01"),
        "last-short": ("a short at fffe", "INC |fffe 1234"),
        "label-at-the-end": ("a label at ffff without bytes", "INC |ffff @x |0101 ;x"),
        "pad-past-bytes-without-more": ("a pad before the bytes without bytes after it", "INC POP |0100 @x"),
        "skips-of-all": ("skips across pages", "INC $ff 01 $100 02 $1000 03"),
        "trailing-zeros": ("zeros at the end are not in the ROM", "INC 00 0000 BRK $10"),
        "zeros-before-the-end": ("zeros before the last byte are", "INC 00 0000 $10 01 $20"),
        "gap-of-zeros": ("gaps are zeros", "|0180 01 |01ff 02 |0200 03"),
        "empty-words-in-zero-page": ("words without bytes in the zero page", '|00 " [ ] @x &y %m { INC } ( c ) |0100 m'),
        "skip-to-the-end": ("a skip to 10000 without more", "INC $feff"),
        "label-names-in-zero-page-of-short": ("a byte of the low half of an address", "|1234 @x |2000 .x -x"),
    }
    for name, (shows, source) in good.items():
        yield draft(name, shows, source + "\n", about)
    bad = {
        "zero-page-ff": ("a byte at 00ff", "|00ff INC"), "zero-page-0": ("a byte at 0000", "|0000 INC |0100 POP"),
        "zero-page-short": ("a short across 00ff", "|00ff 1234"), "zero-page-lambda": ("a lambda in the zero page", "|80 { }"),
        "zero-page-text": ("text in the zero page", '|80 "a'), "zero-page-reference": ("a reference in the zero page", "|80 ;x |0100 @x"),
        "past-end-short": ("a short at ffff", "|ffff 1234"), "past-end-literal": ("a literal at fffe", "|fffe #1234"),
        "past-end-text": ("text past ffff", '|fffe "abc'), "past-end-label": ("a label at 10000", "|ffff INC @x"),
        "past-end-skip": ("a byte after a skip past ffff", "|ff00 $0100 INC"), "past-end-sublabel": ("a sublabel at 10000", "|ffff INC &x"),
        "past-end-far": ("a label far past ffff", "$ffff $ffff @x"),
        "over-bytes": ("bytes over earlier ones", "|0200 INC |0100 POP"), "over-last-byte": ("a byte over the last one", "INC POP |0101 DUP"),
        "over-text": ("text over a part of a word", "#1234 |0102 01"), "over-reference": ("a reference over bytes", "INC POP |0100 ;x @x"),
        "over-skips-to-bytes": ("bytes that begin before earlier ones end", "|0200 1234 |0201 5678"),
    }
    for name, (shows, source) in bad.items():
        yield draft(name, shows + " are refused" if shows.startswith("bytes") else shows + " is refused", source + "\n", about)


def references() -> Iterator[Draft]:
    about = "Uxntal syntax: references"
    body = " ".join(f"{rune}here {rune}&c {rune}/c {rune}here/c {rune}there {rune}there/d" for rune in RUNES)
    source = f"@here &c\n{body} here /c here/c there there/d\n@there &d INC\n"
    yield draft("references-of-all-runes", "each rune before each form of a name, back and forth", source, about)
    body = " ".join(f"{rune}{{ INC }}" for rune in RUNES) + " { INC }"
    yield draft("lambdas-of-all-runes", "each rune before a lambda", body + "\n", "Uxntal syntax: { } lambdas")
    for rune in ",_":
        for note, source in (
            ("127-forward", f"{rune}x $7f @x INC" if rune == "," else f"{rune}x $80 @x INC"),
            ("back-to-the-limit", f"@x $7d {rune}x INC" if rune == "," else f"@x $7e {rune}x INC"),
            ("128-forward", f"{rune}x $81 @x INC"),
            ("129-back", f"@x $7e {rune}x INC" if rune == "," else f"@x $7f {rune}x INC"),
            ("of-another-page", f"|1000 @x |0100 {rune}x"),
            ("of-the-zero-page", f"|10 @x |0100 {rune}x"),
        ):
            word = "relative" if rune == "," else "raw-relative"
            yield draft(f"{word}-{note}", f"a relative byte, {note.replace('-', ' ')}", source + "\n", "Uxntal syntax: , _ relative")
    yield draft("relative-lambda-far", "a lambda that a relative byte does not reach", ",{ $80 }\n", "Uxntal syntax: , _ relative")
    yield draft("far-references", "shorts across the whole memory",
                "|00 @zero |0100 @first !last ?last last ;last =last !zero ?zero zero ;zero |8000 !first ?last zero |fff0 @near !first ?zero first near |ffff @last INC\n", about)
    for word in (";x", ",x", ".x", "=x", "-x", "_x", "!x", "?x", "x", "/x", ";&x", ";a/x", ";A", "?", "!", ",", "=", "/", ";&", ";/", ".&", "&", "@", "%"):
        name = "".join(SIGN_NAMES.get(sign, sign) + "-" if sign in SIGNS else sign for sign in word).rstrip("-")
        yield draft(f"nothing-{name}" if word != ";A" else "nothing-by-case", f"{word} names nothing", f"@a INC {word} POP\n", about)


def scopes() -> Iterator[Draft]:
    about = "Uxntal syntax: & sublabels"
    good = {
        "scope-of-two-labels": "@a &x INC @b &x POP ;&x ;a/x ;b/x /x a/x",
        "scope-of-a-name-with-a-slash": "@a/b &c INC ;&c ;a/c /c @d ;a/b ;a/c",
        "scope-of-two-slashes": "@a/b/c &d INC ;&d ;a/d ;a/b/c a/b/c",
        "scope-of-an-empty-part": "@a//b &c INC ;a//b ;a/c ;&c a//b",
        "scope-with-a-slash-at-the-end": "@a/ &c INC ;a/ ;a/c",
        "sublabel-with-a-slash": "@a &b/c INC ;&b/c ;a/b/c /b/c a/b/c ;/b/c",
        "sublabel-that-begins-with-a-slash": "@a &/b INC ;&/b ;a//b",
        "scopes-of-scopes": "@a &b &c @a/d &e @a/d/f &g ;a/b ;a/c ;a/d ;a/e ;a/d/f ;a/g ;&b ;&g",
        "scope-before-labels": "&x INC ;&x ;RESET/x /x @a ;RESET/x",
        "scope-of-a-label-called-RESET": "&x @RESET &y ;&x ;RESET/y ;RESET",
        "scope-in-a-macro": "%m { &x INC ;&x } @a m @b m ;a/x ;b/x",
        "label-in-a-macro": "%m { @c &x } @a m &y ;c/x ;c/y ;&y",
        "scope-across-lambdas": "@a ?{ &x INC } ;&x { &y POP } ;a/y",
        "scope-across-includes": "@a ~b.tal &y ;&x ;b/y ;b/x",
        "label-before-its-scope": ";a/x ;a/y @a &x INC &y",
    }
    for name, source in good.items():
        yield draft(name, name.replace("-", " "), source + "\n", about, {"b.tal": "@b &x INC\n"} if "include" in name else None)
    bad = {
        "twice-label": "@a INC @a", "twice-sublabel": "@a &x INC &x", "twice-by-full-name": "@a &x INC @b @a/x",
        "twice-sublabel-of-a-full-name": "@a/x INC @a &x", "twice-in-a-macro": "%m { &x } @a m m", "twice-in-a-scope-again": "@a &x @b @a/c &x",
        "twice-across-includes": "@a ~b.tal",
    }
    for name, source in bad.items():
        yield draft(name, f"a label {name.replace('-', ' ')}", source + "\n", about, {"b.tal": "@a\n"} if "include" in name else None)


def comments() -> Iterator[Draft]:
    about = "Uxntal syntax: ( ) comments"
    good = {
        "comment-nested": "( a ( b ( c ) d ) e ) INC", "comment-closing-word": "( a )b c ) INC", "comment-word-closing": "( a b) c ) INC",
        "comment-opening-word": "( a (b c ) INC", "comment-two-opening": "( a (( b ) INC", "comment-two-closing": "( a )) b ) INC",
        "comment-attached": "(a b ) INC (( c ) POP", "comment-empty": "( ) INC () ) POP", "comment-of-all": '( "a @b %c { } ~d #1 | ; ) INC',
        "comment-in-a-body": "%m { INC ( } %x ) POP } m", "comment-before-a-body": "%m ( a ) { INC } m", "comment-in-a-lambda": "?{ ( } ) INC }",
        "comment-at-the-end": "INC ( a )", "comment-of-lines": "( a\n\n b ) INC\n( c\n)\n", "parenthesis-in-a-name": "@a) ;a) @b( ;b(",
        "comment-after-a-rune": ";x ( y ) @x",
    }
    for name, source in good.items():
        yield draft(name, name.replace("-", " "), source, about)
    bad = {
        "comment-open": "INC ( a", "comment-open-nested": "INC ( a ( b )", "comment-open-attached": "INC (a", "comment-open-by-a-word": "INC ( a )b",
        "comment-open-by-a-name": "INC ( a b)", "parenthesis-stray": "INC ) POP", "parenthesis-stray-word": "INC )x POP",
        "parenthesis-stray-after-a-comment": "( a ) ) INC", "comment-open-in-a-file": "~b.tal INC",
    }
    for name, source in bad.items():
        yield draft(name, f"a comment: {name.replace('-', ' ')}", source, about, {"b.tal": "( a"} if "file" in name else None)


def texts() -> Iterator[Draft]:
    about = 'Uxntal syntax: " text'
    everything = b'"' + bytes(range(0x21, 0x90)) + b' "' + bytes(range(0x90, 0x100))
    yield draft("text-of-all-bytes", "text of each byte above 20", everything + b"\n", about)
    yield draft("text-of-words", "text that looks like other words", '"a"b " "" "( ") "{ "} "[ "] "%x "@x "~b "; "INC "12 "#12 |0180 "$1\n', about)
    yield draft("text-of-254-bytes", "text of 254 bytes", '"' + "ab" * 127 + "\n", about)
    yield draft("text-in-bodies", "text that looks like braces in a body", '%m { "{ "} "a } m\n', about)
    yield draft("brackets-alone", "brackets have no bytes and need no partner", "[ INC ] ] POP [ [ [ DUP ]\n", "Uxntal syntax: [ ] brackets")
    for word in ("[x", "]x", "{x", "}x", "[]", "{}", "}}", "[[", "{{", "?{x", ";{x", "?}"):
        name = "".join(SIGN_NAMES.get(sign, sign) + "-" for sign in word).rstrip("-")
        yield draft(f"bracket-{name}", f"{word} is refused", f"?{{ INC }} {word} POP\n" if word != "}}" else "{ { INC }} POP\n", "Uxntal syntax: { } lambdas")


def lambdas() -> Iterator[Draft]:
    about = "Uxntal syntax: { } lambdas"
    good = {
        "lambda-empty": "{ } ?{ } INC", "lambdas-nested": "?{ { INC ?{ POP } } !{ DUP } } SWP", "lambda-deep": "{ " * 40 + "INC" + " }" * 40,
        "lambda-around-labels": "{ @a INC &b } ;a ;a/b", "lambda-around-a-macro": "%m { INC } ?{ m } { m m }", "lambda-in-a-body": "%m { ?{ INC { POP } } } m m",
        "lambda-from-a-file": "?{ ~b.tal DUP } INC", "lambda-closed-in-a-file": "?{ ~c.tal INC", "lambda-many": "?{ INC } " * 200,
        "lambda-opened-in-a-body": "%m { ;{ INC } } m =m-label @m-label",
    }
    for name, source in good.items():
        files = {"b.tal": "{ INC }", "c.tal": "POP } DUP"} if "file" in name else None
        yield draft(name, name.replace("-", " "), source + "\n", about, files)
    bad = {
        "brace-open": "INC { POP", "brace-open-nested": "{ { INC } POP", "brace-open-by-a-rune": "INC ;{ POP", "brace-stray": "INC } POP",
        "brace-stray-after-a-lambda": "{ INC } } POP", "brace-stray-in-a-file": "INC ~b.tal", "brace-open-in-a-body": "%m { INC ?{ } m",
    }
    for name, source in bad.items():
        yield draft(name, name.replace("-", " "), source + "\n", about, {"b.tal": "POP }"} if "file" in name else None)


def macros() -> Iterator[Draft]:
    about = "Uxntal syntax: % macros"
    good = {
        "macro-empty": "%m { } m INC m", "macro-of-macros": "%a { INC } %b { a a } %c { b a b } c", "macro-over-a-label": "%a { INC } @a a ;a !a ,a",
        "macro-with-labels": "%m { @x &y } m ;x ;x/y", "macro-with-references": "%m { ;x x ,x !x } m @x", "macro-of-numbers": "%m { #12 34 |0200 $2 } m INC",
        "macro-with-a-slash": "%a/b { INC } a/b", "macro-with-a-sign": "%m- { INC } m-", "macro-called-as-a-scope": "%RESET { INC } RESET &x ;RESET/x",
        "macro-with-text": '%m { "text } m m', "macro-in-a-file": "~b.tal m", "macro-of-a-file": "%m { ~c.tal } m m",
        "macro-lines": "%m\n{\nINC\n}\nm", "macro-between-words": "INC %m { POP } m DUP", "macro-in-a-lambda": "?{ %m { POP } m } m",
        "macro-32-deep": "%m00 { INC } " + " ".join(f"%m{at:02d} {{ m{at - 1:02d} }}" for at in range(1, 32)) + " m31",
        "macro-many-uses": "%m { INC POP } " + "m " * 300, "macro-twice-the-same-word": "%m { n n } %n { INC } m",
        "macro-of-hexadecimal-look": "%abc { INC } abc", "macro-of-brackets": "%m { [ INC ] } m",
    }
    for name, source in good.items():
        files = {"b.tal": "%m { INC }\n", "c.tal": "POP DUP"} if "file" in name else None
        yield draft(name, name.replace("-", " "), source + "\n", about, files)
    bad = {
        "macro-before-its-definition": "m %m { INC }", "macro-twice": "%m { INC } %m { POP } m", "macro-without-a-body": "%m INC }", "macro-at-the-end": "INC %m",
        "macro-without-an-end": "%m { INC", "macro-without-the-outer-end": "%m { ?{ INC }", "macro-in-a-macro": "%m { %n { INC } } m", "macro-without-a-name": "% { INC }",
        "macro-of-itself": "%m { INC m } m", "macro-of-each-other": "%m { n } %n { m } m", "macro-with-an-attached-brace": "%m{ INC }", "macro-unknown-in-a-body": "%m { nothing } m",
        "macro-33-deep": "%m00 { INC } " + " ".join(f"%m{at:02d} {{ m{at - 1:02d} }}" for at in range(1, 33)) + " m32",
        "macro-number-in-a-body": "%m { #123 } m", "macro-with-a-bracket-head": "%m [ INC ]",
    }
    for name, source in bad.items():
        yield draft(name, f"refused: {name.replace('-', ' ')}", source + "\n", about)


def includes() -> Iterator[Draft]:
    about = "Uxntal syntax: ~ includes"
    deep = {"lib/b.tal": "#0b ~lib/c.tal\n", "lib/c.tal": "#0c\n", "b.tal": "#bb\n", "c.tal": "#cc\n"}
    found = draft("include-from-the-folder-of-the-source", "paths begin at the folder of the source", "~lib/b.tal ~c.tal\n", about)
    found.files = {"c.tal": b"#ff".hex(), "lib/c.tal": b"#fe".hex()}
    found.files.update({f"src/{path}": text.encode().hex() for path, text in deep.items()})
    found.place, found.profile = "src/a.tal", True
    yield found
    found = draft("include-from-two-folders", "a source two folders below", "~b.tal\n@a ~x/y/z.tal ;z\n", about)
    found.files = {"one/two/b.tal": b"#12 ".hex(), "one/two/x/y/z.tal": b"@z &q ~b.tal ;&q\n".hex()}
    found.place, found.profile = "one/two/a.tal", True
    yield found
    good = {
        "include-all-goes-on": ("~b.tal m ;&y ?{ ~c.tal", {"b.tal": "%m { INC } @b &y", "c.tal": "POP } @c"}),
        "include-empty": ("INC ~b.tal POP", {"b.tal": ""}), "include-of-blanks": ("INC ~b.tal POP", {"b.tal": "\r\n\t\n"}),
        "include-of-a-comment": ("INC ~b.tal POP", {"b.tal": "( all )"}), "include-without-a-newline": ("~b.tal ~b.tal", {"b.tal": "INC"}),
        "include-lines-of-two-bytes": ("~b.tal\r\nPOP\r\n", {"b.tal": "#12\r\n\t;x\r\n@x\r\n"}), "include-in-an-include": ("~b.tal", {"b.tal": "INC ~c.tal POP", "c.tal": "DUP ~d.tal", "d.tal": "SWP"}),
        "include-many-times": ("~b.tal " * 50, {"b.tal": "INC #12"}), "include-name-without-an-ending": ("~b", {"b": "INC"}),
        "include-name-of-signs": ("~b-1_x.y.tal ~a+b", {"b-1_x.y.tal": "INC", "a+b": "POP"}), "include-in-a-comment": ("( ~b.tal ) INC", {"c.tal": "POP"}),
        "include-label-order": ("@a ~b.tal @c", {"b.tal": "@z &y @b"}), "include-pads": ("|0200 ~b.tal INC", {"b.tal": "$10 01 |0300"}),
    }
    for name, (source, files) in good.items():
        yield draft(name, name.replace("-", " "), source + "\n", about, files)
    bad: dict[str, tuple[str, dict[str, str]]] = {
        "include-no-file": ("~nothing.tal", {"b.tal": "INC"}), "include-nothing-in-a-file": ("~b.tal", {"b.tal": "INC ~nothing.tal"}),
        "include-nothing-by-case": ("~B.tal", {"b.tal": "INC"}), "include-without-a-name": ("INC ~", {"b.tal": "INC"}),
    }
    for name, (source, files) in bad.items():
        yield draft(name, name.replace("-", " "), source + "\n", about, files)


def first_faults() -> Iterator[Draft]:
    """Which of two faults is reported: profile, since the references name no order."""
    pairs = {
        "stray-parenthesis-before-a-number": ("#123 ;nothing )", ")"), "parenthesis-before-a-comment": (") ( open", ")"), "number-before-a-name": (";nothing #123", "#123"),
        "macro-before-a-number": ("#123 %m INC", "%m"), "number-before-a-label": ("@a @a #123", "#123"), "label-before-a-reference": (";nothing @a @a", "@a"),
        "zero-page-before-a-reference": (";nothing |80 INC", "INC"), "first-of-two-references": (";one ;two", ";one"), "first-of-two-numbers": ("#123 #456", "#123"),
        "first-of-two-labels": ("@a @b @b @a", "@b"), "far-before-a-name": (",far $90 @far ;nothing", ",far"), "name-before-a-far-one": (";nothing ,far $90 @far", ";nothing"),
        "brace-before-a-label": ("@a @a }", "}"), "include-before-a-number": ("#123 ~nothing.tal", "~nothing.tal"), "rewind-before-a-reference": (";nothing |0100 INC", "INC"),
        "macro-twice-before-a-number": ("#1 %m { } %m { }", "%m"), "first-of-a-line": ("INC\n  ;one\n;two", ";one"), "past-end-before-a-reference": (";nothing |ffff 1234", "1234"),
    }
    for name, (source, word) in pairs.items():
        found = draft(f"first-fault-{name}", f"of two faults {word} is reported: {name.replace('-', ' ')}", source + "\n", "profile: the order of faults")
        found.profile, found.names = True, word.lstrip(SIGNS) or word
        yield found


def limits() -> Iterator[Draft]:
    about = "profile: limits"
    for size, word in ((254, "@"), (255, "@")):
        name = "n" * size
        found = draft(f"name-of-{size}-bytes", f"a label of {size} bytes", f"{word}{name} INC @a\n", about)
        found.profile = True
        yield found
    found = draft("labels-1000", "a thousand labels and references", "\n".join(f"@label-{at} ;label-{(at * 7) % 1000}" for at in range(1000)) + "\n", "Uxntal syntax")
    yield found
    found = draft("macros-300", "three hundred macros", "\n".join(f"%m{at}x {{ #{at % 256:02x} }}" for at in range(300)) + "\n" + " ".join(f"m{at}x" for at in range(300)) + "\n", "Uxntal syntax")
    yield found


def disassemblies() -> Iterator[Draft]:
    sources = {
        "all-instructions": " ".join(name_of(code) for code in range(1, 256) if code % 32) + " BRK INC", "literals": "#12 #3456 LITr 78 LIT2r 9abc LIT 01",
        "jumps": "@a !b ?b b @b !a ?a a INC", "labels": "@a &x INC ;a ,&x @b/c POP ;b/c |10 @z", "texts": '"Hello 00 "wo 0a INC',
        "gaps": "INC |0200 POP |0300 DUP", "cut-literal": "INC a0 12", "cut-jump": "INC 60 00", "of-the-zero-page": "|10 @p $2 |0100 .p LDZ #41 .p STZ .p/q |12 @p/q",
        "programs": "|10 @Console &vector $8 &write\n|0100 @on-reset ;text &loop LDAk .Console/write DEO INC2 LDAk ?&loop POP2 BRK\n@text \"Hi 0a00 01",
    }
    for name, source in sources.items():
        for takes in ((), ("symbols",)):
            suffix = "-with-symbols" if takes else ""
            yield Draft(f"disassembler/{name}{suffix}", f"{name.replace('-', ' ')}{suffix.replace('-', ' ')}", "profile: the text of a disassembly",
                        "disassembler", (source + "\n").encode(), profile=True, takes=takes)


def drafts() -> list[Draft]:
    groups: Iterable[Iterator[Draft]] = (
        blanks(), names(), words(), numbers(), addresses(), references(), scopes(), comments(), texts(), lambdas(), macros(), includes(),
        first_faults(), limits(), disassemblies(),
    )
    found: dict[str, Draft] = {}
    for group in groups:
        for item in group:
            # No two names differ only in their case, since some disks see no difference.
            while item.name.lower() in found:
                item.name += "-more"
            item.profile = item.profile or item.name.split("/")[1] in OF_PROFILE
            found[item.name.lower()] = item
    return list(found.values())
