"""uxn-lint: each alarm in a program of 168 lines and an included file, how a comment silences it, and none in the
examples."""
import glob
import os
import re
import shutil
import sys

from support import EXAMPLES, EXTRAS, TOP, ToolTest

sys.path.insert(0, EXTRAS)
from uxntools import effects, lint, opcodes, ports  # noqa: E402
from uxntools.analysis import Analysis  # noqa: E402
from uxntools.symbols import read as read_symbols  # noqa: E402

PROGRAMS = os.path.join(EXTRAS, "tests", "programs")

# What is planted: the text that it takes the place of, the text, and the alarm: the file, the line, the column, the
# name, and a part of the message.
PLANTED = [
    ("\t@wanted $1\n", "\t@wanted $1 @spare $1\n", "life.tal:15:13: unused-label: ", "spare"),
    ("%HEIGHT { #08 }\n", "%HEIGHT { #08 } %DEPTH { #02 }\n", "life.tal:8:17: unused-macro: ", "DEPTH"),
    ("\t&end\n\tBRK\n", "\t&end\n\tBRK\n\t#01\n", "life.tal:40:2: unreachable: ", "#01 stands behind BRK"),
    ("\tcopy-back\n\tJMP2r", "\t!copy-back\n\tJMP2r", "life.tal:82:2: unreachable: ", "!copy-back"),
    ("( x y -- at* )", "( x y -- at )", "life.tal:64:1: stack-effect: ", "address leaves 2 bytes and not 1, at 66:2"),
    (
        "\tPOP #01\n\tJMP2r",
        "\t#01\n\tJMP2r",
        "life.tal:93:1: stack-effect: ",
        "will-live leaves 2 bytes and not 1, at 99:2",
    ),
    (
        "@up ( x y -- x y )\n",
        "@up ( -- y )\n",
        "life.tal:125:1: stack-effect: ",
        "up takes 1 byte more than it says, at 126:6",
    ),
    ('\tLIT ". SWP', "\tLIT #2e SWP", "life.tal:149:2: lit-before-literal: ", "#2e"),
    ("\t\tLDA2k address", "\t\tLIT ;glider LDA2k address", "life.tal:57:3: lit-before-literal: ", ";glider"),
    (
        "@copy-back ( -- )\n",
        "@copy-back ( -- )\n\t&left $1 ,&left LDR POP #00 #00 left POP2\n",
        "life.tal:85:2: shadowed-label: ",
        "the label left at 85:34",
    ),
    ("#05 .wanted STZ", "#05 ;wanted STA", "life.tal:21:6: zero-page-address: ", ".wanted STZ"),
    (".Console/type DEI ?wait", ";Console/type DEI NIP ?wait", "life.tal:22:2: zero-page-address: ", ";Console/type"),
    (
        "address LDA .around",
        "address LDA .glider LDZ POP .around",
        "life.tal:114:14: far-zero-page: ",
        "keeps the low byte",
    ),
    (";nothing .Console/vector DEO2", ";wanted .Console/vector DEO2", "life.tal:36:2: zero-page-vector: ", "0000"),
    (
        ";on-argument .Console/vector DEO2",
        ".on-argument .Console/vector DEO2",
        "life.tal:28:2: zero-page-vector: ",
        "one byte",
    ),
    (";on-argument .Console/vector DEO2", "#0038 #10 DEO2", "life.tal:28:2: zero-page-vector: ", "0038"),
    (
        "( The cells, and",
        "( lint-allow nothing-known )\n( The cells, and",
        "life.tal:166:1: unknown-alarm: ",
        "nothing-known",
    ),
]


def page_of_docs(name: str) -> str:
    with open(os.path.join(TOP, "docs", f"{name}.md"), encoding="utf-8") as file:
        return file.read()


def declarations(pages: str) -> dict[str, str]:
    """The lines of a source that name the ports of devices, each as one line, by the names of the devices."""
    found = re.findall(r"(?m)^    (\|[0-9a-f]{2} @(\w+)(?:\s+&\w+ \$\d)+)$", pages)
    return {device: " ".join(line.split()) for line, device in found}


def rows_of_ports(pages: str) -> dict[tuple[int, int], str]:
    """The name of each port of the tables of ports, by its address and width."""
    found: dict[tuple[int, int], str] = {}
    for table in re.findall(r"(?m)^\| port \| name \|.*\n\|[-|]+\n((?:\|.*\n)+)", pages):
        for row in table.splitlines():
            places, names = (cell.strip().split(", ") for cell in row.split("|")[1:3])
            for place, name in zip(places, names, strict=True):
                found[int(place[1:3], 16), 1 + place.endswith("*`")] = name
    return found


def unnamed(rows: dict[tuple[int, int], str]) -> set[str]:
    """The names of the ports that no table has; the tables have one voice and one file device for all of them."""
    others = ("Audio1", "Audio2", "Audio3", "File2")
    return {
        port.name for port in ports.PORTS if port.device not in others and (port.address, port.width) not in rows
    }


class Lint(ToolTest):
    def setUp(self) -> None:
        super().setUp()
        shutil.copytree(PROGRAMS, self.folder, dirs_exist_ok=True)
        self.life = self.read("life.tal").decode()

    def lines(self, status: int, *words: str) -> list[str]:
        done = self.call("uxn-lint", *words)
        self.assertEqual((done.returncode, done.stderr), (status, b""))
        return done.stdout.decode().splitlines()

    def test_nothing_in_a_program_and_in_the_examples(self) -> None:
        self.assertEqual(self.lines(0, "life.tal"), [])
        examples = sorted(glob.glob(os.path.join(EXAMPLES, "*.tal")))
        self.assertGreater(len(examples), 25)
        self.assertEqual(self.lines(0, *examples), [])

    def test_each_planted_mistake(self) -> None:
        for old, new, place, message in PLANTED:
            with self.subTest(new):
                self.assertEqual(self.life.count(old), 1)
                self.write("life.tal", self.life.replace(old, new))
                found = [line for line in self.lines(1, "life.tal") if line.startswith(place)]
                self.assertEqual(len(found), 1, self.lines(1, "life.tal"))
                self.assertIn(message, found[0])

    def test_an_included_file(self) -> None:
        printing = self.read("life/print.tal").decode()
        self.write("life/print.tal", printing + "\n@print-nothing ( -- )\n\tJMP2r POP\n")
        self.assertEqual(
            self.lines(1, "life.tal"),
            [
                "life/print.tal:21:1: unused-label: nothing refers to print-nothing",
                "life/print.tal:22:8: unreachable: POP stands behind JMP2r, and no label before it",
            ],
        )

    def test_comments_silence(self) -> None:
        spare = "\t@wanted $1\n\t{}@spare $1 {}\n"
        for before, behind in [
            ("", "( lint-allow unused-label )"),
            ("( lint-allow unused-label )\n\n\t", ""),
            ("( lint-allow shadowed-label unused-label )\n", ""),
        ]:
            self.write("life.tal", self.life.replace("\t@wanted $1\n", spare.format(before, behind)))
            self.assertEqual(self.lines(0, "life.tal"), [], (before, behind))
        self.write(
            "life.tal", self.life.replace("\t@wanted $1\n", spare.format("", "")) + "( lint-allow-file unused-label )\n"
        )
        self.assertEqual(self.lines(0, "life.tal"), [])
        self.write("life.tal", self.life.replace("\t@wanted $1\n", spare.format("", "( lint-allow unused-macro )")))
        self.assertEqual(len(self.lines(1, "life.tal")), 1)
        self.assertEqual(self.lines(0, "life.tal", "--allow", "unused-label"), [])

    def test_code_that_looks_like_a_mistake(self) -> None:
        self.write(
            "fine.tal",
            """
            |10 @Console &vector $2 &pad $6 &write $1
            |0000 @state $4
            |0100 @main ;state .Console/write DEO2
                #01 JMP BRK #02 POP                 ( the distance of a jump is computed )
                LIT BRK POP LIT2 =main POP2         ( operands )
                { #41 JMP2r } STH2r JSR2 POP
                ?{ #01 } POP [ LIT "A ] POP
                #0000 .Console/vector DEO2          ( no vector )
                ;texts &save #00 ?/save POP2 !done
            @texts 00 ( behind a jump stands data ) "save 00
            @save =texts
            @clear ( a b -- ) #00 #04 DEO JMP2r ( the pointer moves )
            @jump ( to* -- ) STH2 JMP2r         ( it returns elsewhere )
            @done #01 #02 clear POP ;clear jump ;save POP2 ;texts POP2 BRK
            """,
        )
        self.assertEqual(self.lines(0, "fine.tal"), [])

    def test_macros_end_and_return(self) -> None:
        self.write("m.tal", "%BACK { JMP2r } %WORSE { BRK INC }\n@main one WORSE\n@one ( -- )\n\tBACK POP\n")
        self.assertEqual(
            self.lines(1, "m.tal"),
            [
                "m.tal:1:30: unreachable: INC stands behind BRK, and no label before it",
                "m.tal:4:7: unreachable: POP stands behind JMP2r, and no label before it",
            ],
        )

    def test_faulty_sources_and_wrong_calls(self) -> None:
        self.write("life.tal", self.life.replace("print-digit\n\tend-line", "print-digits\n\tend-line"))
        self.assertEqual(
            self.refuse(131, "uxn-lint", "life.tal"), "uxn-lint: life.tal:136:18: UnknownName: print-digits"
        )
        self.write("life/print.tal", "#123")
        self.assertEqual(self.refuse(131, "uxn-lint", "life.tal"), "uxn-lint: life/print.tal:1:1: BadNumber: #123")
        self.assertIn("gone.tal", self.refuse(1, "uxn-lint", "gone.tal"))
        self.refuse(2, "uxn-lint")
        self.refuse(2, "uxn-lint", "--allow", "nothing-known", "life.tal")
        self.assertIn("put uxn into PATH", self.refuse(127, "uxn-lint", "life.tal", UXN="no-uxn"))
        for name in lint.NAMES:
            self.assertIn(name, self.succeed("uxn-lint", "--help"))


class Tables(ToolTest):
    """What the lint and the language server know of a source is what `uxn` says of it."""

    def sources(self) -> list[str]:
        return sorted(glob.glob(os.path.join(EXAMPLES, "*.tal"))) + [os.path.join(PROGRAMS, "life.tal")]

    def test_labels_and_addresses(self) -> None:
        for path in self.sources():
            folder, name = os.path.split(path)
            if os.path.isdir(path[:-4]):
                shutil.copytree(path[:-4], self.path(os.path.basename(path[:-4])), dirs_exist_ok=True)
            shutil.copy(path, self.path(name))
            self.succeed("uxn", "asm", name, "--out", "rom", "--symbols", "symbols")
            wanted = [(label.address, label.name.encode("latin-1")) for label in read_symbols(self.read("symbols"))]
            for expand in (False, True):
                found = Analysis(path, expand=expand).labels.values()
                self.assertEqual([(label.address, label.name) for label in found], wanted, path)

    def test_most_routines_of_the_examples_are_straight_enough(self) -> None:
        """The comments of the examples are right, and a wrong one is found."""
        count = found = 0
        for path in self.sources():
            routines = effects.Routines(Analysis(path, expand=True))
            for name, effect in list(routines.effects.items()):
                if effect.returns and name in routines.starts:
                    routines.effects[name] = effect._replace(after=frozenset(number + 3 for number in effect.after))
                    count += 1
                    found += any(label.name == name for label, _ in routines.mistakes())
                    routines.effects[name] = effect
        self.assertGreater(found, count * 9 // 10)

    def test_each_instruction_as_the_disassembler_names_it(self) -> None:
        self.write("rom", bytes(byte for code in range(256) for byte in (code, 0, 0)))
        lines = self.succeed("uxn", "dis", "rom").splitlines()
        named = {int(line.split()[-2], 16): line.split()[0] for line in lines if line.endswith(" )")}
        for code in range(256):
            self.assertEqual(opcodes.of_byte(code).name, named[0x100 + 3 * code])
            self.assertEqual(opcodes.instruction(named[0x100 + 3 * code]), opcodes.of_byte(code))

    def test_effects_on_the_stacks_as_the_machine_has_them(self) -> None:
        """Each instruction without a jump runs in the machine, which shows by how much both pointers moved."""
        for name in [*opcodes.OPERATIONS, "LIT"]:
            if name in ("JMP", "JCN", "JSR", "DEI", "DEO", "STZ", "STR", "STA"):
                continue
            for mode in ("", "2", "k", "r", "2k", "2r", "kr", "2kr"):
                what = opcodes.instruction(name + mode)
                assert what
                self.write(
                    "a.tal",
                    f"#2020 #04 DEO2 [ {name}{mode} {'00' * (1 + what.is_short) if name == 'LIT' else ''} ]"
                    " #05 DEI STH #04 DEI #18 DEO STHr #18 DEO BRK",
                )
                working, returning = self.call("uxn", "play", "a.tal").stdout
                own, other = what.growth, what.other_growth
                wanted = (0x20 + other, 0x20 + own) if what.in_return_mode else (0x20 + own, 0x20 + other)
                self.assertEqual((working, returning), wanted, name + mode)

    def test_ports_as_the_pages_have_them(self) -> None:
        """Each device is declared as docs/varvara.md or its page does it, and no other one; and the tables there give
        the ports the same addresses, widths and names."""
        pages = "".join(page_of_docs(name) for name in ("varvara", "screen", "audio", "files"))
        wanted = {device: ports.declaration(device) for device in ports.DEVICES}
        for device, base in (("Audio1", "40"), ("Audio2", "50"), ("Audio3", "60")):
            self.assertEqual(wanted.pop(device), wanted["Audio0"].replace("|30 @Audio0", f"|{base} @{device}"))
        self.assertEqual(declarations(pages), wanted)
        named = {(port.address, port.width): port.name for port in ports.PORTS}
        rows = rows_of_ports(pages)
        self.assertEqual({name: rows.get(name) for name in rows}, {name: named.get(name) for name in rows})
        self.assertEqual(unnamed(rows), set())
        vectors = re.search(r"(?s)\| vector \| runs at \|\n(.*?)\n\n", pages)
        assert vectors
        run = re.findall(r"`([0-9a-f]{2})\*`", "".join(row for row in vectors[1].split("\n") if "never" not in row))
        self.assertEqual([int(address, 16) for address in run], sorted(ports.VECTORS))
