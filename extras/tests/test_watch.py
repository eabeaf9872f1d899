"""uxn-watch: exactly the stores that changed some bytes."""
import os
import random
import shutil
import sys

from support import EXTRAS, ToolTest

PROGRAMS = os.path.join(os.path.dirname(os.path.realpath(__file__)), "programs")


def random_rom(choose: random.Random) -> bytes:
    """A loop of stores of all kinds, many into the loop itself, where they may store instructions that store."""
    out = b""
    for _ in range(12):
        value = choose.choice((choose.randrange(256), 0x11, 0x13, 0x15, 0x35, 0x01, 0x21))
        kind = choose.randrange(5)
        if kind == 0:
            out += bytes((0x80, value, 0x80, 0x10 + choose.randrange(64), choose.choice((0x11, 0x31))))
        elif kind < 3:
            out += bytes((0x80, value, 0xA0, 0x01, choose.randrange(80), choose.choice((0x15, 0x35, 0x95))))
        elif kind == 3:
            out += bytes((0x80, value, 0x80, choose.randrange(256), choose.choice((0x13, 0x33))))
        else:
            out += bytes((choose.randrange(256),))
    return out + b"\x40" + ((-len(out) - 3) % 0x10000).to_bytes(2, "big")


class Watch(ToolTest):
    def changes(self, *words: str) -> list[str]:
        """The lines that name a moment."""
        return [line.strip() for line in self.succeed("uxn-watch", *words).splitlines() if line[:10].strip()]

    def test_changed_and_changed_back(self) -> None:
        self.write("a.tal", "#01 ;x STA\n#00 ;x STA\n#00 ;x STA BRK @x 00")
        self.assertEqual(
            self.succeed("uxn-watch", "a.tal", "@x").splitlines(),
            [
                "         2 0105 STA    : 0113 was 00, is 01",
                "           3: 01 01 13 | 0:",
                "           a.tal:1: #01 ;x STA",
                "         5 010b STA    : 0113 was 01, is 00",
                "           3: 00 01 13 | 0:",
                "           a.tal:2: #00 ;x STA",
            ],
        )

    def test_last_first_and_so_many(self) -> None:
        self.write("a.tal", "#0000 @loop INC2 DUP2 ;x STA2 DUP2 #0005 NEQ2 ?loop BRK @x 0000")
        moments = [int(line.split()[0]) for line in self.changes("a.tal", "x", "2")]
        self.assertEqual(moments, sorted(moments))
        self.assertEqual(len(moments), 5)
        self.assertEqual(
            [int(line.split()[0]) for line in self.changes("a.tal", "x", "2", "--last-first")], moments[::-1]
        )
        done = self.succeed("uxn-watch", "a.tal", "x", "2", "--last-first", "--count", "1")
        self.assertIn("4 more of 5 changes", done)
        self.assertEqual(int(done.split()[0]), moments[-1])
        self.assertEqual(
            [
                int(line.split()[0])
                for line in self.changes("a.tal", "x+0001", "--from", str(moments[1]), "--to", str(moments[3]))
            ],
            moments[1:4],
        )

    def test_all_instructions_that_store(self) -> None:
        self.write(
            "a.tal",
            "|10 @z $2 |0100 #0102 .z STZ2 LIT2r 0304 STHk POP LITr 10 STZ2r #05 ,x STR #06 ;x STAk POP POP2 BRK @x 00",
        )
        self.assertEqual([line.split()[2] for line in self.changes("a.tal", "0010", "2")], ["STZ2", "STZ2r"])
        self.assertEqual([line.split()[2] for line in self.changes("a.tal", "x")], ["STR", "STAk"])

    def test_devices(self) -> None:
        self.write(
            "a.tal",
            ";name #a8 DEO2 #0003 #aa DEO2 ;to #ac DEO2 ;to #a4 DEO2 ;fill #02 DEO2 BRK"
            ' @name "f 00 @fill 00 0002 0000 =to 2a @to $4',
        )
        self.write("root/f", "abc")
        found = self.changes("a.tal", "to", "4", "--root", "root")
        self.assertEqual([line.rpartition(" is ")[2] for line in found], ["61 62 63", "30 30 33", "2a 2a"])
        self.assertEqual(sorted(os.listdir(self.path("root"))), ["f"])

    def test_an_instruction_that_was_stored(self) -> None:
        self.write("a.tal", "#15 ;patch STA #2a ;x @patch INC BRK @x 00")
        self.assertEqual([line.split()[1:3] for line in self.changes("a.tal", "x")], [["010b", "STA"]])
        self.write("b.tal", ";fill #02 DEO2 #2a ;x @patch INC BRK @fill 00 0001 0000 =patch 15 @x 00")
        self.assertEqual([line.split()[2] for line in self.changes("b.tal", "x")], ["STA"])

    def test_many_stores(self) -> None:
        self.write("a.tal", "#0000 @loop INC2 DUP2 ;x STA2 DUP2 #c350 NEQ2 ?loop BRK @x 0000")
        self.assertEqual(len(self.changes("a.tal", "x", "2")), 50000)

    def test_random_programs_against_each_instruction(self) -> None:
        """Programs of random stores, also into themselves: the same changes as one finds who looks behind each
        instruction."""
        choose = random.Random(1)
        some = 0
        for number in range(8):
            self.write("a.rom", random_rom(choose))
            memory = self.each_memory("a.rom", 400)
            for address in (0x10, 0x100):
                parts = [bytes(each[address : address + 64]) for each in memory]
                wanted = [at for at in range(400) if parts[at] != parts[at + 1]]
                done = self.call("uxn-watch", "a.rom", "--rom", "--budget", "400", f"{address:04x}", "64")
                self.assertEqual(done.returncode, 0 if wanted else 1, (number, done.stderr))
                found = [int(line[:10]) for line in done.stdout.decode().splitlines() if line[:10].strip()]
                self.assertEqual(found, wanted, (number, address))
                some += len(wanted)
        self.assertGreater(some, 40)

    def each_memory(self, rom: str, count: int) -> list[bytes]:
        """The first 512 bytes of memory at each of the first moments."""
        sys.path.insert(0, EXTRAS)
        from uxntools import log

        look = ["mem 0000 256", "mem 0100 256"]
        commands = look + ["step 1", *look] * count
        self.write("c", "\n".join(commands))
        self.call("uxn", "debug", rom, "--rom", "--budget", str(count), "--commands", "c", "--log", "l")
        shown = list(log.shown(commands, self.read("l").decode().splitlines()))
        return [log.memory(shown[at] + shown[at + 1]) for at in range(0, len(shown), 3)]

    def test_a_text_that_runs_over(self) -> None:
        """The planted mistake: a long comment changes the balance."""
        shutil.copytree(PROGRAMS, self.path("p"))
        found = self.changes("p/ledger.tal", "balance", "2", "--script", "p/ledger.script")
        labels = [line.split()[3].partition("+")[0] for line in found]
        self.assertEqual(labels[:3], ["do-line/in", "do-line/out", "append"])

    def test_ports(self) -> None:
        """A port is no memory: its label is refused, and the memory at its address is followed by the number."""
        name = self.write(
            "a.tal", "|28 @Screen/x $2 |f0 @shown $1 |0100 #0007 .Screen/x DEO2 #01 #29 STZ #02 .shown DEO BRK"
        )
        for where in ("Screen/x", "@Screen/x", "Screen/x+0001"):
            self.assertIn("Screen/x is a port", self.refuse(1, "uxn-watch", name, where).replace("+0001", ""))
        self.assertEqual(len(self.changes(name, "0028", "2")), 1)
        self.assertIn("shown is a port", self.refuse(1, "uxn-watch", name, "shown"))
        self.assertIn("(in memory; `ports` in uxn-debug shows the ports)", self.refuse(1, "uxn-watch", name, "00f0"))

    def test_nothing_changed_and_wrong_calls(self) -> None:
        name = self.write("a.tal", "#00 ;x STA BRK @x 00")
        self.assertEqual(self.refuse(1, "uxn-watch", name, "x"), "uxn-watch: nothing changed 0107 in 4 instructions")
        self.assertIn("no label nothing", self.refuse(1, "uxn-watch", name, "nothing"))
        self.refuse(131, "uxn-watch", self.write("b.tal", "#1"), "0100")
        for words in ([], [name], [name, "x", "0"], [name, "x", "5000"], [name, "x", "--count", "y"]):
            self.refuse(2, "uxn-watch", *words)
        self.assertIn("uxn-watch SRC", self.succeed("uxn-watch", "--help"))
