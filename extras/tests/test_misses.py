"""uxn-misses: the expects that missed, with their lines and what the ports held."""
import os
import random
import shutil

from support import EXAMPLES, EXTRAS, ToolTest

# Counts the bytes of its input in the port f0, and keeps the last one in f1.
COUNT = ";on-read #10 DEO2 BRK @on-read #f0 DEI INC #f0 DEO #12 DEI #f1 DEO #12 DEI #71 NEQ ?{ #83 #0f DEO } BRK"


class Misses(ToolTest):
    def setUp(self) -> None:
        super().setUp()
        self.write("game.tal", COUNT)

    def misses(self, status: int, *words: str) -> str:
        done = self.call("uxn-misses", *words)
        self.assertEqual(done.returncode, status, done.stderr.decode())
        return done.stdout.decode()

    def test_none(self) -> None:
        self.write("s", 'script 2\ninput "abc\nexpect f0 03\nexpect f1 63\n')
        self.assertEqual(self.misses(0, "game.tal", "--script", "s"), "0 of 2 expects missed\n")

    def test_lines_and_bytes(self) -> None:
        self.write(
            "s",
            '# counts\nscript 2\nexpect f0 01\ninput "abc\nexpect f0 03\n\nexpect F1 64\nexpect f0 00\n'
            'input "d\nexpect f1 64\nexpect f0 Ff\n',
        )
        self.assertEqual(
            self.misses(1, "game.tal", "--script", "s"),
            "s:3: expect f0 01: port f0 held 00\ns:7: expect f1 64: port f1 held 63\n"
            "s:8: expect f0 00: port f0 held 03\n"
            "s:11: expect f0 ff: port f0 held 04\n4 of 6 expects missed\n",
        )

    def test_behind_the_end(self) -> None:
        self.write("s", 'script 2\ninput "a\nexpect f0 02\ninput "q\nexpect f0 02\nexpect f1 00\n')
        self.assertEqual(
            self.misses(1, "game.tal", "--script", "s"),
            "s:3: expect f0 02: port f0 held 01\ns:5: expect f0 02: the run ended before it\n"
            "s:6: expect f1 00: the run ended before it\n"
            "1 of 3 expects missed, 2 were not reached\n",
        )

    def test_what_ports_read(self) -> None:
        """Ports that read something else than what was stored: the pointers, the size of the screen, the clock."""
        self.write("a.tal", "#0102 #03 #0020 #22 DEO2 BRK")
        self.write("s", "script 2\nclock 86400 0\nexpect 04 00\nexpect 23 00\nexpect c1 00\nexpect 05 00\n")
        self.assertEqual(
            self.misses(1, "a.tal", "--script", "s"),
            "s:3: expect 04 00: port 04 held 03\ns:4: expect 23 00: port 23 held 20\n"
            "s:5: expect c1 00: port c1 held b2\n3 of 4 expects missed\n",
        )

    def test_random_scripts_against_a_count(self) -> None:
        """What is told is what counting by hand gives."""
        chosen = random.Random(7)
        for _ in range(5):
            lines, wanted, count, last = ["script 2"], [], 0, 0
            for _ in range(60):
                if chosen.random() < 0.4:
                    last = chosen.randrange(0x61, 0x71)
                    count += 1
                    lines.append(f"input {last:02x}")
                else:
                    port, held = chosen.choice([(0xF0, count & 255), (0xF1, last)])
                    value = chosen.choice([held, held, held ^ 1])
                    lines.append(f"expect {port:02x} {value:02x}")
                    if value != held:
                        wanted.append(f"s:{len(lines)}: expect {port:02x} {value:02x}: port {port:02x} held {held:02x}")
            self.write("s", "".join(line + "\n" for line in lines))
            self.assertEqual(self.misses(1, "game.tal", "--script", "s").splitlines()[:-1], wanted)

    def test_files_stay_as_they_are(self) -> None:
        shutil.copy(os.path.join(EXAMPLES, "notes.tal"), self.path("notes.tal"))
        shutil.copytree(os.path.join(EXAMPLES, "notes.root"), self.path("files"))
        with open(os.path.join(EXAMPLES, "notes.script"), encoding="ascii") as file:
            self.write("s", "script 2\n" + file.read().replace("end\n", "expect f0 01\nend\n"))
        before = self.read("files/notes.txt")
        self.assertIn(
            "expect f0 01: port f0 held 00\n", self.misses(1, "notes.tal", "--script", "s", "--root", "files")
        )
        self.assertEqual(self.read("files/notes.txt"), before)
        self.assertEqual(sorted(name for name in os.listdir(self.folder) if name.startswith("uxn-")), [])

    def test_a_rom_and_a_budget(self) -> None:
        self.succeed("uxn", "asm", "game.tal", "--out", "game.rom")
        self.write("s", 'script 2\ninput "ab\nexpect f1 00\n')
        self.assertIn("port f1 held 62", self.misses(1, "game.rom", "--rom", "--script", "s"))
        said = self.misses(0, "game.rom", "--rom", "--script", "s", "--budget", "3")
        self.assertIn("0 of 1 expects missed\ncut in the start at 0105 (game.rom:4)\n", said)

    def test_wrong_calls(self) -> None:
        self.write("s", "script 2\nexpect f0 0\n")
        self.refuse(2, "uxn-misses", "game.tal")
        self.refuse(2, "uxn-misses", "game.tal", "--script")
        self.assertIn("gone", self.refuse(1, "uxn-misses", "game.tal", "--script", "gone"))
        self.write("s", "script 2\nexpect f0 00\n")
        self.assertIn("missing: gone.tal", self.refuse(130, "uxn-misses", "gone.tal", "--script", "s"))
        self.write("s", "script 2\nexpect f0 00\nframe 0\n")
        self.assertIn("script 3: BadValue", self.refuse(132, "uxn-misses", "game.tal", "--script", "s"))
        self.write("s", "end\n")
        self.assertIn("no expects", self.refuse(1, "uxn-misses", "game.tal", "--script", "s"))

    def test_the_planted_bug_is_found(self) -> None:
        """In the game of lights (169 lines) each move is counted twice; the expects behind the moves show it, and no
        other."""
        with open(os.path.join(EXTRAS, "tests", "programs", "lights.tal"), encoding="utf-8") as file:
            source = file.read()
        wrong = source.replace(".moves LDZ INC .moves STZ", ".moves LDZ INC INC .moves STZ")
        self.assertNotEqual(source, wrong)
        self.write(
            "s",
            "script 2\nexpect f3 00\ndown a\nup a\nexpect f3 01\nexpect f2 04\ndown left\nup left\ndown a\n"
            "expect f0 01\nexpect f3 02\n",
        )
        self.write("game.tal", source)
        self.assertEqual(self.misses(0, "game.tal", "--script", "s"), "0 of 5 expects missed\n")
        self.write("game.tal", wrong)
        self.assertEqual(
            self.misses(1, "game.tal", "--script", "s"),
            "s:5: expect f3 01: port f3 held 02\ns:11: expect f3 02: port f3 held 04\n2 of 5 expects missed\n",
        )
