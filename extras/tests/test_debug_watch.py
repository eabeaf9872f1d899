"""`watch` of uxn-debug: the last store before a moment, however far back it is."""
import os
import random
import re
import signal
import sys
import time

from support import EXTRAS
from test_debug import Debug
from test_watch import random_rom

sys.path.insert(0, EXTRAS)
from uxntools.debugging import patterns  # noqa: E402
from uxntools.debugging.backwards import NEAR  # noqa: E402
from uxntools.log import Place, Stacks  # noqa: E402
from uxntools.stores import Stop, Watched, can_store  # noqa: E402

# A store to x, to two bytes and to some of 300; and then a loop that stores to y.
LOOP = """
LIT2 2a 10 STZ #0102 ;two STA2 #07 ;many/last STA
#0000 @loop INC2 DUP2 ;y STA2 DUP2 #3000 NEQ2 ?loop POP2
#05 ;x STA #05 ;x STA !again
@again #0000 !loop
@y 0000 @x 00 @two 0000 @none 00 @many $12b &last 00
"""
STORES = ("STA", "STZ", "STR", "DEO", "LDA", "ROT", "BRK")
MODES = ("", "2", "k", "r", "2k", "2r", "kr", "2kr")


class Far(Debug):
    def slow(self, words: list[str], where: str, length: int, moment: int) -> str:
        """The last store before a moment, as uxn-watch finds it, which looks at each: the bytes and the moment."""
        last = ["--to", str(moment - 1), "--last-first", "--count", "1"]
        done = self.call("uxn-watch", *words, where, str(length), *last)
        found = re.match(r" *(\d+) ([0-9a-f]{4}) (\S+) ", done.stdout.decode())
        return f"moment {found[1]}: {found[2]} {found[3]}" if found else "nothing changed"

    def check(self, words: list[str], moments: list[int], spans: list[tuple[str, int]]) -> set[str]:
        """Whether the debugger says the same at each of these moments of these bytes. Answers what it said."""
        lines = [line for at in moments for line in (f"goto {at}", *(f"watch {place} {size}" for place, size in spans))]
        shown = self.answers(*lines, words=["uxn-debug", *words])
        found = set()
        for line, text in zip(lines, shown):
            at = int(line.split()[1]) if line.startswith("goto") else at
            if line.startswith("watch"):
                _, place, size = line.split()
                wanted = self.slow(words, place, int(size), at)
                self.assertIn(wanted, text, (line, at))
                found.add(wanted)
        return found

    def test_what_the_slow_way_finds(self) -> None:
        """Of one byte, of two, of 300, of none; at moments from the first ones on, and at the ends of what is looked
        at one by one."""
        self.write("a.tal", LOOP)
        first = 100_000
        found = self.check(
            ["a.tal", "--budget", "150000"],
            [1, NEAR + 2, first + NEAR],
            [("x", 1), ("0010", 1), ("two", 2), ("none", 1), ("many", 300), ("y", 2)],
        )
        self.assertGreaterEqual(len(found), 6, found)

    def test_just_before_and_far_behind_a_store(self) -> None:
        """The store is the last one of the moments that are looked at one by one, or the first one behind them."""
        self.write("a.tal", LOOP)
        moments = [98_311 + 2 + more for more in (0, NEAR, NEAR + 1)]
        self.assertEqual(len(self.check(["a.tal", "--budget", "150000"], moments, [("x", 1)])), 2)

    def test_many_bytes(self) -> None:
        """More than `uxn debug` shows at once: of fewer moments each is looked at, and those before them are not
        forgotten."""
        self.write("a.tal", LOOP)
        for size in (256, 300, 513):
            shown = self.answers("goto 19000", f"watch many {size}", words=["uxn-debug", "a.tal"])
            self.assertIn("\nmoment 7: " if size >= 300 else "nothing changed", shown[1], size)

    def test_a_quiet_end_behind_many_stores(self) -> None:
        """More stores than one call can show, where the last moments show none."""
        loop = "#0000 @loop INC2 DUP2 ;y STA2 DUP2 #a000 NEQ2 ?loop POP2"
        self.write("a.tal", f"LIT2 2a 10 STZ {loop} #0000 @quiet INC2 DUP2 #1000 NEQ2 ?quiet BRK @y 0000 @none")
        end = 4 + 8 * 0xA000 + 6 * 0x1000
        self.assertEqual(len(self.check(["a.tal"], [end], [("0010", 1), ("none", 300)])), 2)

    def test_random_programs(self) -> None:
        """Stores of all kinds, many into the program itself."""
        choose = random.Random(3)
        self.write("a.rom", random_rom(choose))
        self.check(["a.rom", "--rom", "--budget", "45000"], [44_999], [("0010", 1), ("0100", 300)])

    def test_a_run_that_ends_early_or_by_itself(self) -> None:
        """Its end is no stop, and a session that was shortened is followed as far as it goes."""
        self.write("r/x", "")
        self.write("r/loop/\udcff", b"")
        loop = "#0000 &loop INC2 DUP2 ;y STA2 DUP2 #3000 NEQ2 ?&loop POP2"
        key = ";name #a8 DEO2 #0010 #aa DEO2 ;to #ac DEO2"
        end = '@name "loop 00 @to $10 @x 00 @y 0000'
        self.write("a.tal", f"@main #2a ;x STA {loop} ;on-key #80 DEO2 BRK @on-key {key} BRK {end}")
        self.write("s", "frame 3\nkey 41\n")
        shown = self.answers("run", "watch x", words=["uxn-debug", "a.tal", "--script", "s", "--root", "r"])
        self.assertIn("was 00, became 2a by\nmoment 2: ", shown[1])
        self.write("b.tal", f"@main #2a ;x STA {loop} #80 #0f DEO BRK {end}")
        shown = self.answers("run", "watch x", "goto 60000", "watch to", words=["uxn-debug", "b.tal"])
        self.assertIn("was 00, became 2a by\nmoment 2: ", shown[1])
        self.assertIn("nothing changed", shown[3])

    def test_what_a_fault_leaves(self) -> None:
        """A source that is refused on `reload` leaves the old one, and an unknown label is one line."""
        self.write("a.tal", LOOP)
        terminal = self.at_terminal(["uxn-debug", "a.tal"])
        terminal.read()
        terminal.ask("goto 60000")
        self.write("a.tal", "#1")
        self.assertIn("BadNumber", terminal.ask("reload"))
        self.assertIn("moment 1: ", terminal.ask("watch 0010"))
        self.assertEqual(terminal.ask("watch no-label").count("\n"), 1)
        self.assertEqual(terminal.quit(), 0)


class Patterns(Debug):
    """What is searched for in a log against what each stop says."""

    def stop(self, choose: random.Random, moment: int) -> Stop:
        name = choose.choice(STORES) + choose.choice(MODES)
        few = (0x00, 0x01, 0x02, 0x15, 0x35, 0x7F, 0x80, 0xFE, 0xFF, 0xAD)
        both = [bytes(choose.choice(few) for _ in range(8)) for _ in range(2)]
        address = choose.choice((0x0000, 0x0101, 0x017F, 0x02FE, 0xFFF0))
        return Stop(Place(address, moment, name, ""), Stacks(*both), b"")

    def test_random_stops(self) -> None:
        choose = random.Random(7)
        stops = [self.stop(choose, 9 * number) for number in range(4000)]
        lines = [
            f"at {stop.place.address:04x} {stop.place.count} {stop.place.name}\n"
            f"WST {stop.stacks.working.hex(' ')}\nRST {stop.stacks.returning.hex(' ')}\n"
            for stop in stops
        ]
        data = "".join(lines).encode()
        places = {stop.place.address for stop in stops}
        spans = ((0, 1), (0x0101, 2), (0xFFFF, 1), (0xFFFF, 2), (0x00FE, 300), (0x80, 1), (0x1502, 4096))
        for address, length in spans:
            wanted = {(address + at) & 0xFFFF for at in range(length)}
            forms = patterns.forms(Watched(address, length), places)
            each = [at for form in forms for at, _ in form.stores(data, 0, len(data))]
            found = {patterns.stop_around(data, at).place.count for at in each}
            hits = {stop.place.count for stop in stops if stop.stored().keys() & wanted}
            self.assertEqual((hits - found, len(each)), (set(), len(found)), (address, length))
            self.assertLess(len(found), len(hits) + 500)
            targets = {at for form in forms for at in form.targets(data, 0, len(data))}
            least = {at for stop in stops for at, byte in stop.stored().items() if can_store(byte) or at in wanted}
            most = {at for stop in stops for at in stop.stored()}
            self.assertTrue(least <= targets <= most, (address, length))
        self.assertEqual(
            [patterns.DEVICES.search(line.encode()) is not None for line in lines],
            [stop.is_device() for stop in stops],
        )

    def test_where_stops_of_a_log_end(self) -> None:
        stop = "at 0100 {} STA\nWST" + " 00" * 8 + "\nRST" + " 00" * 8 + "\n"
        data = ("break 0100\n" + "".join(stop.format(at) for at in range(3, 40, 4))).encode()
        end = (stop.replace("at 0100 {} STA", "end 41") * 9).encode()
        start = len("break 0100")
        for moment in range(45):
            count = len([at for at in range(3, 40, 4) if at < moment])
            for log in (data, data + end):
                found = log[start : patterns.behind(log, start, moment)]
                self.assertEqual(found.count(b"at "), count, moment)
                self.assertTrue(not count or found.endswith(b" 00\n"))


class Endings(Debug):
    def begin_to_wait(self):
        """A session whose search back waits for calls of `uxn` that do not end; and these."""
        self.write(
            "waiting",
            "#!/bin/sh\n"
            f'[ "$1" = debug ] && [ -e .uxn-tool-rom ] || exec "{self.program}" "$@"\n'
            f'echo $$ >>"{self.path("calls")}"\nexec sleep 600\n',
        )
        os.chmod(self.path("waiting"), 0o755)
        os.mkdir(self.path("tmp"))
        self.write("a.tal", LOOP)
        self.write("calls", "")
        self.environment |= {"UXN": self.path("waiting"), "TMPDIR": self.path("tmp")}
        terminal = self.at_terminal(["uxn-debug", "a.tal"])
        terminal.read()
        terminal.ask("goto 200000")
        terminal.type("watch x\n")
        end = time.monotonic() + 60
        while not self.read("calls") and time.monotonic() < end:
            time.sleep(0.01)
        return terminal, [int(line) for line in self.read("calls").split()]

    def is_there(self, process: int) -> bool:
        try:
            os.kill(process, 0)
        except ProcessLookupError:
            return False
        return True

    def test_a_search_that_is_ended(self) -> None:
        """All calls end, and the folders go."""
        terminal, calls = self.begin_to_wait()
        terminal.process.send_signal(signal.SIGTERM)
        self.assertEqual((terminal.end(), len(calls)), (143, 1))
        self.assertEqual([call for call in calls if self.is_there(call)], [])
        self.assertEqual(os.listdir(self.path("tmp")), [])

    def test_a_search_that_is_interrupted(self) -> None:
        """The session goes on."""
        terminal, calls = self.begin_to_wait()
        terminal.process.send_signal(signal.SIGINT)
        self.assertIn("interrupted: the session stands where it was", terminal.read())
        self.assertEqual([call for call in calls if self.is_there(call)], [])
        self.assertIn("moment 200000: ", terminal.ask("where"))
        self.assertEqual(terminal.quit(), 0)
