"""uxn-film: every frame of a run as an animated PNG, as pictures for others, or as a video."""
import os
import re
import struct
import zlib

from support import EXAMPLES, ToolTest, needs

RESIZED = """|20 @Screen &vector $2 &width $2 &height $2 &auto $1 &pad $1 &x $2 &y $2 &addr $2 &pixel $1
|0100 @on-reset #0010 .Screen/width DEO2 #000c .Screen/height DEO2 #f0f0 #08 DEO2 #0f00 #0a DEO2 ;on-frame .Screen/vector DEO2 BRK
@on-frame #01 .Screen/pixel DEO .Screen/x DEI2 INC2 .Screen/x DEO2
.Screen/x DEI2 #0005 EQU2 ?{ BRK } #0008 .Screen/width DEO2 BRK
"""


def chunks(data: bytes) -> list[tuple[bytes, bytes]]:
    """The parts of a PNG file, each with its checksum compared."""
    found, at = [], 8
    while at < len(data):
        size, name = struct.unpack_from(">I4s", data, at)
        body = data[at + 8 : at + 8 + size]
        if zlib.crc32(name + body) != struct.unpack_from(">I", data, at + 8 + size)[0]:
            raise AssertionError(f"the checksum of {name!r} at {at}")
        found.append((name, body))
        at += 12 + size
    return found


def frames(data: bytes) -> list[tuple[int, bytes]]:
    """The pictures of an animated PNG as a player draws them, each with its thousandths of a second."""
    parts = chunks(data)
    width, height = struct.unpack_from(">II", parts[0][1])
    canvas, found = bytearray(3 * width * height), []
    numbers = [struct.unpack_from(">I", body)[0] for name, body in parts if name in (b"fcTL", b"fdAT")]
    assert numbers == list(range(len(numbers)))
    for (name, control), (_, body) in zip(parts, parts[1:]):
        if name != b"fcTL":
            continue
        _, wide, high, left, top, delay, of, _, _ = struct.unpack(">IIIIIHHBB", control)
        assert (left, of) == (0, 1000)
        raw = zlib.decompress(body if not found else body[4:])
        for row in range(high):
            line = raw[row * (3 * wide + 1) : (row + 1) * (3 * wide + 1)]
            assert line[0] == 0
            at = 3 * width * (top + row)
            canvas[at : at + 3 * wide] = line[1:]
        found.append((delay, bytes(canvas)))
    return found


class Film(ToolTest):
    def setUp(self) -> None:
        super().setUp()
        for name in ("bounce.tal", "bounce.script", "chord.tal", "chord.script"):
            with open(os.path.join(EXAMPLES, name), "rb") as file:
                self.write(name, file.read())

    def shots(self, script: str) -> list[bytes]:
        """The pixels of the pictures that `uxn play` takes of a script."""
        self.write("own.script", script)
        self.succeed("uxn", "play", "bounce.tal", "--script", "own.script", "--frames", "own.ppm")
        return [data[len(data) - 64 * 48 * 3 :] for data in self.read("own.ppm").split(b"P6\n64 48\n255\n")[1:]]

    def test_every_frame(self) -> None:
        """The film has the very pictures that a script with a shot after each frame takes."""
        self.write("s", "frame 20\nshot\nframe\nframe 3\n")
        self.succeed("uxn-film", "bounce.tal", "--script", "s", "--to", "f.png")
        wanted = self.shots("frame\nshot\n" * 24)
        got = [picture for delay, picture in frames(self.read("f.png")) for _ in range(round(delay * 60 / 1000))]
        self.assertEqual(got, wanted)
        self.assertEqual(self.read("s"), b"frame 20\nshot\nframe\nframe 3\n")

    def test_some_frames(self) -> None:
        self.write("s", "frame 30\n")
        options = "--from 5 --to-frame 25 --every 10 --to -".split()
        done = self.call("uxn-film", "bounce.tal", "--script", "s", *options)
        got = [data[len(data) - 64 * 48 * 3 :] for data in done.stdout.split(b"P6\n64 48\n255\n")[1:]]
        self.assertEqual(got, self.shots("frame 5\nshot\nframe 10\nshot\nframe 10\nshot\n"))

    def test_scaled(self) -> None:
        self.write("s", "frame 2\n")
        self.succeed("uxn-film", "bounce.tal", "--script", "s", "--to", "f.png", "--scale", "3")
        small, (_, large) = self.shots("frame\nshot\n")[0], frames(self.read("f.png"))[0]
        for x, y in ((0, 0), (17, 30), (63, 47)):
            self.assertEqual(large[3 * (192 * (3 * y + 2) + 3 * x + 1) :][:3], small[3 * (64 * y + x) :][:3])

    def test_a_screen_that_gets_smaller(self) -> None:
        """What lies beside a smaller picture is black."""
        self.write("a.tal", RESIZED)
        self.write("s", "frame 8\n")
        self.succeed("uxn-film", "a.tal", "--script", "s", "--to", "f.png")
        found = frames(self.read("f.png"))
        last = found[-1][1]
        self.assertEqual({last[3 * (16 * y + x) :][:3] for y in range(12) for x in range(8, 16)}, {bytes(3)})
        self.assertNotEqual(last[:3], bytes(3))

    @needs("ffmpeg")
    def test_a_video_with_its_sound(self) -> None:
        self.succeed("uxn-film", "chord.tal", "--script", "chord.script", "--to", "f.mp4")
        said = self.call("ffmpeg", "-i", "f.mp4").stderr.decode()
        self.assertTrue(re.search("Video: h264", said) and re.search("Audio: aac", said), said)

    def test_runs_that_are_refused(self) -> None:
        self.write("s", "frame 2\n")
        self.assertIn("BadNumber", self.refuse(131, "uxn-film", self.write("a.tal", "#1"), "--script", "s", "--to", "f.png"))
        self.refuse(132, "uxn-film", "bounce.tal", "--script", self.write("t", "frame 0x\n"), "--to", "f.png")
        self.assertIn("no frame", self.refuse(1, "uxn-film", "bounce.tal", "--to", "f.png"))
        self.assertFalse(os.path.exists(self.path("f.png")))

    def test_wrong_calls(self) -> None:
        self.refuse(2, "uxn-film", "bounce.tal")
        self.assertIn(".mp4", self.refuse(2, "uxn-film", "bounce.tal", "--to", "f.txt"))
        self.refuse(2, "uxn-film", "bounce.tal", "--to", "f.png", "--scale", "0")
        self.assertIn("uxn-film SRC", self.succeed("uxn-film", "--help"))
