"""uxn-frames-to-png: PNG files of pictures that other programs read as the same pictures."""
import os
import struct

from support import EXAMPLES, ToolTest, needs


class Frames(ToolTest):
    def setUp(self) -> None:
        super().setUp()
        with open(os.path.join(EXAMPLES, "bounce.ppm"), "rb") as file:
            self.write("p.ppm", file.read())

    def test_each_picture_and_all(self) -> None:
        self.succeed("uxn-frames-to-png", "p.ppm", "p", "2")
        self.assertEqual(sorted(name for name in os.listdir(self.folder) if name.startswith("p")),
                         ["p-1.png", "p-2.png", "p-3.png", "p.png", "p.ppm"])
        width, height = map(int, self.read("p.ppm").split(b"\n", 2)[1].split())
        self.assertEqual(struct.unpack(">II", self.read("p-1.png")[16:24]), (2 * width, 2 * height))

    def test_a_cut_picture_is_named_and_those_before_it_are_written(self) -> None:
        self.write("p.ppm", self.read("p.ppm")[:-1])
        self.assertIn("picture 3", self.refuse(1, "uxn-frames-to-png", "p.ppm", "p"))
        self.assertTrue(os.path.exists(self.path("p-2.png")) and not os.path.exists(self.path("p-3.png")))

    def test_wrong_calls(self) -> None:
        self.refuse(2, "uxn-frames-to-png")
        self.refuse(2, "uxn-frames-to-png", "p.ppm", "p", "0")
        self.refuse(1, "uxn-frames-to-png", "gone.ppm", "p")
        self.assertIn("no picture", self.refuse(1, "uxn-frames-to-png", self.write("empty", ""), "p"))

    @needs("convert", "ffmpeg")
    def test_other_programs_read_the_same(self) -> None:
        if b"ImageMagick" not in self.call("convert", "-version").stdout:
            self.skipTest("convert is not ImageMagick's")
        self.succeed("uxn-frames-to-png", "p.ppm", "p", "2")
        self.succeed("convert", "p.ppm", "-sample", "200%", "wanted.ppm")
        self.succeed("convert", "p-1.png", "p-2.png", "p-3.png", "got.ppm")
        self.assertEqual(self.read("wanted.ppm"), self.read("got.ppm"))
        self.succeed(*"ffmpeg -v error -f apng -i p.png -f image2pipe -c:v ppm film.ppm".split())
        self.assertEqual(self.read("wanted.ppm"), self.read("film.ppm"))
