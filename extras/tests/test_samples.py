"""uxn-samples-to-wav and uxn-text-to-script."""
import os
import wave

from support import EXAMPLES, ToolTest, needs


class Samples(ToolTest):
    def setUp(self) -> None:
        super().setUp()
        with open(os.path.join(EXAMPLES, "chord.samples"), "rb") as file:
            self.samples = file.read()
        self.write("w", self.samples)

    def test_the_bytes_stay(self) -> None:
        self.succeed("uxn-samples-to-wav", "w", "w.wav")
        with wave.open(self.path("w.wav")) as sound:
            self.assertEqual((sound.getnchannels(), sound.getsampwidth(), sound.getframerate()), (2, 2, 44100))
            self.assertEqual(sound.readframes(sound.getnframes()), self.samples)

    def test_wrong_calls(self) -> None:
        for words in ([], ["w"], ["w", "a", "b"], ["--count", "x", "w", "o"]):
            self.refuse(2, "uxn-samples-to-wav", *words)
        self.assertIn("gone", self.refuse(1, "uxn-samples-to-wav", "gone", "o.wav"))
        self.assertIn("no samples", self.refuse(1, "uxn-samples-to-wav", self.write("empty", ""), "o.wav"))
        self.assertFalse(os.path.exists(self.path("o.wav")))
        self.refuse(1, "uxn-samples-to-wav", "w", "no/folder.wav")
        self.assertIn("usage", self.succeed("uxn-samples-to-wav", "--help"))

    def test_a_cut_pair_is_named_and_those_before_it_are_written(self) -> None:
        self.write("cut", self.samples[:-1])
        self.assertIn(f"byte {len(self.samples) - 4}", self.refuse(1, "uxn-samples-to-wav", "cut", "w.wav"))
        with wave.open(self.path("w.wav")) as sound:
            self.assertEqual(sound.getnframes(), len(self.samples) // 4 - 1)

    @needs("sox")
    def test_sox_reads_and_writes_the_same(self) -> None:
        self.succeed("uxn-samples-to-wav", "w", "w.wav")
        self.succeed("sox", "w.wav", "-t", "raw", "-L", "raw")
        self.assertEqual(self.read("raw"), self.samples)
        self.succeed("sox", "-t", "raw", "-r", "44100", "-e", "signed", "-b", "16", "-L", "-c", "2", "w", "s.wav")
        self.assertEqual(self.read("s.wav"), self.read("w.wav"))


class Texts(ToolTest):
    def test_a_text_and_arguments(self) -> None:
        script = self.succeed("uxn-text-to-script", "a b", "c", "", stdin=b"two words\nand \xc3\xa9\n")
        self.assertEqual(script, 'args 612062 "c "\ninput "two 20 "words 0a\ninput "and 20c3a90a\nend\n')
        self.write("s", script)
        self.write("a.tal", ";c #10 DEO2 BRK\n@c #12 DEI #18 DEO BRK\n")
        self.assertEqual(
            self.call("uxn", "play", "a.tal", "--script", "s").stdout, "a b\nc\n\ntwo words\nand é\n\0".encode()
        )

    def test_all_bytes(self) -> None:
        data = bytes(range(256)) * 2
        self.write("s", self.succeed("uxn-text-to-script", stdin=data))
        self.write("a.tal", ";c #10 DEO2 BRK\n@c #17 DEI #04 EQU ?{ #12 DEI #18 DEO } BRK\n")
        self.assertEqual(self.call("uxn", "play", "a.tal", "--script", "s").stdout, data)

    def test_wrong_calls(self) -> None:
        self.refuse(2, "uxn-text-to-script", "--count")
        self.assertEqual(self.succeed("uxn-text-to-script", "--", "--count"), 'args "--count\nend\n')
        self.assertIn("usage", self.succeed("uxn-text-to-script", "--help"))
