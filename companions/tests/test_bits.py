"""hk bits draws what differs."""

import random
import struct
import zlib

from .made import InFolder, hk
from companion import streams as parts


def decoded(content):
    """Rows of pixels of a PNG of three bytes a pixel and without filters."""
    assert content[:8] == b"\x89PNG\r\n\x1a\n"
    at, data, size = 8, b"", None
    while at < len(content):
        length, kind = struct.unpack(">I4s", content[at : at + 8])
        chunk = content[at + 8 : at + 8 + length]
        assert struct.unpack(">I", content[at + 8 + length : at + 12 + length])[0] == zlib.crc32(kind + chunk)
        if kind == b"IHDR":
            size = struct.unpack(">II", chunk[:8])
            assert chunk[8:] == bytes([8, 2, 0, 0, 0])
        elif kind == b"IDAT":
            data += chunk
        at += 12 + length
    raw, (width, height) = zlib.decompress(data), size
    rows = [raw[first : first + 3 * width + 1] for first in range(0, len(raw), 3 * width + 1)]
    assert len(rows) == height and not any(row[0] for row in rows)
    return [[tuple(row[1 + 3 * x : 4 + 3 * x]) for x in range(width)] for row in rows]


class Draws(InFolder):
    def setUp(self):
        super().setUp()
        draw = random.Random(5)
        self.known = [draw.getrandbits(32) for _ in range(300)]
        self.wrong = [1 << draw.randrange(32) if place % 2 else 0 for place in range(256)]
        # what is heard: ten other words, then the recording from its word 20 on with a wrong bit in every other word
        self.heard = [draw.getrandbits(32) for _ in range(10)] + [
            word ^ bit for word, bit in zip(self.known[20:], self.wrong)
        ]

    def panels(self, name):
        """The words of the three panels, read out of the picture."""
        rows = decoded(self.content(name))[4:-4]
        panels = []
        for left in (4, 40, 76):
            words = []
            for row in rows:
                bits = [row[left + bit] != (255, 255, 255) for bit in range(32)]
                words.append(int("".join("1" if bit else "0" for bit in bits), 2))
            panels.append(words)
        return panels

    def expect(self, out):
        self.assertIn("128 of 8192 bits differ (1.6 %)", out)
        heard, known, different = self.panels("block.png")
        self.assertEqual(heard, self.heard[10:266])
        self.assertEqual(known, self.known[20:276])
        self.assertEqual(different, self.wrong)

    def test_prints_give_three_panels(self):
        for name, words in (("heard", self.heard), ("known", self.known)):
            self.write(name, "".join(f"{place} {word:08x} 00000000\n" for place, word in enumerate(words)))
        status, out, err = hk(
            *("bits", "--block", self.path("heard"), "--from", 10, "--recording", self.path("known"), "--at", 20),
            *("--scale", 1, "-o", self.path("block.png")),
        )
        self.assertEqual(status, 0, err)
        self.expect(out)

    def test_a_report_line_gives_the_words_of_its_input(self):
        # the recording is there as others at first; the line's version has it
        others = [word ^ 0xFFFF for word in self.known]
        operator = (
            b"HKO1"
            + parts.add(7, others)
            + parts.PUBLISH
            + parts.withdraw(7)
            + parts.add(7, self.known)
            + parts.PUBLISH
        )
        operator += parts.withdraw(7) + parts.add(7, others) + parts.PUBLISH
        stream = parts.station_hello(0, 1) + parts.GAP + parts.packet(1, parts.prints(self.heard, 3))
        with open(self.path("input"), "wb") as file:
            file.write(b"".join(parts.operator_record(piece) for piece in parts.pieces(operator, 1000)))
            file.write(b"".join(parts.station_record(1, piece) for piece in parts.pieces(stream, 77)))
        line = "S 1 B 0 G 1 W 10 V 2: 7@20~128 9@3~2000"
        status, out, err = hk(
            "bits", "--input", self.path("input"), "--line", line, "--scale", 1, "-o", self.path("block.png")
        )
        self.assertEqual(status, 0, err)
        self.expect(out)

    def test_a_line_of_another_input_is_refused(self):
        with open(self.path("input"), "wb") as file:
            file.write(parts.station_record(0, parts.station_hello(0, 1)))
        line = "S 0 B 0 G 0 W 10 V 2: 7@20~128"
        status, _, err = hk("bits", "--input", self.path("input"), "--line", line, "-o", self.path("block.png"))
        self.assertEqual((status, err.count("\n")), (1, 1))
        self.assertIn("the input has no such block or recording", err)
