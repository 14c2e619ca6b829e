"""hk explain has a text for each status and for each line that the programs print."""

import unittest

from .made import hk

STATUSES = (0, 2, 3, 4, 5, 6, 7, 8, 9)
# one line of each form that docs/FORMATS.md has
LINES = (
    "S 0 B 12 G 0 W 768 V 1: none",
    "S 63 B 0 G 2 W 0 V 3: 7@12~310 9@0~2867",
    "O 1 ok",
    "O 2 published 1",
    *(
        f"O 3 refused {reason}"
        for reason in (
            "duplicate short songs-full positions-full no-memory song-open no-song-open unknown versions-full".split()
        )
    ),
    *(
        f"T S 0 12 3 {end}"
        for end in (
            "ended",
            "cut 100",
            "too-long 100",
            "bad-hello 0",
            "bad-kind 6",
            "bad-length 7",
            "bad-mask 20",
            "fence-ahead 2 1",
            "read-fault",
            "sink-fault",
            "gate-fault",
        )
    ),
    "T O 3 1 ended",
    "T O 3 1 cut 7",
    "T O 3 1 bad-format 13",
    "T M 2 5 4",
    "R read-fault",
    "R bad-record 0",
    "R too-long 100",
    "M blocks 59 matches 42 versions 2",
)


class Explains(unittest.TestCase):
    def test_each_status_has_a_text(self):
        for status in STATUSES:
            code, out, err = hk("explain", status)
            self.assertEqual((code, err), (0, ""))
            self.assertGreater(len(out), 40)

    def test_each_line_has_a_text_of_its_own(self):
        texts = set()
        for line in LINES:
            code, out, err = hk("explain", line)
            self.assertEqual((code, err), (0, ""), line)
            texts.add(out)
        self.assertEqual(len(texts), len(LINES))

    def test_numbers_of_the_line_stand_in_the_text(self):
        self.assertIn("its bytes ended after 100", hk("explain", "T S 0 12 3 cut 100")[1])
        self.assertIn("asked for version 2, and the catalogue had 1", hk("explain", "T S 0 12 3 fence-ahead 2 1")[1])
        self.assertIn("recording 7 from word 12, 310 of 8192 bits differ", hk("explain", LINES[1])[1])

    def test_what_no_program_says_is_refused(self):
        for line in ("1", "hello", "T S 0 12 3 cut", "O 3 refused why", "R", "S 0 B"):
            code, out, err = hk("explain", line)
            self.assertEqual((code, out), (1, ""), line)
            self.assertIn("is nothing that the programs say", err)
