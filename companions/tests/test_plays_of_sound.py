"""From files of sound to a list of plays by three commands: pack, hkreplay, plays."""

import csv
import io
import shutil
import subprocess
import unittest

from .made import BROADCAST, NEEDS_PROGRAM, InFolder, broadcast, hk, replayed, tunes, write_wave

SCHEDULE = """
[sound]
channels = 1
factor = 2
rate = 11025

[[recording]]
id = 7
title = "First tune"
file = "first.{ending}"

[[recording]]
id = 9
title = "Second tune"
file = "second.{ending}"

[[recording]]
id = 11
title = "Never played"
file = "third.{ending}"

[[station]]
name = "Radio One"
[[station.segment]]
began = 2026-12-01T06:00:00Z
file = "broadcast.{ending}"
"""


class PlaysOfSound(InFolder):
    def plays(self, ending, made):
        """The rows of the list; `made` writes a file of sound."""
        sounds = tunes()
        sounds["broadcast"] = broadcast(sounds["first"], sounds["second"])
        for name, samples in sounds.items():
            made(name, samples)
        schedule = self.write("day.toml", SCHEDULE.format(ending=ending))
        status, _, err = hk("pack", schedule, "-o", self.path("day.input"))
        self.assertEqual(status, 0, err)
        status, report = replayed(self.path("day.input"))
        self.assertEqual(status, 0, report)
        self.write("day.report", report)
        status, out, err = hk("plays", self.path("day.report"), "--beside", self.path("day.input.json"))
        self.assertEqual(status, 0, err)
        return list(csv.DictReader(io.StringIO(out)))

    def expect(self, rows):
        self.assertEqual([row["title"] for row in rows], [title for title, *_ in BROADCAST])
        for row, (_, began, ended, at) in zip(rows, BROADCAST):
            self.assertEqual(row["began"][:17], "2026-12-01T06:00:")
            self.assertAlmostEqual(float(row["began"][17:-1]), began, delta=3)
            self.assertAlmostEqual(float(row["ended"][17:-1]), ended, delta=3)
            self.assertAlmostEqual(float(row["recording_from"]), at, delta=3)
            self.assertEqual(row["silent"], "no")

    @NEEDS_PROGRAM
    def test_plays_have_their_titles_and_clock_times_and_none_is_false(self):
        self.expect(self.plays("wav", lambda name, samples: write_wave(self.path(f"{name}.wav"), samples)))

    @NEEDS_PROGRAM
    @unittest.skipIf(shutil.which("ffmpeg") is None, "ffmpeg isn't installed")
    def test_the_same_of_files_of_mp3(self):
        def made(name, samples):
            write_wave(self.path(f"{name}.wav"), samples)
            words = [
                "ffmpeg",
                "-v",
                "error",
                "-y",
                "-i",
                self.path(f"{name}.wav"),
                "-b:a",
                "64k",
                self.path(f"{name}.mp3"),
            ]
            subprocess.run(words, check=True)

        self.expect(self.plays("mp3", made))

    @NEEDS_PROGRAM
    def test_bits_of_a_report_line_of_sound_are_as_many_as_it_says(self):
        self.plays("wav", lambda name, samples: write_wave(self.path(f"{name}.wav"), samples))
        line = next(line for line in self.text("day.report").splitlines() if ": 9@" in line)
        # of several items the one with the fewest errors is drawn
        errors = str(min(int(item.rpartition("~")[2]) for item in line.split(": ")[1].split()))
        words = ("bits", "--input", self.path("day.input"), "--line", line, "-o", self.path("block.png"))
        status, out, err = hk(*words)
        self.assertEqual(status, 0, err)
        self.assertEqual(out.split()[0], errors)
