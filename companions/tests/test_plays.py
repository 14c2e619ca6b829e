"""hk plays makes rows of report lines: one for each play, with times and titles."""

import csv
import io
import json
import os

from .made import FORM, InFolder, hk

# a print of this form begins each 128 / 11025 s, and a block hears 256 of these steps and a frame of 4096 samples
STEP = 128 / 11025
BLOCK = 256 * STEP + 4096 / 11025


def line(station, number, segment, first, items, version=1):
    return f"S {station} B {number} G {segment} W {first} V {version}: {' '.join(items) or 'none'}\n"


def blocks(items_of, count, station=0, segment=0, number=0):
    """Lines of one segment at the hop 64; `items_of` gives a line's items for its first print."""
    return [line(station, number + at, segment, 64 * at, items_of(64 * at)) for at in range(count)]


class Plays(InFolder):
    def setUp(self):
        super().setUp()
        self.beside = {
            "sound": FORM,
            "recordings": [
                {"id": 7, "title": "First tune", "artist": "Made", "seconds": 60.0, "silent": [[40.0, 60.0]]},
                {"id": 9, "title": 'A "second", tune', "artist": "", "seconds": 60.0, "silent": []},
            ],
            "stations": [
                {
                    "number": 0,
                    "name": "Radio One",
                    "segments": [
                        {"began": "2026-12-01T06:00:00.000Z", "seconds": 60.0},
                        {"began": "2026-12-01T06:01:05.000Z", "seconds": 60.0},
                    ],
                }
            ],
        }

    def plays(self, lines, *words, with_beside=True):
        report = self.write("report", "".join(lines))
        beside = ("--beside", self.write("beside.json", json.dumps(self.beside))) if with_beside else ("--factor", 2)
        status, out, err = hk("plays", report, *beside, *words)
        self.assertEqual(status, 0, err)
        return out, err

    def rows(self, lines, *words, **given):
        out, err = self.plays(lines, *words, **given)
        return list(csv.DictReader(io.StringIO(out))), err

    def test_blocks_in_a_row_are_one_play_with_its_times_and_title(self):
        # from the print 640 on the station, the recording from its word 100 on, for 20 blocks
        lines = blocks(lambda w: [f"7@{w - 540}~{500 + w % 7}"] if 640 <= w < 640 + 64 * 20 else [], 60)
        (row,), err = self.rows(lines)
        self.assertEqual(
            (row["station_name"], row["id"], row["title"], row["artist"]), ("Radio One", "7", "First tune", "Made")
        )
        self.assertEqual(row["blocks"], "20")
        self.assertEqual(row["began"], f"2026-12-01T06:00:{640 * STEP:06.3f}Z")
        last = 640 + 64 * 19
        self.assertEqual(row["ended"], f"2026-12-01T06:00:{last * STEP + BLOCK:06.3f}Z")
        self.assertAlmostEqual(float(row["recording_from"]), 100 * STEP, delta=0.001)
        self.assertAlmostEqual(float(row["seconds"]), 64 * 19 * STEP + BLOCK, delta=0.002)
        self.assertEqual((row["joins"], row["silent"]), ("0", "no"))
        self.assertIn("1 plays", err)

    def test_missing_blocks_are_joined_and_said(self):
        # the blocks from 640 to 1279 have no match: from the end of block 576 to the beginning of 1280
        lines = blocks(lambda w: [] if 640 <= w < 1280 else [f"7@{w}~800"], 40)
        (row,), err = self.rows(lines)
        missing = 1280 * STEP - (576 * STEP + BLOCK)
        self.assertEqual(row["joins"], "1")
        self.assertAlmostEqual(float(row["joined_seconds"]), missing, delta=0.002)
        self.assertIn(
            f"joined: First tune on Radio One, second {576 * STEP + BLOCK:.1f}, over {missing:.1f} seconds", err
        )

    def test_a_longer_pause_makes_two_plays(self):
        lines = blocks(lambda w: [] if 640 <= w < 1280 else [f"7@{w}~800"], 40)
        rows, err = self.rows(lines, "--join", 2)
        self.assertEqual([row["blocks"] for row in rows], ["10", "20"])
        self.assertNotIn("joined:", err)

    def test_a_recording_played_again_from_its_beginning_is_two_plays(self):
        lines = blocks(lambda w: [f"7@{w % 1280}~800"], 40)
        rows, _ = self.rows(lines)
        self.assertEqual([row["blocks"] for row in rows], ["20", "20"])
        self.assertEqual([float(row["recording_from"]) for row in rows], [0.0, 0.0])

    def test_a_play_goes_on_over_a_gap_of_the_stream(self):
        # the first segment ends at 60 s; the second begins at 65 s of the clock, with the recording 65 s in
        first = blocks(lambda w: [f"9@{w}~700"], 75)
        second = blocks(lambda w: [f"9@{w + round(65 / STEP)}~700"], 10, segment=1, number=75)
        (row,), err = self.rows(first + second)
        self.assertEqual((row["blocks"], row["joins"]), ("85", "1"))
        self.assertEqual(row["began"], "2026-12-01T06:00:00.000Z")
        self.assertIn("joined:", err)

    def test_of_several_items_the_fewest_errors_count(self):
        lines = blocks(lambda w: [f"7@{w}~400", f"7@{w + 3000}~2800"], 20)
        (row,), _ = self.rows(lines)
        self.assertEqual((row["blocks"], row["recording_from"], row["errors_least"]), ("20", "0.0", "400"))

    def test_a_repeat_inside_a_play_is_no_play_of_its_own(self):
        # three blocks in the middle match a copy of the passage a little better
        lines = blocks(lambda w: [f"7@{w}~400"] + ([f"7@{w + 3000}~300"] if 640 <= w < 832 else []), 30)
        (row,), _ = self.rows(lines)
        self.assertEqual((row["blocks"], row["recording_from"]), ("27", "0.0"))

    def test_two_recordings_at_once_are_two_plays(self):
        lines = blocks(lambda w: [f"7@{w}~400", f"9@{w + 50}~900"], 20)
        rows, _ = self.rows(lines)
        self.assertEqual([(row["id"], row["blocks"]) for row in rows], [("7", "20"), ("9", "20")])

    def test_silence_is_marked_and_can_be_left_out(self):
        # the recording is silent from 40 s on: word 3446 and more
        lines = blocks(lambda w: [f"7@{w + 3500}~0"] if w < 640 else [], 20)
        (row,), err = self.rows(lines)
        self.assertEqual(row["silent"], "yes")
        self.assertIn("1 plays are of silence, and marked silent", err)
        rows, err = self.rows(lines, "--without-silent")
        self.assertEqual(rows, [])
        self.assertIn("left out", err)

    def test_silence_of_the_station_is_marked_too(self):
        # the station is silent from 20 s on, and the recording there is only soft
        self.beside["stations"][0]["segments"][0]["silent"] = [[20.0, 60.0]]
        first = round(20 / STEP) // 64 * 64
        lines = blocks(lambda w: ["9@5~2000"] if w in (first, first + 640) else [f"9@{w}~300"] if w < 960 else [], 60)
        rows, _ = self.rows(lines, "--join", 0)
        self.assertEqual([row["silent"] for row in rows], ["no", "yes", "yes"])

    def test_a_play_may_be_a_little_faster_over_missing_blocks(self):
        # one print in a hundred is left out, and the blocks of 15 s have no match
        lines = blocks(lambda w: [] if 640 <= w < 1920 else [f"7@{w + w // 100}~800"], 60)
        (row,), _ = self.rows(lines)
        self.assertEqual((row["joins"], row["blocks"]), ("1", "40"))

    def test_short_plays_can_be_left_out(self):
        lines = blocks(lambda w: [f"7@{w}~400"] if w < 640 else ([f"9@{w}~2800"] if w == 1280 else []), 40)
        rows, err = self.rows(lines, "--least", 2)
        self.assertEqual([row["id"] for row in rows], ["7"])
        self.assertIn("1 plays of fewer than 2 blocks are left out", err)

    def test_without_what_stands_beside_there_are_seconds_and_ids(self):
        lines = blocks(lambda w: [f"7@{w}~400"], 20, station=3)
        (row,), _ = self.rows(lines, with_beside=False)
        self.assertEqual(
            (row["station_name"], row["title"], row["began"], row["station_second"]), ("station 3", "", "", "0.0")
        )

    def test_json_has_the_same_plays(self):
        lines = blocks(lambda w: [f"9@{w}~400"], 20)
        (found,) = json.loads(self.plays(lines, "--format", "json")[0])
        self.assertEqual((found["title"], found["blocks"], found["silent"]), ('A "second", tune', 20, False))

    def test_a_cue_sheet_has_each_play_as_a_track(self):
        lines = blocks(lambda w: [f"7@{w}~400"] if w < 640 else [f"9@{w - 1280}~400"] if w >= 1280 else [], 40)
        out, _ = self.plays(lines, "--format", "cue")
        frames = round(round(1280 * STEP, 3) * 75)
        index = f"{frames // 4500:02}:{frames // 75 % 60:02}:{frames % 75:02}"
        self.assertEqual(
            out.splitlines(),
            [
                'TITLE "Radio One"',
                'FILE "Radio One.wav" WAVE',
                "  TRACK 01 AUDIO",
                '    TITLE "First tune"',
                '    PERFORMER "Made"',
                "    REM BEGAN 2026-12-01T06:00:00.000Z",
                "    INDEX 01 00:00:00",
                "  TRACK 02 AUDIO",
                "    TITLE \"A 'second', tune\"",
                f"    REM BEGAN 2026-12-01T06:00:{1280 * STEP:06.3f}Z",
                f"    INDEX 01 {index}",
            ],
        )

    def test_a_cue_sheet_of_two_stations_asks_for_one(self):
        lines = blocks(lambda w: [f"7@{w}~4"], 5) + blocks(lambda w: [f"7@{w}~4"], 5, station=1)
        report = self.write("report", "".join(lines))
        status, _, err = hk("plays", report, "--format", "cue")
        self.assertEqual(
            (status, err.splitlines()[-1]),
            (1, "hk plays: a cue sheet is of one station, and these are 2; give --station N"),
        )

    def test_a_report_that_is_not_whole_is_said(self):
        lines = blocks(lambda w: [f"7@{w}~4"], 5) + ["T S 0 5 1 cut 100\n", "R too-long 100\n", "S 0 B 5 G 0 W 3"]
        rows, err = self.rows(lines)
        self.assertEqual(len(rows), 1)
        self.assertIn("T S 0 5 1 cut 100: station 0", err)
        self.assertIn("R too-long 100: the input has more than 100 bytes", err)

    def test_logs_of_several_stations_are_read_together(self):
        one = self.write("log-0.log", "".join(blocks(lambda w: [f"7@{w}~4"], 5)))
        two = self.write("log-1.log", "".join(blocks(lambda w: [f"9@{w}~4"], 5, station=1)))
        status, _, err = hk("plays", one, two, "-o", os.path.join(self.folder, "list.csv"))
        self.assertEqual(status, 0, err)
        rows = list(csv.DictReader(io.StringIO(self.text("list.csv"))))
        self.assertEqual([(row["station"], row["id"]) for row in rows], [("0", "7"), ("1", "9")])

    def test_a_file_that_is_no_report_is_refused_by_its_line(self):
        status, _, err = hk("plays", self.write("report", "S 0 B zero\n"))
        self.assertEqual(
            (status, err), (1, "hk plays: 'S 0 B zero' is no report line; give what hkreplay or hkmon wrote\n")
        )
