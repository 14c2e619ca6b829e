"""hk's reading of the formats says what the model of the tools says."""

import random
import unittest

from .made import InFolder, hk
import random_replays
import replay_model as model
from companion import streams as parts

from companion.reading import Input, Settings
from companion.sound import Form


def settings_of(words):
    chosen = {name[2:]: int(number) for name, number in zip(words[1::2], words[2::2])}
    chosen.pop("flips", None)
    return Settings(**chosen)


def lines_of(settings, data, sizes):
    """What hk expects of the input, read in pieces of the sizes."""
    reader, at = Input(settings), 0
    while at < len(data):
        size = next(sizes)
        reader.push(data[at : at + size])
        at += size
    reader.finish()
    return reader.summary(), reader


class ReadingMeetsTheModel(unittest.TestCase):
    def compare(self, kind, cases, first=0):
        met = 0
        for seed in range(first, first + cases):
            words, data = random_replays.case(kind, seed)
            status, text, _ = model.outcome(words, data)
            if status == 2:
                continue
            met += 1
            draw = random.Random(seed)
            expected = [line for line in text.splitlines() if line[0] in "RT"]
            replies = [line.split(" ", 2)[2] for line in text.splitlines() if line.startswith("O ")]
            for sizes in (iter(lambda: 1 << 16, None), iter(lambda: draw.randint(1, 40), None)):
                found, reader = lines_of(settings_of(words), data, sizes)
                self.assertEqual(found, expected, f"{kind} {seed}: {' '.join(words)}")
                self.assertEqual(reader.operator.answers, replies, f"{kind} {seed}: {' '.join(words)}")
        self.assertGreater(met, cases // 4)

    def test_stations_end_as_the_model_says(self):
        self.compare("stations", 25)

    def test_stations_and_an_operator_end_as_the_model_says(self):
        self.compare("prints", 25)

    def test_commands_are_answered_as_the_model_says(self):
        self.compare("operator", 60)

    def test_a_few_bytes_end_as_the_model_says(self):
        self.compare("tiny", 400)

    def test_options_change_what_the_model_says(self):
        self.compare("words", 60)


class SoundIsCounted(unittest.TestCase):
    def test_a_segment_has_as_many_prints_as_the_model_computes(self):
        # the model gives the place of the last byte that each print needs
        for channels, factor in ((1, 1), (2, 1), (1, 2), (2, 4), (1, 8), (2, 8)):
            form = Form(channels, factor, 5512 * factor)
            for number in (0, 1, 255, 1000):
                needs = model.sound_last_byte(channels, factor, number) + 1
                self.assertEqual(form.prints(needs), number + 1)
                self.assertEqual(form.prints(needs - 1), number)


class CheckSays(InFolder):
    def input(self, name, *records):
        with open(self.path(name), "wb") as file:
            file.write(b"".join(records))
        return self.path(name)

    def test_an_input_in_order_is_fine(self):
        words = [7919 * place for place in range(300)]
        operator = b"HKO1" + parts.add(7, words) + parts.PUBLISH
        station = parts.station_hello(0, 1) + parts.packet(1, parts.prints(words))
        path = self.input(
            "fine", *(parts.operator_record(piece) for piece in (operator,)), parts.station_record(0, station)
        )
        status, out, _ = hk("check", path)
        self.assertEqual(status, 0, out)
        self.assertIn("station 0: prints, 1 segment, 300 prints, 1 blocks", out)
        self.assertIn("nothing would be refused", out)

    def test_a_station_too_many_is_named_with_what_it_needs(self):
        path = self.input(
            "many",
            parts.station_record(0, parts.station_hello(0, 1)),
            parts.station_record(2, parts.station_hello(0, 1)),
        )
        status, out, _ = hk("check", path)
        self.assertEqual(status, 1)
        self.assertIn("it needs --stations 3, and 1 would be given", out)
        self.assertIn("R bad-record 10", out)

    def test_a_short_recording_is_named(self):
        path = self.input("short", parts.operator_record(b"HKO1" + parts.add(7, [1, 2, 3]) + parts.PUBLISH))
        status, out, _ = hk("check", path)
        self.assertEqual(status, 1)
        self.assertIn("command 1 would be answered: O 1 refused short", out)

    def test_a_stream_that_ends_inside_a_packet_is_cut(self):
        path = self.input("stream", parts.station_hello(0, 1) + parts.packet(1, bytes(800))[:-5])
        status, out, _ = hk("check", path)
        self.assertEqual(status, 1)
        self.assertIn("the station: it would end with cut 804", out)

    def test_an_edit_behind_the_last_publish_is_named(self):
        path = self.input("waits", parts.operator_record(b"HKO1" + parts.PUBLISH + parts.add(7, list(range(256)))))
        status, out, _ = hk("check", path)
        self.assertEqual(status, 1)
        self.assertIn("1 edits wait for a publish that never comes", out)

    def test_silence_in_a_recording_is_told_where_it_suffices_for_a_match(self):
        sound = bytes(range(1, 251)) * 40
        quiet = sound + bytes(2 * 5512 * 4) + sound
        operator = b"HKO1" + parts.open_song(9, 1, 1) + parts.audio(quiet) + parts.CLOSE + parts.PUBLISH
        status, out, _ = hk("check", self.input("quiet", operator), "--rate", 5512)
        # 5000 samples, then four seconds of zeros; silence is found in whole grains of 128 samples
        self.assertIn("recording 9 is silent from 0.9 to 4.9 s", out)
        self.assertEqual(status, 0, out)
        # a second and a half has no block in it, and yet makes a match with silence
        short = b"HKO1" + parts.open_song(9, 1, 1) + parts.audio(sound + bytes(2 * 8268) + 2 * sound)
        status, out, _ = hk("check", self.input("short", short + parts.CLOSE + parts.PUBLISH), "--rate", 5512)
        self.assertIn("recording 9 is silent from 0.9 to 2.4 s", out)
