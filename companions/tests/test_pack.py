"""hk pack writes what the model of the tools reads as the schedule has it."""

import hashlib
import json
import os

from .made import InFolder, RATE, hk, raw, silence, tune, write_raw, write_wave
from companion import streams as parts

TOML = """
[sound]
channels = 1
factor = 2
rate = 11025

[[recording]]
id = 7
title = "First tune"
artist = "Made"
file = "first.wav"

[[recording]]
id = 9
title = "Second tune"
file = "second.raw"

[[station]]
name = "Radio One"
[[station.segment]]
began = 2026-12-01T06:00:00Z
file = "day.wav"
[[station.segment]]
began = 2026-12-01T06:01:00Z
file = "day.wav"
offset = 1
seconds = 2

[[station]]
name = "Radio Two"
[[station.segment]]
began = 2026-12-01T06:00:01Z
file = "day.wav"

[[event]]
at = 2026-12-01T06:00:02Z
add = 9
withdraw = 7
"""

CSV = """kind,id,title,artist,file,station,began,offset,seconds,channels,factor,rate
sound,,,,,,,,,1,2,11025
recording,7,First tune,Made,first.wav,,,,,,,
recording,9,Second tune,,second.raw,,,,,,,
segment,,,,day.wav,Radio One,2026-12-01T06:00:00Z,,,,,
segment,,,,day.wav,Radio One,2026-12-01T06:01:00Z,1,2,,,
segment,,,,day.wav,Radio Two,2026-12-01T06:00:01Z,,,,,
withdraw,7,,,,,,,,,,
add,9,,,,,,,,,,
publish,,,,,,2026-12-01T06:00:02Z,,,,,
"""


def streams_of(data, stations=64):
    """The bytes of each stream, by the model's reading of the records."""
    streams, at = {}, 0
    while at < len(data):
        name, head = ("O", 3) if data[at : at + 1] == b"O" else (data[at + 1], 4)
        size = int.from_bytes(data[at + head - 2 : at + head], "big")
        streams[name] = streams.get(name, b"") + data[at + head : at + head + size]
        at += head + size
    return streams


def sound_of(stream):
    """The sound of each segment of a station's stream."""
    at, segments = 6, [b""]
    while at < len(stream):
        kind, size = stream[at], int.from_bytes(stream[at + 1 : at + 3], "big")
        if kind == 3:
            segments.append(b"")
        segments[-1] += stream[at + 3 : at + 3 + size] if kind == 1 else b""
        at += 3 + size
    return segments


class Packs(InFolder):
    def setUp(self):
        super().setUp()
        self.first, self.second = tune(1, 5), silence(2)
        self.second.extend(tune(2, 4))
        self.day = tune(3, 4)
        write_wave(self.path("first.wav"), self.first)
        write_raw(self.path("second.raw"), self.second)
        write_wave(self.path("day.wav"), self.day)

    def packed(self, name, text):
        schedule = self.write(name, text)
        status, _, err = hk("pack", schedule, "-o", self.path("input"))
        self.assertEqual(status, 0, err)
        return self.content("input"), json.loads(self.text("input.json"))

    def test_stations_send_the_files_sound_with_gaps_between(self):
        data, _ = self.packed("day.toml", TOML)
        streams = streams_of(data)
        self.assertEqual(streams[0][:6], parts.station_hello(1, 2))
        day = raw(self.day)
        self.assertEqual(sound_of(streams[0]), [day, day[2 * RATE : 6 * RATE]])
        self.assertEqual(sound_of(streams[1]), [day])

    def test_the_operator_adds_what_is_there_at_first_and_then_what_the_event_has(self):
        data, _ = self.packed("day.toml", TOML)
        first, second = raw(self.first), raw(self.second)
        expected = (
            b"HKO1"
            + parts.open_song(7, 1, 2)
            + b"".join(parts.audio(first[at : at + 65536]) for at in range(0, len(first), 65536))
        )
        expected += parts.CLOSE + parts.PUBLISH + parts.withdraw(7) + parts.open_song(9, 1, 2)
        expected += b"".join(parts.audio(second[at : at + 65536]) for at in range(0, len(second), 65536))
        self.assertEqual(streams_of(data)["O"], expected + parts.CLOSE + parts.PUBLISH)

    def test_an_event_comes_between_the_sound_before_and_behind_its_time(self):
        data, _ = self.packed("day.toml", TOML)
        # the event is at the clock's second 2; Radio One began at 0 in turns of a second, Radio Two at 1
        before = streams_of(data[: data.index(b"O" + b"\x00\x09" + parts.withdraw(7))])
        self.assertEqual(sound_of(before[0]), [raw(self.day)[: 4 * RATE]])
        self.assertEqual(sound_of(before[1]), [raw(self.day)[: 2 * RATE]])

    def test_csv_gives_the_same_input_as_toml(self):
        self.assertEqual(self.packed("day.csv", CSV), self.packed("day.toml", TOML))

    def test_beside_the_input_stands_what_the_report_cannot_say(self):
        data, beside = self.packed("day.toml", TOML)
        self.assertEqual(beside["sound"], {"channels": 1, "factor": 2, "rate": RATE})
        first, second = beside["recordings"]
        self.assertEqual(
            (first["id"], first["title"], first["artist"], first["seconds"]), (7, "First tune", "Made", 5.0)
        )
        self.assertEqual(first["silent"], [])
        begin, end = second["silent"][0]
        self.assertEqual(begin, 0.0)
        self.assertAlmostEqual(end, 2.0, delta=0.1)
        one, two = beside["stations"]
        self.assertEqual(
            [segment["began"] for segment in one["segments"]],
            ["2026-12-01T06:00:00.000Z", "2026-12-01T06:01:00.000Z"],
        )
        self.assertEqual([segment["seconds"] for segment in one["segments"]], [4.0, 2.0])
        self.assertEqual((two["name"], two["segments"][0]["began"]), ("Radio Two", "2026-12-01T06:00:01.000Z"))
        self.assertEqual(beside["input"]["bytes"], len(data))
        self.assertEqual(beside["input"]["sha256"], hashlib.sha256(data).hexdigest())

    def test_the_input_is_fine_by_hk_check(self):
        self.packed("day.toml", TOML)
        status, out, _ = hk("check", self.path("input"), "--stations", 2, "--rate", RATE)
        self.assertEqual(status, 0, out)

    def test_troubles_are_one_line_with_what_to_do(self):
        for text, expected in (
            (TOML.replace('"first.wav"', '"none.wav"'), "no such file; give a file of sound"),
            (TOML.replace("id = 9", "id = 7"), "the id 7 stands twice; give each recording an id of its own"),
            (
                TOML.replace("add = 9", "add = 8"),
                "an event names the id 8, which no recording has; add the recording",
            ),
            (TOML.replace("factor = 2", "factor = 3"), "factor 3; give 1, 2, 4 or 8"),
            (TOML.replace("06:01:00Z", "06:00:01Z"), "segment 1 begins before the one before it ends"),
            ("[sound", "the schedule is no TOML"),
        ):
            status, out, err = hk("pack", self.write("bad.toml", text), "-o", self.path("input"))
            self.assertEqual((status, out), (1, ""))
            self.assertIn(expected, err)
            self.assertEqual(err.count("\n"), 1, err)
        self.assertEqual([name for name in os.listdir(self.folder) if name.startswith("input")], [])
