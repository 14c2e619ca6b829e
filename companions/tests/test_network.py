"""hk send and hk operate speak with hkmon as the formats have it; here a made one listens."""

import calendar
import json
import os
import shutil
import socket
import subprocess
import sys
import threading
import time
import unittest
from unittest.mock import patch

from .made import HK, InFolder, RATE, hk, raw, silence, tune, write_wave
from .test_pack import sound_of, streams_of
from companion import streams as parts
from companion.kept import KeptStream


class Monitor:
    """Listens on a port of loopback; keeps each connection's bytes in the order of connections, and may answer."""

    def __init__(self, test, answer=None):
        self.listener = socket.create_server(("127.0.0.1", 0))
        self.port = self.listener.getsockname()[1]
        self.streams, self.threads, self.answer = [], [], answer
        # finish connects from this socket: what was sent before it has been accepted when it is
        self.last = socket.socket()
        self.last.bind(("127.0.0.1", 0))
        test.addCleanup(self.close)
        self.accepting = threading.Thread(target=self.accept, daemon=True)
        self.accepting.start()

    def address(self):
        return f"127.0.0.1:{self.port}"

    def accept(self):
        while True:
            try:
                connection, peer = self.listener.accept()
            except OSError:
                return
            if peer == self.last.getsockname():
                connection.close()
                return
            stream = bytearray()
            self.streams.append(stream)
            thread = threading.Thread(target=self.hear, args=(connection, stream), daemon=True)
            self.threads.append(thread)
            thread.start()

    def hear(self, connection, stream):
        said = 0
        with connection:
            while piece := connection.recv(65536):
                stream += piece
                if self.answer is not None:
                    lines = self.answer(bytes(stream))
                    connection.sendall("".join(line + "\n" for line in lines[said:]).encode())
                    said = len(lines)

    def finish(self):
        """Wait until every connection made so far has been accepted and heard to its end."""
        self.last.connect(("127.0.0.1", self.port))
        self.accepting.join(10)
        for thread in self.threads:
            thread.join(10)

    def close(self):
        self.listener.close()
        self.last.close()


def replies(stream):
    """A good reply to each whole command so far."""
    kinds, at = [], 4
    while len(stream) >= at + 5 and len(stream) >= at + 5 + int.from_bytes(stream[at + 1 : at + 5], "big"):
        kinds.append(stream[at])
        at += 5 + int.from_bytes(stream[at + 1 : at + 5], "big")
    lines, version = [], 0
    for number, kind in enumerate(kinds, 1):
        version += kind == 6
        lines.append(f"O {number} published {version}" if kind == 6 else f"O {number} ok")
    return lines


class Sends(InFolder):
    def setUp(self):
        super().setUp()
        self.tunes = [tune(1, 3), tune(2, 2)]
        for number, samples in enumerate(self.tunes):
            write_wave(self.path(f"{number}.wav"), samples)
        self.form = ("--channels", 1, "--factor", 2)

    def test_files_are_stations_in_their_order(self):
        monitor = Monitor(self)
        status, _, err = hk("send", self.path("0.wav"), self.path("1.wav"), "--to", monitor.address(), *self.form)
        self.assertEqual(status, 0, err)
        monitor.finish()
        self.assertEqual([bytes(stream[:6]) for stream in monitor.streams], [parts.station_hello(1, 2)] * 2)
        self.assertEqual([sound_of(stream) for stream in monitor.streams], [[raw(samples)] for samples in self.tunes])
        self.assertIn("station 1: 2.0 seconds sent", err)

    def test_a_fence_comes_before_the_sound(self):
        monitor = Monitor(self)
        status, _, err = hk("send", self.path("0.wav"), "--fence", 3, "--to", monitor.address(), *self.form)
        self.assertEqual(status, 0, err)
        monitor.finish()
        self.assertEqual(bytes(monitor.streams[0][:13]), parts.station_hello(1, 2) + parts.fence(3))

    def test_a_live_source_that_ends_is_opened_again_with_a_gap(self):
        monitor = Monitor(self)
        words = ("send", self.path("1.wav"), "--live", "--seconds", 2.5, "--to", monitor.address(), *self.form)
        status, _, err = hk(*words)
        self.assertEqual(status, 0, err)
        monitor.finish()
        # the file is sent at once, and again after pauses of 1 s and 2 s: one stream, one connection
        self.assertEqual(len(monitor.streams), 1)
        self.assertEqual(sound_of(monitor.streams[0])[:2], [raw(self.tunes[1])] * 2)
        self.assertIn("it is opened again in 1 s", err)

    def test_raw_sound_comes_from_standard_input(self):
        monitor = Monitor(self)
        words = [
            sys.executable,
            HK,
            "send",
            "-",
            "--to",
            monitor.address(),
            "--channels",
            "1",
            "--factor",
            "2",
            "--quiet",
        ]
        done = subprocess.run(words, input=raw(self.tunes[0]), capture_output=True, check=False, timeout=30)
        self.assertEqual((done.returncode, done.stderr), (0, b""))
        monitor.finish()
        self.assertEqual(sound_of(monitor.streams[0]), [raw(self.tunes[0])])

    def test_the_first_sound_waits_as_long_as_is_said(self):
        monitor, kept = Monitor(self), self.path("kept")
        words = ("send", self.path("0.wav"), "--wait", 1.5, "--keep", kept, "--to", monitor.address(), *self.form)
        status, _, err = hk(*words)
        self.assertEqual(status, 0, err)
        monitor.finish()
        self.assertEqual(sound_of(monitor.streams[0]), [raw(self.tunes[0])])
        hello, first, *_ = KeptStream(os.path.join(kept, "station-0.kept")).pieces()
        self.assertGreaterEqual(first[0] - hello[0], 1.4)

    def test_real_time_takes_as_long_as_it_plays(self):
        monitor = Monitor(self)
        began = time.monotonic()
        status, _, err = hk("send", self.path("1.wav"), "--real-time", "--to", monitor.address(), *self.form)
        self.assertEqual(status, 0, err)
        self.assertGreaterEqual(time.monotonic() - began, 1.7)

    def refused_at_once(self, *words):
        """What is said, where no connection is made."""
        monitor = Monitor(self)
        status, _, err = hk("send", *words, "--to", monitor.address(), *self.form)
        monitor.finish()
        self.assertEqual((status, err.count("\n"), monitor.streams), (1, 1, []))
        return err

    def test_a_source_that_cannot_be_opened_takes_no_station(self):
        self.assertIn("none.wav: no such file", self.refused_at_once(self.path("0.wav"), self.path("none.wav")))
        with patch.dict(os.environ, {"PATH": self.folder}):
            self.assertIn("ffmpeg isn't there; install it", self.refused_at_once("http://127.0.0.1:1/none.mp3"))
            write_wave(self.path("song.mp3"), self.tunes[0])
            self.assertIn("ffmpeg isn't there; install it", self.refused_at_once(self.path("song.mp3")))
        two_names = self.refused_at_once(self.path("0.wav"), "--name", "One", "--name", "Two")
        self.assertIn("give --name once for each source", two_names)

    @unittest.skipIf(shutil.which("ffmpeg") is None, "ffmpeg isn't installed")
    def test_it_is_said_why_a_live_source_failed(self):
        monitor = Monitor(self)
        status, _, err = hk("send", "http://127.0.0.1:1/none.mp3", "--seconds", 1, "--to", monitor.address())
        self.assertEqual(status, 0, err)
        self.assertRegex(err, r"has ended \(.*Connection refused\); it is opened again in 1 s")

    def test_a_monitor_that_is_not_there_is_one_line(self):
        with socket.create_server(("127.0.0.1", 0)) as free:
            port = free.getsockname()[1]
        status, _, err = hk("send", self.path("0.wav"), "--to", f"127.0.0.1:{port}", *self.form)
        self.assertEqual((status, err.count("\n")), (1, 1))
        self.assertIn(f"127.0.0.1:{port} takes no station", err)


class Operates(InFolder):
    def test_commands_are_sent_and_their_replies_shown(self):
        monitor = Monitor(self, replies)
        sound = silence(2)
        sound.extend(tune(1, 4))
        write_wave(self.path("song.wav"), sound)
        words = list(range(300))
        self.write("song.prints", "".join(f"{place} {word:08x} 00000000\n" for place, word in enumerate(words)))
        commands = self.write(
            "commands",
            f"# the day's catalogue\nadd 7 {self.path('song.wav')} 'First tune' Made\n"
            f"words 9 {self.path('song.prints')} Second\npublish\nwithdraw 9\npublish\n",
        )
        keep = self.path("kept")
        status, out, err = hk(
            "operate", commands, "--to", monitor.address(), "--channels", 1, "--factor", 2, "--keep", keep
        )
        self.assertEqual(status, 0, err)
        monitor.finish()
        expected = b"HKO1" + parts.open_song(7, 1, 2) + parts.audio(raw(sound)) + parts.CLOSE + parts.add(9, words)
        self.assertEqual(bytes(monitor.streams[0]), expected + parts.PUBLISH + parts.withdraw(9) + parts.PUBLISH)
        self.assertEqual(
            out.splitlines(),
            [
                "O 1 ok\topen 7",
                "O 2 ok\tsound of 7",
                "O 3 ok\tadd 7",
                "O 4 ok\tadd 9",
                "O 5 published 1\tpublish",
                "O 6 ok\twithdraw 9",
                "O 7 published 2\tpublish",
            ],
        )
        titles = [json.loads(line) for line in self.text(os.path.join("kept", "recordings.jsonl")).splitlines()]
        self.assertEqual(
            [(one["id"], one["title"], one["artist"]) for one in titles],
            [(7, "First tune", "Made"), (9, "Second", "")],
        )
        self.assertEqual(titles[0]["silent"][0][0], 0.0)

    def test_a_refusal_is_explained_and_the_rest_goes_on(self):
        monitor = Monitor(
            self, lambda stream: [f"O {n} refused unknown" for n in range(1, 1 + (len(stream) - 4) // 9)]
        )
        status, out, err = hk(
            "operate", self.write("commands", "withdraw 7\nwithdraw 8\n"), "--to", monitor.address()
        )
        self.assertEqual(status, 1)
        self.assertEqual(out, "O 1 refused unknown\twithdraw 7\nO 2 refused unknown\twithdraw 8\n")
        self.assertIn("refused unknown: no recording has this id.", err)

    def test_a_line_that_is_no_command_ends_nothing(self):
        monitor = Monitor(self, replies)
        status, out, err = hk("operate", self.write("commands", "publich\npublish\n"), "--to", monitor.address())
        self.assertEqual((status, out), (1, "O 1 published 1\tpublish\n"))
        self.assertIn("'publich' is no command; see hk operate --help", err)


class Keeps(InFolder):
    def test_what_was_sent_becomes_the_input_of_a_replay(self):
        stations, operator, keep = Monitor(self), Monitor(self, replies), self.path("kept")
        write_wave(self.path("song.wav"), tune(1, 4))
        write_wave(self.path("day.wav"), tune(2, 3))
        form = ("--channels", 1, "--factor", 2, "--keep", keep)
        commands = self.write("commands", f"add 7 {self.path('song.wav')} 'First tune'\npublish\n")
        self.assertEqual(hk("operate", commands, "--to", operator.address(), *form)[0], 0)
        began = time.time()
        sent = ("send", self.path("day.wav"), self.path("song.wav"), "--name", "One", "--name", "Two")
        sent = (*sent, "--to", stations.address())
        self.assertEqual(hk(*sent, *form)[0], 0)
        stations.finish()
        operator.finish()
        status, _, err = hk("pack", "--kept", keep, "-o", self.path("input"))
        self.assertEqual(status, 0, err)
        streams = streams_of(self.content("input"))
        self.assertEqual(streams["O"], bytes(operator.streams[0]))
        self.assertEqual([streams[0], streams[1]], [bytes(stream) for stream in stations.streams])
        # the catalogue was published before anything was sent, and so it comes first in the input
        self.assertLess(self.content("input").index(parts.PUBLISH), self.content("input").index(b"HKS1"))
        beside = json.loads(self.text("input.json"))
        self.assertEqual(beside["recordings"][0]["title"], "First tune")
        self.assertEqual([one["segments"][0]["seconds"] for one in beside["stations"]], [3.0, 4.0])
        self.assertEqual([one["name"] for one in beside["stations"]], ["One", "Two"])
        clock = beside["stations"][0]["segments"][0]["began"]
        self.assertAlmostEqual(clock_seconds(clock), began, delta=60)

    def test_a_day_is_not_kept_over_another(self):
        monitor, keep = Monitor(self), self.path("kept")
        write_wave(self.path("day.wav"), tune(2, 1))
        words = (
            "send",
            self.path("day.wav"),
            "--to",
            monitor.address(),
            "--channels",
            1,
            "--factor",
            2,
            "--keep",
            keep,
        )
        self.assertEqual(hk(*words)[0], 0)
        status, _, err = hk(*words)
        self.assertEqual(status, 1)
        self.assertIn("is there already; give --keep a new folder for each day", err)


def clock_seconds(text):
    """Seconds since 1970 of an ISO time in UTC, by the C library's calendar."""
    return calendar.timegm(time.strptime(text[:19], "%Y-%m-%dT%H:%M:%S"))
