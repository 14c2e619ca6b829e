"""The made broadcast, live: hkmon over sockets, hk operate and hk send as clients, and a list of plays of its log."""

import csv
import io
import socket
import subprocess
import sys
import time
import unittest
from datetime import datetime

from .made import BROADCAST, HK, InFolder, PROGRAM, broadcast, hk, raw, replayed, tunes, write_wave
from companion.program import monitor_path

MONITOR = monitor_path()
FORM = ("--channels", "1", "--factor", "2")
COMMANDS = "add 7 first.wav 'First tune'\nadd 9 second.wav 'Second tune'\nadd 11 third.wav 'Never played'\npublish\n"
# seconds that anything may take
PATIENCE = 40


def free_ports():
    with socket.create_server(("127.0.0.1", 0)) as one, socket.create_server(("127.0.0.1", 0)) as other:
        return one.getsockname()[1], other.getsockname()[1]


def listens(port):
    """Whether a port of loopback is listened on; it doesn't connect, since that would be a station."""
    with open("/proc/net/tcp", encoding="ascii") as file:
        return any(f":{port:04X} " in line and line.split()[3] == "0A" for line in file)


@unittest.skipIf(MONITOR is None, "hkmon isn't built")
class PlaysLive(InFolder):
    def setUp(self):
        super().setUp()
        sounds = tunes()
        for name, samples in sounds.items():
            write_wave(self.path(f"{name}.wav"), samples)
        self.sound = broadcast(sounds["first"], sounds["second"])
        self.ports = free_ports()
        self.monitor = self.start(
            [MONITOR, "--station-port", self.ports[0], "--operator-port", self.ports[1]], stdin=subprocess.DEVNULL
        )
        end = time.monotonic() + 20
        while not all(listens(port) for port in self.ports):
            self.assertIsNone(self.monitor.poll(), "hkmon has ended")
            self.assertLess(time.monotonic(), end, "hkmon doesn't listen")
            time.sleep(0.02)

    def start(self, words, stdin=subprocess.PIPE):
        words = [str(word) for word in words]
        process = subprocess.Popen(
            words, cwd=self.folder, stdin=stdin, stdout=subprocess.PIPE, stderr=subprocess.PIPE
        )
        self.addCleanup(self.end, process)
        return process

    def end(self, process):
        process.kill()
        process.communicate()

    def client(self, *words):
        return self.start([sys.executable, HK, *words, "--quiet", "--keep", self.path("kept"), *FORM])

    def play_all(self):
        """The operator publishes, the station plays, both end; the text of the replies, and when the sound began."""
        station = self.client("send", "-", "--name", "Radio One", "--to", f"127.0.0.1:{self.ports[0]}")
        operator = self.client("operate", "--to", f"127.0.0.1:{self.ports[1]}")
        operator.stdin.write(COMMANDS.encode())
        operator.stdin.flush()
        replies = [operator.stdout.readline().decode() for _ in range(10)]
        began = time.time()
        _, err = station.communicate(raw(self.sound), timeout=PATIENCE)
        self.assertEqual((station.returncode, err), (0, b""))
        # an operator who has no more to say ends at once, while the monitor may go on
        rest, err = operator.communicate(timeout=PATIENCE)
        self.assertEqual((operator.returncode, rest, err), (0, b"", b""))
        return replies, began

    def test_plays_that_are_sent_live_have_their_titles_and_clock_times_and_none_is_false(self):
        replies, sent = self.play_all()
        self.assertEqual(replies[-1], "O 10 published 1\tpublish\n")
        summary, err = self.monitor.communicate(timeout=PATIENCE)
        self.assertEqual((self.monitor.returncode, err), (0, b""))
        log = self.text("station-0.log").splitlines()
        self.assertEqual(summary.decode(), f"T S 0 {len(log)} 1 ended\nT O 10 1 ended\n")
        status, out, err = hk("plays", self.path("station-0.log"), "--beside", self.path("kept"))
        self.assertEqual(status, 0, err)
        rows = list(csv.DictReader(io.StringIO(out)))
        self.assertEqual([row["title"] for row in rows], [title for title, *_ in BROADCAST])
        self.assertEqual({row["station_name"] for row in rows}, {"Radio One"})
        for row, (_, began, ended, _) in zip(rows, BROADCAST):
            for name, second in (("began", began), ("ended", ended)):
                self.assertAlmostEqual(datetime.fromisoformat(row[name]).timestamp() - sent, second, delta=3)

    @unittest.skipIf(PROGRAM is None, "hkreplay isn't built")
    def test_what_was_kept_of_it_is_replayed_to_the_same_lines(self):
        self.play_all()
        self.monitor.communicate(timeout=PATIENCE)
        status, _, err = hk("pack", "--kept", self.path("kept"), "-o", self.path("input"))
        self.assertEqual(status, 0, err)
        status, report = replayed(self.path("input"))
        self.assertEqual(status, 0)
        lines = [line for line in report.splitlines() if line.startswith("S ")]
        self.assertEqual(lines, self.text("station-0.log").splitlines())


if __name__ == "__main__":
    unittest.main()
