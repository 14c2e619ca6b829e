#!/usr/bin/env python3
"""Runs hkmon on loopback as an operator would, and compares all that it writes with the model.

    tools/live/live.py                                       64 stations of stereo sound at real time for a minute
    tools/live/live.py --kind prints --speed 0 --seconds 600    as fast as they are taken
    tools/live/live.py --faults --runs 1000                  hostile bytes, and connections that close or stall

Stations send sound or prints, with gaps and fences, while the operator adds, withdraws and publishes. Two connections
are closed in the middle of a packet, and the log of one station lies on a full disk (a link to /dev/full). Then each log
is compared with the model at the versions that it prints, the replies and the summary too. It prints the memory over
time, and the processor time for each second of sound: how many cores the run takes. The status is 1 where anything
differs. Stations share a few sounds, which the model prints once: a second of sound takes it a second or two of a core.
"""

import argparse
import os
import random
import sys
import tempfile
import threading
import time
from concurrent.futures import ProcessPoolExecutor
from pathlib import Path

sys.path.insert(0, str(Path(__file__).resolve().parent))

import broadcast  # noqa: E402
import judging  # noqa: E402
import running  # noqa: E402
from hostile import faults  # noqa: E402

FULL = 3  # the station whose log lies on a full disk


def arguments():
    parser = argparse.ArgumentParser(description=__doc__, formatter_class=argparse.RawDescriptionHelpFormatter)
    running.add_options(parser)
    parser.add_argument("--stations", type=int, default=64, metavar="N", help="1 to 64 (64)")
    parser.add_argument("--workers", type=int, default=2, metavar="N", help="as hkmon has them (2)")
    parser.add_argument("--kind", choices=("sound", "prints"), default="sound", help="what stations send (sound)")
    parser.add_argument("--channels", type=int, choices=(1, 2), default=2, help="of sound (2)")
    parser.add_argument("--factor", type=int, choices=(1, 2, 4, 8), default=8, help="of sound (8)")
    parser.add_argument("--seconds", type=float, default=60.0, help="seconds of sound of each station (60)")
    parser.add_argument("--speed", type=float, default=1.0, help="times real time; 0: as fast as it is taken (1)")
    parser.add_argument("--sounds", type=int, default=2, metavar="N", help="different sounds (2)")
    parser.add_argument("--seed", type=int, default=1, help="what is made, and in which packets (1)")
    parser.add_argument("--flips", type=int, default=4, help="as hkmon has them (4)")
    parser.add_argument("--hop", type=int, default=64, help="as hkmon has it (64)")
    parser.add_argument("--faults", action="store_true", help="many short runs with mutated streams in place of one")
    parser.add_argument("--runs", type=int, default=1000, metavar="N", help="of --faults (1000)")
    parser.add_argument("--first", type=int, default=0, metavar="N", help="the number of the first run of --faults (0)")
    parser.add_argument("--keep", metavar="FOLDER", help="leave logs, summary and streams here")
    return parser.parse_args()


class Sender(threading.Thread):
    """One station: sends its pieces at their times, and closes."""

    def __init__(self, connection, pieces, began, speed):
        super().__init__(daemon=True)
        self.connection, self.pieces, self.began, self.speed = connection, pieces, began, speed
        self.stopped = None

    def run(self):
        try:
            for at, piece in self.pieces:
                if self.speed:
                    time.sleep(max(0.0, self.began + at / self.speed - time.monotonic()))
                self.connection.sendall(piece)
        except OSError as error:  # its station is over, as where the log can't be written
            self.stopped = error
        self.connection.close()


def scheduled(given, form):
    """The pieces of each station, and those of the operator."""
    sounds = broadcast.Sounds(given, form)
    stations = [broadcast.station(n, sounds, given) for n in range(given.stations)]
    draw = random.Random(given.seed)
    for number in (1, 5):
        if number < given.stations:
            stations[number] = broadcast.cut(stations[number], draw)
    return sounds, stations, broadcast.operator(sounds, given)


def play(given, folder, stations, operator):
    """Runs hkmon over these streams; the monitor, the status, the summary, the text of the replies, the seconds it took."""
    if FULL < given.stations:
        os.symlink("/dev/full", os.path.join(folder, f"station-{FULL}.log"))
    words = ["--stations", given.stations, "--workers", given.workers, "--flips", given.flips, "--hop", given.hop]
    monitor = running.Monitor(given, folder, [str(word) for word in words])
    connections = [monitor.station() for _ in stations]
    desk = monitor.operator()
    began = time.monotonic()
    monitor.sampler.start()
    scale = 1 / given.speed if given.speed else 0.0
    clerk = running.Operator(desk, [(at * scale, piece) for at, piece in operator], began)
    senders = [Sender(one, pieces, began, given.speed) for one, pieces in zip(connections, stations)]
    for thread in (clerk, *senders):
        thread.start()
    for thread in senders:
        thread.join()
    status, lines = monitor.finish(600)
    clerk.join(10)
    return monitor, status, lines, clerk.text.decode("latin-1"), time.monotonic() - began


def printed(task):
    """The energies of a sound's frames: they are the model's longest work, and are kept."""
    channels, factor, sound = task
    judging.sound_model.sound_prints(channels, factor, 0, sound)
    return judging.sound_model.FRAMES.known


def judged(task):
    """What differs of the stations of one sound: one process has made its prints and lists once for all of them."""
    stations, catalogue, chosen = task
    return [line for one in stations for line in judging.wrong_station(one, catalogue, chosen)]


def judge(given, form, sounds, streams, calls, monitor, status, lines, replies):
    """What differs, a line each."""
    chosen = judging.settings({"--stations": given.stations, "--flips": given.flips, "--hop": given.hop})
    if status is None:
        return ["hkmon didn't end"]
    wrong = judging.wrong_end(lines, status, given.stations)
    if wrong:
        return [*wrong, monitor.told]
    with ProcessPoolExecutor() as pool:
        if form.channels:
            for known in pool.map(printed, [(form.channels, form.factor, sound) for sound in sounds.all]):
                judging.sound_model.FRAMES.known.update(known)
    catalogue = judging.Catalogue(chosen, calls)
    wrong += judging.wrong_operator(catalogue, replies, lines[-1].split())
    stations = [
        judging.Station(n, stream, monitor.log(n), lines[n].split(), full=n == FULL)
        for n, stream in enumerate(streams)
    ]
    groups = [stations[n :: given.sounds] for n in range(given.sounds)]
    with ProcessPoolExecutor() as pool:  # a new one, whose processes begin with what is known by now
        for found in pool.map(judged, [(group, catalogue, chosen) for group in groups]):
            wrong += found
    if FULL < given.stations and lines[FULL].split()[-1] != "sink-fault":
        wrong.append(f"station {FULL}: its log was on a full disk, and it ended with {lines[FULL]}")
    return wrong


def tell(given, monitor, lines, streams, took):
    """Memory and processor time."""
    if not monitor.samples:
        print("it was too short to sample")
        return
    samples = monitor.samples
    places = sorted({round(k * (len(samples) - 1) / 9) for k in range(10)})
    print("memory in MB at seconds:", ", ".join(f"{samples[k][1] / 1024:.0f} at {samples[k][0]:.0f}" for k in places))
    early = samples[len(samples) // 4][1]
    print(f"from a quarter of the run to its end: {(samples[-1][1] - early) / 1024:+.1f} MB")
    spent, sound = samples[-1][2], given.seconds * given.stations
    print(f"{took:.1f} s for {given.seconds:.0f} s of sound of each station; {spent:.1f} s of processor time")
    print(f"{spent / given.seconds:.3f} s for each second of all {given.stations} stations: so many cores at real time")
    print(f"{spent / sound * 1000:.2f} ms for each second of a station's sound")


def run(given, folder):
    form = broadcast.Form(*((given.channels, given.factor) if given.kind == "sound" else (0, 1)))
    sounds, stations, operator = scheduled(given, form)
    monitor, status, lines, replies, took = play(given, folder, stations, operator)
    streams = [b"".join(piece for _, piece in pieces) for pieces in stations]
    calls = b"".join(piece for _, piece in operator)
    print(f"status {status}; {sum(len(one) for one in streams) / 1e6:.1f} MB of stations, {len(calls) / 1e6:.1f} MB of the operator")
    wrong = judge(given, form, sounds, streams, calls, monitor, status, lines, replies)
    for line in wrong[:40]:
        print(line)
    blocks = sum(int(line.split()[3]) for line in lines if line.startswith("T S"))
    print(f"{blocks} lines of logs, {replies.count(chr(10))} replies; {len(wrong)} differ from the model")
    tell(given, monitor, lines, streams, took)
    return 1 if wrong else 0


def main():
    given = arguments()
    running.need(given)
    if given.faults:
        return faults(given)
    if given.keep:
        os.makedirs(given.keep, exist_ok=True)
        return run(given, os.path.realpath(given.keep))
    with tempfile.TemporaryDirectory(prefix="hkmon-") as folder:
        return run(given, folder)


if __name__ == "__main__":
    sys.exit(main())
