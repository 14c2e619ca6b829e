#!/usr/bin/env python3
"""Runs the monitor over memory with 1 to 8 workers, and compares each log with the model at the versions printed.

    tools/many_workers/many_workers.py                one hundred seeds, each with 1 to 8 workers
    tools/many_workers/many_workers.py --speed        the times of 1, 2 and 4 workers, in turn

It copies the repository to a temporary folder, adds the program of program.txt there as a crate over hk_monitor_top,
and proves and builds it with rt; with --program it takes one that is built. A seed makes 64 stations of random prints,
with plays of recordings among them, and an operator who adds, withdraws and publishes 200 times. All of them run at
once, so which version a look finds is free; the rest is compared: each line, each end, the replies and the summary.
With --speed each run has the same looks, of prints with many weak bits in a large catalogue, behind one publish; the
time that a run takes without them is taken off. Where other work has the cores, the user time of the busiest thread
says how the looks were shared, and the time says nothing.
"""

import argparse
import random
import re
import subprocess
import sys
import tempfile
import time
from concurrent.futures import ProcessPoolExecutor
from dataclasses import dataclass
from functools import partial
from pathlib import Path

HERE = Path(__file__).resolve().parent
sys.path[:0] = [str(HERE.parent), str(HERE.parent / "live")]

import added_crate  # noqa: E402
import judging  # noqa: E402
import running  # noqa: E402
import input_parts as parts  # noqa: E402

USES = "hk_base hk_outside hk_monitor_top hk_publish hk_mio"
PROOFS = {
    # The logs are empty.
    "stations/Invariants.antt": """use Rattle.std.specs.List.{All}
use Rattle.hk_outside.specs.Places.{HasEmpty}
use Rattle.many_workers.proofs.stations.Given as goal

abbrev pub invariant-loop-n : goal.invariant-loop-n
invariant-loop-n l = All HasEmpty l.stations.items
""",
}
SONGS = 16
IDLE = 20
STATUS = re.compile(r"status (\d+), (\d+) ms")


def print_of(word, draw, weak):
    """A print of this word with some weak bits; one in four has a wrong bit."""
    mask = 0
    for _ in range(weak):
        mask |= 1 << draw.randrange(32)
    wrong = 1 << draw.randrange(32) if draw.random() < 0.25 else 0
    return (word ^ wrong).to_bytes(4, "big") + mask.to_bytes(4, "big")


def station(draw, songs, prints, weak):
    """A station's bytes: plays of songs and prints of random words, with gaps and fences."""
    out, made = [parts.station_hello(parts.PRINTS)], 0
    while made < prints:
        words = draw.choice(songs) if draw.random() < 0.6 else [draw.getrandbits(32) for _ in range(200)]
        out.append(parts.packet(1, b"".join(print_of(word, draw, weak) for word in words)))
        made += len(words)
        if draw.random() < 0.1:
            out.append(draw.choice((parts.GAP, parts.fence(0), parts.fence(1 if made > prints // 2 else 0))))
    return b"".join(out)


def operator(draw, songs, publishes, idle):
    """An operator's bytes: edits of the songs, and so many publishes. Before each publish it adds up to `idle` songs
    that are there, which are refused, so that it is busy for as long as the stations are."""
    out, there = [parts.OPERATOR_HELLO], set()
    for _ in range(publishes):
        if there:
            number = draw.choice(sorted(there))
            out.append(parts.add(number, songs[number]) * draw.randrange(idle + 1))
        for _ in range(draw.randrange(1, 4)):
            number = draw.randrange(len(songs))
            if number in there and draw.random() < 0.9:
                out.append(parts.withdraw(number))
                there.discard(number)
            else:
                out.append(parts.add(number, songs[number]))
                there.add(number)
        out.append(parts.PUBLISH)
    return b"".join(out)


def some_songs(draw, many, least, most):
    return [[draw.getrandbits(32) for _ in range(draw.randrange(least, most))] for _ in range(many)]


@dataclass
class Times:
    """Milliseconds of a run, and of user time of its busiest thread."""

    run: int
    busiest: int


def busiest_thread(process):
    """The milliseconds of user time of the thread that had most, looked at until the process ends."""
    most, end = 0, time.monotonic() + 600
    while process.poll() is None:
        for stat in Path(f"/proc/{process.pid}/task").glob("*/stat"):
            try:
                ticks = int(stat.read_text(encoding="latin-1").rpartition(")")[2].split()[11])
            except OSError:  # the thread has ended
                continue
            most = max(most, ticks * 1000 // running.TICKS)
        if time.monotonic() > end:
            process.kill()
        time.sleep(0.01)
    return most


class Load:
    """What a run is given: its streams in the files of a folder, and the values of its options."""

    def __init__(self, folder, streams, calls, held=None, **chosen):
        self.folder, self.streams, self.calls = folder, streams, calls
        self.chosen = judging.settings({f"--{name}": value for name, value in chosen.items()})
        self.chosen["--stations"] = len(streams)
        for number, stream in enumerate(streams):
            (folder / f"station-{number}.bytes").write_bytes(stream)
        (folder / "operator.bytes").write_bytes(calls)
        if held is not None:
            (folder / "held").write_text(held)

    def run(self, program, workers):
        """The status, the lines of the summary, and the times; the logs and replies are in the folder then."""
        for old in (*self.folder.glob("*.log"), *self.folder.glob("replies")):
            old.unlink()
        words = [word for name, value in self.chosen.items() for word in (name, str(value))]
        with open(self.folder / "out", "w+") as out, open(self.folder / "errors", "w+") as errors:
            words = [program, *words, "--workers", str(workers)]
            with subprocess.Popen(words, cwd=self.folder, stdout=out, stderr=errors) as process:
                busiest = busiest_thread(process)
        *lines, last = self.text("out").splitlines() or [""]
        status = STATUS.fullmatch(last)
        if process.returncode or status is None:
            sys.exit(f"the program ended with the status {process.returncode}: {last!r} {self.text('errors')}")
        return int(status[1]), lines, Times(int(status[2]), busiest)

    def text(self, name):
        return (self.folder / name).read_text(encoding="latin-1")


def wrong_run(load, catalogue, status, lines):
    """What differs from the model, a line each."""
    wrong = judging.wrong_end(lines, status, len(load.streams))
    if wrong:
        return wrong
    wrong = judging.wrong_operator(catalogue, load.text("replies"), lines[-1].split())
    for n, stream in enumerate(load.streams):
        told = judging.Station(n, stream, load.text(f"station-{n}.log"), lines[n].split())
        wrong += judging.wrong_station(told, catalogue, load.chosen)
    return wrong


def versions_of(load):
    """How many versions the lines of each log have, on average."""
    logs = [re.findall(r" V (\d+): ", load.text(f"station-{n}.log")) for n in range(len(load.streams))]
    return sum(len(set(log)) for log in logs) / len(logs), sum(map(len, logs))


def seed_of(program, given, seed):
    """One seed with each number of workers: the lines of logs, the versions in a log, and what differs."""
    draw = random.Random(seed)
    songs = some_songs(draw, SONGS, 256, 280)
    streams = [station(draw, songs, given.prints, weak=5) for _ in range(given.stations)]
    calls = operator(draw, songs, given.publishes, IDLE)
    blocks, versions, wrong = 0, [], []
    with tempfile.TemporaryDirectory(prefix="workers.") as folder:
        load = Load(Path(folder), streams, calls, songs=SONGS, positions=300 * SONGS, hop=16)
        catalogue = judging.Catalogue(load.chosen, calls)
        for workers in range(1, given.workers + 1):
            status, lines, _ = load.run(program, workers)
            wrong += [f"seed {seed}, {workers} workers: {one}" for one in wrong_run(load, catalogue, status, lines)]
            seen, many = versions_of(load)
            blocks, versions = blocks + many, [*versions, seen]
    return blocks, versions, wrong


def compare(program, given):
    """All seeds; the status."""
    began, blocks, versions, differ = time.monotonic(), 0, [], 0
    with ProcessPoolExecutor(given.jobs) as pool:
        seeds = range(given.first, given.first + given.seeds)
        for done, found in enumerate(pool.map(partial(seed_of, program, given), seeds), 1):
            blocks, versions, differ = blocks + found[0], versions + found[1], differ + len(found[2])
            for line in found[2][:5]:
                print(line, flush=True)
            if done % 10 == 0:
                print(f"{done} seeds, {blocks} lines of logs, {differ} differ", flush=True)
    print(
        f"{given.seeds} seeds, each with 1 to {given.workers} workers: {given.stations} stations, "
        f"{given.publishes} publishes, {blocks} lines of logs, {sum(versions) / len(versions):.1f} versions in a log: "
        f"{differ} differ ({time.monotonic() - began:.0f} s)"
    )
    return 1 if differ else 0


def speed(program, given):
    """The times of 1, 2 and 4 workers with the same looks, each the least of some turns."""
    draw = random.Random(given.first)
    songs = some_songs(draw, 1000, 900, 1000)
    streams = [station(draw, songs[:20], 2 * given.prints, weak=7) for _ in range(given.stations)]
    calls = parts.OPERATOR_HELLO + b"".join(parts.add(n, song) for n, song in enumerate(songs)) + parts.PUBLISH
    chosen = {"songs": 1000, "positions": 1000000, "hop": 64}
    least = {}
    with tempfile.TemporaryDirectory(prefix="workers.") as one, tempfile.TemporaryDirectory(prefix="workers.") as other:
        load = Load(Path(one), streams, calls, held="published 1", **chosen)
        bare = Load(Path(other), [stream[:6] for stream in streams], calls, held="published 1", **chosen)
        for _ in range(given.turns):
            for workers in (1, 2, 4):
                times, without = load.run(program, workers)[2], bare.run(program, workers)[2]
                took, old = Times(times.run - without.run, times.busiest), least.get(workers, times)
                least[workers] = Times(min(took.run, old.run), min(took.busiest, old.busiest))
        blocks = versions_of(load)[1]
    print(f"{blocks} blocks, the least of {given.turns} turns:")
    for workers, took in least.items():
        print(
            f"{workers} workers: {took.run} ms, {least[1].run / took.run:.2f} times as fast as one; "
            f"busiest thread {took.busiest} ms, a part in {least[1].busiest / took.busiest:.2f}"
        )
    return 0


def main():
    parser = argparse.ArgumentParser(description=__doc__, formatter_class=argparse.RawDescriptionHelpFormatter)
    parser.add_argument("--program", type=Path, help="the built program (it is proved and built)")
    parser.add_argument("--speed", action="store_true", help="times in place of comparisons")
    parser.add_argument("--first", type=int, default=1, metavar="SEED", help="the first seed (1)")
    parser.add_argument("--seeds", type=int, default=100, metavar="N", help="how many seeds (100)")
    parser.add_argument("--workers", type=int, default=8, metavar="N", help="the most workers (8)")
    parser.add_argument("--stations", type=int, default=64, metavar="N", help="how many stations (64)")
    parser.add_argument("--publishes", type=int, default=200, metavar="N", help="how many publishes (200)")
    parser.add_argument("--prints", type=int, default=2000, metavar="N", help="the least prints of a station (2000)")
    parser.add_argument("--turns", type=int, default=3, metavar="N", help="how often each is timed (3)")
    parser.add_argument("--jobs", type=int, default=1, metavar="N", help="how many seeds at a time (1)")
    given = parser.parse_args()
    does = speed if given.speed else compare
    if given.program:
        return does(given.program.resolve(), given)
    with tempfile.TemporaryDirectory(prefix="workers.") as folder:
        crate, done = added_crate.added(folder, HERE / "program.txt", USES, PROOFS)
        program = crate / "out" / "many_workers"
        if not program.is_file():
            sys.exit(done.stdout + done.stderr)
        return does(program, given)


if __name__ == "__main__":
    sys.exit(main())
