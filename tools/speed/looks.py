#!/usr/bin/env python3
"""Times hkreplay's looks beside a plain program in C, in one run.

    tools/speed/looks.py [--positions N ..] [--masks N ..] [--rounds N] [--program PATH]
    tools/speed/looks.py --long
    tools/speed/looks.py --sound FILE ..

For each size of the catalogue and each number of weak bits a station sends prints of random words, of which every eighth
block plays a recording. The time of a block is the user time of the run less that of one whose station sends a print too
few for any block, divided by the blocks; the least of the rounds counts. The lists have to be those of
looks_reference.c, which gcc builds here. --long is one recording of 250000 words, word i being i, and a station that
sends its first 249856 words at the hop 8: 31201 report lines, which have to be the known ones. --sound takes raw stereo of
16 bits at 44.1 kHz, the low byte first: each file is a recording, and a station sends the prints of all of them.
"""

import argparse
import os
import random
import re
import struct
import subprocess
import sys
import tempfile
from collections import Counter
from pathlib import Path

HERE = Path(__file__).resolve().parent
sys.path.append(str(HERE.parents[1] / "examples"))
import built  # noqa: E402
from input_parts import (  # noqa: E402
    MOST,
    OPERATOR_HELLO,
    PIECE,
    PRINTS,
    PUBLISH,
    add,
    data,
    operator,
    station,
    station_hello,
)

FLAGS = ["-O3", "-march=x86-64-v2"]
BLOCK, HOP, MOST_WORDS = 256, 64, 250000


def replay_input(songs, prints):
    """An input whose operator adds these recordings and publishes, and whose station sends these prints."""
    payload = b"".join(struct.pack(">II", *each) for each in prints)
    commands = operator(OPERATOR_HELLO, *(add(number, words) for number, words in songs), PUBLISH, most=MOST)
    return commands + station(0, station_hello(PRINTS), data(payload, PIECE), most=MOST)


def reference_input(songs, prints):
    """The same for looks_reference.c."""
    numbers = [len(songs)]
    for number, words in songs:
        numbers += [number, len(words), *words]
    numbers += [len(prints), *(n for print_ in prints for n in print_)]
    return struct.pack(f"<{len(numbers)}I", *numbers)


def timed(command, given, rounds):
    """The least user seconds of the command on the file, and what it wrote."""
    least = None
    for _ in range(rounds):
        with open(given, "rb") as stdin:
            child = subprocess.Popen(command, stdin=stdin, stdout=subprocess.PIPE)
            text = child.stdout.read()
            _, status, used = os.wait4(child.pid, 0)
            child.returncode = os.waitstatus_to_exitcode(status)
        if child.returncode:
            sys.exit(f"looks: {command[0]} ended with the status {child.returncode}")
        least = used.ru_utime if least is None else min(least, used.ru_utime)
    return least, text.decode()


def lists_of(report):
    """The first print and the list of each report line."""
    return [f"{first}: {found}" for first, found in re.findall(r"^S 0 B \d+ G 0 W (\d+) V \d+: (.*)$", report, re.M)]


class Bench:
    """A folder for inputs, the program and the reference."""

    def __init__(self, folder, program, rounds):
        self.folder, self.program, self.rounds = Path(folder), program, rounds
        self.reference = str(self.folder / "looks_reference")
        subprocess.run(["gcc", *FLAGS, "-o", self.reference, HERE / "looks_reference.c"], check=True)

    def times(self, songs, prints, options, hop):
        """The user seconds of the blocks in the program and in the reference; their lists have to be equal."""
        seconds = []
        for command, make in (
            ([self.program, "replay", *options, "--hop", str(hop)], replay_input),
            ([self.reference, str(hop)], reference_input),
        ):
            (self.folder / "all").write_bytes(make(songs, prints))
            (self.folder / "few").write_bytes(make(songs, prints[: BLOCK - 1]))
            whole, text = timed(command, self.folder / "all", self.rounds)
            without, _ = timed(command, self.folder / "few", self.rounds)
            seconds.append((whole - without, text))
        lists = lists_of(seconds[0][1])
        if lists != seconds[1][1].splitlines():
            sys.exit("looks: the program and the reference list other matches")
        return seconds[0][0], seconds[1][0], lists


def random_case(draw, positions, weak_bits, blocks):
    """Recordings of random words that fill so many positions, and the prints of so many blocks."""
    songs, left = [], positions
    while left >= BLOCK:
        length = min(left, MOST_WORDS)
        songs.append((len(songs) + 1, [draw.getrandbits(32) for _ in range(length)]))
        left -= length
    prints = []
    while len(prints) < BLOCK + HOP * (blocks - 1):
        played = len(prints) % (8 * BLOCK) == 0
        words = draw.choice(songs)[1][:BLOCK] if played else [draw.getrandbits(32) for _ in range(BLOCK)]
        for word in words:
            mask = sum(1 << bit for bit in draw.sample(range(32), weak_bits))
            prints.append((word ^ (mask & -mask), mask))
    return songs, prints[: BLOCK + HOP * (blocks - 1)]


def long_row(bench):
    """The report of the long recording, and its times."""
    songs = [(7, list(range(250000)))]
    prints = [(n, 0) for n in range(249856)]
    ours, theirs, lists = bench.times(songs, prints, [], 8)
    if lists != [f"{8 * n}: 7@{8 * n}~0" for n in range(31201)]:
        sys.exit("looks: the long report isn't the known one")
    print(f"31201 blocks of 250000 words: {ours:.2f} s, plain program {theirs:.2f} s, {ours / theirs:.2f} times")


def bucket_sizes(songs):
    """How many words each bucket has that has any."""
    positions = sum(len(words) for _, words in songs)
    bits = min(max(8, (positions - 1).bit_length()), 20)
    return Counter((word * 2654435761 % 2**32) >> (32 - bits) for _, words in songs for word in words)


def real_sound(bench, files):
    """The time of a block where recordings of real sound are played, and the longest chain of a bucket."""
    songs, prints = [], []
    for number, file in enumerate(files):
        with open(file, "rb") as sound:
            command = [bench.program, "print", "--channels", "2", "--factor", "8"]
            text = subprocess.run(command, stdin=sound, stdout=subprocess.PIPE, check=True).stdout.decode()
        found = [(int(word, 16), int(mask, 16)) for _, word, mask in map(str.split, text.splitlines())]
        if len(found) >= BLOCK:
            songs.append((number + 1, [word for word, _ in found]))
            prints += found
    sizes = bucket_sizes(songs)
    positions = sum(len(words) for _, words in songs)
    ours, theirs, lists = bench.times(songs, prints, ["--positions", str(max(positions, 256))], HOP)
    played = sum(1 for found in lists if not found.endswith(": none"))
    print(f"{len(songs)} recordings, {positions} words, {len(lists)} blocks, {played} with matches; "
          f"longest bucket {max(sizes.values())} words, {positions / len(sizes):.1f} in the mean")
    print(f"{1000 * ours / len(lists):.3f} ms a block, plain program {1000 * theirs / len(lists):.3f} ms")


def main():
    parser = argparse.ArgumentParser(description=__doc__, formatter_class=argparse.RawDescriptionHelpFormatter)
    parser.add_argument("--positions", type=int, nargs="+", default=[10**4, 10**5, 10**6, 16 * 10**6])
    parser.add_argument("--masks", type=int, nargs="+", default=[0, 4, 10])
    parser.add_argument("--rounds", type=int, default=3)
    parser.add_argument("--long", action="store_true")
    parser.add_argument("--sound", nargs="+", metavar="FILE")
    built.add_option(parser)
    given = parser.parse_args()
    program = built.need(given.program)
    built.need_commands("gcc")
    for file in given.sound or ():
        built.need_file(Path(file))
    with tempfile.TemporaryDirectory() as folder:
        bench = Bench(folder, program, given.rounds)
        if given.long:
            long_row(bench)
            return
        if given.sound:
            real_sound(bench, given.sound)
            return
        print("positions weak bits blocks  ms a block  plain program  times")
        for positions in given.positions:
            options = ["--positions", str(max(positions, 256)), "--songs", "65536"]
            for weak_bits in given.masks:
                blocks = {0: 8192, 4: 2048}.get(weak_bits, 32)
                songs, prints = random_case(random.Random(17), positions, weak_bits, blocks)
                ours, theirs, _ = bench.times(songs, prints, options, HOP)
                per = 1000 / blocks
                print(f"{positions:9} {weak_bits:9} {blocks:6} {ours * per:11.3f} {theirs * per:14.3f} "
                      f"{ours / max(theirs, 1e-6):6.2f}", flush=True)


if __name__ == "__main__":
    main()
