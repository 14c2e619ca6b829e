#!/usr/bin/env python3
"""Finds a song in what a station sends: sound, its sub-fingerprints, and the report line that names it.

    examples/find_a_song.py [--keep FOLDER] [PROGRAM]

PROGRAM is hkreplay, and crates/hkreplay/out/hkreplay where none is given. The song is six seconds of four voices, made
of whole numbers alone. Its prints become recording 7. The station sends them from print 64 on, with three wrong bits in
seven of eight words. What the program reports is printed; it is that of find_a_song.report. With --keep the sound, its
prints and the input are left in FOLDER, to look at.
"""

import argparse
import struct
import subprocess
from pathlib import Path

import built
from input_parts import OPERATOR_HELLO, PRINTS, PUBLISH, add, data, draws, operator, prints, station, station_hello

RATE = 44100
SECONDS = 6
# periods in samples, a chord for each half second
CHORDS = [(401, 318, 267, 201), (357, 300, 238, 178), (337, 267, 225, 168), (401, 337, 267, 134)]


def triangle(t, period, height):
    """A wave of straight lines between -height and height."""
    place = t % period
    rise = place if 2 * place < period else period - place
    return rise * 4 * height // period - height


def song():
    samples = []
    for t in range(RATE * SECONDS):
        chord = CHORDS[2 * t // RATE % len(CHORDS)]
        fade = RATE // 2 - t % (RATE // 2) // 2
        voices = sum(triangle(t, period, 6000 - 900 * k) for k, period in enumerate(chord))
        samples.append(voices * fade // (RATE // 2))
    return struct.pack(f"<{len(samples)}h", *samples)


def noisy(words):
    """Three wrong bits in seven of eight words."""
    numbers = draws(5)
    for n, word in enumerate(words):
        if n % 8:
            for _ in range(3):
                word ^= 1 << next(numbers) % 32
        yield word


def input_of(words):
    """The song's words as recording 7, a publish, and a station that plays them from word 64 on."""
    played = data(prints(noisy(words[64:])))
    return operator(OPERATOR_HELLO, add(7, words), PUBLISH) + station(0, station_hello(PRINTS), played)


def run(program, words, given):
    return subprocess.run([program, *words], input=given, stdout=subprocess.PIPE, check=True).stdout


def main():
    parser = argparse.ArgumentParser(description=__doc__, formatter_class=argparse.RawDescriptionHelpFormatter)
    parser.add_argument("program", nargs="?", type=Path, default=built.PROGRAM, metavar="PROGRAM", help="hkreplay")
    parser.add_argument("--keep", type=Path, metavar="FOLDER", help="leave the sound, its prints and the input there")
    options = parser.parse_args()
    program = built.need(options.program)
    sound = song()
    lines = run(program, ["print", "--channels", "1", "--factor", "8"], sound)
    words = [int(line.split()[1], 16) for line in lines.decode().splitlines()]
    given = input_of(words)
    if options.keep:
        options.keep.mkdir(parents=True, exist_ok=True)
        for name, content in (("song.raw", sound), ("song.prints", lines), ("song.input", given)):
            (options.keep / name).write_bytes(content)
    print(run(program, ["replay"], given).decode(), end="")


if __name__ == "__main__":
    main()
