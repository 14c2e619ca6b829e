#!/usr/bin/env python3
"""Prints the sub-fingerprints of sound straight from the formulas, as `hkreplay print` does, and makes sound for that.

    tools/print_sound.py make SEED BYTES > sound.raw                pseudo-random samples of 16 bits
    tools/print_sound.py print CHANNELS FACTOR FLIPS < sound.raw    a line for each print
    tools/print_sound.py digest CHANNELS FACTOR FLIPS < sound.raw   how many lines there are, and a digest of them

Whole numbers alone. It shares no line with the crates; the test of the prints of pseudo-random sound holds a digest
from it. It is slow: about half a minute for ten seconds of sound.
"""

import argparse
import itertools
import sys
from array import array
from pathlib import Path

sys.path.append(str(Path(__file__).resolve().parents[1] / "examples"))

from input_parts import draws  # noqa: E402
from sound_vectors import decimated, digest, energies, frames_of, real, transform, windowed  # noqa: E402


def made(seed, count):
    """So many bytes of samples: each is the high part of a draw, less 32768."""
    samples = array("h", (high - 32768 for high in itertools.islice(draws(seed), (count + 1) // 2)))
    if sys.byteorder == "big":
        samples.byteswap()
    return samples.tobytes()[:count]


def mono(channels, data):
    """The mean of each group of samples, rounded down."""
    size = 2 * channels
    groups = (data[i : i + size] for i in range(0, len(data) - size + 1, size))
    return [
        sum(int.from_bytes(g[k : k + 2], "little", signed=True) for k in range(0, size, 2)) // channels for g in groups
    ]


def prints(channels, factor, flips, data):
    """The word and the mask of each print."""
    frames = frames_of(decimated_fast(factor, mono(channels, data)))
    return prints_of_energies(flips, (energies(transform(real(windowed(frame)))) for frame in frames))


def prints_of_energies(flips, frames):
    """The word and the mask of each print, of the energies of the frames."""
    before, out = None, []
    for now in frames:
        if before is not None:
            falls = [(now[m] - now[m + 1]) - (before[m] - before[m + 1]) for m in range(32)]
            weak = sorted(range(32), key=lambda m: (abs(falls[m]), m))[:flips]
            out.append((sum(1 << m for m in range(32) if falls[m] > 0), sum(1 << m for m in weak)))
        before = now
    return out


def decimated_fast(factor, xs):
    """The same as `decimated`, in pieces, so that no slice of the whole list is taken for each sample."""
    width, piece, out = 2 * factor - 1, 4096 * factor, []
    for i in range(0, len(xs), piece):
        out += decimated(factor, xs[i : i + piece + width - factor])
    return out


def text(found):
    return "".join(f"{n} {word:08x} {mask:08x}\n" for n, (word, mask) in enumerate(found))


SIZES = {"seed": None, "bytes": None}
FORM = {"channels": (1, 2), "factor": (1, 2, 4, 8), "flips": range(11)}


def main():
    parser = argparse.ArgumentParser(description=__doc__, formatter_class=argparse.RawDescriptionHelpFormatter)
    commands = parser.add_subparsers(dest="command", required=True, metavar="make|print|digest")
    for name, numbers in (("make", SIZES), ("print", FORM), ("digest", FORM)):
        command = commands.add_parser(name)
        for number, choices in numbers.items():
            command.add_argument(number, type=int, choices=choices)
    options = parser.parse_args()
    if options.command == "make":
        sys.stdout.buffer.write(made(options.seed, options.bytes))
        return
    lines = text(prints(options.channels, options.factor, options.flips, sys.stdin.buffer.read()))
    if options.command == "print":
        sys.stdout.write(lines)
    else:
        print(lines.count("\n"), "lines, digest", digest(lines.encode()))


if __name__ == "__main__":
    main()
