#!/usr/bin/env python3
"""The numbers that the tests of the sound's crates expect, straight from the formulas of the definitions.

Whole numbers alone: Python's // rounds down and its integers have no bound, so nothing here can overflow or be
rounded by chance. It shares no line with the crates. Run it with no arguments; the tests hold what it prints.
"""

import argparse
from math import isqrt

RADIUS = 2**30
SAMPLES = 2048
EDGES = [
    111, 118, 125, 132, 140, 149, 157, 167, 177, 187, 198, 210, 222, 235, 249, 264, 280, 296, 314,
    332, 352, 373, 395, 418, 443, 469, 497, 526, 557, 590, 625, 662, 702, 743,
]
WORD = 2**64
FACTOR = 6364136223846793005
STEP = 1442695040888963407
SEED = 24  # of the pseudo-random frame: it has bins whose rounding meets a half


def decimated(factor, xs):
    """The weighted means of 2 * factor - 1 samples, a new one each factor samples."""
    weights = list(range(1, factor + 1)) + list(range(factor - 1, 0, -1))
    square = factor * factor
    starts = range(0, len(xs) - len(weights) + 1, factor)
    return [(sum(w * x for w, x in zip(weights, xs[i:])) + square // 2) // square for i in starts]


def midpoint(u, v):
    """The point between two neighbours, moved out to the circle."""
    x, y = u[0] + v[0], u[1] + v[1]
    r = isqrt(x * x + y * y)
    return ((x * RADIUS + r // 2) // r, (y * RADIUS + r // 2) // r)


def quarter(level):
    """A quarter of the circle in 2 ** level steps, both ends included."""
    points = [(RADIUS, 0), (0, RADIUS)]
    for _ in range(level):
        finer = [points[0]]
        for u, v in zip(points, points[1:]):
            finer += [midpoint(u, v), v]
        points = finer
    return points


def circle():
    """Lists C and S of all 2048 places."""
    c, s = [], []
    for x, y in quarter(9):
        c.append((x + 2**14) // 2**15)
        s.append((y + 2**14) // 2**15)
    for k in range(513, SAMPLES):
        c.append(-s[k - 512])
        s.append(c[k - 512])
    return c, s


C, S = circle()
W = [(32768 - c) // 2 for c in C]


def frames_of(ys):
    """The frames of 2048 samples, a new one each 64 samples."""
    return [ys[i : i + SAMPLES] for i in range(0, len(ys) - SAMPLES + 1, 64)]


def windowed(frame):
    """A frame's samples, each weighted by the window at its place."""
    return [(y * w + 2**14) // 2**15 for y, w in zip(frame, W)]


def transform(xs):
    """The transform of a list of pairs, by its items at even and at odd places."""
    n = len(xs)
    if n == 1:
        return xs
    evens, odds = transform(xs[0::2]), transform(xs[1::2])
    turned = []
    for k, (a, b) in enumerate(odds):
        c, s = C[k * SAMPLES // n], S[k * SAMPLES // n]
        turned.append(((a * c + b * s + 2**14) // 2**15, (b * c - a * s + 2**14) // 2**15))
    low = [(e[0] + t[0], e[1] + t[1]) for e, t in zip(evens, turned)]
    high = [(e[0] - t[0], e[1] - t[1]) for e, t in zip(evens, turned)]
    return low + high


def energies(bins):
    """The energy of each band."""
    return [sum(re * re + im * im for re, im in bins[a:b]) for a, b in zip(EDGES, EDGES[1:])]


def digest(numbers):
    """A number of 64 bits that tells lists apart: each item is added after a multiplication, all modulo 2 ** 64."""
    h = 0
    for number in numbers:
        h = (h * FACTOR + number) % WORD
    return h


def draws(seed, count, bits):
    """Pseudo-random signed numbers of so many bits."""
    state, out = seed, []
    for _ in range(count):
        state = (state * FACTOR + STEP) % WORD
        out.append(state // 2 ** (64 - bits) - 2 ** (bits - 1))
    return out


def real(samples):
    return [(x, 0) for x in samples]


def flat(pairs):
    """Each real part, and then its imaginary part."""
    return [part for pair in pairs for part in pair]


def halves(energies_of_bands):
    """The low and the high 64 bits of each."""
    return [half for e in energies_of_bands for half in (e % WORD, e // WORD)]


def unlike_conjugates(bins):
    """How many of the upper bins aren't the conjugates of the lower ones: rounding isn't odd where it meets a half."""
    return sum(1 for k in range(1, SAMPLES // 2) if bins[SAMPLES - k] != (bins[k][0], -bins[k][1]))


def impulse(place):
    return real([1000 if k == place else 0 for k in range(SAMPLES)])


def main():
    argparse.ArgumentParser(description=__doc__, formatter_class=argparse.RawDescriptionHelpFormatter).parse_args()
    print("decimation of 1000 pseudo-random samples")
    for factor in (1, 2, 4, 8):
        ys = decimated(factor, draws(3, 1000, 16))
        print(f"  by {factor}: {len(ys)} samples, digest {digest(ys)}")
    print("circle")
    for name, table in (("cos", C), ("sin", S), ("window", W)):
        print(f"  {name}: digest {digest(table)}")
    for k in (0, 1, 2, 3, 100, 170, 255, 256, 257, 341, 511, 512, 513, 777, 1024, 1025, 1536, 1537, 1999, 2047):
        print(f"  ({k}, {C[k]}, {S[k]}, {W[k]}),")
    print("frames of 2303 pseudo-random samples")
    fs = frames_of(draws(7, 2303, 16))
    weighted = digest([y for f in fs for y in windowed(f)])
    print(f"  {len(fs)} frames, digest {weighted}, first {windowed(fs[0])[512:515]}")
    print("transform")
    frames = [(f"impulse at {place}", impulse(place)) for place in (0, 1, 777, 2047)]
    frames.append(("square", real([32767 if k // 4 % 2 == 0 else -32768 for k in range(SAMPLES)])))
    frames.append(("pseudo-random", real(draws(SEED, SAMPLES, 16))))
    for name, frame in frames:
        bins = transform(frame)
        unlike = unlike_conjugates(bins)
        print(f"  {name}: digest {digest(flat(bins))}, bin 256 {bins[256]}, {unlike} unlike their conjugates")
    print("bands")
    parts = draws(5, 2 * SAMPLES, 34)
    es = energies(list(zip(parts[:SAMPLES], parts[SAMPLES:])))
    print(f"  pseudo-random: digest {digest(halves(es))}, first {es[0]}, last {es[-1]}")


if __name__ == "__main__":
    main()
