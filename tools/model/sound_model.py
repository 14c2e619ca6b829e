"""The prints of sound, straight from the formulas, with frames that are computed once."""

import hashlib
import os
import pickle
from array import array

from print_sound import decimated_fast, mono, prints_of_energies
from sound_vectors import SAMPLES, C, S, energies, windowed

STEP = 64


def turns(size):
    return [(C[k * SAMPLES // size], S[k * SAMPLES // size]) for k in range(size // 2)]


TURNS = {size: turns(size) for size in (4, 8, 16, 32, 64, 128, 256, 512, 1024, 2048)}


def quick(xs):
    """The transform of a list of whole numbers as two lists, the real and the imaginary parts."""
    n = len(xs)
    if n == 2:  # the turn by nothing leaves a whole number as it is
        a, b = xs
        return [a + b, a - b], [0, 0]
    er, ei = quick(xs[0::2])
    gr, gi = quick(xs[1::2])
    tr, ti = [], []
    for a, b, (c, s) in zip(gr, gi, TURNS[n]):
        tr.append((a * c + b * s + 16384) >> 15)
        ti.append((b * c - a * s + 16384) >> 15)
    re = [e + t for e, t in zip(er, tr)]
    re += [e - t for e, t in zip(er, tr)]
    im = [e + t for e, t in zip(ei, ti)]
    im += [e - t for e, t in zip(ei, ti)]
    return re, im


class Frames:
    """The energies of frames, each computed once. `path` keeps them from run to run."""

    def __init__(self, path=None):
        self.path, self.known, self.made = path, {}, 0
        if path and os.path.exists(path):
            with open(path, "rb") as file:
                self.known = pickle.load(file)

    def energies(self, frame):
        key = hashlib.blake2b(frame, digest_size=16).digest()
        if key not in self.known:
            samples = array("h")
            samples.frombytes(frame)
            self.known[key] = tuple(energies(list(zip(*quick(windowed(samples))))))
            self.made += 1
        return self.known[key]

    def save(self):
        if self.path and self.made:
            with open(self.path + ".new", "wb") as file:
                pickle.dump(self.known, file)
            os.replace(self.path + ".new", self.path)
            self.made = 0


FRAMES = Frames()


def keep_frames(path):
    """Keeps the energies of frames in a file, from run to run, or in memory alone where that is None."""
    global FRAMES
    FRAMES = Frames(path)


def save_frames():
    FRAMES.save()


def sound_prints(channels, factor, flips, data):
    """The word and the mask of each print of one segment of sound."""
    raw = array("h", decimated_fast(factor, mono(channels, data))).tobytes()
    frames = (raw[at : at + 2 * SAMPLES] for at in range(0, len(raw) - 2 * SAMPLES + 1, 2 * STEP))
    return prints_of_energies(flips, (FRAMES.energies(frame) for frame in frames))


def sound_last_byte(channels, factor, n):
    """The place in the segment of the byte that completes print n: the last of frame n + 1."""
    y = STEP * (n + 1) + SAMPLES - 1
    x = y * factor + 2 * factor - 2
    return (x + 1) * 2 * channels - 1
