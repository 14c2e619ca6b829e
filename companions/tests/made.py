"""What the tests share: made sound, running hk, the model of the tools, and the built program."""

import io
import math
import os
import random
import subprocess
import sys
import tempfile
import unittest
import wave
from array import array
from contextlib import redirect_stderr, redirect_stdout
from functools import cache

HERE = os.path.dirname(os.path.dirname(os.path.abspath(__file__)))
REPOSITORY = os.path.dirname(HERE)
HK = os.path.join(HERE, "hk")
TOOLS = os.path.join(REPOSITORY, "tools")
sys.path[:0] = [HERE] + [
    os.path.join(TOOLS, name)
    for name in ("model", "replays", "", "../examples")
    if os.path.isdir(os.path.join(TOOLS, name))
]

from companion.command import main  # noqa: E402
from companion.program import program_path  # noqa: E402

PROGRAM = program_path()
RATE = 11025
# of sound in the tests: one channel and the factor 2, so that it is small
FORM = {"channels": 1, "factor": 2, "rate": RATE}
NEEDS_PROGRAM = unittest.skipIf(PROGRAM is None, "hkreplay isn't built")


def tune(seed, seconds, voices=4):
    """Made music: a new chord of so many tones each fifth of a second, and a little noise; samples of one channel."""
    draw, samples = random.Random(seed), array("h")
    step, share = RATE // 5, 2 / math.sqrt(voices)
    for _ in range(math.ceil(seconds * 5)):
        tones = [(draw.uniform(300, 2000), share * draw.uniform(1000, 4000), draw.uniform(0, 6)) for _ in range(voices)]
        for place in range(step):
            second = place / RATE
            heard = sum(loud * math.sin(2 * math.pi * tone * second + phase) for tone, loud, phase in tones)
            samples.append(round(heard + draw.uniform(-300, 300)))
    return samples[: round(seconds * RATE)]


def silence(seconds):
    return array("h", bytes(2 * round(seconds * RATE)))


def noisy(samples, seed, decibels):
    """With white noise so many decibels below the sound."""
    draw, loudness = random.Random(seed), math.sqrt(sum(sample * sample for sample in samples) / len(samples))
    # values that are evenly spread up to a have the loudness a / sqrt 3
    most = loudness * math.sqrt(3) * 10 ** (-decibels / 20)
    return array("h", (max(-32768, min(32767, sample + round(draw.uniform(-most, most)))) for sample in samples))


@cache
def tunes():
    """The recordings of the broadcast and one that isn't played. The second has tones in all bands, as music has."""
    return {"first": tune(1, 16), "second": tune(2, 16, 20), "third": tune(3, 12)}


# what the broadcast plays: the title, from which of its seconds to which, and from which second of the tune
BROADCAST = (("First tune", 6.0, 20.0, 0.0), ("Second tune", 26.0, 38.0, 2.0))


def broadcast(first, second):
    """46 seconds: other music, the first tune with a cut, other music, the second with noise 10 dB below, silence."""
    sound = array("h", tune(101, 6))
    sound.extend(first[: 14 * RATE])
    sound.extend(tune(102, 6))
    sound.extend(noisy(second[2 * RATE : 14 * RATE], 5, 10))
    sound.extend(silence(8))
    return sound


def raw(samples):
    """Low byte first."""
    if sys.byteorder == "big":
        samples = array("h", samples)
        samples.byteswap()
    return samples.tobytes()


def write_wave(path, samples):
    with wave.open(path, "wb") as file:
        file.setnchannels(1)
        file.setsampwidth(2)
        file.setframerate(RATE)
        file.writeframes(raw(samples))


def write_raw(path, samples):
    with open(path, "wb") as file:
        file.write(raw(samples))


def hk(*words):
    """The status, and what went to standard output and standard error."""
    out, err = io.StringIO(), io.StringIO()
    with redirect_stdout(Kept(out)), redirect_stderr(err):
        try:
            status = main([str(word) for word in words])
        except SystemExit as end:
            status = end.code
    return status, out.getvalue(), err.getvalue()


class Kept(io.TextIOBase):
    """Standard output that stays readable when it is closed."""

    def __init__(self, to):
        self.to = to

    def writable(self):
        return True

    def write(self, text):
        return self.to.write(text)


def replayed(path, *options):
    """The status and the text of hkreplay on an input."""
    with open(path, "rb") as file:
        done = subprocess.run([PROGRAM, "replay", *options], stdin=file, stdout=subprocess.PIPE, check=False)
    return done.returncode, done.stdout.decode()


class InFolder(unittest.TestCase):
    """A test with a folder of its own."""

    def setUp(self):
        folder = tempfile.TemporaryDirectory()
        self.addCleanup(folder.cleanup)
        self.folder = folder.name

    def path(self, name):
        return os.path.join(self.folder, name)

    def write(self, name, text):
        with open(self.path(name), "w", encoding="utf-8") as file:
            file.write(text)
        return self.path(name)

    def text(self, name):
        with open(self.path(name), encoding="utf-8") as file:
            return file.read()

    def content(self, name):
        with open(self.path(name), "rb") as file:
            return file.read()
