"""Real recordings as sound, decoded by ffmpeg, and parts of them: those of Debian's package wesnoth-1.16-music."""

import subprocess
import sys
from array import array
from math import sqrt
from pathlib import Path

sys.path.append(str(Path(__file__).resolve().parents[2] / "examples"))
import built  # noqa: E402

MUSIC = Path("/usr/share/games/wesnoth/1.16/data/core/music")
PACKAGE = "wesnoth-1.16-music"
RATE, CHANNELS = 44100, 2
GROUP = 2 * CHANNELS  # bytes of a pair of samples
PRINT = 512  # pairs of samples from one print to the next: 64 at the working rate, 8 times as many at 44100 Hz
LEAST_SECONDS = 100
BOTH = "pan=stereo|c0=c0|c1=c0"  # one channel as two, each as loud
RAW = ["-f", "s16le", "-ar", str(RATE), "-ac", str(CHANNELS)]


def need(folder):
    """Ends with one line where what all this needs isn't there."""
    built.need_commands("ffmpeg")
    if not any(folder.glob("*.ogg")):
        sys.exit(f"there is no recording *.ogg in {folder}: Debian's package {PACKAGE} brings those of {MUSIC}")


def ffmpeg(words, sound=None):
    """What ffmpeg writes to its standard output."""
    done = subprocess.run(["ffmpeg", "-v", "error", "-nostdin", *words], input=sound, capture_output=True)
    if done.returncode:
        sys.exit(f"ffmpeg {' '.join(words)}: {done.stderr.decode().strip()}")
    return done.stdout


class Recording:
    """A recording as a file of raw sound, of which parts are read."""

    def __init__(self, path, folder):
        self.name = path.stem
        self.raw = folder / f"{path.stem}.raw"
        self.raw.write_bytes(ffmpeg(["-i", str(path), *RAW, "-"]))

    def seconds(self):
        return self.raw.stat().st_size // GROUP // RATE

    def sound(self):
        return self.raw.read_bytes()

    def part(self, first, count):
        """So many pairs of samples from the first on."""
        with open(self.raw, "rb") as file:
            file.seek(first * GROUP)
            return file.read(count * GROUP)


def all_recordings(folder, work, many):
    """The first so many recordings of the folder, by name, that are long enough."""
    found = []
    for path in sorted(folder.glob("*.ogg")):
        if len(found) < many:
            recording = Recording(path, work)
            if recording.seconds() >= LEAST_SECONDS:
                found.append(recording)
            else:
                recording.raw.unlink()
    if len(found) < many:
        sys.exit(f"{folder} has {len(found)} recordings of {LEAST_SECONDS} s or more, and {many} are wanted")
    return found


def samples(sound):
    values = array("h")
    values.frombytes(sound)
    if sys.byteorder == "big":
        values.byteswap()
    return values


def to_bytes(values):
    if sys.byteorder == "big":
        values.byteswap()
    return values.tobytes()


def loudness(sound):
    """The root of the mean square, by each 13th sample."""
    some = samples(sound)[::13]
    return sqrt(sum(x * x for x in some) / max(1, len(some))) or 1.0


def silence(seconds):
    return bytes(int(seconds * RATE) * GROUP)
