"""Sound: its form, its times, decoding by ffmpeg, and where it is silent."""

import os
import shutil
import subprocess
import wave
from dataclasses import dataclass

from .saying import Trouble, unreadable

# how often a print begins: 64 samples of the working rate
STEP = 64
FRAME = 2048
BLOCK = 256
# shorter silence is in much music, and too little of a block to be taken for a silent station: docs/FINDING.md
SHORTEST_SILENCE = 1.0
# where silence is looked for: pieces of so many samples of each channel, times the factor, which are 23 ms
GRAIN = 128


@dataclass(frozen=True)
class Form:
    """Samples of 16 bits with a sign, low byte first: how many channels, the factor, and samples a second."""

    channels: int = 2
    factor: int = 8
    rate: int = 44100

    @property
    def group(self):
        """Bytes of one sample of each channel."""
        return 2 * self.channels

    @property
    def second(self):
        """Bytes of one second."""
        return self.rate * self.group

    def print_seconds(self):
        """Seconds from one print to the next."""
        return STEP * self.factor / self.rate

    def block_seconds(self):
        """How much sound a block hears: a step for each print, and the frame behind the last step."""
        return BLOCK * self.print_seconds() + FRAME * self.factor / self.rate

    def prints(self, size):
        """How many prints the bytes of one segment give."""
        samples = size // self.group
        if samples < 2 * self.factor - 1:
            return 0
        working = (samples - 2 * self.factor + 1) // self.factor + 1
        return max(0, (working - FRAME) // STEP) if working >= FRAME else 0


def ffmpeg():
    found = shutil.which("ffmpeg")
    if found is None:
        raise Trouble("ffmpeg isn't there", "install it: apt install ffmpeg")
    return found


def is_url(source):
    return "://" in source


def decoder_words(source, form, offset=0.0, seconds=None):
    """The words of an ffmpeg that writes the source's sound to its standard output."""
    words = [ffmpeg(), "-v", "error", "-nostdin"]
    if offset:
        words += ["-ss", f"{offset:.6f}"]
    if seconds is not None:
        words += ["-t", f"{seconds:.6f}"]
    return words + ["-i", source, "-vn", "-f", "s16le", "-ac", str(form.channels), "-ar", str(form.rate), "-"]


def is_raw(path):
    return path.endswith((".raw", ".pcm"))


def wave_of(path, form):
    """The open WAV file, if it is one of just this form; another form is ffmpeg's work."""
    if not path.endswith(".wav"):
        return None
    try:
        found = wave.open(path, "rb")
    except (wave.Error, EOFError):
        return None
    if (found.getnchannels(), found.getframerate(), found.getsampwidth()) != (form.channels, form.rate, 2):
        found.close()
        return None
    return found


def need_source(source, form):
    """That a source can be opened: its file is there, and ffmpeg where that has to decode it."""
    if is_url(source):
        ffmpeg()
        return
    if not os.path.exists(source):
        raise Trouble(f"{source}: no such file", "give a file of sound")
    if not is_raw(source):
        found = wave_of(source, form)
        if found is None:
            ffmpeg()
        else:
            found.close()


class Sound:
    """Reads pieces of a file's sound in a form: raw and fitting WAV files directly, all else by ffmpeg."""

    def __init__(self, path, form, offset=0.0, seconds=None):
        self.path, self.form, self.process, self.file = path, form, None, None
        self.left = None
        need_source(path, form)
        try:
            if is_raw(path):
                self.begin_raw(offset, seconds)
            elif not self.begin_wave(offset, seconds):
                words = decoder_words(path, form, offset, seconds)
                self.process = subprocess.Popen(words, stdout=subprocess.PIPE, stderr=subprocess.PIPE)
                self.file = self.process.stdout
        except OSError as error:
            raise unreadable(path, error) from error

    def begin_raw(self, offset, seconds):
        self.file = open(self.path, "rb")
        self.file.seek(round(offset * self.form.rate) * self.form.group)
        self.left = self.size_of(seconds)

    def begin_wave(self, offset, seconds):
        """Whether the file is a WAV of just this form."""
        form, found = self.form, wave_of(self.path, self.form)
        if found is None:
            return False
        found.setpos(min(round(offset * form.rate), found.getnframes()))
        self.file, self.left = WaveFile(found, form.group), self.size_of(seconds)
        return True

    def size_of(self, seconds):
        return None if seconds is None else round(seconds * self.form.rate) * self.form.group

    def read(self, size):
        """The next so many bytes, fewer at the end, none behind it."""
        if self.left is not None:
            size = min(size, self.left)
        piece = self.file.read(size) if size else b""
        if self.left is not None:
            self.left -= len(piece)
        return piece

    def close(self):
        """Ends the reading; says where ffmpeg couldn't decode."""
        self.file.close()
        if self.process is not None:
            said = self.process.stderr.read().decode(errors="replace").strip().splitlines()
            self.process.stderr.close()
            if self.process.wait() > 0:
                raise Trouble(
                    f"{self.path}: {said[-1] if said else 'ffmpeg failed'}", "give a file that ffmpeg decodes"
                )

    def pieces(self, size=1 << 16):
        """All of it; a piece is of whole groups but perhaps the last one."""
        size -= size % self.form.group
        while True:
            piece = self.read(size)
            if not piece:
                break
            yield piece
        self.close()


class WaveFile:
    """A WAV's frames by bytes."""

    def __init__(self, found, group):
        self.found, self.group = found, group

    def read(self, size):
        return self.found.readframes(size // self.group)

    def close(self):
        self.found.close()


class Silence:
    """Where sound has samples of 0 alone, for at least a second, told in seconds from its beginning."""

    def __init__(self, form):
        self.grain = GRAIN * form.factor * form.group
        self.form, self.rest, self.at, self.since, self.found = form, b"", 0, None, []

    def hear(self, piece):
        piece = self.rest + piece
        whole = len(piece) - len(piece) % self.grain
        for first in range(0, whole, self.grain):
            self.grain_of(piece[first : first + self.grain])
        self.rest = piece[whole:]

    def grain_of(self, piece):
        if not any(piece):
            self.since = self.at if self.since is None else self.since
        else:
            self.ends()
        self.at += len(piece)

    def ends(self):
        if self.since is not None:
            spans = (self.since / self.form.second, self.at / self.form.second)
            if spans[1] - spans[0] >= SHORTEST_SILENCE:
                self.found.append([round(second, 3) for second in spans])
            self.since = None

    def spans(self):
        """The spans so far; the sound has ended."""
        if self.rest:
            self.grain_of(self.rest)
            self.rest = b""
        self.ends()
        return self.found
