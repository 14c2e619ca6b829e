"""What stations and an operator send in a live run, made from a seed: streams in pieces with their times."""

import random
import struct
import sys
from pathlib import Path

sys.path.insert(0, str(Path(__file__).resolve().parents[2] / "examples"))

import input_parts as parts  # noqa: E402

STEP = 64  # working samples from one print to the next
PRINT_SECONDS = STEP / 5512.5
EVERY = 0.25  # seconds of sound in a piece


class Form:
    """How stations send: prints, or sound of so many channels and a factor."""

    def __init__(self, channels, factor):
        self.channels, self.factor = channels, factor
        # bytes of a step: a print, or the samples from one print to the next
        self.step = 8 if channels == 0 else STEP * factor * 2 * channels


def made(seed, form, seconds):
    """So many seconds of noise, or of prints of random words with a mask of two bits, in whole steps."""
    draw, steps = random.Random(seed), round(seconds / PRINT_SECONDS)
    if form.channels:
        return draw.randbytes(steps * form.step)
    masks = (1 << draw.randrange(32) | 1 << draw.randrange(32) for _ in range(steps))
    return b"".join(struct.pack(">II", draw.getrandbits(32), mask) for mask in masks)


def words_of(payload):
    return [word for word, _ in struct.iter_unpack(">II", payload)]


class Sounds:
    """The sounds of a run. Stations share them, so that the model has to print each but once."""

    def __init__(self, given, form):
        self.form, self.seconds = form, given.seconds
        self.all = [made(1000 * given.seed + n, form, given.seconds) for n in range(given.sounds)]

    def excerpt(self, draw, seconds):
        """A part of one of them, in whole steps."""
        sound = draw.choice(self.all)
        size = min(len(sound), round(seconds / PRINT_SECONDS) * self.form.step)
        first = draw.randrange((len(sound) - size) // self.form.step + 1) * self.form.step
        return sound[first : first + size]


def packets(draw, payload):
    """Data packets of all sizes, now and then an empty one."""
    out, at = [], 0
    while at < len(payload):
        size = draw.choice((0, 1, 7, 1000, 4000, 4093, 60000, 65535))
        out.append(parts.packet(1, payload[at : at + size]))
        at += size
    return b"".join(out)


def station(number, sounds, given):
    """Pieces with their times, as (seconds, bytes). A station may have a gap, and a fence of version 1 at half time."""
    draw, form = random.Random(f"{given.seed}/{number}"), sounds.form
    sound = sounds.all[number % len(sounds.all)]
    piece = max(1, round(EVERY / PRINT_SECONDS)) * form.step
    out = [(0.0, parts.station_hello(form.channels, form.factor))]
    # the gap stands in the same place of a sound for all its stations, so that they share its segments
    gap = len(sound) // form.step * 2 // 3 * form.step if number % len(sounds.all) % 2 else None
    half = len(sound) // 2
    fence = half if number % 3 == 0 else None
    at = 0
    while at < len(sound):
        end = min(len(sound), at + piece)
        for stop in (gap, fence):
            if stop is not None and at < stop < end:
                end = stop
        out.append((at / form.step * PRINT_SECONDS, packets(draw, sound[at:end])))
        if end == gap:
            out.append((end / form.step * PRINT_SECONDS, parts.GAP))
        if end == fence:
            out.append((end / form.step * PRINT_SECONDS, parts.fence(1)))
        at = end
    return out


def cut(pieces, draw):
    """The same, ended in the middle of a packet somewhere in the second half."""
    first = draw.randrange(len(pieces) // 2, len(pieces))
    at, last = pieces[first]
    return [*pieces[:first], (at, last[: max(1, len(last) - draw.randrange(1, 60))])]


def add(number, payload, form, draw):
    """The commands that add a recording: as prints' words, or as sound in some pieces."""
    if form.channels == 0:
        return [parts.add(number, words_of(payload))]
    sound = [parts.audio(piece) for piece in parts.pieces(payload, draw.choice((100000, len(payload))))]
    return [parts.open_song(number, form.channels, form.factor), *sound, parts.CLOSE]


def operator(sounds, given):
    """The operator's pieces with their times: in each twelfth of the run something is added or withdrawn, and published."""
    draw, form = random.Random(f"{given.seed}/operator"), sounds.form
    length = min(6.0, given.seconds / 2)
    out, there, next_id = [(0.0, parts.OPERATOR_HELLO)], [], 100
    for tick in range(12):
        commands = []
        for _ in range(2 if tick else 4):
            commands += add(next_id, sounds.excerpt(draw, length), form, draw)
            there.append(next_id)
            next_id += 1
        if tick % 3 == 2:
            commands.append(parts.withdraw(there.pop(draw.randrange(len(there)))))
        if tick % 4 == 1:  # refused: there already, not there, and too short
            commands += [parts.add(there[0], range(256)), parts.withdraw(9), parts.add(8, range(255))]
        commands.append(parts.PUBLISH)
        out += [(given.seconds * tick / 13, command) for command in commands]
    return out
