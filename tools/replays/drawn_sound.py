"""Sound of songs and stations, drawn at random from a few long ones."""

import random

from input_parts import audio
from sound_vectors import SAMPLES


class Sounds:
    """A few long sounds for each factor, of one channel. Their frames are computed once."""

    def __init__(self):
        self.made = {}

    def base(self, factor, sort):
        """Bytes of mono samples at this factor, enough for about 350 prints."""
        if (factor, sort) not in self.made:
            r = random.Random(1000 * factor + sort)
            count = (SAMPLES + 64 * 340) * factor
            if sort == 0:
                samples = [r.randint(-32768, 32767) for _ in range(count)]
            elif sort == 1:  # hardly any sound: many differences are the same
                samples = [r.choice([0, 0, 0, 1, -1]) if i // 3000 % 2 else 0 for i in range(count)]
            else:  # loud squares of changing pitch
                samples, level = [], 32767
                while len(samples) < count:
                    samples += [level] * (r.choice([1, 2, 3, 5, 8]) * factor)
                    level = r.choice([32767, -32768, -level - 1])
                samples = samples[:count]
            self.made[factor, sort] = samples
        return self.made[factor, sort]

    def bytes(self, r, channels, factor, sort, low, high):
        """Samples low to high of working rate, as one or two channels with these as mono samples."""
        samples = self.base(factor, sort)[low * factor : high * factor]
        if channels == 1:
            return b"".join(x.to_bytes(2, "little", signed=True) for x in samples)
        how = r.randrange(2)
        out = []
        for i, x in enumerate(samples):
            far = min(32767 - x, x + 32768)
            d = 0 if how == 0 else (i * 7919 + 13) % (far + 1)
            # left and right whose mean rounded down is x; now and then their sum is odd
            left, right = x + d, x - d
            if (i & 3) == 3 and right < 32767:
                right += 1
            out.append(left.to_bytes(2, "little", signed=True) + right.to_bytes(2, "little", signed=True))
        return b"".join(out)


SOUNDS = Sounds()


def sound_form(r):
    return r.choice([1, 1, 2]), r.choice([1, 1, 1, 2, 4 if r.random() < 0.5 else 1, 8 if r.random() < 0.5 else 1])


def a_sound(r, channels, factor, sort, whole, song=False):
    """A part of a long sound: mostly from a place that is a multiple of 64, so that its frames are known."""
    need = SAMPLES + 64 * 256
    low = 64 * r.choice([0, 0, 1, 5, r.randint(0, 40)])
    if r.random() < 0.02:
        low += r.choice([1, 32])
    if song:
        low = 64 * r.choice([0, 0, 0, 1, 5])
        need += 64 * r.choice([0, 60, 60, 70, 70])
    length = (
        r.choice([need, need, need - 1, need + 64, need + 64 * r.randint(0, 40), need + r.randint(0, 2000)])
        if whole
        else r.choice([0, 1, 2047, 2048, 2112, 2111, r.randint(0, 3000)])
    )
    data = SOUNDS.bytes(r, channels, factor, sort, low, low + length)
    # one decimated sample needs factor - 1 samples more than the multiple
    if factor > 1 and r.random() < 0.7:
        data += SOUNDS.bytes(r, channels, factor, sort, low + length, low + length + 1)[: 2 * channels * (factor - 1)]
    if r.random() < 0.3:
        data += r.randbytes(r.randint(1, 2 * channels - 1))  # no whole group
    return data


def in_audio(r, data):
    sizes = r.choice([(1000000, 1000000), (1, 30000), (1, 3000)])
    out, at = [], 0
    if r.random() < 0.2:
        out.append(audio(b""))
    while at < len(data):
        size = r.randint(*sizes)
        out.append(audio(data[at : at + size]))
        at += size
    return out
