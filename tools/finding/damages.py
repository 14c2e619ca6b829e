"""Known damage to sound: each is a name, and what makes the damaged sound of a part."""

from dataclasses import dataclass, field

from recordings import BOTH, GROUP, RATE, RAW, ffmpeg, loudness, samples, to_bytes


@dataclass
class Damage:
    """`speed` is how much faster the sound runs than the recording. `shift` are the pairs of samples that the part begins
    behind the first one of a print. The sound is what the steps make of a part, one after another."""

    name: str
    steps: list = field(default_factory=list)
    speed: float = 1.0
    shift: int = 256

    def of(self, sound, other):
        """The damaged sound of a part; `other` is a part of another recording, to mix in."""
        for step in self.steps:
            sound = step(sound, other)
        return sound


def filtered(filters):
    """By filters of ffmpeg."""
    return lambda sound, _: ffmpeg([*RAW, "-i", "-", "-af", filters, *RAW, "-"], sound)


def coded(form, *words):
    """Coded and decoded again. What the coder puts before the sound and behind it is dropped by ffmpeg."""

    def step(sound, _):
        small = ffmpeg([*RAW, "-i", "-", *words, "-f", form, "-"], sound)
        return ffmpeg(["-f", form, "-i", "-", *RAW, "-"], small)[: len(sound)]

    return step


def noise(decibels):
    """White noise so many decibels below the sound."""

    def step(sound, _):
        # values that are evenly spread up to a have the loudness a / sqrt 3
        amplitude = min(1, loudness(sound) / 32768 * 3**0.5 * 10 ** (-decibels / 20))
        source = f"anoisesrc=color=white:sample_rate={RATE}:seed=1:amplitude={amplitude:.6f}"
        graph = f"{source},{BOTH}[n];[0][n]amix=inputs=2:duration=first:normalize=0"
        return ffmpeg([*RAW, "-i", "-", "-filter_complex", graph, *RAW, "-"], sound)

    return step


def under(decibels):
    """Another recording so many decibels below the sound."""

    def step(sound, other):
        factor = loudness(sound) / loudness(other) * 10 ** (-decibels / 20)
        total = samples(sound)
        for i, x in enumerate(samples(other)[: len(total)]):
            total[i] = max(-32768, min(32767, total[i] + int(x * factor)))
        return to_bytes(total)

    return step


def dropped(milliseconds):
    """Nothing in so many milliseconds of each second."""
    count = RATE * milliseconds // 1000 * GROUP

    def step(sound, _):
        out = bytearray(sound)
        for at in range(RATE * GROUP // 2, len(out) - count, RATE * GROUP):
            out[at : at + count] = bytes(count)
        return bytes(out)

    return step


def faster(percent):
    share = 1 + percent / 100
    return Damage(
        f"{percent} % faster, and so higher", [filtered(f"asetrate={RATE * share:.0f},aresample={RATE}")], share
    )


def at_48_khz(sound, _):
    return ffmpeg([*RAW, "-i", "-", "-f", "s16le", "-ar", "48000", "-"], sound)


DAMAGES = [
    Damage("none"),
    Damage("mp3 of 64 kbit/s", [coded("mp3", "-c:a", "libmp3lame", "-b:a", "64k")]),
    Damage("mp3 of 32 kbit/s", [coded("mp3", "-c:a", "libmp3lame", "-b:a", "32k")]),
    Damage("white noise, 10 dB below", [noise(10)]),
    Damage("another recording, 3 dB below", [under(3)]),
    Damage("a telephone's band, 300 to 3400 Hz", [filtered("highpass=f=300,lowpass=f=3400")]),
    Damage("half of the method's band, 600 to 1400 Hz", [filtered("highpass=f=600,lowpass=f=1400")]),
    Damage("echoes after 120 and 250 ms", [filtered("aecho=0.8:0.9:120|250:0.5|0.3")]),
    Damage("loudness levelled 10 to 1", [filtered("acompressor=threshold=0.05:ratio=10:attack=5:release=50:makeup=4")]),
    Damage("12 dB too loud, and clipped", [filtered("volume=12dB")]),
    Damage("silent for 200 ms of each second", [dropped(200)]),
    faster(1),
    faster(2),
    Damage("sent at 48 kHz as if it were 44.1 kHz", [at_48_khz], speed=RATE / 48000),
]
AIRED = Damage("", [coded("mp3", "-c:a", "libmp3lame", "-b:a", "64k"), noise(20)])
