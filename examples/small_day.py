#!/usr/bin/env python3
"""Makes the input of a small day: two stations, an operator, four publishes.

    examples/small_day.py | hkreplay replay --stations 2
    examples/small_day.py FILE

It writes about 540 kilobytes, to FILE where one is given. What the first line prints is in small_day.report, and
docs/USING.md goes through it. Station 0 sends sound: 11025 pairs of samples a second, left and right. It plays recording 102 from its sample
3000 on, less loud and with some noise. Station 1 sends prints: it plays recording 101 four times, with a wrong bit in
every word. Recording 101 is added as words, and recording 102 as sound. All numbers are whole, and what looks random is
drawn by a generator.
"""

import argparse
import struct
import sys
from pathlib import Path

from find_a_song import triangle
from input_parts import (
    CLOSE,
    GAP,
    OPERATOR_HELLO,
    PRINTS,
    PUBLISH,
    add,
    audio,
    data,
    draws,
    fence,
    open_song,
    operator,
    prints,
    station,
    station_hello,
    withdraw,
)

RATE = 11025
# samples from one note to the next
NOTE = 245


def song(quarters):
    """So many quarter seconds of four voices over a drum, with one voice on the left and one on the right alone."""
    notes, drum = draws(15), draws(16)
    periods = [6 + next(notes) % 31 for _ in range(4)]
    sides = []
    for t in range(RATE * quarters // 4):
        if t % NOTE == 0:
            periods = [6 + next(notes) % 31 if next(notes) % 2 else period for period in periods]
        voices = [triangle(t, period, 4000) for period in periods]
        both = (voices[2] + voices[3]) // 2 + next(drum) % 18001 - 9000
        sides.append((voices[0] + both, voices[1] + both))
    return sides


def on_air(sides, numbers):
    """Three quarters as loud, with noise."""
    return [tuple(side * 3 // 4 + next(numbers) % 81 - 40 for side in group) for group in sides]


def sound(sides):
    return b"".join(struct.pack("<hh", left, right) for left, right in sides)


def drawn_words(count, seed):
    numbers = draws(seed)
    return [next(numbers) * 65536 + next(numbers) for _ in range(count)]


def heard(words, numbers, weak):
    """Each word with a wrong bit; where `weak` holds of its number, the mask has the wrong bit and two more."""
    sent = []
    for n, word in enumerate(words):
        bit = next(numbers) % 32
        mask = sum(1 << (bit + 5 * i) % 32 for i in range(3)) if weak(n) else 0
        sent.append(prints([word ^ (1 << bit)], mask))
    return b"".join(sent)


def day():
    """The input, part after part."""
    words = drawn_words(320, 11)
    mix = drawn_words(40, 12) + words
    tune = song(25)
    played = on_air(tune[3000:], draws(13))

    def hear(first, last):
        """The sound of station 0 between two quarter seconds."""
        return data(sound(played[RATE * first // 4 : RATE * last // 4]))

    wrong = draws(14)
    weak, never = (lambda n: n % 50 == 7), (lambda n: False)

    # Recording 101 is added, and heard before and after it is published.
    yield operator(OPERATOR_HELLO, add(101, words))
    yield station(1, station_hello(PRINTS), data(heard(words[:256], wrong, weak)))
    yield operator(PUBLISH)
    yield station(1, fence(1), data(heard(words[256:], wrong, weak)))

    # Station 0 plays recording 102 while that is added as sound, in two halves.
    half = len(tune) // 2
    yield station(0, station_hello(2, 2), hear(0, 14))
    yield operator(open_song(102, 2, 2), audio(sound(tune[:half])))
    yield operator(audio(sound(tune[half:])), CLOSE)
    yield station(0, hear(14, 17))
    yield operator(PUBLISH)
    yield station(0, fence(2), hear(17, 20))

    # Recording 101 is withdrawn, and is found until that is published.
    yield operator(withdraw(101), withdraw(999))
    yield station(1, GAP, data(heard(words[:256], wrong, weak)))
    yield operator(PUBLISH)
    yield station(1, fence(3), data(heard(words[256:], wrong, weak)))

    # It is added again, with a mix that has all of its words from word 40 on.
    yield operator(add(101, words), add(103, mix), PUBLISH)
    yield station(1, GAP, fence(4), data(heard(words[:256], wrong, weak)))
    yield station(0, hear(20, 23))

    # The same words once more, with no bit marked as weak.
    yield station(1, GAP, data(heard(words[:256], wrong, never)))


def main():
    parser = argparse.ArgumentParser(description=__doc__, formatter_class=argparse.RawDescriptionHelpFormatter)
    parser.add_argument("file", nargs="?", type=Path, metavar="FILE", help="what to write (standard output)")
    file = parser.parse_args().file
    if file is None and sys.stdout.isatty():
        sys.exit("the input is bytes: give a file, or let a program read them")
    (sys.stdout.buffer.write if file is None else file.write_bytes)(b"".join(day()))


if __name__ == "__main__":
    main()
