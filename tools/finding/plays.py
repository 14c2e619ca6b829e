"""Plays of recordings, sent as sound by stations of one replay, and what the report's lines say of them."""

import re
import subprocess
import sys
from dataclasses import dataclass

from input_parts import MOST, OPERATOR_HELLO, PUBLISH, add, data, operator, station, station_hello
from recordings import CHANNELS, PRINT

FACTOR = 8
NEAR = 8  # prints from where a recording was played to where it is found, at most


def words_of(program, sound):
    """The words of sound, by `hkreplay print`."""
    form = ["print", "--channels", str(CHANNELS), "--factor", str(FACTOR), "--flips", "0"]
    lines = subprocess.run([program, *form], input=sound, stdout=subprocess.PIPE, check=True).stdout
    return [int(line.split()[1], 16) for line in lines.splitlines()]


def catalogue(words):
    """The records that add these recordings, with the ids 1, 2, and so on, and publish them."""
    adds = [add(n + 1, each) for n, each in enumerate(words)]
    return operator(OPERATOR_HELLO, *adds, PUBLISH, most=MOST)


def sent(number, sound):
    """The records of a station that sends this sound."""
    return station(number, station_hello(CHANNELS, FACTOR), data(sound, MOST), most=MOST)


@dataclass
class Line:
    """A report line: its station, its block's first print, and its items as (id, start, errors)."""

    station: int
    first: int
    items: list


REPORT = re.compile(r"S (\d+) B \d+ G \d+ W (\d+) V \d+: (.*)")
ITEM = re.compile(r"(\d+)@(\d+)~(\d+)")


def report(program, records, stations, flips, hop):
    """The report lines of a replay of these records."""
    words = ["replay", "--stations", str(stations), "--flips", str(flips), "--hop", str(hop)]
    done = subprocess.run([program, *words], input=records, stdout=subprocess.PIPE)
    if done.returncode:
        sys.exit(f"hkreplay {' '.join(words)} ended with the status {done.returncode}")
    lines = []
    for text in done.stdout.decode().splitlines():
        found = REPORT.fullmatch(text)
        if found:
            items = [tuple(map(int, item)) for item in ITEM.findall(found[3])]
            lines.append(Line(int(found[1]), int(found[2]), items))
    return lines


@dataclass
class Play:
    """A part of recording `number`, from its pair of samples `begin` on, `speed` times as fast, sent from the station's
    print `at` on and for `prints` prints. Number 0 is none of the catalogue."""

    number: int
    begin: int = 0
    speed: float = 1.0
    at: int = 0
    prints: int = 10**9

    def expected(self, first):
        """The word of the recording that a block's first print should meet, by the block's middle."""
        return self.begin / PRINT + (first - self.at + 128) * self.speed - 128

    def holds(self, line):
        """Whether the line's block lies within the play."""
        return self.at <= line.first and line.first + 257 <= self.at + self.prints

    def is_found(self, line):
        return any(n == self.number and abs(start - self.expected(line.first)) <= NEAR for n, start, _ in line.items)

    def others(self, line):
        """The items of recordings that aren't played."""
        return [item for item in line.items if item[0] != self.number]


@dataclass
class Count:
    """Counts over the lines of some plays."""

    blocks: int = 0
    found: int = 0
    false: int = 0
    plays: int = 0
    plays_found: int = 0

    def add(self, play, lines):
        inside = [line for line in lines if play.holds(line)]
        found = sum(play.is_found(line) for line in inside)
        self.blocks += len(inside)
        self.found += found
        self.false += sum(bool(play.others(line)) for line in inside)
        self.plays += 1
        self.plays_found += found > 0

    def share(self):
        return percent(self.found, self.blocks)


def percent(part, whole):
    """Rounded, but neither to 0 nor to 100 where it isn't."""
    if part in (0, whole):
        return f"{100 * part // max(1, whole)}"
    return f"{min(99, max(1, round(100 * part / whole)))}"
