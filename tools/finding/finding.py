#!/usr/bin/env python3
"""Makes the tables of docs/FINDING.md: how many blocks of played recordings are found, by damage, flips and hop.

    tools/finding/finding.py [--write] [--only TABLE] [--music FOLDER] [--program PATH] [--jobs N]

The tables are printed, and with --write put into the document in place of those that stand there. The recordings are
*.ogg of FOLDER, by their names: 16 of them make the catalogue, and 8 more are played that aren't in it. It needs ffmpeg
and, where no FOLDER is given, Debian's package wesnoth-1.16-music. It takes some ten minutes, and leaves nothing behind.
"""

import argparse
import os
import sys
import tempfile
from concurrent.futures import ThreadPoolExecutor
from pathlib import Path

ROOT = Path(__file__).resolve().parents[2]
sys.path += [str(ROOT / folder) for folder in ("tools", "examples")]

import built  # noqa: E402
import damages  # noqa: E402
import recordings  # noqa: E402
import silence  # noqa: E402
from plays import FACTOR, Count, Play, catalogue, percent, report, sent, words_of  # noqa: E402
from recordings import PRINT, RATE  # noqa: E402
from tables import put, table  # noqa: E402

DOCUMENT = ROOT / "docs/FINDING.md"
KNOWN, UNKNOWN = 16, 8
SECONDS, FIRST = 12, 20 * RATE // PRINT * PRINT
FLIPS = (0, 4, 10)
FLIPS_HEAD = [f"{flips} flips" for flips in FLIPS]
HOP = 64
LENGTHS = (3.5, 4, 5, 7, 10, 15)
HOPS = (16, 64, 128, 256)
PAUSE = 4  # seconds of another recording before each short play
TABLES = ("damage", "short", "silence")


class Trial:
    """The recordings, those of the catalogue and others, and the program."""

    def __init__(self, program, music, work, jobs):
        found = recordings.all_recordings(music, work, KNOWN + UNKNOWN)
        self.known, self.unknown, self.program, self.jobs = found[:KNOWN], found[KNOWN:], program, jobs
        self.words = self.each(lambda recording: words_of(program, recording.sound()), self.known)
        self.catalogue = catalogue(self.words)

    def each(self, function, items):
        with ThreadPoolExecutor(self.jobs) as pool:
            return list(pool.map(function, items))

    def about(self):
        words = sum(map(len, self.words))
        return f"{KNOWN} recordings of together {words * PRINT / RATE / 60:.0f} minutes, {words} words"

    def parts(self, damage):
        """The damaged part of each recording, and the plays that these are."""
        both = self.known + self.unknown

        def made(n):
            begin, count = FIRST + damage.shift, SECONDS * RATE
            other = self.unknown[(n + 1) % UNKNOWN].part(begin, count)
            return damage.of(both[n].part(begin, count), other)

        sounds = self.each(made, range(len(both)))
        numbers = [n + 1 if n < KNOWN else 0 for n in range(len(both))]
        return sounds, [Play(number, FIRST + damage.shift, damage.speed) for number in numbers]

    def row(self, damage):
        """What is found of the parts, by each number of flips: those of the catalogue, and the others."""
        sounds, plays = self.parts(damage)
        records = self.catalogue + b"".join(sent(s, sound) for s, sound in enumerate(sounds))
        out = []
        for flips in FLIPS:
            lines = report(self.program, records, len(plays), flips, HOP)
            own, others = Count(), Count()
            for s, play in enumerate(plays):
                (own if play.number else others).add(play, [line for line in lines if line.station == s])
            out.append((own, others))
        return out


def of_damages(trial, head, chosen):
    """A row for each damage; below them what was found where it isn't."""
    rows, sums = [], [[0, 0, 0, 0] for _ in FLIPS]
    for damage in chosen:
        row = trial.row(damage)
        four = row[FLIPS.index(4)][0]
        rows.append([damage.name, *(own.share() for own, _ in row), f"{four.plays_found} of {four.plays}"])
        for total, (own, others) in zip(sums, row):
            for i, count in enumerate((own.false, own.blocks, others.false, others.blocks)):
                total[i] += count
        print(f"{damage.name}: done", file=sys.stderr)
    text = table([head, *FLIPS_HEAD, "plays, 4 flips"], rows)
    wrong = [["a recording of the catalogue", *(f"{a} of {b}" for a, b, _, _ in sums)]]
    wrong.append(["another recording", *(f"{c} of {d}" for _, _, c, d in sums)])
    false = table(["what the station plays", *FLIPS_HEAD], wrong)
    return f"{text}\nLines that name a recording that isn't played:\n\n{false}"


def short_plays(trial):
    """The share of short plays that some block finds, by their length and the hop."""
    streams = trial.each(lambda seconds: one_length(trial, seconds), LENGTHS)
    records = trial.catalogue + b"".join(sent(s, sound) for s, (sound, _) in enumerate(streams))
    cells = {}
    for hop in HOPS:
        lines = report(trial.program, records, len(LENGTHS), 4, hop)
        for s, (_, plays) in enumerate(streams):
            mine = [line for line in lines if line.station == s and line.items]
            met = [
                any(play.at - 256 < line.first < play.at + play.prints and play.is_found(line) for line in mine)
                for play in plays
            ]
            cells[s, hop] = percent(sum(met), len(met))
    rows = [[f"{seconds:g} s", *(cells[s, hop] for hop in HOPS)] for s, seconds in enumerate(LENGTHS)]
    return table(["length of a play", *(f"hop {hop}" for hop in HOPS)], rows)


def one_length(trial, seconds):
    """The sound of a station that plays two parts of each recording for so long, with others between, and the plays."""
    sound, plays = b"", []
    for n in range(2 * KNOWN):
        before = trial.unknown[n % UNKNOWN].part(10 * RATE * (n + 1), PAUSE * RATE + 1234 * n)
        begin = FIRST + 5 * RATE * (n // KNOWN) + 777 * n
        at = (len(sound) + len(before)) // recordings.GROUP / PRINT
        plays.append(Play(n % KNOWN + 1, begin, 1.0, int(at), int(seconds * RATE / PRINT)))
        sound += before + trial.known[n % KNOWN].part(begin, int(seconds * RATE))
    return damages.AIRED.of(sound, b""), plays


def made(trial, name):
    if name == "damage":
        return of_damages(trial, "damage", damages.DAMAGES)
    if name == "short":
        return short_plays(trial)
    return silence.rows(trial)


def main():
    parser = argparse.ArgumentParser(description=__doc__, formatter_class=argparse.RawDescriptionHelpFormatter)
    parser.add_argument("--write", action="store_true", help="put the tables into docs/FINDING.md")
    parser.add_argument("--only", choices=TABLES, metavar="TABLE", help=f"one table alone: {', '.join(TABLES)}")
    parser.add_argument("--music", type=Path, default=recordings.MUSIC, metavar="FOLDER", help="recordings to take")
    parser.add_argument("--jobs", type=int, default=os.cpu_count(), metavar="N", help="parts made at a time")
    built.add_option(parser)
    options = parser.parse_args()
    program = built.need(options.program)
    recordings.need(options.music)
    with tempfile.TemporaryDirectory(prefix="finding.") as work:
        trial = Trial(program, options.music, Path(work), options.jobs)
        print(f"{trial.about()}; sound of {RATE} Hz in two channels, factor {FACTOR}", file=sys.stderr)
        for name in [options.only] if options.only else TABLES:
            text = made(trial, name)
            print(text)
            if options.write:
                put(DOCUMENT, name, "tools/finding/finding.py", text)


if __name__ == "__main__":
    main()
