#!/usr/bin/env python3
"""Makes a broadcast of two recordings of Debian's package wesnoth-1.16-music, as a station would air it, and what the
companions need to name its plays.

    broadcast.py FOLDER

FOLDER gets broadcast.mp3 (138 s at 64 kbit a second, with cuts, silence, other sound, and noise 10 dB below one of the
plays), day.toml for `companions/hk pack`, day.commands for `companions/hk operate`, and truth.csv, which says what was
played when, and how many seconds behind the beginning. It needs ffmpeg."""

import argparse
import sys
from pathlib import Path

sys.path.insert(0, str(Path(__file__).resolve().parent.parent / "tools" / "finding"))
from damages import noise  # noqa: E402
from recordings import GROUP, MUSIC, RATE, RAW, ffmpeg, need  # noqa: E402

RECORDINGS = ((7, "Battle"), (9, "Knolls"))
FILES = {7: MUSIC / "battle.ogg", 9: MUSIC / "knolls.ogg"}

# what is aired: a recording's id, from which of its seconds, for how long, and what is done to it; None is no recording
AIRED = (
    (None, 0, 10, "silence"),
    (7, 20, 40, "as it is"),
    (None, 0, 8, "noise"),
    (9, 30, 40, "noise 10 dB below"),
    (None, 0, 10, "silence"),
    (7, 100, 30, "as it is"),
)

SCHEDULE = """[sound]
channels = 2
factor = 8
rate = 44100
{recordings}
[[station]]
name = "Radio One"
[[station.segment]]
began = 2026-12-01T06:00:00Z
file = "broadcast.mp3"
"""

RECORDING = """
[[recording]]
id = {number}
title = "{title}"
file = "{file}"
"""


def seconds(count):
    return count * RATE * GROUP


def sound_of(decoded, number, first, length, what):
    """The sound of one part of the broadcast."""
    if number is not None:
        part = decoded[number][seconds(first) : seconds(first + length)]
        return noise(10)(part, None) if what.startswith("noise") else part
    if what == "silence":
        return bytes(seconds(length))
    source = f"anoisesrc=color=pink:sample_rate={RATE}:seed=2:amplitude=0.2:duration={length}"
    return ffmpeg(["-f", "lavfi", "-i", source, *RAW, "-"])


def main():
    parser = argparse.ArgumentParser(description=__doc__, formatter_class=argparse.RawDescriptionHelpFormatter)
    parser.add_argument("folder", type=Path, help="where the files go")
    folder = parser.parse_args().folder
    need(MUSIC)
    folder.mkdir(parents=True, exist_ok=True)
    decoded = {number: ffmpeg(["-i", str(path), *RAW, "-"]) for number, path in FILES.items()}
    sound, truth = bytearray(), ["title,began,ended,station_second"]
    titles = dict(RECORDINGS)
    for number, first, length, what in AIRED:
        began = len(sound) / seconds(1)
        sound += sound_of(decoded, number, first, length, what)
        if number is not None:
            minutes = [clock(second) for second in (began, len(sound) / seconds(1))]
            truth.append(",".join((titles[number], *minutes, f"{began:.3f}")))
    ffmpeg([*RAW, "-i", "-", "-b:a", "64k", "-y", str(folder / "broadcast.mp3")], bytes(sound))
    recordings = (RECORDING.format(number=n, title=title, file=FILES[n]) for n, title in RECORDINGS)
    (folder / "day.toml").write_text(SCHEDULE.format(recordings="".join(recordings)))
    commands = (f"add {n} {FILES[n]} {title}\n" for n, title in RECORDINGS)
    (folder / "day.commands").write_text("".join(commands) + "publish\n")
    (folder / "truth.csv").write_text("\n".join(truth) + "\n")


def clock(second):
    return f"2026-12-01T06:{int(second // 60):02}:{second % 60:06.3f}Z"


if __name__ == "__main__":
    main()
