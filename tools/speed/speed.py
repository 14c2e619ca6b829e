#!/usr/bin/env python3
"""Times hkreplay on sound beside a plain program in C, in one run.

    tools/speed/speed.py [--seconds N | --input FILE] [--rounds N] [--parts] [--program PATH] [--flags FLAGS]

The sound is a minute of pseudo-random stereo at 44.1 kHz, or FILE: signed numbers of 16 bits, the low byte first, left
before right. `hkreplay print`, `hkreplay replay` with a station that sends this sound to an empty catalogue, and
print_reference.c, which gcc builds here in two forms, take turns, and of each the least user time counts. All prints
have to be equal, and the report has to be the known one, else the status is 1. With --parts the parts of the reference
follow, by its own timers, and the functions of the program, by perf (Debian's linux-perf); small ones are inlined.
Ratios in one run tell something; times of two runs don't, because the machine's clock and its other work change.
"""

import argparse
import os
import re
import shlex
import subprocess
import sys
import tempfile
from array import array
from dataclasses import dataclass, field
from itertools import islice
from pathlib import Path

HERE = Path(__file__).resolve().parent
sys.path.append(str(HERE.parents[1] / "examples"))
import built  # noqa: E402
from input_parts import data, draws, station, station_hello  # noqa: E402

RATE, CHANNELS, FACTOR, FLIPS = 44100, 2, 8, 4
GROUP = 2 * CHANNELS
FRAME, HOP = 2048, 64
BLOCK, BLOCK_HOP = 256, 64
PACKET = 32768
# proved programs are built for processors with SSE4.2, and so is the reference
FLAGS = "-O3 -march=x86-64-v2"


@dataclass
class Runner:
    """A program that does the work on a file, what it has to write, and the user seconds of each of its runs.

    Where the file of what it has to write isn't there, the first text that is written becomes it.
    """

    name: str
    command: list
    given: Path
    wanted: Path
    times: list = field(default_factory=list)

    def run(self, text, complaints=None, words=()):
        with open(self.given, "rb") as stdin, open(text, "wb") as stdout:
            child = subprocess.Popen([*self.command, *words], stdin=stdin, stdout=stdout, stderr=complaints)
            _, status, used = os.wait4(child.pid, 0)
            child.returncode = os.waitstatus_to_exitcode(status)
        if child.returncode:
            sys.exit(f"speed: {self.name} ended with the status {child.returncode}")
        if not self.wanted.exists():
            text.rename(self.wanted)
        elif self.wanted.read_bytes() != text.read_bytes():
            sys.exit(f"speed: {self.name} writes another text than is wanted")
        self.times.append(used.ru_utime)

    def least(self):
        return max(min(self.times), 1e-6)


def made_sound(seconds):
    """Samples that are the high parts of draws from the state 17, less 32768."""
    samples = array("h", (high - 32768 for high in islice(draws(17), seconds * RATE * CHANNELS)))
    if sys.byteorder == "big":
        samples.byteswap()
    return samples.tobytes()


def frames_in(size):
    decimated = (size // GROUP - (2 * FACTOR - 1)) // FACTOR + 1
    return max(0, (decimated - FRAME) // HOP + 1)


def write_replay(sound, path):
    """The input in which station 0 sends the sound, and there is no operator."""
    path.write_bytes(station(0, station_hello(CHANNELS, FACTOR), data(sound, PACKET), most=PACKET + 3))


def report_of(size):
    """What that replay prints: each block finds nothing."""
    blocks = max(0, (frames_in(size) - 1 - BLOCK) // BLOCK_HOP + 1)
    lines = [f"S 0 B {n} G 0 W {BLOCK_HOP * n} V 0: none" for n in range(blocks)]
    return "\n".join([*lines, f"T S 0 {blocks} 0 ended", "T O 0 0 ended", ""]).encode()


def reference(folder, name, flags):
    to = folder / name.replace(" ", "_")
    try:
        subprocess.run(["gcc", *flags, "-o", to, HERE / "print_reference.c"], check=True)
    except subprocess.CalledProcessError as error:
        sys.exit(f"speed: gcc doesn't build the reference: {error}")
    return [to, str(CHANNELS), str(FACTOR), str(FLIPS)]


def references(folder, flags, sound, prints):
    """The plain program in both forms: the first one is what ratios are told to."""
    return [
        Runner(f"reference in {name}", reference(folder, name, [*flags, f"-DPART={part}"]), sound, prints)
        for name, part in (("64 bits", "int64_t"), ("32 bits", "int32_t"))
    ]


def programs(folder, program, sound, prints):
    """`print` of the sound, and `replay` with a station that sends it."""
    replay, report = folder / "replay.input", folder / "report"
    write_replay(sound.read_bytes(), replay)
    report.write_bytes(report_of(sound.stat().st_size))
    words = ["print", "--channels", str(CHANNELS), "--factor", str(FACTOR), "--flips", str(FLIPS)]
    return [
        Runner("hkreplay print", [program, *words], sound, prints),
        Runner("hkreplay replay", [program, "replay", "--flips", str(FLIPS)], replay, report),
    ]


def tell(all_runners, size):
    """A line for each, with the ratio of its time to the first one's."""
    seconds, frames = size / (GROUP * RATE), frames_in(size)
    rounds, first = len(all_runners[0].times), all_runners[0].least()
    print(f"{seconds:g} s of stereo at {RATE} Hz, {frames} frames; least user time of {rounds} runs each")
    print(f"{'':22}{'user s':>8}{'times real time':>17}{'ns a frame':>12}{'to the first':>14}")
    for runner in all_runners:
        least = runner.least()
        nanoseconds = least * 1e9 / frames if frames else 0
        print(f"{runner.name:22}{least:8.3f}{seconds / least:17.0f}{nanoseconds:12.0f}{least / first:14.2f}")


def tell_reference_parts(runner, folder, frames):
    """The reference's own timers, of one more run."""
    complaints = folder / "parts"
    with open(complaints, "wb") as stderr:
        runner.run(folder / "text", stderr, ["parts"])
    parts = [line.split() for line in complaints.read_text().splitlines()]
    whole = sum(float(seconds) for _, seconds in parts)
    print(f"\n{runner.name}, by its timers:")
    for name, seconds in parts:
        each = float(seconds) * 1e9 / frames if frames else 0
        print(f"  {name:28}{float(seconds):8.4f} s{float(seconds) / whole:8.1%}{each:12.0f} ns a frame")


def tell_functions(runner, folder):
    """Where perf's samples of the program fall, from half a percent on."""
    data = folder / "perf.data"
    record = ["perf", "record", "-q", "-e", "cpu-clock:u", "-F", "4000", "-o", data, "--", *runner.command]
    report = ["perf", "report", "-i", data, "--stdio", "-q", "-F", "overhead,symbol", "--percent-limit", "0.5"]
    try:
        with open(runner.given, "rb") as stdin:
            subprocess.run(record, stdin=stdin, stdout=subprocess.DEVNULL, stderr=subprocess.PIPE, check=True)
        said = subprocess.run(report, capture_output=True, text=True, check=True).stdout
    except (OSError, subprocess.CalledProcessError) as error:
        print(f"\nno functions of {runner.name}: perf doesn't run here ({error})")
        return
    print(f"\n{runner.name}, by perf:")
    for share, symbol in re.findall(r"^\s*([0-9.]+%)\s+\[.\] (\S.*?)(?:\s+-\s+-)?\s*$", said, re.MULTILINE):
        print(f"  {share:>7}  {symbol}")


def options_of(words):
    parser = argparse.ArgumentParser(description=__doc__, formatter_class=argparse.RawDescriptionHelpFormatter)
    sound = parser.add_mutually_exclusive_group()
    sound.add_argument("--seconds", type=int, default=60, help="of sound that is made (60)")
    sound.add_argument("--input", type=Path, metavar="FILE", help="sound to take in its place")
    parser.add_argument("--rounds", type=int, default=5, help="runs of each program (5)")
    parser.add_argument("--parts", action="store_true", help="print also where the time goes")
    built.add_option(parser)
    parser.add_argument("--flags", default=FLAGS, help=f"gcc's, as --flags='-O2 -march=native' (those of '{FLAGS}')")
    options = parser.parse_args(words)
    if options.seconds < 1 or options.rounds < 1:
        parser.error("seconds and rounds are at least 1")
    if options.input and not options.input.is_file():
        parser.error(f"{options.input} is no file")
    return options


def main():
    options = options_of(sys.argv[1:])
    program = built.need(options.program)
    built.need_commands("gcc")
    with tempfile.TemporaryDirectory(prefix="speed.") as name:
        folder = Path(name)
        sound, prints = options.input, folder / "prints"
        if sound is None:
            sound = folder / "sound.raw"
            sound.write_bytes(made_sound(options.seconds))
        plain = references(folder, shlex.split(options.flags), sound, prints)
        ours = programs(folder, program, sound, prints)
        for _ in range(options.rounds):
            for runner in plain + ours:
                runner.run(folder / "text")
        tell(plain + ours, sound.stat().st_size)
        if options.parts:
            for runner in plain:
                tell_reference_parts(runner, folder, frames_in(sound.stat().st_size))
            for runner in ours:
                tell_functions(runner, folder)


if __name__ == "__main__":
    main()
