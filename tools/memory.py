#!/usr/bin/env python3
"""Makes the table of memory in docs/USING.md: the most that hkreplay had in use, in several runs.

    tools/memory.py [--write] [--program PATH]

The table is printed, and with --write put into the document in place of the one that stands there. Linux counts both:
VmHWM is the most that was in use, VmPeak the address space that was asked for. The words are random, with one seed. The
largest inputs have 67 MB, and it takes about a minute.
"""

import argparse
import fcntl
import random
import re
import struct
import subprocess
import sys
import termios
import time
from array import array
from pathlib import Path

ROOT = Path(__file__).resolve().parents[1]
sys.path.append(str(ROOT / "examples"))

import built  # noqa: E402
from input_parts import MOST, OPERATOR_HELLO, PRINTS, PUBLISH, command, operator, station, station_hello  # noqa: E402
from tables import put, table  # noqa: E402

DOCUMENT = ROOT / "docs/USING.md"
DEFAULT, TOP = 1048576, 16777216
LIMITS = ["--positions", str(TOP), "--songs", "65536"]


def measured(program, words, given):
    """What a run had in use and had asked for, in kB. It is looked at when all of its input was read."""
    run = subprocess.Popen([program, *words], stdin=subprocess.PIPE, stdout=subprocess.DEVNULL)
    for piece in given:
        run.stdin.write(piece)
    run.stdin.flush()
    while not is_waiting(run):
        time.sleep(0.01)
    status = Path(f"/proc/{run.pid}/status").read_text()
    run.stdin.close()
    if run.wait():
        sys.exit(f"hkreplay {' '.join(words)} ended with the status {run.returncode}")
    return [int(re.search(rf"{name}:\s*(\d+) kB", status)[1]) for name in ("VmHWM", "VmPeak")]


def is_waiting(run):
    """Whether a run has read all that was written, and waits for more."""
    if run.poll() is not None:
        sys.exit(f"hkreplay ended with the status {run.returncode} inside its input")
    left = array("i", [0])
    fcntl.ioctl(run.stdin, termios.FIONREAD, left)
    state = Path(f"/proc/{run.pid}/stat").read_text().rsplit(") ", 1)[1][0]
    return left[0] == 0 and state == "S"


def filled(words, songs, at_once):
    """So many words in so many recordings, and a publish after each, or one for all; a station sends its hello alone."""
    yield operator(OPERATOR_HELLO) + station(0, station_hello(PRINTS))
    drawn = random.Random(1)
    for number in range(songs):
        yield operator(command(1, struct.pack(">I", number) + drawn.randbytes(4 * words // songs)), most=MOST)
        if not at_once:
            yield operator(PUBLISH)
    if at_once:
        yield operator(PUBLISH)


def rows(program):
    """The runs, what each had in use at most, and what it had asked for."""
    first = (ROOT / "examples/first.input").read_bytes()

    def row(name, words, given):
        sizes = [kb * 1024 / 1000000 for kb in measured(program, words, given)]
        return [name, *(f"{size:.1f} MB" if size < 10 else f"{size:.0f} MB" for size in sizes)]

    def full(name, words, songs, at_once, options=()):
        return row(name, ["replay", *options], filled(words, songs, at_once))

    yield row("`hkreplay print`, a second of silence", ["print"], [bytes(88200)])
    yield row("the first example", ["replay"], [first])
    yield row(f"the first example with `{' '.join(LIMITS)}`", ["replay", *LIMITS], [first])
    yield full(f"{DEFAULT} words in 256 recordings, a publish after each", DEFAULT, 256, False)
    yield full("the same with one publish for all", DEFAULT, 256, True)
    yield full("the same words as one recording", DEFAULT, 1, False)
    yield full(f"{TOP} words in 64 recordings, a publish after each", TOP, 64, False, LIMITS)
    yield full("the same with one publish for all", TOP, 64, True, LIMITS)


def main():
    parser = argparse.ArgumentParser(description=__doc__, formatter_class=argparse.RawDescriptionHelpFormatter)
    parser.add_argument("--write", action="store_true", help="put the table into docs/USING.md")
    built.add_option(parser)
    options = parser.parse_args()
    text = table(["run", "in use", "asked for"], list(rows(built.need(options.program))))
    print(text, end="")
    if options.write:
        put(DOCUMENT, "memory", "tools/memory.py", text)


if __name__ == "__main__":
    main()
