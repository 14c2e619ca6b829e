"""The command `make`: the line of each row of made_lines.txt, the words that it takes, and devices and memory that fail.

The lines were computed by tools/replay_model.py from the input of tools/made_input.py (`tools/made_input.py --compare
model` does so again). No input is read, so each run leaves it as it is.
"""

import sys
from pathlib import Path

from case import NO_MEMORY, Case, Input, Output, Room, bad_usage

sys.path.append(str(Path(__file__).resolve().parents[1]))

import made_input  # noqa: E402

# With no options it has 4 stations, and the looks begin every 64 prints; the same is said by all three options.
FIRST_LINE = "M blocks 96 matches 90 versions 4\n"
EVERY_OPTION = ["--hop", "64", "--stations", "4", "--flips", "4"]


def made(name, *words, **changes):
    """Words that are obeyed: the input is left alone."""
    case = {"status": 0, "input": b"left alone", "unread": True}
    return Case(name, ["make", *words], **{**case, **changes})


LINES = [made(f"make {' '.join(words)}", *words, out=line + "\n") for words, line in made_input.cases()]

WORDS = [
    made("make with every option", "1", *EVERY_OPTION, out=FIRST_LINE),
    made("make with a number of leading zeros", "0000000001", out=FIRST_LINE),
    bad_usage("make with its number behind an option", "make", "--hop", "64", "1"),
    bad_usage("make with no number before an option", "make", "--hop", "64"),
    bad_usage("make with two numbers", "make", "1", "2"),
    bad_usage("make with an option twice", "make", "1", "--hop", "64", "--hop", "64"),
    bad_usage("make with a limit of bytes", "make", "1", "--bytes", "1000"),
    bad_usage("make with channels", "make", "1", "--channels", "1"),
    bad_usage("make with 65 stations", "make", "1", "--stations", "65"),
    bad_usage("make with eleven flips", "make", "1", "--flips", "11"),
    bad_usage("make with a hop of 0", "make", "1", "--hop", "0"),
]

DEVICES = [
    Case(f"make with standard input that is {given.value}", ["make", "1"], 0, FIRST_LINE, input=given)
    for given in (Input.FOLDER, Input.WRITE_ONLY, Input.CLOSED)
] + [
    made(f"make with standard output that is {output.value}", "1", status=6, output=output)
    for output in (Output.FULL, Output.CLOSED, Output.NO_READER)
] + [
    made(f"make on a disk with room for {room} bytes", "1", status=6, out=FIRST_LINE[:room], output=Room(room))
    for room in (1, 12, len(FIRST_LINE) - 1)
] + [
    made("make on a disk with room enough", "1", out=FIRST_LINE, output=Room(len(FIRST_LINE))),
]

# The catalogue of a run at its defaults takes some 50 megabytes at once.
MEMORY = [made("make with memory that is refused", "1", status=4, error=NO_MEMORY, memory=24 * 2**20)]

CASES = LINES + WORDS + DEVICES + MEMORY
