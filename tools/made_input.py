#!/usr/bin/env python3
"""The input that `hkreplay make` replays, written from its description alone.

    tools/made_input.py SEED [--stations N] [--flips K] > FILE
    tools/made_input.py --digests
    tools/made_input.py --lines PROGRAM
    tools/made_input.py --compare PROGRAM

PROGRAM is hkreplay, by its `replay`, or the word `model`, which is tools/model/replay_model.py and takes some minutes.
"""

import argparse
import struct
import subprocess
import sys
from pathlib import Path

HERE = Path(__file__).resolve().parent
sys.path.append(str(HERE.parent / "examples"))
import built  # noqa: E402
from input_parts import GAP, OPERATOR_HELLO, PRINTS, PUBLISH  # noqa: E402
from input_parts import add, draws, operator_record, packet, station_hello, station_record, withdraw  # noqa: E402

TABLE = HERE / "made_lines.txt"
MODEL = HERE / "model/replay_model.py"


def songs(high):
    """Eight songs by their numbers; each word is two draws, the upper half first."""
    return [[next(high) * 65536 + next(high) for _ in range(1000 + 100 * i)] for i in range(8)]


def played(word, bit, flips):
    """A print of the word: one wrong bit, and `flips` weak bits from it on, round the word's end."""
    if flips == 0:
        return struct.pack(">II", word, 0)
    weak = [(bit + i) % 32 for i in range(flips)]
    return struct.pack(">II", word ^ (1 << bit), sum(1 << b for b in weak))


def made_input(seed, stations=4, flips=4):
    high = draws(seed)
    song = songs(high)
    edits = [
        [add(100 + i, song[i]) for i in range(0, 4)],
        [add(100 + i, song[i]) for i in range(4, 8)],
        [withdraw(103)],
        [add(103, song[3])],
    ]
    out = [operator_record(OPERATOR_HELLO)]
    out += [station_record(s, station_hello(PRINTS)) for s in range(stations)]
    for r in range(4):
        out += [operator_record(c) for c in edits[r] + [PUBLISH]]
        for s in range(stations):
            words = song[(s + r) % 8][40 * r : 40 * r + 600]
            prints = b"".join(played(w, next(high) % 32, flips) for w in words)
            out.append(station_record(s, packet(1, prints)))
        out += [station_record(s, GAP) for s in range(stations)]
    return b"".join(out)


def digest(data):
    """Bytes as digits to the base 131, modulo 2^64: what the test in crates/hk_made computes."""
    value = 0
    for byte in data:
        value = (value * 131 + byte) % 2**64
    return value


def line_of(report):
    """The M line that belongs to a replay's text: its blocks, their items, and the versions published."""
    lines = report.split("\n")
    lists = [line.split(": ", 1)[1] for line in lines if line.startswith("S ")]
    items = sum(0 if text == "none" else len(text.split(" ")) for text in lists)
    versions = sum(1 for line in lines if line.startswith("O ") and " published " in line)
    return f"M blocks {len(lists)} matches {items} versions {versions}"


def replayed(program, data, options):
    words = [sys.executable, MODEL] if program == "model" else [program]
    run = subprocess.run([*words, "replay", *options], input=data, stdout=subprocess.PIPE, check=False)
    if run.returncode != 0:
        sys.exit(f"{program} replay {' '.join(options)}: status {run.returncode}")
    return run.stdout.decode("ascii")


def cases():
    """Each case of the table: the words after `make`, and the line."""
    for row in TABLE.read_text().splitlines():
        if not row.startswith("#") and row.strip():
            words, line = row.split(": ")
            yield words.split(" "), line


def lines(program):
    for words, wanted in cases():
        options = dict(zip(words[1::2], words[2::2]))
        stations = int(options.get("--stations", 4))
        data = made_input(int(words[0]), stations, int(options.get("--flips", 4)))
        options["--stations"] = str(stations)
        yield words, wanted, line_of(replayed(program, data, [w for pair in options.items() for w in pair]))


def options_of(words):
    parser = argparse.ArgumentParser(description=__doc__, formatter_class=argparse.RawDescriptionHelpFormatter)
    kind = parser.add_mutually_exclusive_group(required=True)
    kind.add_argument("seed", nargs="?", type=int, help="write the input to standard output")
    kind.add_argument("--digests", action="store_true", help="print the numbers of the tests in crates/hk_made")
    kind.add_argument("--lines", metavar="PROGRAM", help="print the M line for each case of made_lines.txt")
    kind.add_argument("--compare", metavar="PROGRAM", help="compare these with made_lines.txt")
    parser.add_argument("--stations", type=int, default=4, metavar="N", help="stations of the input (4)")
    parser.add_argument("--flips", type=int, default=4, metavar="K", help="weak bits of a print (4)")
    return parser.parse_args(words)


def digests():
    for stations in (1, 4):
        for flips in (0, 1, 4):
            data = made_input(1, stations, flips)
            print(stations, flips, len(data), data[:4].hex(), data[-4:].hex(), digest(data))


def main():
    options = options_of(sys.argv[1:])
    program = options.lines or options.compare
    if program and program != "model":
        program = built.need(Path(program))
    if options.digests:
        digests()
    elif options.lines:
        for case, _, line in lines(program):
            print(f"{' '.join(case)}: {line}", flush=True)
    elif options.compare:
        found = [(case, wanted, line) for case, wanted, line in lines(program) if line != wanted]
        for case, wanted, line in found:
            print(f"{' '.join(case)}: {line}, and the table has {wanted}")
        print(f"{len(found)} differ")
        sys.exit(1 if found else 0)
    else:
        sys.stdout.buffer.write(made_input(options.seed, options.stations, options.flips))


if __name__ == "__main__":
    main()
