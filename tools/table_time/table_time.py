#!/usr/bin/env python3
"""Times a recording of 250000 words that comes to a catalogue and goes, and walks, beside the same in plain Rust.

    tools/table_time/table_time.py

It builds plain_nodes.rs with rustc -O, and runs it with each kind of nodes in turn: the algorithm of the table alone.
Then it copies the repository to a temporary folder, adds the program of program.txt there as a crate over hk_catalogue,
and proves, builds and runs it with rt: the table with its store, and all checks of a catalogue. The copy's crates are
proved first, unless rt keeps them from an earlier rt ci. A recording comes to a catalogue that others fill and goes,
the first of the others goes, and words are walked. Each time is the least of all runs, in milliseconds of processor
time.
"""

import argparse
import subprocess
import sys
import tempfile
from pathlib import Path

HERE = Path(__file__).resolve().parent
sys.path += [str(HERE.parent), str(HERE.parents[1] / "examples")]
import added_crate  # noqa: E402
import built  # noqa: E402

RUNS = 3


def times(output):
    """The times by the number of positions."""
    rows = [line.split() for line in output.splitlines() if line.startswith("times ")]
    return {int(row[1]): [int(word) / 1000 for word in row[3:7]] for row in rows}


def output_of(*words, folder=None):
    return subprocess.run(words, cwd=folder, capture_output=True, text=True, check=True).stdout


def plain_nodes(folder):
    program = folder / "plain_nodes"
    subprocess.run(["rustc", "-O", "-o", program, HERE / "plain_nodes.rs"], check=True)
    for _ in range(RUNS):
        for layout in ("six", "one"):
            yield f"plain, {layout}", times(output_of(program, layout))


def our_catalogue(folder):
    text, said = added_crate.run(
        HERE / "program.txt", "hk_base hk_table hk_catalogue", added_crate.proofs_of_places("table_time")
    )
    if not times(text):
        sys.exit(said)
    yield "catalogue", times(text)


def main():
    argparse.ArgumentParser(description=__doc__, formatter_class=argparse.RawDescriptionHelpFormatter).parse_args()
    built.need_commands("rustc", "rt")
    least = {}
    with tempfile.TemporaryDirectory() as folder:
        for kind in (plain_nodes, our_catalogue):
            for name, lines in kind(Path(folder)):
                for positions, new in lines.items():
                    old = least.get((positions, name), new)
                    least[positions, name] = [min(pair) for pair in zip(old, new)]
    print("nodes      positions   come   last goes   first goes   200000 walks")
    for (positions, name), (come, last, first, walks) in sorted(least.items()):
        print(f"{name:11}{positions:9}{come:7.1f}{last:12.1f}{first:13.1f}{walks:15.1f}")


if __name__ == "__main__":
    main()
