#!/usr/bin/env python3
"""Runs hkreplay and hkmon with allocations that fail, and checks that each run ends as USING and LIVE in docs/ say.

    tools/failing/failing_allocations.py [--program PATH] [--monitor PATH] [--only hkreplay|hkmon]

hkreplay plays examples/first.input, fifteen operator commands of which most are refused, and `make`. hkmon, over
loopback, has one station and one publish, the fifteen commands, and two stations of which one waits for the replies and
the other for the log of the first. For n = 1, 2, and so on up to the first number that no run reaches, allocation n
fails alone, and then allocation n and all behind it. Each run has to end in one of two ways:

    with status 4, nothing written, and `no memory` on standard error;
    as the model in tools/model says where the commands whose reply is `refused no-memory` are refused for that; for
    `make` with its line.

A library of a few lines of C stands before the program's malloc, calloc and realloc. It needs gcc and the C library of
GNU. One line for each input and way of failing says what was seen. The status is 1 where some run ended otherwise.
"""

import argparse
import sys
import tempfile
from pathlib import Path

ROOT = Path(__file__).resolve().parents[2]
sys.path += [str(ROOT / folder) for folder in ("tools/live", "tools/model", "tools", "examples")]

import built  # noqa: E402
from on_monitor import monitored  # noqa: E402
from on_replay import replays  # noqa: E402
from sweeping import Failing, sweep_both  # noqa: E402


def main():
    parser = argparse.ArgumentParser(description=__doc__, formatter_class=argparse.RawDescriptionHelpFormatter)
    built.add_option(parser)
    parser.add_argument("--monitor", type=Path, default=built.MONITOR, help="hkmon (that of crates/hkmon/out)")
    parser.add_argument("--only", choices=("hkreplay", "hkmon"), help="one of the programs")
    given = parser.parse_args()
    wrong = 0
    with tempfile.TemporaryDirectory(prefix="failing_allocations.") as folder:
        failing, rows = Failing(folder), []
        if given.only != "hkmon":
            rows += replays(built.need(given.program), failing)
        if given.only != "hkreplay":
            rows += monitored(built.need(given.monitor, "hkmon"), failing)
        for name, runs in rows:
            wrong += sweep_both(name, runs)
    print(f"{wrong} runs ended otherwise than is said" if wrong else "each run ended as is said")
    sys.exit(1 if wrong else 0)


if __name__ == "__main__":
    main()
