#!/usr/bin/env python3
"""Compares what eight readings see beside ten thousand publishes with a fold of the published edits.

    tools/shared_catalogue/shared_catalogue.py

It copies the repository to a temporary folder, adds the program of program.txt there as a crate over hk_publish, and
proves, builds and runs it with rt. One thread publishes ten thousand versions of two edits each; eight others look the
same block up all the time. Each reading prints every version that it saw, with a sum over the matches that it found.
This script folds the same edits and compares each line. It prints the times of a look beside the desk and without it.
The copy's crates are proved first, unless rt keeps them from an earlier rt ci.
"""

import argparse
import re
import sys
from pathlib import Path

HERE = Path(__file__).resolve().parent
sys.path += [str(HERE.parent), str(HERE.parents[1] / "examples")]
import added_crate  # noqa: E402
import built  # noqa: E402

PUBLISHES, READINGS, IDS = 10000, 8, 12
MOST_ERRORS = 2867
CRATES = "hk_base hk_block hk_table hk_catalogue hk_publish"
COUNTS = re.compile(r"reading (\d+): (\d+) looks, (\d+) differences, (\d+) ns, (\d+) ns")

PROOFS = {
    "Seat/look/Invariants.antt": added_crate.counted_in("shared_catalogue", "Seat.look", "look_in"),
    # The readings that have no seat yet have few positions.
    "seat_all/Invariants.antt": """use Rattle.std.proofs.Common.{◌≤◌}
use Rattle.std.specs.List.{All}
use Rattle.shared_catalogue.proofs.seat_all.Given as goal

abbrev pub invariant-loop : goal.invariant-loop
invariant-loop g l = All (λ reading. reading.limits.positions ≤ 4096) l.readings.items
""",
    "rising_ring/Invariants.antt": """use Rattle.std.proofs.Common.{◌≡◌}
use Rattle.shared_catalogue.proofs.rising_ring.Given as goal

abbrev pub invariant-loop-n : goal.invariant-loop-n
invariant-loop-n l = l.ring.count ≡ l.n
""",
}


def after(state):
    return (state * 6364136223846793005 + 1442695040888963407) % 2**64


def sum_of(songs):
    """The sum over the matches of the words 0 to 255: a song of them has 32 errors for each inverted word."""
    total = 0
    for number, inverted in sorted(songs.items()):
        if 32 * inverted <= MOST_ERRORS:
            total = after(total ^ (number << 40 | 32 * inverted))
    return total


def expected():
    """The sum at each version."""
    songs, state, sums = {}, 1, [0]
    for _ in range(PUBLISHES):
        for _ in range(2):
            state = after(state)
            number = (state >> 32) % IDS
            state = after(state)
            if number in songs:
                del songs[number]
            else:
                songs[number] = (state >> 32) % 120
        sums.append(sum_of(songs))
    return sums


def printed():
    text, said = added_crate.run(HERE / "program.txt", CRATES, PROOFS)
    return text.splitlines() if f"published {PUBLISHES}" in text else sys.exit(said)


def judge(lines):
    """Compares the lines with the fold: the numbers of looks, of versions seen and of differences, and two times."""
    sums, seen, looks, differences, beside, alone = expected(), {}, 0, 0, 0, 0
    for line in lines:
        counts = COUNTS.fullmatch(line)
        if counts:
            many, other, first, second = map(int, counts.groups()[1:])
            looks, differences, beside, alone = looks + many, differences + other, beside + first, alone + second
        elif line.replace(" ", "").isdigit():
            number, version, total = map(int, line.split())
            went_back = number in seen and seen[number][-1] >= version
            differences += went_back or sums[version] != total
            seen.setdefault(number, []).append(version)
    if len(seen) != READINGS or any(versions[-1] != PUBLISHES for versions in seen.values()):
        sys.exit("some reading didn't see the last version")
    return looks, sum(map(len, seen.values())), differences, beside / looks, alone / looks


def main():
    argparse.ArgumentParser(description=__doc__, formatter_class=argparse.RawDescriptionHelpFormatter).parse_args()
    built.need_commands("rt")
    looks, versions, differences, beside, alone = judge(printed())
    print(f"{PUBLISHES} publishes, {READINGS} readings, {looks} looks, {versions} versions seen: {differences} differences")
    print(f"a look took {beside:.0f} ns beside the desk, {alone:.0f} ns without it: {beside / alone:.2f} times as long")
    sys.exit(1 if differences else 0)


if __name__ == "__main__":
    main()
