#!/usr/bin/env python3
"""Compares the catalogue's table with a plain map over ten thousand random edits.

    tools/table_random/table_random.py

It copies the repository to a temporary folder, adds the program of program.txt there as a crate over hk_catalogue, and
proves, builds and runs it with rt. After each edit the program prints how many places a walk gives for one word, and a
sum over them. This script makes the same edits in a dictionary and compares each line.
"""

import argparse
import sys
from pathlib import Path

HERE = Path(__file__).resolve().parent
sys.path += [str(HERE.parent), str(HERE.parents[1] / "examples")]
import added_crate  # noqa: E402
import built  # noqa: E402

EDITS, SONGS, POSITIONS = 10000, 30, 6000


def after(state):
    return (state * 6364136223846793005 + 1442695040888963407) % 2**64


def word_of(number):
    return (number % 40 // 2 * 2**19 + number % 2) * 244002641 % 2**32


def song(state):
    words = []
    for _ in range(256 + (state >> 32) % 100):
        state = after(state)
        words.append(word_of(state >> 32))
    return words


def expected():
    songs, state = {}, 1
    for _ in range(EDITS):
        state = after(state)
        number = (state >> 32) % 40
        state = after(state)
        if (state >> 32) % 2 == 0:
            words = song(state)
            used = sum(len(other) for other in songs.values())
            if number not in songs and len(songs) < SONGS and used + len(words) <= POSITIONS:
                songs[number] = words
        else:
            songs.pop(number, None)
        state = after(state)
        word = word_of(state >> 32)
        places = [after(i << 32 | p) for i, words in songs.items() for p, w in enumerate(words) if w == word]
        yield f"{len(places)} {sum(places) % 2**64}"


def printed():
    text, said = added_crate.run(
        HERE / "program.txt", "hk_base hk_table hk_catalogue", added_crate.proofs_of_places("table_random")
    )
    lines = [line for line in text.splitlines() if all(part.isdigit() for part in line.split())]
    return lines or sys.exit(said)


def main():
    argparse.ArgumentParser(description=__doc__, formatter_class=argparse.RawDescriptionHelpFormatter).parse_args()
    built.need_commands("rt")
    lines, wanted = printed(), list(expected())
    for number, (line, want) in enumerate(zip(lines, wanted)):
        if line != want:
            sys.exit(f"after edit {number}: {line} is printed, {want} is expected")
    if len(lines) != len(wanted):
        sys.exit(f"{len(lines)} lines are printed, {len(wanted)} are expected")
    found = sum(int(line.split()[0]) for line in lines)
    print(f"{EDITS} edits and as many walks agree, which gave {found} places")


if __name__ == "__main__":
    main()
