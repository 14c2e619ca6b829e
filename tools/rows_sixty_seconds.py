#!/usr/bin/env python3
"""The report on sixty seconds of sound that were added as a recording and are then sent, from the formulas.

    tools/print_sound.py make 17 10584000 > sixty.raw
    tools/print_sound.py print 2 8 4 < sixty.raw > sixty.prints
    tools/rows_sixty_seconds.py sixty.prints            the prints' and the report's counts and digests
    tools/rows_sixty_seconds.py sixty.prints --text     the report

The sound is recording 5, added as sound and published, and station 0 sends it. A start is listed where at most 2867
bits differ and some word meets an equal one with a choice of its weak bits flipped. Whole numbers alone; it shares no
line with the crates, and a test of the whole replay holds what it prints. The prints take some minutes, the report seconds.
"""

import argparse
import sys
from pathlib import Path

from sound_vectors import digest

sys.path.append(str(Path(__file__).resolve().parents[1] / "examples"))
import built  # noqa: E402

BLOCK = 256
HOP = 64
ERRORS = 2867
ID = 5


def joined(words):
    """The words of a block as one number."""
    return int.from_bytes(b"".join(word.to_bytes(4, "big") for word in words), "big")


def starts(words, block):
    """Each start that is listed for a block of prints, and how many bits differ."""
    whole = joined(word for word, _ in block)
    for start in range(len(words) - BLOCK + 1):
        song = words[start : start + BLOCK]
        if any((a ^ word) & ~mask == 0 for a, (word, mask) in zip(song, block)):
            errors = bin(joined(song) ^ whole).count("1")
            if errors <= ERRORS:
                yield start, errors


def report(prints):
    """All lines of the replay."""
    words = [word for word, _ in prints]
    lines = ["O 1 ok", "O 2 ok", "O 3 ok", "O 4 published 1"]
    blocks = (len(prints) - BLOCK) // HOP + 1
    for b in range(blocks):
        first = b * HOP
        items = [f"{ID}@{start}~{errors}" for start, errors in starts(words, prints[first : first + BLOCK])]
        lines.append(f"S 0 B {b} G 0 W {first} V 1: {' '.join(items) or 'none'}")
    lines += [f"T S 0 {blocks} 1 ended", "T O 4 1 ended"]
    return "".join(line + "\n" for line in lines)


def main():
    parser = argparse.ArgumentParser(description=__doc__, formatter_class=argparse.RawDescriptionHelpFormatter)
    parser.add_argument("prints", type=Path, help="the file of prints")
    parser.add_argument("--text", action="store_true", help="print the report itself")
    options = parser.parse_args()
    built.need_file(options.prints)
    lines = options.prints.read_text()
    prints = [(int(word, 16), int(mask, 16)) for _, word, mask in map(str.split, lines.splitlines())]
    text = report(prints)
    if options.text:
        print(text, end="")
        return
    for name, written in (("prints", lines), ("report", text)):
        print(f"{name}: {written.count(chr(10))} lines, {len(written)} bytes, digest {digest(written.encode())}")


if __name__ == "__main__":
    main()
