#!/usr/bin/env python3
"""Says which crates a line of crates.txt names though no file of its crate uses them.

    tools/crates_used.py            a line for each, with the status 1 where there is one
    tools/crates_used.py --prune    takes them out of crates.txt
    tools/crates_used.py --users    a line for each crate: which crates use it

A crate uses another where a file of its src/, specs/ or proofs/ names it, as `other::` or `Rattle.other.`; what the
check makes in out/ doesn't count. A macro or a derive is named by a path too. What `rt check` says decides: prune, and
check.
"""

import argparse
import re
import sys
from pathlib import Path

ROOT = Path(__file__).resolve().parents[1]
LIST = ROOT / "crates.txt"
COMMENT = re.compile(r"^\s*(//|--).*$", re.MULTILINE)


def lines_of(text):
    """The lines of crates.txt: of each its crate (None for a comment), what stands before the colon, and what it lists."""
    for line in text.splitlines():
        head, colon, behind = line.partition(":")
        if not colon or line.lstrip().startswith("#"):
            yield None, line, []
        else:
            yield head.split()[0], head, behind.split()


def text_of(name):
    """All that the crate's own files say, without whole lines of comment."""
    parts = []
    for folder in ("src", "specs", "proofs"):
        for path in sorted((ROOT / "crates" / name / folder).rglob("*")):
            if path.suffix in (".rt", ".antt"):
                parts.append(COMMENT.sub("", path.read_text(encoding="utf-8")))
    return "\n".join(parts)


def uses(text, other):
    """Whether the text names a crate."""
    return re.search(rf"\bRattle\.{other}\.|(?<![\w:.]){other}::|\bextern crate {other}\b", text) is not None


def main():
    parser = argparse.ArgumentParser(description=__doc__, formatter_class=argparse.RawDescriptionHelpFormatter)
    parser.add_argument("--prune", action="store_true", help="take them out of crates.txt")
    parser.add_argument("--users", action="store_true", help="print which crates use which")
    asked = parser.parse_args()
    kept, unused, users = [], 0, {}
    for name, head, listed in lines_of(LIST.read_text(encoding="utf-8")):
        if name is None:
            kept.append(head)
            continue
        text = text_of(name)
        used = [other for other in listed if uses(text, other)]
        users.setdefault(name, [])
        for other in used:
            users.setdefault(other, []).append(name)
        for other in listed:
            if other not in used:
                unused += 1
                print(f"{name} doesn't use {other}")
        kept.append(f"{head}: {' '.join(used)}".rstrip())
    if asked.users:
        for name in sorted(users):
            print(f"{name}: {' '.join(users[name])}".rstrip())
    if asked.prune and unused:
        LIST.write_text("\n".join(kept) + "\n", encoding="utf-8")
        return 0
    return 1 if unused else 0


if __name__ == "__main__":
    sys.exit(main())
