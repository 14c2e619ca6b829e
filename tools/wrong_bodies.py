#!/usr/bin/env python3
"""Makes the tables of docs/WRONG_BODIES.md from the edits that must fail.

    tools/wrong_bodies.py            writes them anew
    tools/wrong_bodies.py --check    says where they aren't up to date, with the status 1

Each file crates/NAME/must-fail/EDIT.edit begins with a line '# TEXT', which says what the wrong body would do to a
user. Edits of one harm share a row. What stands in the document before the mark is written by hand.
"""

import argparse
import sys
import textwrap
from pathlib import Path

ROOT = Path(__file__).resolve().parents[1]
DOCUMENT = ROOT / "docs/WRONG_BODIES.md"
MARK = "<!-- From here on made by tools/wrong_bodies.py -->\n"
PARTS = (
    ("Ground", ("hk_base",)),
    ("Sound", ("hk_circle", "hk_pcm", "hk_decimate", "hk_frames", "hk_transform", "hk_bands", "hk_weak", "hk_subprint",
               "hk_front")),
    ("Matching and the catalogue", ("hk_block", "hk_errors", "hk_nodes", "hk_table", "hk_catalogue", "hk_probe",
                                    "hk_journal", "hk_publish")),
    ("Streams and text", ("hk_wire", "hk_station_wire", "hk_operator_wire", "hk_records", "hk_words", "hk_report")),
    ("Stations and the operator", ("hk_receiver", "hk_station", "hk_operator")),
    ("Runs and the program", ()),
)


def crates_in_order():
    """The crates of crates.txt, each with its part."""
    names = []
    for line in (ROOT / "crates.txt").read_text().splitlines():
        if line.strip() and not line.startswith("#"):
            names.append(line.split(":")[0].split()[0])
    placed = {name: part for part, crates in PARTS for name in crates}
    return [(name, placed.get(name, PARTS[-1][0])) for name in names]


def edits_of(name):
    """The edits of a crate: each one's name and harm."""
    edits = []
    for path in sorted((ROOT / "crates" / name / "must-fail").glob("*.edit")):
        first = path.read_text().split("\n", 1)[0]
        harm = first.removeprefix("# ") if first.startswith("# ") else None
        edits.append((path.stem, harm))
    return edits


def tables():
    """The text behind the mark, and the edits that have no line of harm."""
    rows, missing = {part: {} for part, _ in PARTS}, []
    for name, part in crates_in_order():
        for edit, harm in edits_of(name):
            if harm is None:
                missing.append(f"crates/{name}/must-fail/{edit}.edit")
            else:
                rows[part].setdefault(harm, {}).setdefault(name, []).append(edit)
    lines = []
    for part, harms in rows.items():
        if harms:
            lines.append(f"\n## {part}\n")
        for harm, crates in harms.items():
            lines += textwrap.wrap(harm, 118, initial_indent="- ", subsequent_indent="  ")
            for name, edits in crates.items():
                lines += folded(f"  `{name}`: ", [f"`{edit}`" for edit in edits])
    return "\n".join(lines) + "\n", missing


def folded(head, words):
    """The words behind a head, joined by commas, in lines of at most 120 characters."""
    lines, line = [], head
    for n, word in enumerate(words):
        word += "," if n + 1 < len(words) else ""
        if len(line) + len(word) > 119:
            lines.append(line.rstrip())
            line = "  "
        line += word + " "
    return lines + [line.rstrip()]


def main():
    parser = argparse.ArgumentParser(description=__doc__, formatter_class=argparse.RawDescriptionHelpFormatter)
    parser.add_argument("--check", action="store_true", help="write nothing; the status is 1 where it isn't up to date")
    check = parser.parse_args().check
    made, missing = tables()
    for path in missing:
        print(f"{path} has no first line '# ..'")
    now = DOCUMENT.read_text()
    if MARK not in now:
        sys.exit(f"{DOCUMENT.relative_to(ROOT)} has no line {MARK.strip()}")
    wanted = now.split(MARK)[0] + MARK + made
    if check and wanted != now:
        print("docs/WRONG_BODIES.md isn't what the edits say: run tools/wrong_bodies.py")
    if not check:
        DOCUMENT.write_text(wanted)
    sys.exit(1 if missing or (check and wanted != now) else 0)


if __name__ == "__main__":
    main()
