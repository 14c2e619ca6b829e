"""One case run by the program: what it did, what was met, and the files in which a case is kept."""

import re
import subprocess

from desk_model import LIMIT

SECONDS = 600


def run(program, words, data):
    """The status, the text on standard output and that on standard error."""
    done = subprocess.run([program, *words], input=data, capture_output=True, timeout=SECONDS)
    return done.returncode, done.stdout.decode("utf-8", "replace"), done.stderr.decode("utf-8", "replace")


def note(counts, words, status, text):
    """Counts what was met in a case."""
    counts["status", str(status)] += 1
    for line in text.splitlines():
        if line.startswith("S "):
            note_report(counts, line)
        elif line.startswith("O "):
            counts["reply", re.sub(r"published \d+", "published", line.split(" ", 2)[2])] += 1
        elif line.startswith("T S "):
            counts["station's end", line.split()[5]] += 1
        elif line.startswith("T O "):
            counts["operator's end", line.split()[4]] += 1
        elif line.startswith("R "):
            counts["trouble", line.split()[1]] += 1
    for name in words[1::2]:
        counts["option", name] += 1


def note_report(counts, line):
    many = 0 if line.endswith(": none") else len(line.split(": ")[1].split())
    counts[
        "list", ["none", "one item"][many] if many < 2 else "2 to 9 items" if many < 10 else "10 items and more"
    ] += 1
    for errors in map(int, re.findall(r"~(\d+)", line)):
        known = {0: "0", LIMIT: "the limit"}
        counts["errors", known.get(errors, "within 10 of it" if errors >= LIMIT - 10 else "others")] += 1
    _, _, _, _, _, segment, _, _, _, version, *_ = line.split()
    counts["line", "of the first segment" if segment == "0" else "of a later segment"] += 1
    counts["line", {"0:": "of version 0", "1:": "of version 1"}.get(version, "of a later version")] += 1


def report(counts):
    groups = sorted({group for group, _ in counts})
    for group in groups:
        met = [f"{what} {counts[group, what]}" for g, what in sorted(counts) if g == group]
        print(f"  {group}: " + ", ".join(met))


def keep(folder, name, words, data, expected, found):
    """Writes a case and its outcomes, and gives the path without their ends."""
    folder.mkdir(parents=True, exist_ok=True)
    path = folder / name
    path.with_name(f"{name}.input").write_bytes(data)
    path.with_name(f"{name}.words").write_text("\n".join(words))
    for end, result in (("expected", expected), ("found", found)):
        if result is not None:
            path.with_name(f"{name}.{end}").write_text(f"status {result[0]}\n{result[1]}{result[2]}")
    return path
