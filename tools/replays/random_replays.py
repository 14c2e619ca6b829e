#!/usr/bin/env python3
"""Runs hkreplay on random replays and compares its status and text with the model in tools/model.

    tools/replays/random_replays.py compare [--program PATH] [--first SEED] [--cases N] [--kind KIND] [--keep FOLDER]
                                    [--jobs N]
    tools/replays/random_replays.py make SEED FOLDER [--kind KIND]      one case as files
    tools/replays/random_replays.py export FOLDER [--first SEED] [--cases N] [--kind KIND]
    tools/replays/random_replays.py judge FOLDER LOG
    tools/replays/random_replays.py shrink FILE.input [--program PATH] [--keep FOLDER]

`compare` keeps each case that differs in FOLDER as KIND-SEED.input, .words, .expected and .found, and ends with the
status 1 where there is one. `shrink` makes such a case smaller. `export` writes cases for `rt try --cases FOLDER`, by
which a program runs that isn't proved yet, and `judge` reads what that said, from LOG.

A kind and a seed give one case, always the same. The kinds:

    mixed      (where nothing is said) most of the others by turns
    stations   stations of prints alone, and no operator
    prints     stations of prints and an operator: songs from a small pool, some of them copies of others; plays of them
               with errors near the limit, weak bits, gaps, fences; small limits, so that each refusal comes
    operator   many commands and hardly a station
    sound      songs and stations as sound, cut anywhere
    words      options in and out of their form
    tiny       a few bytes of each stream, often out of order
    mutated    small inputs with bytes flipped, cut out, doubled or put in, or records doubled, moved or left out

Most streams are in order. Some are then cut, or have a byte changed, an unknown kind, a wrong length or form, too many
weak bits; some inputs have bad records or are longer than the limit. The records cut and mix the streams at random. At
the end the counts of statuses, ends, refusals and lists show what was met. Sound costs much time at first; --cache FILE
keeps what was computed of it, with one process.
"""

import argparse
import collections
import functools
import subprocess
import sys
from concurrent.futures import ProcessPoolExecutor
from pathlib import Path

ROOT = Path(__file__).resolve().parents[2]
sys.path += [str(ROOT / folder) for folder in ("tools/model", "tools", "examples")]

import built  # noqa: E402
from cases import KINDS, case  # noqa: E402
from replay_model import keep_frames, outcome, save_frames  # noqa: E402
from running import keep, note, report, run  # noqa: E402
from shrinking import shrink  # noqa: E402

MOST = 2**20  # bytes of text that `rt try` takes
PART = 50  # cases that a process compares before it tells


def compared(options, seeds):
    """What these cases have: counts of what was met, the bytes of input, and how many differ."""
    counts, unlike, sizes = collections.Counter(), 0, 0
    program, kind = options.program.resolve(), options.kind
    for seed in seeds:
        words, data = case(kind, seed)
        expected = outcome(words, data)
        try:
            found = run(program, words, data)
        except subprocess.TimeoutExpired:
            found = ("none: it ran for over ten minutes", "", "")
        note(counts, words, expected[0], expected[1])
        sizes += len(data)
        if found != expected:
            unlike += 1
            path = keep(options.keep, f"{kind}-{seed}", words, data, expected, found)
            print(f"case {kind} {seed} differs: {path}.input", flush=True)
    return counts, sizes, unlike


def compare(options):
    built.need(options.program)
    counts, sizes, unlike, done, told = collections.Counter(), 0, 0, 0, 0
    parts = [seeds(options)[first : first + PART] for first in range(0, options.cases, PART)]
    with ProcessPoolExecutor(options.jobs) as pool:
        work = map if options.jobs == 1 else pool.map  # one process keeps what it computed of sound
        for part, found in zip(parts, work(functools.partial(compared, options), parts)):
            counts, sizes, unlike, done = counts + found[0], sizes + found[1], unlike + found[2], done + len(part)
            if done - told >= options.cases / 20:
                told = done
                print(f"{done} cases, {unlike} differ", flush=True)
                save_frames()
    print(f"{options.cases} cases of {options.kind} from {options.first}, {sizes} bytes of input, {unlike} differ")
    report(counts)
    return 1 if unlike else 0


def seeds(options):
    return range(options.first, options.first + options.cases)


def make(options):
    words, data = case(options.kind, options.seed)
    print(keep(options.folder, f"{options.kind}-{options.seed}", words, data, outcome(words, data), None))
    return 0


def statuses_of(folder):
    """The file beside a folder of cases that has their statuses."""
    return folder.parent / (folder.name + ".statuses")


def export(options):
    """Writes NAME, NAME.args and NAME.stdout of each case, and the statuses beside the folder."""
    options.folder.mkdir(parents=True, exist_ok=True)
    counts, left_out, statuses = collections.Counter(), 0, []
    for seed in seeds(options):
        words, data = case(options.kind, seed)
        status, text, _ = outcome(words, data)
        if len(text) > MOST or any(not word or "\n" in word for word in words):  # what `rt try` can't take
            left_out += 1
            continue
        note(counts, words, status, text)
        name = f"{options.kind}-{seed}"
        (options.folder / name).write_bytes(data)
        (options.folder / f"{name}.stdout").write_text(text)
        if words:
            (options.folder / f"{name}.args").write_text("\n".join(words))
        statuses.append(f"{name} {status}\n")
    statuses_of(options.folder).write_text("".join(statuses))
    print(f"{len(statuses)} cases of {options.kind} from {options.first}, {left_out} left out")
    report(counts)
    return 0


def judge(options):
    for path in (statuses_of(options.folder), options.log):
        built.need_file(path)
    expected = dict(line.split() for line in statuses_of(options.folder).read_text().splitlines())
    told = [line for line in options.log.read_text(errors="replace").splitlines() if line.startswith("case=")]
    found = {line.split()[0][5:]: dict(part.split("=", 1) for part in line.split()[1:]) for line in told}
    bad = 0
    for name, status in expected.items():
        said = found.get(name)
        if said is None or [said.get(part) for part in ("run", "status", "output")] != ["ended", status, "expected"]:
            bad += 1
            print(f"{name}: expected status {status}, {said or 'nothing was said of it'}")
    print(f"{len(expected)} cases, {bad} differ")
    return 1 if bad else 0


def options_of():
    parser = argparse.ArgumentParser(description=__doc__, formatter_class=argparse.RawDescriptionHelpFormatter)
    parser.add_argument("--cache", metavar="FILE", help="keep what is computed of sound there, from run to run")
    commands = parser.add_subparsers(required=True, metavar="compare|make|export|judge|shrink")

    def command(name, does, *parts):
        made = commands.add_parser(name)
        made.set_defaults(does=does)
        for add in parts:
            add(made)

    def kind(parser):
        parser.add_argument("--kind", choices=["mixed", *KINDS], default="mixed", help="mixed where nothing is said")

    def many(parser):
        parser.add_argument("--first", type=int, default=1, metavar="SEED", help="the first seed (1)")
        parser.add_argument("--cases", type=int, default=100, metavar="N", help="how many cases (100)")

    def jobs(parser):
        parser.add_argument("--jobs", type=int, default=1, metavar="N", help="how many processes (1)")

    def kept(parser):
        parser.add_argument("--keep", type=Path, default=Path("."), metavar="FOLDER", help="for cases that differ (.)")

    def path(name):
        return lambda parser: parser.add_argument(name, type=Path)

    command("compare", compare, built.add_option, many, kind, kept, jobs)
    command("make", make, lambda parser: parser.add_argument("seed", type=int), path("folder"), kind)
    command("export", export, path("folder"), many, kind)
    command("judge", judge, path("folder"), path("log"))
    command("shrink", shrink, path("input"), built.add_option, kept)
    return parser.parse_args()


def main():
    options = options_of()
    keep_frames(options.cache)
    status = options.does(options)
    save_frames()
    return status


if __name__ == "__main__":
    sys.exit(main())
