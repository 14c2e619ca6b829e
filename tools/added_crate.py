"""A program that is added to a copy of the repository as a crate, and is proved, built and run there by rt."""

import shutil
import subprocess
import tempfile
from pathlib import Path

ROOT = Path(__file__).resolve().parents[1]

LOOP = """use Rattle.std.proofs.Common.{{length}}
use Rattle.{name}.proofs.places.Given as goal

abbrev pub decreases-loop-place : goal.decreases-loop-place
decreases-loop-place g l = length l.walk.places
"""


def counted_in(name, caller, callee):
    """In which ledger the steps of a call are counted; a caller that is a method has its type before a point."""
    return f"""use Rattle.{name}.proofs.{caller}.Given as goal

abbrev pub ghosts-{callee} : goal.ghosts-{callee}
ghosts-{callee} {"g " if "." in caller else ""}a = record {{ name = a.blank.name; parts = a.blank.parts }}
"""


def proofs_of_places(name):
    """Those of a program with the functions `places_of` and `places`, which goes through the places of a word."""
    return {
        "places/Invariants.antt": LOOP.format(name=name),
        "places_of/Invariants.antt": counted_in(name, "places_of", "places"),
    }


def added(folder, program, crates, proofs):
    """Adds the program to a copy of the repository in this folder, and runs it there: the crate's folder, and what rt did.
    `program` is the file `program.txt` of a folder with the crate's name, `crates` are those that it uses, and `proofs` the
    files of its folder of that name."""
    name, copy = program.parent.name, Path(folder) / "copy"
    shutil.copytree(ROOT, copy, ignore=shutil.ignore_patterns(".git"))
    (copy / ".git").mkdir()
    with open(copy / "crates.txt", "a") as lines:
        lines.write(f"{name}: {crates}\n")
    crate = copy / "crates" / name
    (crate / "src").mkdir(parents=True)
    shutil.copy(program, crate / "src" / "main.rt")
    for path, text in proofs.items():
        (crate / "proofs" / path).parent.mkdir(parents=True, exist_ok=True)
        (crate / "proofs" / path).write_text(text)
    return crate, subprocess.run(["rt", "run"], cwd=crate, capture_output=True, text=True)


def run(program, crates, proofs):
    """What the program prints, and what rt said."""
    with tempfile.TemporaryDirectory(prefix=f"{program.parent.name}.") as folder:
        _, done = added(folder, program, crates, proofs)
    return done.stdout, done.stdout + done.stderr
