#!/usr/bin/env python3
"""Times a look of one block in a song of 250000 words, beside a plain loop in Rust.

    tools/scan_time/scan_time.py

It builds plain_loop.rs with rustc -O and runs it. Then it copies the repository to a temporary folder, adds the program
of program.txt there as a crate over hk_probe, and proves, builds and runs it with rt. Both print the best of their
runs. The copy's crates are proved first, unless rt keeps them from an earlier rt ci.
"""

import argparse
import subprocess
import sys
import tempfile
from pathlib import Path

HERE = Path(__file__).resolve().parent
sys.path += [str(HERE.parent), str(HERE.parents[1] / "examples")]
import added_crate  # noqa: E402
import built  # noqa: E402

CRATES = "hk_base hk_spec_sound hk_spec_streams hk_spec_matching hk_block hk_table hk_catalogue hk_probe"
CALLS = (("a_look", "time_of_a_look"), ("windows_alone", "time_of_windows"))


def our_scan():
    proofs = {
        f"{caller}/Invariants.antt": added_crate.counted_in("scan_time", caller, callee) for caller, callee in CALLS
    }
    text, said = added_crate.run(HERE / "program.txt", CRATES, proofs)
    lines = [line for line in text.splitlines() if line.startswith("a look:")]
    if not lines:
        sys.exit(said)
    print("\n".join(lines))


def plain_loop(folder):
    for flags in ([], ["-C", "target-cpu=native"]):
        program = folder / "plain_loop"
        subprocess.run(["rustc", "-O", *flags, "-o", program, HERE / "plain_loop.rs"], check=True)
        print("rustc -O", *flags)
        subprocess.run([program], check=True)


def main():
    argparse.ArgumentParser(description=__doc__, formatter_class=argparse.RawDescriptionHelpFormatter).parse_args()
    built.need_commands("rustc", "rt")
    with tempfile.TemporaryDirectory() as folder:
        plain_loop(Path(folder))
    our_scan()


if __name__ == "__main__":
    main()
