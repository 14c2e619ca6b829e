#!/usr/bin/env python3
"""The parts of an input of `hkreplay replay`, for scripts that make inputs: those that the companions send, and numbers.

    import input_parts

Run by itself it prints this page.
"""

import argparse
import sys
from pathlib import Path

sys.path.insert(0, str(Path(__file__).resolve().parent.parent / "companions"))
from companion.streams import *  # noqa: E402, F401, F403

def draws(seed):
    """The high parts of a generator's states: whole numbers below 2**16, without end."""
    while True:
        seed = (1103515245 * seed + 12345) % 2**31
        yield seed // 2**15


if __name__ == "__main__":
    argparse.ArgumentParser(description=__doc__, formatter_class=argparse.RawDescriptionHelpFormatter).parse_args()
    print(__doc__)
