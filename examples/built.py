"""Where the built programs are, and the one line that says what isn't there."""

import shutil
import sys
from pathlib import Path

ROOT = Path(__file__).resolve().parents[1]
PROGRAM = ROOT / "crates/hkreplay/out/hkreplay"
MONITOR = ROOT / "crates/hkmon/out/hkmon"
BUILDS = {
    "hkreplay": "(cd crates/hkreplay && rt run -- replay < ../../examples/first.input)",
    "hkmon": "(cd crates/hkmon && rt run -- --stations 0)",
}
BRINGS = {"rt": "the Rattle toolchain", **{name: f"Debian's package {name}" for name in ("ffmpeg", "gcc", "rustc")}}


def need(program, name="hkreplay"):
    """The program's whole path, or the end with one line."""
    if not program.is_file():
        sys.exit(f"there is no program at {program}; at the repository's top {BUILDS[name]} builds it")
    return program.resolve()


def need_commands(*names):
    """Ends with one line where one of these commands isn't there."""
    for name in names:
        if shutil.which(name) is None:
            sys.exit(f"there is no {name}: {BRINGS[name]} brings it")


def need_file(path):
    """Ends with one line where a file isn't there."""
    if not path.is_file():
        sys.exit(f"there is no file {path}")


def add_option(parser):
    parser.add_argument("--program", type=Path, default=PROGRAM, help="hkreplay (that of crates/hkreplay/out)")
