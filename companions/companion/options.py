"""The options of hkreplay that hk must know: their ranges and defaults."""

from .reading import Settings
from .saying import Trouble

RANGES = {
    "stations": (1, 64),
    "hop": (1, 256),
    "songs": (1, 65536),
    "positions": (256, 16777216),
    "versions": (1, 1000000000),
    "bytes": (1, 4000000000000000000),
}


def add_options(parser, names=tuple(RANGES)):
    """Options of the names and ranges that hkreplay has."""
    for name in names:
        least, most = RANGES[name]
        parser.add_argument(f"--{name}", type=int, metavar="N", help=f"as given to hkreplay, {least} to {most}")


def settings_of(given):
    """The settings: what was given, and hkreplay's defaults."""
    chosen = {}
    for name, (least, most) in RANGES.items():
        value = getattr(given, name, None)
        if value is None:
            continue
        if not least <= value <= most:
            raise Trouble(f"--{name} {value}", f"give a number from {least} to {most}")
        chosen[name] = value
    return Settings(**chosen)
