"""The words of hkmon, and what it says where nothing is monitored. Runs over sockets are those of tools/live."""

from case import Case

PORTS = ["--station-port", "17701", "--operator-port", "17702"]
SMALL = ["--positions", "1000"]


def refused(name, status, message, *words, **changes):
    """Nothing is monitored: standard output stays empty, and standard error has one line."""
    return Case(f"hkmon: {name}", list(words), status, error=f"hkmon: {message}\n", program="hkmon", **changes)


def bad_usage(name, *words):
    return refused(name, 2, "bad usage", *words)


CASES = [
    bad_usage("no station", "--stations", "0"),
    bad_usage("too many stations", "--stations", "65"),
    bad_usage("no worker", "--workers", "0"),
    bad_usage("too many workers", "--workers", "17"),
    bad_usage("too many flips", "--flips", "11"),
    bad_usage("a hop of 257", "--hop", "257"),
    bad_usage("too few positions", "--positions", "255"),
    bad_usage("a port of 0", "--station-port", "0"),
    bad_usage("a port over 65535", "--operator-port", "65536"),
    bad_usage("a number that is none", "--stations", "two"),
    bad_usage("an option without its value", "--stations"),
    bad_usage("an option twice", "--hop", "64", "--hop", "64"),
    bad_usage("an option that there isn't", "--song", "1"),
    bad_usage("an option of hkreplay's", "--channels", "1"),
    bad_usage("help", "--help"),
    bad_usage("version", "--version"),
    bad_usage("a command of hkreplay's", "replay"),
    bad_usage("a word that isn't UTF-8", "--logs", b"\xff"),
    refused("no memory for the catalogue", 4, "no memory", "--positions", "16777216", *PORTS, memory=200000000),
    refused("an address of another machine", 8, "door fault", *SMALL, "--address", "192.0.2.1", *PORTS),
    refused("an address that is none", 8, "door fault", *SMALL, "--address", "no address", *PORTS),
    refused("one port for both", 8, "door fault", *SMALL, *PORTS[:2], "--operator-port", "17701"),
]
