"""Words of the command line: which are a command, and which aren't."""

from case import Case, Output, bad_usage
from streams import FIRST, FIRST_REPORT, PRINTS, prints, s

EVERY_OPTION = "--hop 256 --bytes 3106 --stations 1 --versions 1 --positions 256 --songs 1 --flips 10".split()
TWO_BLOCKS = "S 0 B 0 G 0 W 0 V 0: none\nS 0 B 1 G 0 W 1 V 0: none\nT S 0 2 0 ended\nT O 0 0 ended\n"

NO_COMMAND = [
    bad_usage("no words"),
    bad_usage("an empty word", ""),
    bad_usage("an unknown command", "play"),
    bad_usage("a command in capitals", "REPLAY"),
    bad_usage("a command with a space behind it", "replay "),
    bad_usage("two commands", "replay", "print"),
    bad_usage("the same command twice", "replay", "replay"),
    bad_usage("a help option", "--help"),
    bad_usage("a help option behind a command", "replay", "--help"),
    bad_usage("a short option", "replay", "-h", "64"),
    bad_usage("two dashes alone", "replay", "--"),
    bad_usage("an option before its command", "--hop", "64", "replay"),
    bad_usage("an unknown option", "replay", "--depth", "1"),
    bad_usage("an option in capitals", "replay", "--HOP", "64"),
    bad_usage("the front of an option's name", "replay", "--stat", "1"),
    bad_usage("an option of print given to replay", "replay", "--channels", "1"),
    bad_usage("an option of replay given to print", "print", "--hop", "64"),
    bad_usage("an option with no number", "replay", "--hop"),
    bad_usage("a second option with no number", "replay", "--hop", "64", "--flips"),
    bad_usage("a name and its number in one word", "replay", "--hop=64"),
    bad_usage("an option twice", "replay", "--hop", "64", "--hop", "64"),
    bad_usage("an option twice with another between", "replay", "--hop", "64", "--flips", "4", "--hop", "32"),
    bad_usage("a sixth word", "print", "--channels", "1", "--factor", "1", "more"),
    bad_usage("a number out of range behind the fifth word", *"print --channels 1 --factor 1 --flips 11".split()),
    bad_usage("a word behind every option of replay", "replay", *EVERY_OPTION, "more"),
    bad_usage("an option that comes again behind all others", "replay", *EVERY_OPTION, "--hop", "256"),
    bad_usage("a word that isn't UTF-8 as the command", b"\xff"),
    bad_usage("a word that isn't UTF-8 behind a command", "replay", b"\xff\xfe"),
    bad_usage("a word that isn't UTF-8 behind the fifth", "print", "--channels", "1", "--factor", "1", b"\xc3"),
    bad_usage("a word that isn't UTF-8 behind every option", "replay", *EVERY_OPTION, b"\xff"),
    bad_usage("a number that isn't UTF-8", "replay", "--hop", b"6\xff"),
    bad_usage("make with no number", "make"),
    bad_usage("make with a word that is no number", "make", "one"),
    bad_usage("make with a number past its range", "make", "2147483648"),
    bad_usage("make with an option of replay alone", "make", "1", "--songs", "5"),
]

NO_NUMBERS = [
    bad_usage(f"{text!r} as a number", "replay", "--hop", text)
    for text in ("", " 64", "64 ", "+64", "-1", "0x40", "6_4", "64.0", "1e2", "\u0666\u0664", "0" * 18 + "64")
]

OUT_OF_RANGE = [
    bad_usage(f"{command} {option} {number}", command, option, str(number))
    for command, option, numbers in (
        ("replay", "--stations", (0, 65)),
        ("replay", "--flips", (11,)),
        ("replay", "--hop", (0, 257)),
        ("replay", "--songs", (0, 65537)),
        ("replay", "--positions", (0, 255, 16777217)),
        ("replay", "--versions", (0, 1000000001)),
        ("replay", "--bytes", (0, 4000000000000000001, 9999999999999999999)),
        ("print", "--channels", (0, 3)),
        ("print", "--factor", (0, 3, 5, 6, 7, 9, 16)),
        ("print", "--flips", (11,)),
        ("print", "--bytes", (0, 4000000000000000001)),
    )
    for number in numbers
]

COMMANDS = [
    Case(f"{command} {option} {number} is a command", [command, option, str(number)], 0, out, input=given)
    for command, given, out, ranges in (
        ("replay", FIRST, FIRST_REPORT, {
            "--stations": (1,),
            "--flips": (0, 10),
            "--hop": (1, 256),
            "--songs": (1, 65536),
            "--positions": (256, 16777216),
            "--versions": (1, 1000000000),
            "--bytes": (3106, 4000000000000000000),
        }),
        ("print", b"", "", {
            "--channels": (1, 2),
            "--factor": (1, 2, 4, 8),
            "--flips": (0, 10),
            "--bytes": (1, 4000000000000000000),
        }),
    )
    for option, numbers in ranges.items()
    for number in numbers
] + [
    Case("every option of replay", ["replay", *EVERY_OPTION], 0, FIRST_REPORT, input=FIRST),
    Case(
        "an option behind the fifth word",
        "replay --flips 4 --songs 5 --hop 1".split(),
        0,
        TWO_BLOCKS,
        input=s(0, PRINTS, prints(range(257))),
    ),
    Case("a number of nineteen digits", ["replay", "--hop", "0" * 17 + "64"], 0, FIRST_REPORT, input=FIRST),
    Case("print without input", ["print"], 0),
]

COMPLAINTS = [
    bad_usage("bad usage with a full disk as standard error", "replay", "--hop", "0", complaints=Output.FULL),
    bad_usage("bad usage with standard error closed", "replay", "--hop", "0", complaints=Output.CLOSED),
    bad_usage("bad usage with a full disk as standard output", "replay", "--hop", "0", output=Output.FULL),
    bad_usage("bad usage with standard output closed", "replay", "--hop", "0", output=Output.CLOSED),
]

CASES = NO_COMMAND + NO_NUMBERS + OUT_OF_RANGE + COMMANDS + COMPLAINTS
