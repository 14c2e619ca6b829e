"""Streams that end in disorder (status 3), and inputs that end a run (status 7)."""

from case import Case
from streams import (
    FIRST,
    FIRST_COMMANDS,
    FIRST_OPERATOR,
    FIRST_REPLIES,
    FIRST_STREAM,
    GAP,
    OPERATOR,
    PRINTS,
    PUBLISH,
    command,
    o,
    open_song,
    packet,
    prints,
    s,
    station,
)


def station_ends(name, end, stream):
    """A station's stream that has no block, and no operator."""
    return Case(f"station: {name}", ["replay"], 3, f"T S 0 0 0 {end}\nT O 0 0 ended\n", input=s(0, stream))


def operator_ends(name, end, stream, replies=""):
    """An operator's stream beside a station that sends its hello alone."""
    commands, versions = replies.count("\n"), replies.count("published")
    summary = f"T S 0 0 0 ended\nT O {commands} {versions} {end}\n"
    return Case(f"operator: {name}", ["replay"], 3, replies + summary, input=o(stream) + s(0, PRINTS))


STATIONS = [
    station_ends("a wrong first letter", "bad-hello 0", b"hKS1\0\1"),
    station_ends("a wrong last letter", "bad-hello 3", b"HKS9"),
    station_ends("three channels", "bad-hello 4", station(3, 1)),
    station_ends("prints with the factor 2", "bad-hello 5", station(0, 2)),
    station_ends("sound with the factor 3", "bad-hello 5", station(1, 3)),
    station_ends("a packet of the kind 9", "bad-kind 6", PRINTS + b"\x09"),
    station_ends("a packet of the kind 0", "bad-kind 6", PRINTS + packet(0)),
    station_ends("a packet of the kind 4 behind a gap", "bad-kind 9", PRINTS + GAP + packet(4)),
    station_ends("a fence of three bytes", "bad-length 7", PRINTS + packet(2, b"\0\0\1")),
    station_ends("a gap of one byte", "bad-length 7", PRINTS + packet(3, b"\0")),
    station_ends("a mask of eleven bits", "bad-mask 16", PRINTS + prints([0], {0: 0x7FF})),
    station_ends("no byte", "cut 0", b""),
    station_ends("a hello cut short", "cut 5", PRINTS[:5]),
    station_ends("a packet's kind alone", "cut 7", PRINTS + b"\1"),
    station_ends("data cut short", "cut 100", FIRST_STREAM[:100]),
]

OPERATORS = [
    operator_ends("a wrong last letter", "bad-hello 3", b"HKO2"),
    operator_ends("a command of the kind 7", "bad-kind 4", OPERATOR + command(7)),
    operator_ends("a command of the kind 0", "bad-kind 9", OPERATOR + PUBLISH + command(0), "O 1 published 1\n"),
    operator_ends("half a word", "bad-length 5", OPERATOR + command(1, b"\0\0\0\7\0\0")),
    operator_ends("a publish of one byte", "bad-length 5", OPERATOR + command(6, b"\0")),
    operator_ends("a song of three channels", "bad-format 13", OPERATOR + open_song(1, 3, 1)),
    operator_ends("a song with the factor 3", "bad-format 14", OPERATOR + open_song(1, 1, 3)),
    operator_ends("a hello cut short", "cut 2", OPERATOR[:2]),
    operator_ends("a command cut short", "cut 8", OPERATOR + PUBLISH[:4]),
]

OTHERS = [
    Case("no input", ["replay"], 3, "T S 0 0 0 cut 0\nT O 0 0 ended\n"),
    Case(
        "no input for 64 stations",
        ["replay", "--stations", "64"],
        3,
        "".join(f"T S {number} 0 0 cut 0\n" for number in range(64)) + "T O 0 0 ended\n",
    ),
    Case(
        "no record for the station",
        ["replay"],
        3,
        FIRST_REPLIES + "T S 0 0 0 cut 0\nT O 2 1 ended\n",
        input=FIRST_OPERATOR,
    ),
    Case(
        "the station of the first example cut after 100 bytes",
        ["replay"],
        3,
        FIRST_REPLIES + "T S 0 0 0 cut 100\nT O 2 1 ended\n",
        input=FIRST_OPERATOR + s(0, FIRST_STREAM[:100]),
    ),
    Case(
        "a station in disorder beside one in order",
        ["replay", "--stations", "2"],
        3,
        FIRST_REPLIES + "S 1 B 0 G 0 W 0 V 1: 7@0~0\nT S 0 0 0 bad-kind 6\nT S 1 1 1 ended\nT O 2 1 ended\n",
        input=s(0, PRINTS, b"\x09") + FIRST_OPERATOR + s(0, prints(range(256))) + s(1, FIRST_STREAM),
    ),
    Case(
        "a block before a fault",
        ["replay"],
        3,
        FIRST_REPLIES + "S 0 B 0 G 0 W 0 V 1: 7@0~0\nT S 0 1 1 bad-kind 2057\nT O 2 1 ended\n",
        input=FIRST_OPERATOR + s(0, FIRST_STREAM + b"\0"),
    ),
    Case(
        "an operator in disorder beside a station in order",
        ["replay"],
        3,
        "O 1 ok\nS 0 B 0 G 0 W 0 V 0: none\nT S 0 1 0 ended\nT O 1 0 bad-kind 1037\n",
        input=o(OPERATOR, FIRST_COMMANDS[:-5], b"\0", PUBLISH) + s(0, FIRST_STREAM),
    ),
]


def run_ends(name, given, line, before="", words=()):
    return Case(name, ["replay", *words], 7, before + line + "\n", input=given)


INPUTS = [
    run_ends("a record of no kind", b"X", "R bad-record 0"),
    run_ends("a record of a station that isn't there", s(1, PRINTS), "R bad-record 0"),
    run_ends("a record of station 64 of 64", s(64, PRINTS), "R bad-record 0", words=["--stations", "64"]),
    run_ends("a record's first byte alone", b"O", "R bad-record 0"),
    run_ends("a record of no kind behind one", FIRST_OPERATOR + b"C" + s(0)[1:], "R bad-record 1045", FIRST_REPLIES),
    run_ends("an input that ends inside a record", FIRST[:-1], "R bad-record 1045", FIRST_REPLIES),
    run_ends("an input of one byte over the limit", FIRST, "R too-long 3105", FIRST_REPLIES, ["--bytes", "3105"]),
    run_ends("an input over a small limit", FIRST, "R too-long 10", words=["--bytes", "10"]),
    run_ends("a bad record behind the limit", b"O\0\0X", "R too-long 3", words=["--bytes", "3"]),
    run_ends("a bad record at the limit", b"O\0\0X", "R bad-record 3", words=["--bytes", "4"]),
]

SMALL = ["replay", "--songs", "2", "--positions", "256"]


def with_byte_255(place, stream):
    return stream[:place] + b"\xff" + stream[place + 1 :]


def station_byte(place, end, line=""):
    """The first example with a byte of the station's stream set to 255."""
    summary = f"T S 0 {line.count('S')} {line.count('S')} {end}\nT O 2 1 ended\n"
    given = FIRST_OPERATOR + s(0, with_byte_255(place, FIRST_STREAM))
    return Case(f"the first example with station byte {place} at 255", SMALL, 3, FIRST_REPLIES + line + summary, input=given)


def operator_byte(place, end):
    """The first example with a byte of the operator's stream set to 255."""
    given = o(with_byte_255(place, OPERATOR + FIRST_COMMANDS)) + s(0, FIRST_STREAM)
    text = f"S 0 B 0 G 0 W 0 V 0: none\nT S 0 1 0 ended\nT O 0 0 {end}\n"
    return Case(f"the first example with operator byte {place} at 255", SMALL, 3, text, input=given)


BYTES = [
    *(station_byte(place, f"bad-hello {place}") for place in range(6)),
    station_byte(6, "bad-kind 6"),
    *(station_byte(place, "cut 2057", "S 0 B 0 G 0 W 0 V 1: 7@0~0\n") for place in (7, 8)),
    operator_byte(4, "bad-kind 4"),
    operator_byte(5, "cut 1042"),
]

CASES = STATIONS + OPERATORS + OTHERS + INPUTS + BYTES
