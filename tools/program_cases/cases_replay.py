"""Replays that play to the end: matches, blocks, segments, versions, replies and fences."""

from case import Case
from streams import (
    CLOSE,
    FIRST,
    FIRST_COMMANDS,
    FIRST_LINE,
    FIRST_OPERATOR,
    FIRST_REPLIES,
    FIRST_REPORT,
    FIRST_STREAM,
    GAP,
    OPERATOR,
    PRINTS,
    PUBLISH,
    add,
    audio,
    byte_by_byte,
    fence,
    o,
    open_song,
    prints,
    s,
    withdraw,
)

ZEROS = o(OPERATOR, add(7, [0] * 256), PUBLISH)
TURNED = [word ^ 1 << 31 for word in range(256)]


def one_block(matches):
    """The report of one recording that is added and published, and one block of one station."""
    return f"{FIRST_REPLIES}S 0 B 0 G 0 W 0 V 1: {matches}\nT S 0 1 1 ended\nT O 2 1 ended\n"


def distant(count):
    """A block of one zero, `count` words with twelve bits set, and else words with eleven."""
    return prints([0] + [0xFFF] * count + [0x7FF] * (255 - count))


MATCHES = [
    Case("the first example", ["replay"], 0, FIRST_REPORT, input=FIRST),
    Case("2867 errors", ["replay"], 0, one_block("7@0~2867"), input=ZEROS + s(0, PRINTS, distant(62))),
    Case("2868 errors", ["replay"], 0, one_block("none"), input=ZEROS + s(0, PRINTS, distant(63))),
    Case(
        "a wrong bit in every word",
        ["replay"],
        0,
        one_block("none"),
        input=FIRST_OPERATOR + s(0, PRINTS, prints(TURNED)),
    ),
    Case(
        "a wrong bit in every word, marked as weak in one print",
        ["replay"],
        0,
        one_block("7@0~256"),
        input=FIRST_OPERATOR + s(0, PRINTS, prints(TURNED, {9: 1 << 31})),
    ),
    Case(
        "a recording that matches at every start",
        ["replay"],
        0,
        one_block(" ".join(f"3@{start}~0" for start in range(45))),
        input=o(OPERATOR, add(3, [0] * 300), PUBLISH) + s(0, PRINTS, prints([0] * 256)),
    ),
]

NO_BLOCK = "T S 0 0 0 ended\nT O 0 0 ended\n"
ONE_BLOCK = "S 0 B 0 G 0 W 0 V 0: none\nT S 0 1 0 ended\nT O 0 0 ended\n"
TWO_BLOCKS = "S 0 B 0 G 0 W 0 V 0: none\nS 0 B 1 G 0 W {} V 0: none\nT S 0 2 0 ended\nT O 0 0 ended\n"


def plays_numbers(name, count, report, *options):
    """A station that sends so many prints, to an empty catalogue."""
    return Case(name, ["replay", *options], 0, report, input=s(0, PRINTS, prints(range(count))))


SEGMENTS = PRINTS + prints(range(255)) + GAP + prints(range(256))

BLOCKS = [
    plays_numbers("255 prints", 255, NO_BLOCK),
    plays_numbers("319 prints", 319, ONE_BLOCK),
    plays_numbers("320 prints", 320, TWO_BLOCKS.format(64)),
    plays_numbers("257 prints at a hop of 1", 257, TWO_BLOCKS.format(1), "--hop", "1"),
    plays_numbers("511 prints at a hop of 256", 511, ONE_BLOCK, "--hop", "256"),
    plays_numbers("512 prints at a hop of 256", 512, TWO_BLOCKS.format(256), "--hop", "256"),
    Case("a hello alone", ["replay"], 0, NO_BLOCK, input=s(0, PRINTS)),
    Case("a gap before the first block", ["replay"], 0, ONE_BLOCK.replace("G 0", "G 1"), input=s(0, SEGMENTS)),
    Case(
        "255 prints against a recording of 256",
        ["replay"],
        0,
        FIRST_REPLIES + "T S 0 0 0 ended\nT O 2 1 ended\n",
        input=FIRST_OPERATOR + s(0, PRINTS, prints(range(255))),
    ),
]

CUTS = [
    Case(
        "records of one byte each",
        ["replay"],
        0,
        FIRST_REPORT,
        input=byte_by_byte(b"O", OPERATOR + FIRST_COMMANDS) + byte_by_byte(b"S\0", FIRST_STREAM),
    ),
    Case("records with nothing in them", ["replay"], 0, FIRST_REPORT, input=o() + s(0) + FIRST + s(0) + o()),
    Case(
        "a packet for each print",
        ["replay"],
        0,
        FIRST_REPORT,
        input=FIRST_OPERATOR + s(0, PRINTS, *(prints([word]) for word in range(256))),
    ),
    Case(
        "the operator behind the station",
        ["replay"],
        0,
        "S 0 B 0 G 0 W 0 V 0: none\n" + FIRST_REPLIES + "T S 0 1 0 ended\nT O 2 1 ended\n",
        input=s(0, FIRST_STREAM) + FIRST_OPERATOR,
    ),
]

SECOND_SONG = add(8, range(64, 320))
REST = s(0, prints(range(256, 320)))

VERSIONS = [
    Case(
        "a second recording while a station plays",
        ["replay"],
        0,
        f"""\
{FIRST_REPLIES}{FIRST_LINE}O 3 ok
O 4 published 2
S 0 B 1 G 0 W 64 V 2: 8@0~0
T S 0 2 2 ended
T O 4 2 ended
""",
        input=FIRST + o(SECOND_SONG, PUBLISH) + REST,
    ),
    Case(
        "a second recording that isn't published",
        ["replay"],
        0,
        f"""\
{FIRST_REPLIES}{FIRST_LINE}O 3 ok
S 0 B 1 G 0 W 64 V 1: none
T S 0 2 1 ended
T O 3 1 ended
""",
        input=FIRST + o(SECOND_SONG) + REST,
    ),
    Case(
        "a recording that goes and comes back with other words",
        ["replay"],
        0,
        f"""\
{FIRST_REPLIES}{FIRST_LINE}O 3 ok
O 4 published 2
S 0 B 1 G 1 W 0 V 2: none
O 5 ok
O 6 published 3
S 0 B 2 G 2 W 0 V 3: 7@0~0
T S 0 3 3 ended
T O 6 3 ended
""",
        input=FIRST
        + o(withdraw(7), PUBLISH)
        + s(0, GAP, prints(range(256)))
        + o(add(7, range(1000, 1256)), PUBLISH)
        + s(0, GAP, prints(range(1000, 1256))),
    ),
]

REPLIES = [
    Case(
        "each refusal but that for memory",
        "replay --songs 2 --positions 512 --versions 2".split(),
        0,
        """\
O 1 ok
O 2 refused duplicate
O 3 refused short
O 4 refused unknown
O 5 refused positions-full
O 6 ok
O 7 refused songs-full
O 8 refused no-song-open
O 9 ok
O 10 refused song-open
O 11 ok
O 12 refused short
O 13 published 1
O 14 published 2
O 15 refused versions-full
T S 0 0 0 ended
T O 15 2 ended
""",
        input=o(
            OPERATOR,
            add(1, range(256)),
            add(1, range(256)),
            add(2, range(255)),
            withdraw(9),
            add(2, range(257)),
            add(2, range(256)),
            add(3, range(256)),
            CLOSE,
            open_song(3, 1, 1),
            open_song(4, 1, 1),
            audio(b""),
            CLOSE,
            PUBLISH,
            PUBLISH,
            PUBLISH,
        )
        + s(0, PRINTS),
    ),
]

FENCES = [
    Case(
        "a fence ahead of every version",
        ["replay"],
        3,
        "T S 0 0 0 fence-ahead 1 0\nT O 0 0 ended\n",
        input=s(0, PRINTS, fence(1)),
    ),
    Case(
        "a fence that an empty batch meets",
        ["replay"],
        0,
        "O 1 published 1\nS 0 B 0 G 0 W 0 V 1: none\nT S 0 1 1 ended\nT O 1 1 ended\n",
        input=o(OPERATOR, PUBLISH) + s(0, PRINTS, fence(1), prints(range(256))),
    ),
    Case(
        "what stands behind a fence that is ahead",
        ["replay"],
        3,
        "O 1 published 1\nT S 0 0 0 fence-ahead 1 0\nT O 1 1 ended\n",
        input=s(0, PRINTS, fence(1)) + o(OPERATOR, PUBLISH) + s(0, prints(range(256))),
    ),
]

# each of a recording's starts but the last 255 is found by each of two blocks, and listed once
STARTS = " ".join(f"3@{start}~0" for start in range(1745))

SILENCE = [
    Case(
        "silence whose weak bits hit every bucket",
        ["replay", "--hop", "256"],
        0,
        FIRST_REPLIES
        + f"S 0 B 0 G 0 W 0 V 1: {STARTS}\nS 0 B 1 G 0 W 256 V 1: {STARTS}\n"
        + "T S 0 2 1 ended\nT O 2 1 ended\n",
        input=o(OPERATOR, add(3, [0] * 2000), PUBLISH)
        + s(0, PRINTS, prints([0] * 512, {place: 0x3FF for place in range(512)})),
    ),
]

CASES = MATCHES + BLOCKS + CUTS + VERSIONS + REPLIES + FENCES + SILENCE
