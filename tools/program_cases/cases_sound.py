"""Sound: the lines of print, and a station and a recording of sound. All of it is silence, whose prints are known.

A print needs 2112 decimated samples, and each further one 64 more. With the factor 1 these are the samples; with the
factor 8 the first of them needs 15 samples, and each further one 8 more.
"""

from case import Case
from streams import CLOSE, OPERATOR, PUBLISH, add, audio, data, o, open_song, s, station

FORM = ["print", "--channels", "1", "--factor", "1"]
SILENCE = bytes(36864)


def silent(count, mask):
    return "".join(f"{n} 00000000 {mask}\n" for n in range(count))


EACH_START = " ".join(f"3@{start}~0" for start in range(45))
FOUND = f"""\
O 1 ok
O 2 published 1
S 0 B 0 G 0 W 0 V 1: {EACH_START}
T S 0 1 1 ended
T O 2 1 ended
"""
ZEROS = o(OPERATOR, add(3, [0] * 300), PUBLISH)
SILENT_SONG = o(OPERATOR, open_song(5, 1, 1), audio(SILENCE[:1]), audio(SILENCE[1:]), CLOSE, PUBLISH)

PRINTED = [
    Case("256 prints of silence", FORM, 0, silent(256, "0000000f"), input=SILENCE),
    Case("one sample short of 256 prints", FORM, 0, silent(255, "0000000f"), input=SILENCE[2:]),
    Case("half a sample short of 256 prints", FORM, 0, silent(255, "0000000f"), input=SILENCE[1:]),
    Case("half a sample over 256 prints", FORM, 0, silent(256, "0000000f"), input=SILENCE + b"\0"),
    Case("no flips", [*FORM, "--flips", "0"], 0, silent(256, "00000000"), input=SILENCE),
    Case("ten flips", [*FORM, "--flips", "10"], 0, silent(256, "000003ff"), input=SILENCE),
    Case("one print at factor 8", ["print"], 0, silent(1, "0000000f"), input=bytes(33806)),
    Case("a byte short of one print at factor 8", ["print"], 0, input=bytes(33805)),
    Case("one print of two channels", ["print", "--channels", "2"], 0, silent(1, "0000000f"), input=bytes(67612)),
    Case("a byte short of one print of two channels", ["print", "--channels", "2"], 0, input=bytes(67611)),
    Case("as much sound as the limit", [*FORM, "--bytes", "36864"], 0, silent(256, "0000000f"), input=SILENCE),
    Case(
        "a byte of sound over the limit",
        [*FORM, "--bytes", "36863"],
        7,
        silent(255, "0000000f") + "R too-long 36863\n",
        input=SILENCE,
    ),
    Case("sound over a small limit", ["print", "--bytes", "4"], 7, "R too-long 4\n", input=bytes(6)),
]

PLAYED = [
    Case("a station of silence in one packet", ["replay"], 0, FOUND, input=ZEROS + s(0, station(1, 1), data(SILENCE))),
    Case(
        "a packet's end inside a sample",
        ["replay"],
        0,
        FOUND,
        input=ZEROS + s(0, station(1, 1), data(SILENCE[:1]), data(SILENCE[1:])),
    ),
    Case(
        "a recording of silence",
        ["replay"],
        0,
        """\
O 1 ok
O 2 ok
O 3 ok
O 4 ok
O 5 published 1
S 0 B 0 G 0 W 0 V 1: 5@0~0
T S 0 1 1 ended
T O 5 1 ended
""",
        input=SILENT_SONG + s(0, station(1, 1), data(SILENCE)),
    ),
]

CASES = PRINTED + PLAYED
