"""Checks of the model against worked examples whose outcome is known by hand."""

import fifteen_commands
import find_a_song
import small_day
from built import ROOT
from input_parts import (
    CLOSE,
    GAP,
    OPERATOR_HELLO,
    PRINTS,
    PUBLISH,
    add,
    audio,
    fence,
    open_song,
    operator_record,
    packet,
    pieces,
    prints,
    station_hello,
    station_record,
    withdraw,
)
from made_input import made_input
from print_sound import made
from replay_model import outcome
from sound_model import quick, sound_prints
from sound_vectors import SAMPLES, draws, real, transform

RAMP = list(range(256))
OPERATOR = OPERATOR_HELLO + add(7, RAMP) + PUBLISH
STATION = station_hello(PRINTS) + packet(1, prints(RAMP))
HEARD = "S 0 B 0 G 0 W 0 V 1: "
SILENCE = HEARD + " ".join(f"3@{q}~0" for q in range(45))  # of a recording of 300 words


def input_of(operator=None, station=None):
    """One record of each stream that is given."""
    records = [] if operator is None else [operator_record(operator)]
    return b"".join(records + ([] if station is None else [station_record(0, station)]))


FIRST = input_of(OPERATOR, STATION)


class Checks:
    def __init__(self):
        self.right, self.wrong = 0, 0

    def equal(self, what, found, expected):
        if found == expected:
            self.right += 1
        else:
            self.wrong += 1
            print(f"{what}: found {found!r}, expected {expected!r}")

    def run(self, what, words, data, status, lines):
        """The whole text is these lines."""
        found = outcome(words.split(), data)
        self.equal(what, found[:2], (status, text(lines)))

    def has(self, what, words, data, status, lines):
        """These lines stand in the text in this order, perhaps with others between."""
        found = outcome(words.split(), data)
        rest = iter(found[1].splitlines())
        self.equal(what, (found[0], [line for line in lines if line not in rest]), (status, []))

    def reports(self, what, words, data, status, lines):
        """The report lines are these."""
        found = outcome(words.split(), data)
        self.equal(what, (found[0], reports_of(found[1])), (status, lines))


def text(lines):
    return "".join(line + "\n" for line in lines)


def reports_of(printed):
    return [line for line in printed.splitlines() if line.startswith("S ")]


def stored(name):
    return (ROOT / "examples" / name).read_bytes()


def report_of(name):
    """The lines of a report in examples/."""
    return stored(name + ".report").decode().splitlines()


def check_examples(check):
    """The inputs in examples/ give the reports that stand beside them."""
    check.equal("the first input's bytes", FIRST, stored("first.input"))
    check.run("examples/first", "replay", FIRST, 0, report_of("first"))
    check.run("examples/small_day", "replay --stations 2", b"".join(small_day.day()), 0, report_of("small_day"))
    words = [word for word, _ in sound_prints(1, 8, 4, find_a_song.song())]
    check.run("examples/find_a_song", "replay", find_a_song.input_of(words), 0, report_of("find_a_song"))


def check_memory(check):
    """What follows where commands are refused for want of memory."""
    ends = ["T S 0 1 1 ended", "T O 2 1 ended"]
    for number, lines in (
        (1, ["O 1 refused no-memory", "O 2 published 1", HEARD + "none", *ends]),
        (2, ["O 1 ok", "O 2 refused no-memory", "S 0 B 0 G 0 W 0 V 0: none", "T S 0 1 0 ended", "T O 2 0 ended"]),
        (3, report_of("first")),
    ):
        found = outcome(["replay"], FIRST, {number})
        check.equal(f"the first input without memory for {number}", found, (0, text(lines), ""))
    refused = "refused no-memory"
    for number, changed in (
        (1, {1: refused, 2: "ok"}),  # so the second command adds the song
        (2, {}),  # a duplicate anyway
        (6, {6: refused, 7: "ok", 12: "refused duplicate"}),  # so song 3 has room, and is there when song 3 closes
        (9, {9: refused, 10: "ok"}),  # so the tenth command opens a song
        (11, {11: refused, 12: "refused no-song-open"}),  # so the song is given up
        (13, {13: refused, 14: "published 1", 15: "published 2"}),
    ):
        answers = [changed.get(n + 1, answer) for n, (_, answer) in enumerate(fifteen_commands.fifteen())]
        lines = [f"O {n + 1} {answer}" for n, answer in enumerate(answers)] + ["T S 0 0 0 ended", "T O 15 2 ended"]
        found = outcome(fifteen_commands.WORDS.split(), fifteen_commands.input_of_them(), {number})
        check.equal(f"the fifteen commands without memory for {number}", found, (0, text(lines), ""))


def check_commands(check):
    """Each refusal, and the form of an open song."""
    commands, data = fifteen_commands.fifteen(), fifteen_commands.input_of_them()
    replies = [f"O {n + 1} {answer}" for n, (_, answer) in enumerate(commands)]
    check.run("each refusal", fifteen_commands.WORDS, data, 0, replies + ["T S 0 0 0 ended", "T O 15 2 ended"])
    data = input_of(OPERATOR_HELLO + open_song(1, 3, 1))
    check.has("a form that isn't", "replay", data, 3, ["T O 0 0 bad-format 13"])


def against(number, words, sent):
    """The input where a station sends these prints against one recording."""
    return input_of(OPERATOR_HELLO + add(number, words) + PUBLISH, station_hello(PRINTS) + packet(1, sent))


def check_matches(check):
    """Hits, the limit of errors, weak bits, silence."""
    for many, found in ((62, "7@0~2867"), (63, "none")):
        sent = [0] + [0xFFF if i < many else 0x7FF for i in range(255)]
        data = against(7, [0] * 256, prints(sent))
        check.reports(f"{many} words with a twelfth wrong bit", "replay", data, 0, [HEARD + found])
    upper = [word ^ 1 << 31 for word in RAMP]
    check.reports("each word wrong", "replay", against(7, RAMP, prints(upper)), 0, [HEARD + "none"])
    masked = prints(upper[:9]) + prints([upper[9]], 1 << 31) + prints(upper[10:])
    check.reports("a weak bit in one print", "replay", against(7, RAMP, masked), 0, [HEARD + "7@0~256"])
    check.reports("silence", "replay", against(3, [0] * 300, prints([0] * 256)), 0, [SILENCE])
    listed = " ".join(f"3@{q}~0" for q in range(1745))
    data = against(3, [0] * 2000, prints([0] * 512, 0x3FF))
    check.reports(
        "silence with ten weak bits", "replay --hop 256", data, 0, [HEARD + listed, "S 0 B 1 G 0 W 256 V 1: " + listed]
    )


def check_blocks(check):
    """Where blocks are complete, and what they see."""
    data = input_of(OPERATOR, station_hello(PRINTS) + packet(1, prints(RAMP[:255])))
    check.run("one print fewer", "replay", data, 0, ["O 1 ok", "O 2 published 1", "T S 0 0 0 ended", "T O 2 1 ended"])
    for many in (319, 320):
        data = input_of(station=station_hello(PRINTS) + packet(1, prints(range(many))))
        lines = ["S 0 B 0 G 0 W 0 V 0: none", "S 0 B 1 G 0 W 64 V 0: none"][: many - 318]
        ends = [f"T S 0 {many - 318} 0 ended", "T O 0 0 ended"]
        check.run(f"{many} prints, no operator", "replay", data, 0, lines + ends)
    for publish, last in ((PUBLISH, "S 0 B 1 G 0 W 64 V 2: 8@0~0"), (b"", "S 0 B 1 G 0 W 64 V 1: none")):
        data = FIRST + input_of(add(8, range(64, 320)) + publish, packet(1, prints(range(256, 320))))
        check.reports("a song added between", "replay", data, 0, [HEARD + "7@0~0", last])
    other = range(1000, 1256)
    data = FIRST + input_of(withdraw(7) + PUBLISH, GAP + packet(1, prints(RAMP)))
    data += input_of(add(7, other) + PUBLISH, GAP + packet(1, prints(other)))
    check.reports(
        "a song withdrawn and added again",
        "replay",
        data,
        0,
        [HEARD + "7@0~0", "S 0 B 1 G 1 W 0 V 2: none", "S 0 B 2 G 2 W 0 V 3: 7@0~0"],
    )
    sent = station_hello(PRINTS) + packet(1, prints(RAMP[:255])) + GAP + packet(1, prints(RAMP))
    check.reports("no block over a gap", "replay", input_of(station=sent), 0, ["S 0 B 0 G 1 W 0 V 0: none"])
    data = input_of(station=station_hello(PRINTS) + fence(1))
    check.has("a fence ahead", "replay", data, 3, ["T S 0 0 0 fence-ahead 1 0"])
    sent = station_hello(PRINTS) + fence(1) + packet(1, prints(RAMP))
    check.run(
        "a fence that is reached",
        "replay",
        input_of(OPERATOR_HELLO + PUBLISH, sent),
        0,
        ["O 1 published 1", HEARD + "none", "T S 0 1 1 ended", "T O 1 1 ended"],
    )


def check_sound(check):
    """Silent sound, whose words are 0; and the quick transform against the plain one."""
    nothing = bytes(36864)
    for cuts in ((36864,), (1, 36863)):
        sent, at = station_hello(1, 1), 0
        for size in cuts:
            sent, at = sent + packet(1, nothing[at : at + size]), at + size
        data = input_of(OPERATOR_HELLO + add(3, [0] * 300) + PUBLISH, sent)
        check.reports("silent sound", "replay", data, 0, [SILENCE])
    check.equal("silent prints", sound_prints(1, 1, 4, nothing), [(0, 15)] * 256)
    check.equal("silent prints, a sample fewer", sound_prints(1, 1, 4, nothing[2:]), [(0, 15)] * 255)
    check.equal("silent prints without weak bits", sound_prints(1, 1, 0, nothing), [(0, 0)] * 256)
    frame = draws(24, SAMPLES, 16)
    check.equal("the quick transform", list(zip(*quick(frame))), transform(real(frame)))


def check_words(check):
    for words in (
        "replay --hop 0",
        "replay --hop=64",
        "replay --hop 64 --hop 64",
        "",
        "replay --hop",
        "replay 64",
        "repla",
        "replay --hop 00000000000000000064",
        "replay --hop +1",
        "replay --stations 65",
        "replay --positions 255",
    ):
        check.run(f"the words {words!r}", words, FIRST, 2, [])
    check.run("leading zeros", "replay --hop 0000000000000000064", b"", 3, ["T S 0 0 0 cut 0", "T O 0 0 ended"])


def check_records(check):
    """Where records are cut, and what is no record."""
    bytewise = b"".join(operator_record(b) for b in pieces(OPERATOR, 1))
    bytewise += b"".join(station_record(0, b) for b in pieces(STATION, 1))
    check.equal("records of one byte", outcome(["replay"], bytewise), outcome(["replay"], FIRST))
    check.run("another letter", "replay", b"X", 7, ["R bad-record 0"])
    check.run("a station too many", "replay", station_record(1, b""), 7, ["R bad-record 0"])
    check.run("too long", "replay --bytes 10", FIRST, 7, ["R too-long 10"])
    check.has("just short enough", "replay --bytes 3106", FIRST, 0, [HEARD + "7@0~0"])
    check.has("no record for the station", "replay", input_of(OPERATOR), 3, ["T S 0 0 0 cut 0"])


def check_cuts(check):
    """Streams that end anywhere."""
    small = "replay --songs 2 --positions 256"
    for n in list(range(0, 30)) + [100, 1000, 2040, 2055, 2056, 2057]:
        end, whole = "ended" if n in (6, 2057) else f"cut {n}", int(n == 2057)
        data, status = input_of(OPERATOR, STATION[:n]), 0 if end == "ended" else 3
        check.reports(f"the station's first {n} bytes", small, data, status, [HEARD + "7@0~0"] * whole)
        check.has(f"the station's first {n} bytes", small, data, status, [f"T S 0 {whole} {whole} {end}"])
    for n in list(range(0, 30)) + [1000, 1035, 1036, 1037, 1038, 1041, 1042]:
        end = "ended" if n in (0, 4, 1037, 1042) else f"cut {n}"
        many = 0 if n < 1037 else 1 if n < 1042 else 2
        data = input_of(OPERATOR[:n], STATION)
        check.has(
            f"the operator's first {n} bytes",
            small,
            data,
            0 if end == "ended" else 3,
            [f"T O {many} {int(many == 2)} {end}"],
        )


def check_faults(check):
    """Bytes of streams that are out of form."""
    hello = station_hello(PRINTS)
    for sent, end in (
        (b"HKS9", "bad-hello 3"),
        (b"HKS1\3", "bad-hello 4"),
        (b"HKS1\0\2", "bad-hello 5"),
        (hello + b"\x09", "bad-kind 6"),
        (hello + b"\2\0\3", "bad-length 7"),
        (hello + packet(1, prints([0], 0x7FF)), "bad-mask 16"),
    ):
        check.has(end, "replay", input_of(station=sent), 3, [f"T S 0 0 0 {end}"])
    for p in range(9):
        data = input_of(OPERATOR, changed(STATION, p))
        lines = [HEARD + "7@0~0", "T S 0 1 1 cut 2057"]  # where the length is too large
        if p < 7:
            lines = [f"T S 0 0 0 bad-{'hello' if p < 6 else 'kind'} {p}"]
        check.has(f"byte {p} changed", "replay", data, 3, lines)
    for p, end in ((4, "bad-kind 4"), (5, "cut 1042")):
        data = input_of(changed(OPERATOR, p), STATION)
        check.has(
            f"the operator's byte {p} changed", "replay", data, 3, ["S 0 B 0 G 0 W 0 V 0: none", f"T O 0 0 {end}"]
        )


def changed(data, p):
    return data[:p] + b"\xff" + data[p + 1 :]


def check_made(check):
    """The input of `make`: each play of a recording that is there is found."""
    there = ({0, 1, 2, 3}, set(range(8)), set(range(8)) - {3}, set(range(8)))
    for stations, flips, hop, blocks in ((4, 4, 64, 96), (4, 1, 64, 96), (64, 10, 256, 512)):
        words = f"replay --stations {stations} --flips {flips} --hop {hop}"
        status, printed = outcome(words.split(), made_input(1, stations, flips))[:2]
        lines = [line.split() for line in reports_of(printed)]
        own = 0
        for line in lines:
            s, r, w = int(line[1]), int(line[5]), int(line[7])
            own += any(item.startswith(f"{100 + (s + r) % 8}@{40 * r + w}~") for item in line[10:])
        heard = sum((s + r) % 8 in there[r] for s in range(stations) for r in range(4))
        check.equal(words, (status, len(lines), own), (0, blocks, blocks // 4 // stations * heard))


def check_minute(check):
    """A minute of sound, added as a recording and played."""
    minute = made(17, 10584000)
    operator = [OPERATOR_HELLO + open_song(5, 2, 8), *(audio(b) for b in pieces(minute, 65000)), CLOSE + PUBLISH]
    station = [station_hello(2, 8), *(packet(1, b) for b in pieces(minute, 65001))]
    sent = b"".join(operator_record(b) for b in operator) + b"".join(station_record(0, b) for b in station)
    status, printed = outcome(["replay"], sent)[:2]
    lines = [line.split() for line in reports_of(printed)]
    own = sum(f"5@{line[7]}~0" in line[10:] for line in lines)
    check.equal("a minute of sound", (status, len(lines), own), (0, 77, 77))
    check.equal("its prints", len(sound_prints(2, 8, 4, minute)), 5135)


def self_test(long):
    """The status: 1 where a check is wrong."""
    check = Checks()
    for part in (
        check_examples,
        check_memory,
        check_commands,
        check_matches,
        check_blocks,
        check_sound,
        check_words,
        check_records,
        check_cuts,
        check_faults,
        check_made,
        *([check_minute] if long else []),
    ):
        part(check)
    print(f"{check.right} checks are right, {check.wrong} are wrong")
    return 1 if check.wrong else 0
