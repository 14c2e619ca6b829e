"""hk check: an input or a stream before a run."""

import os
import sys

from .options import add_options, settings_of
from .reading import Input, OperatorStream, StationStream
from .saying import Trouble, unreadable

WHAT = "say what an input or a stream holds, and where it would be refused"
HELP = """Reads a replay's input, or one stream of a station or of the operator, and says what is in it before a run:
streams and their seconds, the stations that it needs, how each stream ends, the first fault, commands that are
refused, recordings and stations that are silent for a while, and the words beside the limits.

The status is 0 where nothing would be refused and every stream ends in order, and 1 otherwise. Options are those
that hkreplay will be given."""

PIECE = 1 << 20


def arguments(parser):
    parser.add_argument("file", help="an input or a stream; - is standard input")
    parser.add_argument("--rate", type=int, default=44100, help="samples a second of the sound (44100)")
    add_options(parser)


class Findings:
    """What is said, and whether something of it must be mended."""

    def __init__(self):
        self.lines, self.wrong = [], 0

    def say(self, text):
        self.lines.append(text)

    def mend(self, text):
        self.lines.append(f"! {text}")
        self.wrong += 1


def opened(path):
    if path == "-":
        return sys.stdin.buffer
    try:
        return open(path, "rb")
    except OSError as error:
        raise unreadable(path, error) from error


def kind_of(first, settings, rate):
    """The reader of what begins so."""
    if first[:4] == b"HKS1":
        return StationStream(settings.hop, rate)
    if first[:4] == b"HKO1":
        return OperatorStream(settings, rate)
    return Input(settings, rate)


def run(given, speaker):
    settings = settings_of(given)
    if given.rate < 1:
        raise Trouble(f"--rate {given.rate}", "give samples a second, as 44100")
    findings = Findings()
    with opened(given.file) as file:
        size = os.fstat(file.fileno()).st_size
        piece = file.read(PIECE)
        reader, taken = kind_of(piece, settings, given.rate), 0
        while piece:
            reader.push(piece)
            taken += len(piece)
            speaker.progress(
                f"{given.file}: {taken / 1e6:.0f} of {size / 1e6:.0f} MB" if size else f"{taken / 1e6:.0f} MB"
            )
            piece = file.read(PIECE)
    speaker.clear()
    findings.say(f"{given.file}: {taken} bytes, {name_of(reader)}")
    if isinstance(reader, Input):
        reader.finish()
        say_input(reader, settings, findings)
    elif isinstance(reader, StationStream):
        reader.close_segment()
        say_station("the station", reader, findings)
    else:
        say_operator(reader, settings, findings)
    print("\n".join(findings.lines))
    if findings.wrong:
        print(f"{findings.wrong} to look at, marked by !")
        return 1
    print("nothing would be refused")
    return 0


def name_of(reader):
    kinds = {Input: "the input of a replay", StationStream: "the stream of a station"}
    return kinds.get(type(reader), "the stream of the operator")


def say_input(reader, settings, findings):
    if reader.wanted > settings.stations:
        findings.mend(f"it needs --stations {reader.wanted}, and {settings.stations} would be given")
    if reader.trouble is not None:
        findings.mend(f"it would be refused with: R {reader.trouble}")
        findings.say(f"  the input was taken up to byte {reader.size}")
    for number, station in enumerate(reader.stations):
        say_station(f"station {number}", station, findings)
    say_operator(reader.operator, settings, findings)


def say_station(name, station, findings):
    if not station.size:
        findings.mend(f"{name}: no byte came, not even a hello: it would end with {station.text_of_end()}")
        return
    form = "prints" if station.channels == 0 else f"sound of {station.channels} channels, factor {station.factor}"
    lengths = [station.seconds(segment) for segment in station.segments]
    if station.channels == 0:
        total = f"{sum(station.prints_of(segment) for segment in station.segments)} prints"
    else:
        total = f"{sum(filter(None, lengths)):.1f} seconds"
    segments = f"{len(station.segments)} segments" if len(station.segments) > 1 else "1 segment"
    findings.say(f"{name}: {form}, {segments}, {total}, {station.blocks} blocks")
    for number, segment in enumerate(station.segments):
        for first, last in segment.silent:
            findings.say(f"  segment {number} is silent from {first:.1f} to {last:.1f} s")
        if segment.size and not station.prints_of(segment) >= 256:
            findings.say(f"  segment {number} is too short for a block")
    say_end(name, station, findings)


def say_operator(operator, settings, findings):
    if not operator.size:
        findings.say("the operator: no byte")
        return
    songs = f"{len(operator.present)} recordings of {sum(operator.present.values())} words at the end"
    findings.say(f"the operator: {len(operator.answers)} commands, {operator.version} versions, {songs}")
    for number, answer in enumerate(operator.answers, 1):
        if answer.startswith("refused"):
            findings.mend(f"command {number} would be answered: O {number} {answer}")
    findings.say(f"  at most {operator.most} words at a time, of --positions {settings.positions}")
    for number, spans in operator.silent.items():
        for first, last in spans:
            findings.say(
                f"  recording {number} is silent from {first:.1f} to {last:.1f} s: silent stations may match there"
            )
    if operator.waiting:
        findings.mend(f"{operator.waiting} edits wait for a publish that never comes")
    if operator.open is not None:
        findings.mend(f"recording {operator.open.number} is opened and never closed: it would be dropped")
    say_end("the operator", operator, findings)


def say_end(name, stream, findings):
    end = stream.text_of_end()
    if end != "ended":
        findings.mend(f"{name}: it would end with {end}")
