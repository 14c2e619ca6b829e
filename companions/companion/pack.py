"""hk pack: a schedule to the input of a replay, and beside it what the report can't say."""

import hashlib
import heapq
import json
import os

from . import VERSION
from .clock import after, of_unix, text_of
from .kept import read_kept
from .program import program_path, sha256_of
from .saying import Trouble, unreadable
from .schedule import read_schedule
from .sound import Silence, Sound
from . import streams
from .streams import CLOSE, GAP, MOST, OPERATOR_HELLO, PIECE, PUBLISH, audio, data, open_song, station_hello, withdraw

WHAT = "make a replay's input of a schedule, or of what was kept of a day"
HELP = """Makes the input of a replay: of a schedule (TOML or CSV) of recordings, of what stations sent and of
events, or of what hk send and hk operate kept of a day. Beside OUTPUT it writes OUTPUT.json: titles of
the ids, when each segment of each station began, rates, where recordings are silent, sums of bytes, and
the SHA-256 of program and input. hk plays reads it.

A schedule in TOML:

  [sound]                           # as it is given to the program; these are the defaults
  channels = 2
  factor = 8
  rate = 44100

  [[recording]]
  id = 7
  title = "Song"
  artist = "Artist"
  file = "song.ogg"                 # what ffmpeg reads; .raw and .pcm are taken as they are

  [[station]]
  name = "Radio One"
  [[station.segment]]
  began = 2026-12-01T06:00:00Z      # when the first sample was aired
  file = "morning.mp3"
  offset = 0                        # seconds of the file that are left out
  seconds = 3600                    # no more than so many

  [[event]]                         # withdrawals, adds, then a publish
  at = 2026-12-01T12:00:00Z
  withdraw = [7]
  add = [8]

Recordings that no event adds are there from the start. In CSV the same stands in rows with the columns
kind,id,title,artist,file,station,began,offset,seconds, the kind being recording, segment, add, withdraw
or publish (began is then the time of the publish)."""

# sound is taken in turns of a second, so that events meet the streams at their times
TURN = 1.0


def arguments(parser):
    parser.add_argument("schedule", nargs="?", help="a schedule, .toml or .csv")
    parser.add_argument(
        "--kept", metavar="FOLDER", help="the folder that hk send and hk operate kept, for a schedule"
    )
    parser.add_argument("-o", "--output", required=True, help="the input that is made")
    parser.add_argument("--program", help="hkreplay, whose SHA-256 is noted")


class Writer:
    """Writes the input and sums it up."""

    def __init__(self, file):
        self.file, self.size, self.digest = file, 0, hashlib.sha256()

    def write(self, records):
        self.file.write(records)
        self.digest.update(records)
        self.size += len(records)

    def station(self, number, stream):
        self.write(streams.station(number, stream, most=MOST))

    def operator(self, stream):
        self.write(streams.operator(stream, most=MOST))


def run(given, speaker):
    if (given.schedule is None) == (given.kept is None):
        raise Trouble("neither a schedule nor --kept, or both", "give one of them")
    # a schedule with a fault leaves no half of an input
    part = f"{given.output}.part"
    try:
        with open(part, "wb") as file:
            writer = Writer(file)
            if given.kept is not None:
                beside = pack_kept(given.kept, writer)
            else:
                beside = pack_schedule(read_schedule(given.schedule), writer, speaker)
        os.replace(part, given.output)
    except OSError as error:
        raise unreadable(error.filename or given.output, error, "give a place that can be written") from error
    finally:
        if os.path.exists(part):
            os.unlink(part)
    beside = {"made_by": f"hk pack {VERSION}", **beside}
    beside["input"] = {
        "file": os.path.basename(given.output),
        "bytes": writer.size,
        "sha256": writer.digest.hexdigest(),
    }
    program = program_path(given.program)
    beside["program"] = {"file": program, "sha256": sha256_of(program)} if program else None
    with open(f"{given.output}.json", "w", encoding="utf-8") as file:
        json.dump(beside, file, indent=1, ensure_ascii=False)
        file.write("\n")
    stations = max(1, len(beside["stations"]))
    speaker.note(
        f"{given.output}: {writer.size} bytes; now: hkreplay replay{words_for(stations, beside)} < {given.output}"
    )
    return 0


def words_for(stations, beside):
    """The options that the input needs."""
    words = f" --stations {stations}" if stations > 1 else ""
    total = sum(recording.get("words") or 0 for recording in beside["recordings"])
    if total > 1048576:
        words += f" --positions {min(total, 16777216)}"
    if len(beside["recordings"]) > 1000:
        words += f" --songs {min(len(beside['recordings']), 65536)}"
    return words


def pack_schedule(schedule, writer, speaker):
    """Writes all records in the order of the clock, and gives what stands beside them."""
    form, told = schedule.form, {}
    writer.operator(OPERATOR_HELLO)
    for number in schedule.at_first():
        told[number] = add_recording(schedule.recordings[number], form, writer, speaker)
    if told:
        writer.operator(PUBLISH)
    stations = [StationTurns(number, station, form) for number, station in enumerate(schedule.stations)]
    for station in stations:
        writer.station(station.number, station_hello(form.channels, form.factor))
    events = sorted(schedule.events, key=lambda event: event.at)
    for clock, number, records in heapq.merge(*(station.turns() for station in stations), key=lambda turn: turn[:2]):
        while events and clock is not None and events[0].at.timestamp() <= clock:
            told.update(happen(events.pop(0), schedule, writer, speaker))
        speaker.progress(f"{writer.size / 1e6:.0f} MB")
        writer.write(records)
    for event in events:
        told.update(happen(event, schedule, writer, speaker))
    return {
        "sound": {"channels": form.channels, "factor": form.factor, "rate": form.rate},
        "recordings": [told[number] for number in schedule.recordings if number in told],
        "stations": [station.told for station in stations],
    }


def happen(event, schedule, writer, speaker):
    told = {}
    for number in event.withdraw:
        writer.operator(withdraw(number))
    for number in event.add:
        told[number] = add_recording(schedule.recordings[number], schedule.form, writer, speaker)
    writer.operator(PUBLISH)
    return told


def add_recording(recording, form, writer, speaker):
    """Opens, brings and closes a recording's sound."""
    speaker.progress(f"recording {recording.number}: {recording.file}")
    silence, size = Silence(form), 0
    writer.operator(open_song(recording.number, form.channels, form.factor))
    for piece in Sound(recording.file, form).pieces():
        silence.hear(piece)
        size += len(piece)
        writer.operator(audio(piece))
    writer.operator(CLOSE)
    if form.prints(size) < 256:
        raise Trouble(f"{recording.file} is too short for a recording", "give at least 3.4 seconds of sound")
    return {
        "id": recording.number,
        "title": recording.title,
        "artist": recording.artist,
        "file": os.path.basename(recording.file),
        "seconds": round(size / form.second, 3),
        "words": form.prints(size),
        "silent": silence.spans(),
    }


class StationTurns:
    """What one station sends, in turns of a second, each with its time, and what is told of it beside."""

    def __init__(self, number, station, form):
        self.number, self.station, self.form = number, station, form
        self.told = {"number": number, "name": station.name, "segments": []}

    def turns(self):
        """Triples of a time, the station, and records; the times never fall."""
        clock = None
        for place, segment in enumerate(self.station.segments):
            began = segment.began.timestamp() if segment.began else clock
            if segment.began is None and place == 0:
                began = 0.0
            if clock is not None and began < clock - 0.5:
                raise Trouble(
                    f"{self.station.name}: segment {place} begins before the one before it ends",
                    "give it a later time, or the other a length",
                )
            if place:
                yield began, self.number, streams.station_record(self.number, GAP)
            told = {
                "began": text_of(segment.began) if segment.began else None,
                "file": os.path.basename(segment.file),
            }
            if segment.began is None and place and self.told["segments"][-1]["began"]:
                told["began"] = text_of(of_unix(began))
            told["offset"] = segment.offset
            self.told["segments"].append(told)
            size, silence = 0, Silence(self.form)
            for piece in Sound(segment.file, self.form, segment.offset, segment.seconds).pieces(
                round(TURN * self.form.second)
            ):
                silence.hear(piece)
                stream = data(piece, PIECE)
                yield began + size / self.form.second, self.number, streams.station(self.number, stream, most=MOST)
                size += len(piece)
            told["seconds"] = round(size / self.form.second, 3)
            told["silent"] = silence.spans()
            clock = began + size / self.form.second


def pack_kept(folder, writer):
    """The input of a day that hk send and hk operate kept, in the order in which its pieces were sent."""
    kept = read_kept(folder)
    for _, number, stream in heapq.merge(*(one.pieces() for one in kept.streams), key=lambda piece: piece[0]):
        writer.operator(stream) if number is None else writer.station(number, stream)
    return kept.beside()
