"""hk plays: report lines to a list of plays."""

import csv
import json
import sys

from .beside import read_beside
from .clock import text_of
from .explain import explained
from .grouping import Grouping
from .printed import block_of
from .saying import Trouble, unreadable
from .schedule import FACTORS
from .sound import Form

WHAT = "make a list of plays of report lines"
HELP = """Reads what hkreplay printed, or the logs of hkmon, and writes one row for each play: the recording, the times
of its begin and end by the clock, what part of the recording it was, and how sure it is.

Blocks are one play while the recording's place goes on with the station's time. Blocks without a match are joined
over up to --join seconds, also over a gap of the stream, and each join is said. Of several items of one recording in
a line the one with the fewest errors counts; a play inside a longer one of the same recording is a repeat in it.
A play of silence, of the station or in the recording, is marked: all silence is alike. --without-silent leaves such
plays out. A block of 3.35 s is found where three tenths of it are heard well, so that a play may seem to begin up to
2.4 s early, and to end as much late.

--beside is OUTPUT.json of hk pack, or the folder of hk send --keep: without it there are no titles and no clock."""

COLUMNS = (
    "station",
    "station_name",
    "id",
    "title",
    "artist",
    "began",
    "ended",
    "station_second",
    "seconds",
    "recording_from",
    "recording_to",
    "blocks",
    "errors_least",
    "errors_mean",
    "version_first",
    "version_last",
    "joins",
    "joined_seconds",
    "silent",
)


def arguments(parser):
    parser.add_argument("report", nargs="+", help="what hkreplay printed, or logs of hkmon; - is standard input")
    parser.add_argument("--beside", metavar="FILE", help="OUTPUT.json of hk pack, or the folder of --keep")
    parser.add_argument("-o", "--output", help="where the list goes (standard output)")
    parser.add_argument(
        "--format", choices=("csv", "json", "cue"), default="csv", help="csv, json or a cue sheet (csv)"
    )
    parser.add_argument("--station", type=int, metavar="N", help="this station's plays alone; a cue sheet is of one")
    parser.add_argument(
        "--join", type=float, default=30.0, metavar="S", help="seconds without a match in one play (30)"
    )
    parser.add_argument("--least", type=int, default=1, metavar="N", help="the fewest blocks of a play (1)")
    parser.add_argument("--without-silent", action="store_true", help="leave out plays of silence")
    parser.add_argument("--factor", type=int, choices=FACTORS, default=8, help="the factor, without --beside (8)")
    parser.add_argument("--rate", type=int, help="samples a second, without --beside (5512.5 times the factor)")


def run(given, speaker):
    if given.join < 0 or given.least < 1:
        raise Trouble("--join or --least", "give seconds from 0 up, and blocks from 1 up")
    form = Form(2, given.factor, given.rate or round(5512.5 * given.factor))
    beside = read_beside(given.beside, form)
    groupings, ends = {}, []
    for path in given.report:
        for line in lines_of(path, speaker):
            take(line, groupings, ends, beside, given)
    speaker.clear()
    plays = [play for _, grouping in sorted(groupings.items()) for play in grouping.finish()]
    rows = [row_of(play, beside) for play in plays if len(play.hits) >= given.least]
    say(plays, rows, ends, beside, given, speaker)
    if given.without_silent:
        rows = [row for row in rows if not row["silent"]]
    text = {"csv": csv_of, "json": json_of, "cue": cue_of}[given.format](rows, beside)
    try:
        with open(given.output, "w", encoding="utf-8", newline="") if given.output else sys.stdout as file:
            file.write(text)
    except OSError as error:
        raise unreadable(given.output, error, "give a place that can be written") from error
    return 0


def lines_of(path, speaker):
    try:
        with sys.stdin if path == "-" else open(path, encoding="ascii", errors="replace") as file:
            for number, line in enumerate(file):
                if number % 1000 == 0:
                    speaker.progress(f"{path}: {number} lines")
                # a last line without its end was cut off
                if line.endswith("\n"):
                    yield line.rstrip("\n")
    except OSError as error:
        raise unreadable(path, error) from error


def take(line, groupings, ends, beside, given):
    block = block_of(line)
    if block is None:
        words = line.split()
        if words[:1] == ["R"] or (words[:2] == ["T", "S"] and words[-1] != "ended"):
            ends.append(line)
    elif given.station in (None, block.station):
        if block.station not in groupings:
            groupings[block.station] = Grouping(block.station, beside, given.join)
        groupings[block.station].take(block)


def place_of(hit, beside, seconds=0.0):
    """The moment of a hit by the clock, or None."""
    block = hit.block
    return beside.clock(block.station, block.segment, block.first * beside.print_seconds() + seconds)


def row_of(play, beside):
    first, last, step = play.first(), play.last(), beside.print_seconds()
    began, ended = place_of(first, beside), place_of(last, beside, beside.block_seconds())
    silent = sum(beside.is_silent(hit.block, hit.item) for hit in play.hits)
    recording = beside.recording(play.number)
    return {
        "station": play.station,
        "station_name": beside.station_name(play.station),
        "id": play.number,
        "title": recording.get("title", ""),
        "artist": recording.get("artist", ""),
        "began": text_of(began) if began else "",
        "ended": text_of(ended) if ended else "",
        "station_second": round(first.second, 3),
        "seconds": round(last.second - first.second + beside.block_seconds(), 3),
        "recording_from": round(first.item.start * step, 3),
        "recording_to": round(last.item.start * step + beside.block_seconds(), 3),
        "blocks": len(play.hits),
        "errors_least": min(play.errors()),
        "errors_mean": round(sum(play.errors()) / len(play.hits)),
        "version_first": first.block.version,
        "version_last": last.block.version,
        "joins": len(play.joins),
        "joined_seconds": round(sum(length for _, length in play.joins), 3),
        "silent": 2 * silent > len(play.hits),
    }


def say(plays, rows, ends, beside, given, speaker):
    """What was joined, left out or marked, and where a report isn't whole."""
    for play in plays:
        for second, length in play.joins:
            title = beside.recording(play.number).get("title") or f"recording {play.number}"
            where = f"{beside.station_name(play.station)}, second {second:.1f}"
            speaker.note(f"joined: {title} on {where}, over {length:.1f} seconds without a match")
    short = len(plays) - len(rows)
    if short:
        speaker.note(f"{short} plays of fewer than {given.least} blocks are left out")
    silent = sum(row["silent"] for row in rows)
    if silent:
        done = "left out" if given.without_silent else "marked silent"
        speaker.note(f"{silent} plays are of silence, and {done}")
    for line in ends:
        speaker.note(f"{line}: {explained(line) or 'this report is not whole'}")
    speaker.note(f"{len(rows) - (silent if given.without_silent else 0)} plays")


def csv_of(rows, beside):
    lines = []
    writer = csv.DictWriter(Lines(lines), COLUMNS, lineterminator="\n")
    writer.writeheader()
    for row in rows:
        writer.writerow({**row, "silent": "yes" if row["silent"] else "no"})
    return "".join(lines)


class Lines:
    """A file that is a list."""

    def __init__(self, lines):
        self.write = lines.append


def json_of(rows, beside):
    return json.dumps(rows, indent=1, ensure_ascii=False) + "\n"


def cue_of(rows, beside):
    """A cue sheet of one station; its times count from the station's beginning."""
    stations = {row["station"] for row in rows}
    if len(stations) > 1:
        raise Trouble(f"a cue sheet is of one station, and these are {len(stations)}", "give --station N")
    name = rows[0]["station_name"] if rows else "station"
    lines = [f'TITLE "{quoted(name)}"', f'FILE "{quoted(name)}.wav" WAVE']
    for number, row in enumerate(rows, 1):
        frames = round(row["station_second"] * 75)
        title = row["title"] or f"recording {row['id']}"
        lines.append(f"  TRACK {number:02} AUDIO")
        lines.append(f'    TITLE "{quoted(title)}"')
        if row["artist"]:
            lines.append(f'    PERFORMER "{quoted(row["artist"])}"')
        if row["began"]:
            lines.append(f"    REM BEGAN {row['began']}")
        lines.append(f"    INDEX 01 {frames // 4500:02}:{frames // 75 % 60:02}:{frames % 75:02}")
    return "\n".join(lines) + "\n"


def quoted(text):
    """A cue sheet has no way to write a quotation mark."""
    return text.replace('"', "'").replace("\n", " ")
