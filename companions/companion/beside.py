"""What stands beside an input: titles of ids, when each segment of each station began, and how long a print takes."""

import json
import os
from dataclasses import dataclass, field

from .clock import after, clock_of
from .kept import read_kept
from .saying import Trouble, unreadable
from .sound import Form


@dataclass
class Beside:
    """All of it; what isn't known is left out."""

    form: Form = field(default_factory=Form)
    recordings: dict = field(default_factory=dict)
    stations: dict = field(default_factory=dict)

    def print_seconds(self):
        return self.form.print_seconds()

    def block_seconds(self):
        return self.form.block_seconds()

    def recording(self, number):
        return self.recordings.get(number, {})

    def station_name(self, number):
        return self.stations.get(number, {}).get("name") or f"station {number}"

    def began(self, station, segment):
        """The time of the clock at which a station's segment began, or None."""
        segments = self.stations.get(station, {}).get("segments", [])
        began = segments[segment].get("began") if segment < len(segments) else None
        return clock_of(began) if began else None

    def second_of(self, station, segment):
        """How many seconds the station sent before the segment, or None."""
        segments = self.stations.get(station, {}).get("segments", [])[:segment]
        lengths = [one.get("seconds") for one in segments]
        return None if None in lengths or len(lengths) < segment else sum(lengths)

    def clock(self, station, segment, second):
        began = self.began(station, segment)
        return after(began, second) if began else None

    def is_silent(self, block, item):
        """Whether half of what the block hears is silence of its station, or of the recording."""
        segments = self.stations.get(block.station, {}).get("segments", [])
        aired = segments[block.segment].get("silent") if block.segment < len(segments) else None
        recorded = self.recording(item.number).get("silent")
        return self.half_in(block.first, aired) or self.half_in(item.start, recorded)

    def half_in(self, first, spans):
        """Whether half of the block from this print on lies in the spans of seconds."""
        begin = first * self.print_seconds()
        end = begin + self.block_seconds()
        silent = sum(max(0.0, min(end, last) - max(begin, since)) for since, last in spans or [])
        return 2 * silent >= end - begin


def read_beside(path, form):
    """Of a file that hk pack wrote, or of a folder that hk send and hk operate kept."""
    if path is None:
        return Beside(form)
    try:
        if os.path.isdir(path):
            day = read_kept(path)
            for stream in day.streams:
                for _ in stream.pieces():
                    pass
            found = day.beside()
        else:
            with open(path, encoding="utf-8") as file:
                found = json.load(file)
        sound = found["sound"]
        return Beside(
            Form(sound["channels"], sound["factor"], sound["rate"]),
            {one["id"]: one for one in found["recordings"]},
            {one["number"]: one for one in found["stations"]},
        )
    except OSError as error:
        raise unreadable(path, error) from error
    except (ValueError, KeyError, TypeError) as error:
        raise Trouble(
            f"{path} isn't what hk pack writes beside an input", "give OUTPUT.json, or the folder of --keep"
        ) from error
