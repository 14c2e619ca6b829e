"""A schedule: recordings, what stations sent and when, and what the operator does meanwhile; from TOML or CSV."""

import csv
import os
import tomllib
from dataclasses import dataclass, field
from datetime import datetime

from .clock import clock_of
from .saying import Trouble, unreadable
from .sound import Form

FACTORS = (1, 2, 4, 8)


@dataclass
class Recording:
    number: int
    title: str
    artist: str
    file: str


@dataclass
class Segment:
    """What one station sent without a gap: a file's sound from an offset on, and when it began, where that is known."""

    file: str
    began: datetime | None
    offset: float
    seconds: float | None


@dataclass
class Station:
    name: str
    segments: list = field(default_factory=list)


@dataclass
class Event:
    """What the operator does at a time: withdrawals, then adds, then a publish."""

    at: datetime
    withdraw: list
    add: list


@dataclass
class Schedule:
    form: Form
    recordings: dict
    stations: list
    events: list

    def at_first(self):
        """The ids that are there before anything is sent: those that no event adds before it withdraws them."""
        later = set()
        seen = set()
        for event in self.events:
            for number in event.withdraw:
                seen.add(number)
            later |= {number for number in event.add if number not in seen}
            seen |= set(event.add)
        return [number for number in self.recordings if number not in later]


def number_of(value, least, most, what):
    try:
        number = int(value)
    except (TypeError, ValueError):
        raise Trouble(f"{what} '{value}'", "give a whole number") from None
    if not least <= number <= most:
        raise Trouble(f"{what} {number}", f"give a number from {least} to {most}")
    return number


def seconds_of(value, what):
    if value in (None, ""):
        return None
    try:
        seconds = float(value)
    except (TypeError, ValueError):
        raise Trouble(f"{what} '{value}'", "give seconds") from None
    if not 0 <= seconds < 1e9:
        raise Trouble(f"{what} {value}", "give seconds from 0 up")
    return seconds


def recording_of(found, folder):
    if not found.get("file"):
        raise Trouble("a recording without a file", "give each recording its file")
    number = number_of(found.get("id"), 0, 2**32 - 1, "the id")
    return Recording(
        number, str(found.get("title") or ""), str(found.get("artist") or ""), beside(folder, found["file"])
    )


def segment_of(found, folder):
    if not found.get("file"):
        raise Trouble("a segment without a file", "give each segment its file")
    began = clock_of(found["began"]) if found.get("began") else None
    offset = seconds_of(found.get("offset"), "the offset") or 0.0
    return Segment(beside(folder, found["file"]), began, offset, seconds_of(found.get("seconds"), "the length"))


def beside(folder, path):
    """A file's name in a schedule counts from the schedule's own folder."""
    return path if "://" in path else os.path.join(folder, path)


def form_of(found):
    channels = number_of(found.get("channels", 2), 1, 2, "channels")
    factor = number_of(found.get("factor", 8), 1, 8, "factor")
    if factor not in FACTORS:
        raise Trouble(f"factor {factor}", "give 1, 2, 4 or 8")
    return Form(channels, factor, number_of(found.get("rate", 5512.5 * factor), 1, 10**6, "rate"))


def read_toml(text, folder):
    try:
        found = tomllib.loads(text)
    except tomllib.TOMLDecodeError as error:
        raise Trouble(f"the schedule is no TOML: {error}", "mend that place") from None
    for name in found:
        if name not in ("sound", "recording", "station", "event"):
            raise Trouble(f"the schedule has '{name}'", "use sound, recording, station and event alone")
    stations = []
    for number, station in enumerate(found.get("station", [])):
        name = str(station.get("name") or f"station {number}")
        stations.append(Station(name, [segment_of(one, folder) for one in station.get("segment", [])]))
    events = [event_of(one) for one in found.get("event", [])]
    recordings = [recording_of(one, folder) for one in found.get("recording", [])]
    return form_of(found.get("sound", {})), recordings, stations, events


def event_of(found):
    if "at" not in found:
        raise Trouble("an event without a time", "give each event its 'at'")
    lists = {}
    for name in ("withdraw", "add"):
        given = found.get(name, [])
        lists[name] = [
            number_of(one, 0, 2**32 - 1, "the id") for one in (given if isinstance(given, list) else [given])
        ]
    return Event(clock_of(found["at"]), lists["withdraw"], lists["add"])


def read_csv(text, folder):
    """Rows of a kind: sound, recording, segment, add, withdraw or publish; edits wait for the next publish row."""
    form, recordings, stations, events, waits = {}, [], {}, [], Event(None, [], [])
    for line, row in enumerate(csv.DictReader(text.splitlines()), 2):
        row = {name: (value or "").strip() for name, value in row.items() if name}
        kind = row.get("kind")
        if kind == "sound":
            form = {name: row[name] for name in ("channels", "factor", "rate") if row.get(name)}
        elif kind == "recording":
            recordings.append(recording_of(row, folder))
        elif kind == "segment":
            name = row.get("station") or "station 0"
            stations.setdefault(name, Station(name)).segments.append(segment_of(row, folder))
        elif kind in ("add", "withdraw"):
            getattr(waits, kind).append(number_of(row.get("id"), 0, 2**32 - 1, "the id"))
        elif kind == "publish":
            events.append(event_of({"at": row.get("began"), "add": waits.add, "withdraw": waits.withdraw}))
            waits = Event(None, [], [])
        else:
            kinds = "sound, recording, segment, add, withdraw or publish"
            raise Trouble(f"line {line} of the schedule is of the kind '{kind}'", f"use {kinds}")
    if waits.add or waits.withdraw:
        raise Trouble("edits stand behind the last publish of the schedule", "end it with a publish row")
    return form_of(form), recordings, list(stations.values()), events


def read_schedule(path):
    """The schedule of a file, checked."""
    try:
        with open(path, encoding="utf-8") as file:
            text = file.read()
    except (OSError, UnicodeDecodeError) as error:
        raise unreadable(path, error, "give a schedule in TOML or CSV") if isinstance(error, OSError) else Trouble(
            f"{path} isn't UTF-8", "save it as UTF-8"
        ) from error
    read = read_csv if path.endswith(".csv") else read_toml
    form, recordings, stations, events = read(text, os.path.dirname(os.path.abspath(path)))
    return checked(Schedule(form, by_number(recordings), stations, sorted(events, key=lambda event: event.at)))


def by_number(recordings):
    found = {}
    for recording in recordings:
        if recording.number in found:
            raise Trouble(f"the id {recording.number} stands twice", "give each recording an id of its own")
        found[recording.number] = recording
    return found


def checked(schedule):
    if not schedule.stations:
        raise Trouble("the schedule has no station", "add one with its segments")
    if len(schedule.stations) > 64:
        raise Trouble(f"the schedule has {len(schedule.stations)} stations", "split it: a run takes 64")
    for event in schedule.events:
        for number in event.withdraw + event.add:
            if number not in schedule.recordings:
                raise Trouble(f"an event names the id {number}, which no recording has", "add the recording")
    return schedule
