"""Compares what hkmon wrote with the model: each log at the versions that it prints, the replies, and the summary.

A run is many threads, so which version a look finds isn't fixed by the bytes. A log says it, and all the rest is: which
blocks there are, what each lists in its version, where a stream ends and why. Versions of a station never fall, none is
over those that were published, and a fence of version v is met only where the look found v or more."""

import hashlib
import re
import sys
from pathlib import Path

TOOLS = Path(__file__).resolve().parents[1]
sys.path[:0] = [str(TOOLS / "model"), str(TOOLS), str(TOOLS.parent / "examples")]

import replay_model  # noqa: E402, F401
import sound_model  # noqa: E402
import streams_model  # noqa: E402
from desk_model import Desk, bits_of, matches_in  # noqa: E402
from replay_model import OPTIONS  # noqa: E402
from streams_model import operator_commands, station_events  # noqa: E402

LINE = re.compile(r"S (\d+) B (\d+) G (\d+) W (\d+) V (\d+): (.*)")
PRINTS = {}


def sound_prints(channels, factor, flips, data):
    """The model's prints of a segment, computed once for all stations that send it."""
    key = channels, factor, flips, hashlib.blake2b(data).digest()
    if key not in PRINTS:
        PRINTS[key] = sound_model.sound_prints(channels, factor, flips, data)
    return PRINTS[key]


streams_model.sound_prints = sound_prints


def settings(given):
    """The value of each option that the model knows: as given by name, or the default."""
    return {name: given.get(name, default) for name, (_, _, default) in OPTIONS.items()}


class Catalogue:
    """What an operator's bytes lead to: the replies, the songs of each version, and the end. The commands of the
    numbers `no_memory` are refused for want of memory."""

    def __init__(self, chosen, stream, no_memory=()):
        self.desk, self.versions, self.replies = Desk(chosen), [{}], []
        commands, self.end = operator_commands(stream)
        for number, (_, kind, payload) in enumerate(commands, 1):
            answer = self.desk.answer(kind, payload, number in no_memory)
            self.replies.append(f"O {number} {answer}")
            if answer.startswith("published"):
                self.versions.append(self.desk.published)
        self.found = {}

    def last(self):
        return len(self.versions) - 1

    def listed(self, prints, version):
        """The list of a block's line in a version. What a block has in a recording is computed once."""
        block, songs, bits, items = hash(tuple(prints)), self.versions[version], None, []
        for number in sorted(songs):
            key = block, number, songs[number]
            if key not in self.found:
                bits = bits or bits_of(prints)
                found = matches_in(bits, *key[1:])
                self.found[key] = [f"{number}@{q}~{errors}" for _, q, errors in found]
            items += self.found[key]
        return " ".join(items) or "none"


class Station:
    """One station's bytes, and what was written of it."""

    def __init__(self, number, stream, log, summary, reset=False, full=False):
        self.number, self.stream, self.log, self.summary = number, stream, log, summary
        # a connection that was reset ends where it ends, and so does a log on a full disk
        self.reset, self.full = reset, full


class Walk:
    """Goes through the events of a station's bytes beside its log; `wrong` is what differs."""

    def __init__(self, station, catalogue, chosen):
        self.station, self.catalogue = station, catalogue
        self.lines = station.log.split("\n")
        self.torn = self.lines.pop()
        self.at, self.seen, self.stopped, self.wrong = 0, 0, None, []
        self.fence_since = False
        self.end = station.summary[5:] if station.summary else []
        events, self.end_of_bytes = station_events(station.stream, chosen["--flips"], chosen["--hop"])
        for _, what in events:
            if not (self.fence(what) if what[0] == "fence" else self.block(what)):
                break
        self.conclude()

    def block(self, what):
        _, segment, first, prints = what
        if self.at == len(self.lines):
            self.stopped = "a block"
            return False
        found = LINE.fullmatch(self.lines[self.at])
        head = f"S {self.station.number} B {self.at} G {segment} W {first}"
        if found is None or not self.lines[self.at].startswith(head + " V "):
            self.wrong.append(f"line {self.at} is {self.lines[self.at][:80]!r}, and wants {head}")
            return False
        version = int(found[5])
        if not self.seen <= version <= self.catalogue.last():
            self.wrong.append(f"line {self.at} has version {version}, not {self.seen} to {self.catalogue.last()}")
            return False
        want = self.catalogue.listed(prints, version)
        if found[6] != want:
            self.wrong.append(f"line {self.at} lists {found[6][:80]!r}, and version {version} has {want[:80]!r}")
        self.seen, self.fence_since, self.at = version, False, self.at + 1
        return True

    def fence(self, what):
        asked = what[1]
        if self.at == len(self.lines) and self.end[:2] == ["fence-ahead", str(asked)]:
            version = int(self.end[2])
            if not self.seen <= version < asked or version > self.catalogue.last():
                self.wrong.append(f"it was ahead of version {version} by a fence of {asked}")
            self.seen, self.stopped, self.fence_since = version, "the fence", False
            return False
        self.seen, self.fence_since = max(self.seen, asked), True
        if asked > self.catalogue.last():
            self.wrong.append(f"a fence of {asked} was met, and {self.catalogue.last()} versions were published")
            return False
        return True

    def conclude(self):
        if self.wrong:
            return
        end = " ".join(self.end)
        if self.at < len(self.lines):
            self.wrong.append(f"the log has {len(self.lines) - self.at} lines too many")
        if self.stopped == "a block":
            allowed = ["sink-fault"] * self.station.full + ["read-fault"] * self.station.reset
            if end not in allowed:
                self.wrong.append(f"the log ends after {self.at} lines, with the end {end!r}")
        elif self.stopped is None:
            allowed = [self.end_of_bytes] + ["read-fault"] * self.station.reset
            if end not in allowed:
                self.wrong.append(f"it ended with {end!r}, and wants {self.end_of_bytes!r}")
        if self.torn and not self.station.full:
            self.wrong.append(f"its log ends in the middle of a line: {self.torn[:80]!r}")
        self.told()

    def told(self):
        """The numbers of the summary's line."""
        words = self.station.summary
        if words[:4] != ["T", "S", str(self.station.number), str(self.at)]:
            self.wrong.append(f"the summary says {' '.join(words)!r}, and the log has {self.at} lines")
            return
        version = int(words[4])
        most = self.catalogue.last() if self.fence_since or self.stopped == "a block" else self.seen
        if not self.seen <= version <= most:
            self.wrong.append(f"the summary has version {version}, not {self.seen} to {most}")


def wrong_station(station, catalogue, chosen):
    """What differs of a station, a line each."""
    if not station.summary:
        return [f"station {station.number}: it has no line in the summary"]
    return [f"station {station.number}: {what}" for what in Walk(station, catalogue, chosen).wrong]


def wrong_operator(catalogue, replies, summary):
    """What differs of the operator: `replies` is the text that came back, `summary` the words of its line."""
    got = replies.split("\n")
    if got.pop() != "":
        return ["operator: the last reply is torn"]
    for number, (one, other) in enumerate(zip(got, catalogue.replies), 1):
        if one != other:
            return [f"operator: reply {number} is {one!r}, and wants {other!r}"]
    if len(got) != len(catalogue.replies):
        return [f"operator: {len(got)} replies came, and {len(catalogue.replies)} were wanted"]
    want = ["T", "O", str(len(got)), str(catalogue.last()), *catalogue.end.split()]
    return [] if summary == want else [f"operator: the summary says {' '.join(summary)!r}, and wants {' '.join(want)!r}"]


def wrong_end(lines, status, stations):
    """What differs of the summary's lines and the status: a line for each station in order, and one for the operator."""
    heads = [line.split()[:3] for line in lines]
    want = [["T", "S", str(n)] for n in range(stations)]
    if heads[:-1] != want or heads[-1:] == [] or heads[-1][:2] != ["T", "O"]:
        return [f"summary: its lines begin with {heads[:3]}, and wants a line for each of {stations} and the operator"]
    ended = all(line.endswith(" ended") for line in lines)
    return [] if status == (0 if ended else 3) else [f"summary: the status is {status}"]
