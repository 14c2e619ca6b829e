"""What was sent on a day, kept in a folder so that hkreplay can replay it: each stream in pieces with their times.

A file begins with a line of JSON that says what stream it is. Then pieces follow: the time as a double of eight bytes,
the length as four bytes, both with the high byte first, and so many bytes of the stream."""

import json
import os
import struct
import threading
import time

from .clock import of_unix, text_of
from .saying import Trouble, unreadable
from .sound import Form, Silence
from .streams import GAP

HEAD = struct.Struct(">dI")
RECORDINGS = "recordings.jsonl"
OPERATOR = "operator.kept"


class Keeper:
    """Keeps one stream; without a folder it keeps nothing."""

    def __init__(self, folder, name, told):
        self.file, self.lock = None, threading.Lock()
        if folder is None:
            return
        path = os.path.join(folder, name)
        try:
            os.makedirs(folder, exist_ok=True)
            self.file = open(path, "xb")
        except FileExistsError:
            raise Trouble(f"{path} is there already", "give --keep a new folder for each day") from None
        except OSError as error:
            raise unreadable(path, error, "give --keep a folder that can be written") from error
        self.file.write(json.dumps(told, ensure_ascii=False).encode() + b"\n")

    def keep(self, stream):
        if self.file is not None:
            with self.lock:
                self.file.write(HEAD.pack(time.time(), len(stream)) + stream)
                self.file.flush()

    def close(self):
        if self.file is not None:
            self.file.close()


def keep_recording(folder, told):
    """Notes the title of a recording that was added."""
    if folder is not None:
        with open(os.path.join(folder, RECORDINGS), "a", encoding="utf-8") as file:
            file.write(json.dumps(told, ensure_ascii=False) + "\n")


class KeptStream:
    """One stream that was kept: of station `number`, or of the operator where that is None."""

    def __init__(self, path):
        self.path = path
        with open(path, "rb") as file:
            try:
                self.told = json.loads(file.readline())
            except ValueError:
                raise Trouble(f"{path} wasn't kept by hk", "give the folder of --keep") from None
            self.begin = file.tell()
        self.number = self.told.get("station")
        form = [self.told.get(name) for name in ("channels", "factor", "rate")]
        self.form = Form(*form) if None not in form else None
        self.segments = []

    def pieces(self):
        """Triples of time, number and bytes; a last piece that was cut off isn't given."""
        with open(self.path, "rb") as file:
            file.seek(self.begin)
            first = True
            while len(head := file.read(HEAD.size)) == HEAD.size:
                clock, size = HEAD.unpack(head)
                stream = file.read(size)
                if len(stream) < size:
                    return
                if self.number is not None and not first:
                    self.note(clock, stream)
                first = False
                yield clock, self.number, stream

    def note(self, clock, stream):
        """A segment begins with its first piece of data; packets are whole in a piece, with heads of three bytes."""
        if stream == GAP:
            self.begin_segment()
        elif stream[:1] == b"\x01":
            if not self.segments:
                self.begin_segment()
            segment = self.segments[-1]
            segment["began"] = segment["began"] or text_of(of_unix(clock))
            at = 0
            while at < len(stream):
                size = int.from_bytes(stream[at + 1 : at + 3], "big")
                if stream[at] == 1:
                    segment["bytes"] += size
                    segment["silence"].hear(stream[at + 3 : at + 3 + size])
                at += 3 + size

    def begin_segment(self):
        self.segments.append({"began": None, "bytes": 0, "silence": Silence(self.form or Form())})

    def beside(self):
        if not self.segments:
            self.begin_segment()
        segments = []
        for segment in self.segments:
            seconds = round(segment["bytes"] / self.form.second, 3) if self.form else None
            told = {"began": segment["began"], "file": self.told.get("source"), "offset": 0, "seconds": seconds}
            segments.append({**told, "silent": segment["silence"].spans()})
        return {
            "number": self.number,
            "name": self.told.get("name") or f"station {self.number}",
            "segments": segments,
        }


class KeptDay:
    """All streams of a folder."""

    def __init__(self, streams, recordings):
        self.streams, self.recordings = streams, recordings

    def beside(self):
        """What stands beside the input, once all pieces were gone through."""
        stations = sorted((one for one in self.streams if one.number is not None), key=lambda one: one.number)
        form = next((one.form for one in stations if one.form), Form())
        return {
            "sound": {"channels": form.channels, "factor": form.factor, "rate": form.rate},
            "recordings": self.recordings,
            "stations": [one.beside() for one in stations],
        }


def read_kept(folder):
    try:
        names = sorted(name for name in os.listdir(folder) if name.endswith(".kept"))
        streams = [KeptStream(os.path.join(folder, name)) for name in names]
        told = os.path.join(folder, RECORDINGS)
        recordings = []
        if os.path.exists(told):
            with open(told, encoding="utf-8") as file:
                recordings = list({one["id"]: one for one in map(json.loads, file)}.values())
    except OSError as error:
        raise unreadable(error.filename or folder, error, "give the folder of --keep") from error
    if not streams:
        raise Trouble(f"{folder} has nothing that hk kept", "give the folder of --keep")
    return KeptDay(streams, recordings)
