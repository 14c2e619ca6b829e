"""hk send: live or recorded sound to hkmon, as one station or several."""

import subprocess
import sys
import threading
import time
from collections import deque

from .kept import Keeper
from .network import address_of, connected
from .saying import Trouble
from .schedule import FACTORS
from .sound import Form, Sound, decoder_words, is_url, need_source
from .streams import GAP, PIECE as PACKET, data, fence, station_hello

WHAT = "send live or recorded sound to hkmon as a station"
HELP = """Sends sound to hkmon: a URL or a file by ffmpeg, .raw, .pcm and fitting .wav files as they are, or with - raw
sound from standard input. Each source is a station, and connects in the order given, since hkmon numbers stations by
the order of their connections. hkmon reads once all its stations and the operator have connected; until then what is
sent waits. What is sent before the operator's first publish is compared with nothing: --wait gives the operator time.

A source that can't be opened at all, for want of its file or of ffmpeg, is refused before a station's place is taken.
A live source (a URL, or with --live) that fails is opened again after growing pauses while the connection to hkmon
stays, and a gap is sent for what was missed: a station's run doesn't end with its stream. With --keep all that was
sent is kept for hkreplay: hk pack --kept makes an input of it."""

# seconds of sound in a piece; a live source waits for a whole piece
PIECE = 0.2
LONGEST_PAUSE = 60.0
# a source that ran so long has failed anew, and not again
HEALTHY = 30.0


def arguments(parser):
    parser.add_argument("source", nargs="+", help="a URL, a file, or - for raw sound from standard input")
    parser.add_argument(
        "--to", default="127.0.0.1:7701", metavar="HOST:PORT", help="hkmon's station port (127.0.0.1:7701)"
    )
    parser.add_argument("--channels", type=int, choices=(1, 2), default=2, help="channels of the sound (2)")
    parser.add_argument("--factor", type=int, choices=FACTORS, default=8, help="the factor (8)")
    parser.add_argument("--rate", type=int, help="samples a second (5512.5 times the factor)")
    parser.add_argument("--name", action="append", metavar="NAME", help="the station's name; once for each source")
    parser.add_argument("--first", type=int, default=0, metavar="N", help="the number of the first station (0)")
    parser.add_argument("--fence", type=int, metavar="V", help="ask first that the catalogue has come to version V")
    parser.add_argument(
        "--wait", type=float, default=0.0, metavar="S", help="seconds from connecting to the first sound (0)"
    )
    parser.add_argument("--real-time", action="store_true", help="send a file no faster than it plays")
    parser.add_argument(
        "--live", action="store_true", help="open each source again when it ends, as is done for URLs"
    )
    parser.add_argument("--seconds", type=float, metavar="S", help="end after so many seconds of the clock")
    parser.add_argument("--keep", metavar="FOLDER", help="keep what was sent, for hk pack --kept")


class Source:
    """One opening of a source: pieces of its sound, until it ends or fails."""

    def __init__(self, name, form):
        self.process, self.sound, self.said = None, None, deque(maxlen=1)
        size = round(PIECE * form.rate) * form.group
        if name == "-":
            self.read = lambda: sys.stdin.buffer.read(size)
        elif is_url(name):
            self.process = subprocess.Popen(
                decoder_words(name, form), stdout=subprocess.PIPE, stderr=subprocess.PIPE
            )
            # ffmpeg may complain for days: the last line is kept
            self.listening = threading.Thread(target=self.said.extend, args=(self.process.stderr,), daemon=True)
            self.listening.start()
            self.read = lambda: self.process.stdout.read(size)
        else:
            self.sound = Sound(name, form)
            self.read = lambda: self.sound.read(size)

    def reason(self):
        """What ffmpeg said last, in brackets."""
        if self.process is not None:
            self.listening.join(1)
        return f" ({self.said[0].decode(errors='replace').strip()})" if self.said else ""

    def close(self):
        if self.process is not None:
            self.process.kill()
            self.process.stdout.close()
            self.process.wait()
            self.listening.join(1)
            self.process.stderr.close()
        if self.sound is not None:
            self.sound.close()


class Station(threading.Thread):
    """One station: its connection, its source, and what it has sent."""

    def __init__(self, number, name, given, form, speaker, over):
        super().__init__(daemon=True)
        self.number, self.name_of_source, self.given, self.form = number, name, given, form
        self.speaker, self.over = speaker, over
        self.live = is_url(name) or given.live
        self.sent, self.heard, self.trouble = 0, False, None
        self.socket = connected(address_of(given.to, 7701), "station")
        self.socket.settimeout(None)
        told = {
            "station": number,
            "name": given.name[number - given.first] if given.name else None,
            "source": name,
            "channels": form.channels,
            "factor": form.factor,
            "rate": form.rate,
        }
        self.keeper = Keeper(given.keep, f"station-{number}.kept", told)
        self.put(station_hello(form.channels, form.factor))
        if given.fence is not None:
            self.put(fence(given.fence))

    def put(self, stream):
        try:
            self.socket.sendall(stream)
        except OSError as error:
            what = f"hkmon closed the connection of station {self.number}"
            raise Trouble(what, "its T line in hkmon's summary says why: see hk explain") from error
        self.keeper.keep(stream)

    def run(self):
        try:
            self.over.wait(self.given.wait)
            self.send_all()
            # the stream ends between two packets, and so in order
            self.socket.close()
        except Trouble as trouble:
            self.trouble = trouble
        finally:
            self.keeper.close()

    def send_all(self):
        pause = 1.0
        while not self.over.is_set():
            began, reason = time.monotonic(), ""
            try:
                reason = self.send_source()
            except Trouble as trouble:
                if not self.live or "hkmon" in str(trouble):
                    raise
                self.speaker.note(f"station {self.number}: {trouble}")
            if not self.live:
                return
            if self.heard:
                self.put(GAP)
                self.heard = False
            if time.monotonic() - began > HEALTHY:
                pause = 1.0
            if not self.over.is_set():
                ended = f"station {self.number}: {self.name_of_source} has ended{reason}"
                self.speaker.note(f"{ended}; it is opened again in {pause:.0f} s")
            self.over.wait(pause)
            pause = min(2 * pause, LONGEST_PAUSE)

    def send_source(self):
        """Sends one opening of the source; why it ended, where that was said."""
        source, began, played = Source(self.name_of_source, self.form), time.monotonic(), 0.0
        try:
            while not self.over.is_set():
                piece = source.read()
                if not piece:
                    return source.reason()
                self.put(data(piece, PACKET))
                self.sent += len(piece)
                self.heard = True
                played += len(piece) / self.form.second
                if self.given.real_time:
                    self.over.wait(max(0.0, began + played - time.monotonic()))
            return ""
        finally:
            source.close()


def run(given, speaker):
    rate = given.rate or round(5512.5 * given.factor)
    form, over = Form(given.channels, given.factor, rate), threading.Event()
    check(given, form)
    stations = []
    for number, name in enumerate(given.source, given.first):
        stations.append(Station(number, name, given, form, speaker, over))
    for station in stations:
        station.start()
    try:
        watch(stations, given.seconds, speaker)
    except KeyboardInterrupt:
        speaker.note("ending in order")
    over.set()
    for station in stations:
        station.join(10)
    speaker.clear()
    return said(stations, form, speaker)


def check(given, form):
    """What can be known before a station's place is taken."""
    if given.source.count("-") > 1:
        raise Trouble("standard input stands twice", "give - once")
    if given.live and "-" in given.source:
        raise Trouble("standard input can't be opened again", "leave --live out")
    if given.name and len(given.name) != len(given.source):
        raise Trouble(f"{len(given.name)} names for {len(given.source)} sources", "give --name once for each source")
    for source in given.source:
        if source != "-":
            need_source(source, form)


def watch(stations, seconds, speaker):
    """Waits for the stations' ends, or for the time that was given."""
    end = None if seconds is None else time.monotonic() + seconds
    while any(station.is_alive() for station in stations):
        if end is not None and time.monotonic() >= end:
            return
        speaker.progress(f"{sum(station.sent for station in stations) / 1e6:.1f} MB sent")
        time.sleep(0.05)


def said(stations, form, speaker):
    for station in stations:
        speaker.note(f"station {station.number}: {station.sent / form.second:.1f} seconds sent")
    troubles = [station.trouble for station in stations if station.trouble is not None]
    for trouble in troubles:
        speaker.trouble(trouble)
    return 1 if troubles else 0
