"""Reads streams and a replay's input piece by piece, and tells where they would be refused and how they end.

Sound and words aren't looked into but for silence: what a look finds is for hkreplay alone to say."""

from dataclasses import dataclass, field

from .sound import BLOCK, Form, Silence

WEAK = 10


@dataclass
class Settings:
    """The options that decide how streams are taken."""

    stations: int = 1
    hop: int = 64
    songs: int = 1000
    positions: int = 1048576
    versions: int = 1000000
    bytes: int = 1000000000000


class Framed:
    """A stream of a hello and then of heads with payloads; `end` is the text of its first fault."""

    HELLO = b""
    HEAD = 3

    def __init__(self):
        self.size, self.head, self.left, self.kind, self.end = 0, bytearray(), 0, None, None

    def push(self, piece):
        """Takes the piece, up to the stream's first fault."""
        at = 0
        while at < len(piece) and self.end is None:
            if self.kind is not None:
                taken = piece[at : at + self.left]
                at += len(taken)
                self.left -= len(taken)
                self.payload(taken)
                if self.end is None:
                    self.size += len(taken)
                    self.finish()
                continue
            self.head.append(piece[at])
            at += 1
            self.size += 1
            if self.greeted():
                self.head_byte()
            else:
                self.hello_byte()

    def finish(self):
        if self.left == 0:
            kind, self.kind = self.kind, None
            self.head.clear()
            self.complete(kind)

    def head_byte(self):
        if len(self.head) == 1 and self.head[0] not in self.KINDS:
            self.end = f"bad-kind {self.size - 1}"
        elif len(self.head) == self.HEAD:
            size = int.from_bytes(self.head[1:], "big")
            if not self.allows(self.head[0], size):
                self.end = f"bad-length {self.size - self.HEAD + 1}"
                return
            self.kind, self.left = self.head[0], size
            self.begin()
            self.finish()

    def between(self):
        return self.greeted() and self.kind is None and not self.head

    def text_of_end(self):
        """How the stream ends if nothing more comes."""
        if self.end is not None:
            return self.end
        return "ended" if self.may_end() else f"cut {self.size}"


@dataclass
class Segment:
    """The bytes of one segment, and where its sound is silent."""

    size: int = 0
    silent: list = field(default_factory=list)


class StationStream(Framed):
    """A station's stream, and the blocks and fences that it brings."""

    KINDS = (1, 2, 3)

    def __init__(self, hop, rate=44100, version=lambda: 0):
        super().__init__()
        self.hop, self.rate, self.version = hop, rate, version
        self.channels = self.factor = self.form = None
        self.segments, self.silence, self.rest = [Segment()], None, b""
        self.blocks, self.seen, self.fences, self.hello, self.last_blocks = 0, 0, [], False, 0

    def greeted(self):
        return self.hello

    def may_end(self):
        return self.between()

    def hello_byte(self):
        place, byte = self.size - 1, self.head[-1]
        if place < 4:
            fine = byte == b"HKS1"[place]
        elif place == 4:
            fine = byte in (0, 1, 2)
            self.channels = byte
        else:
            fine = byte in ((1,) if self.channels == 0 else (1, 2, 4, 8))
            self.factor = byte
        if not fine:
            self.end = f"bad-hello {place}"
        elif place == 5:
            self.head.clear()
            self.hello = True
            if self.channels:
                self.form = Form(self.channels, self.factor, self.rate)
                self.silence = Silence(self.form)

    def allows(self, kind, size):
        return {1: True, 2: size == 4, 3: size == 0}[kind]

    def begin(self):
        self.value = b""

    def payload(self, piece):
        if self.kind == 2:
            self.value += piece
        elif self.channels == 0:
            self.prints(piece)
        else:
            self.segments[-1].size += len(piece)
            self.silence.hear(piece)
            self.count()

    def prints(self, piece):
        """Prints of eight bytes over the borders of packets; a mask with too many bits is a fault at its last byte."""
        before = len(self.rest)
        joined = self.rest + piece
        whole = len(joined) - len(joined) % 8
        for first in range(4, whole, 8):
            if int.from_bytes(joined[first : first + 4], "big").bit_count() > WEAK:
                self.segments[-1].size += first + 4 - before - 8
                self.count()
                self.end = f"bad-mask {self.size + first + 3 - before}"
                return
        self.segments[-1].size += len(piece)
        self.rest = joined[whole:]
        self.count()

    def prints_of(self, segment):
        return segment.size // 8 if self.channels == 0 else self.form.prints(segment.size)

    def count(self):
        """The blocks of the last segment so far; a new one meets today's version."""
        prints = self.prints_of(self.segments[-1])
        blocks = (prints - BLOCK) // self.hop + 1 if prints >= BLOCK else 0
        if blocks > self.last_blocks:
            self.blocks += blocks - self.last_blocks
            self.last_blocks = blocks
            self.seen = self.version()

    def complete(self, kind):
        if kind == 2:
            asked, seen = int.from_bytes(self.value, "big"), self.version()
            self.fences.append(asked)
            self.seen = seen
            if seen < asked:
                self.end = f"fence-ahead {asked} {seen}"
        elif kind == 3:
            self.close_segment()
            self.segments.append(Segment())
            self.last_blocks, self.rest = 0, b""
            self.silence = Silence(self.form) if self.form else None

    def close_segment(self):
        if self.silence is not None:
            self.segments[-1].silent = self.silence.spans()

    def seconds(self, segment):
        """How long a segment is, or None where its stream is of prints."""
        return segment.size / self.form.second if self.form else None


class OperatorStream(Framed):
    """The operator's stream, what its commands are answered, and the recordings that they leave."""

    KINDS = (1, 2, 3, 4, 5, 6)
    HEAD = 5

    def __init__(self, settings, rate=44100):
        super().__init__()
        self.settings, self.rate, self.hello = settings, rate, False
        self.present, self.open, self.version = {}, None, 0
        self.answers, self.silent, self.most, self.waiting = [], {}, 0, 0

    def greeted(self):
        return self.hello

    def may_end(self):
        return self.size == 0 or self.between()

    def hello_byte(self):
        place = self.size - 1
        if self.head[-1] != b"HKO1"[place]:
            self.end = f"bad-hello {place}"
        elif place == 3:
            self.head.clear()
            self.hello = True

    def allows(self, kind, size):
        return {1: size >= 4 and size % 4 == 0, 2: size == 6, 3: True, 4: size == 0, 5: size == 4, 6: size == 0}[kind]

    def begin(self):
        self.value, self.given = b"", self.left

    def payload(self, piece):
        if self.kind == 3:
            if self.open is not None:
                self.open.hear(piece)
            return
        before = len(self.value)
        self.value += piece[: 6 - before]
        if self.kind == 2:
            for place, allowed in ((4, (1, 2)), (5, (1, 2, 4, 8))):
                if before <= place < len(self.value) and self.value[place] not in allowed:
                    self.end = f"bad-format {self.size + place - before}"
                    return

    def complete(self, kind):
        self.answers.append(self.answer(kind))
        if self.answers[-1].startswith("published"):
            self.waiting = 0
        elif self.answers[-1] == "ok" and kind in (1, 4, 5):
            self.waiting += 1
        self.most = max(self.most, sum(self.present.values()))

    def answer(self, kind):
        """`ok`, `published V` or `refused REASON`: the first reason that holds, want of memory aside."""
        number = int.from_bytes(self.value[:4], "big")
        if kind == 1:
            return self.add(number, (self.given - 4) // 4)
        if kind == 2:
            if self.open is not None:
                return "refused song-open"
            self.open = OpenSong(number, Form(self.value[4], self.value[5], self.rate))
            return "ok"
        if kind in (3, 4) and self.open is None:
            return "refused no-song-open"
        if kind == 4:
            song, self.open = self.open, None
            answer = self.add(song.number, song.form.prints(song.size))
            if answer == "ok":
                self.silent[song.number] = song.silence.spans()
            return answer
        if kind == 5:
            return "ok" if self.present.pop(number, None) is not None else "refused unknown"
        if kind == 6:
            if self.version == self.settings.versions:
                return "refused versions-full"
            self.version += 1
            return f"published {self.version}"
        return "ok"

    def add(self, number, words):
        if number in self.present:
            return "refused duplicate"
        if words < BLOCK:
            return "refused short"
        if len(self.present) >= self.settings.songs:
            return "refused songs-full"
        if words > self.settings.positions - sum(self.present.values()):
            return "refused positions-full"
        self.present[number] = words
        return "ok"


class OpenSong:
    """The song that is open: how much sound it has, and where it is silent."""

    def __init__(self, number, form):
        self.number, self.form, self.size, self.silence = number, form, 0, Silence(form)

    def hear(self, piece):
        self.size += len(piece)
        self.silence.hear(piece)


class Input:
    """A replay's input: its records to their streams, up to its first fault."""

    def __init__(self, settings, rate=44100):
        self.settings = settings
        self.operator = OperatorStream(settings, rate)
        version = lambda: self.operator.version  # noqa: E731
        self.stations = [StationStream(settings.hop, rate, version) for _ in range(settings.stations)]
        self.size, self.first, self.head, self.left, self.to, self.trouble = 0, 0, bytearray(), 0, None, None
        self.wanted = 0

    def push(self, piece):
        if self.trouble is not None:
            return
        room = self.settings.bytes - self.size
        self.take(piece[:room])
        if len(piece) > room and self.trouble is None:
            self.trouble = f"too-long {self.settings.bytes}"

    def take(self, piece):
        at = 0
        while at < len(piece) and self.trouble is None:
            if self.left:
                taken = piece[at : at + self.left]
                self.to.push(taken)
                self.left -= len(taken)
            else:
                taken = piece[at : at + 1]
                self.head_byte(taken[0])
            at += len(taken)
            self.size += len(taken)

    def head_byte(self, byte):
        """One byte of a record's head: a letter, a station's number, a length."""
        if not self.head:
            self.first = self.size
        self.head.append(byte)
        letter = self.head[0]
        if letter not in b"SO":
            self.trouble = f"bad-record {self.first}"
        elif letter == ord("S") and len(self.head) == 2:
            self.wanted = max(self.wanted, byte + 1)
            if byte >= len(self.stations):
                self.trouble = f"bad-record {self.first}"
        elif len(self.head) == (4 if letter == ord("S") else 3):
            self.left = int.from_bytes(self.head[-2:], "big")
            self.to = self.stations[self.head[1]] if letter == ord("S") else self.operator
            self.head.clear()

    def finish(self):
        """The input has ended."""
        if self.trouble is None and (self.head or self.left):
            self.trouble = f"bad-record {self.first}"
        for station in self.stations:
            station.close_segment()

    def summary(self):
        """The lines of a replay's summary, or its line of trouble, want of memory aside."""
        if self.trouble is not None:
            return [f"R {self.trouble}"]
        lines = [
            f"T S {number} {station.blocks} {station.seen} {station.text_of_end()}"
            for number, station in enumerate(self.stations)
        ]
        operator = self.operator
        return lines + [f"T O {len(operator.answers)} {operator.version} {operator.text_of_end()}"]
