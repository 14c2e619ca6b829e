"""Takes out of a replay's input the words of one block and those of the recording that it was compared with."""

import struct

from .program import prints_of_sound
from .reading import Input, OperatorStream, StationStream
from .saying import Trouble


class TakenStation(StationStream):
    """Keeps the bytes of one segment."""

    wanted, kept = 0, None

    def payload(self, piece):
        place, before = len(self.segments) - 1, self.segments[-1].size
        super().payload(piece)
        if self.kind == 1 and place == self.wanted:
            if self.kept is None:
                self.kept = bytearray()
            self.kept += piece[: self.segments[-1].size - before]


class TakenOperator(OperatorStream):
    """Keeps the bytes of one recording as each version has them, up to the version that is wanted."""

    wanted, version_wanted, staged, found = None, 0, None, None
    value_whole = b""

    def begin(self):
        super().begin()
        self.value_whole = bytearray()
        if self.kind == 2:
            self.sound = bytearray()

    def payload(self, piece):
        super().payload(piece)
        if self.kind == 1:
            self.value_whole += piece
        elif self.kind == 3 and self.open is not None and self.open.number == self.wanted:
            self.sound += piece

    def complete(self, kind):
        song = self.open
        super().complete(kind)
        answer = self.answers[-1]
        number = int.from_bytes(self.value[:4], "big")
        if kind == 1 and number == self.wanted and answer == "ok":
            self.staged = (None, bytes(self.value_whole[4:]))
        elif kind == 4 and song is not None and song.number == self.wanted and answer == "ok":
            self.staged = (song.form, bytes(self.sound))
        elif kind == 5 and number == self.wanted and answer == "ok":
            self.staged = None
        elif kind == 6 and answer.startswith("published") and self.version <= self.version_wanted:
            self.found = self.staged


def words_of(form, content, program):
    """The words of a segment's or a recording's bytes: prints as they are, sound by hkreplay."""
    if form is not None:
        return [word for word, _ in prints_of_sound(program, content, form)]
    size = len(content) // 4
    return list(struct.unpack(f">{size}I", content[: 4 * size]))


def taken(file, block, item, settings, program):
    """The words of the block and of the recording that the report line names."""
    reader = Input(settings)
    reader.operator = TakenOperator(settings)
    reader.operator.wanted, reader.operator.version_wanted = item.number, block.version
    version = lambda: reader.operator.version  # noqa: E731
    reader.stations = [TakenStation(settings.hop, version=version) for _ in range(settings.stations)]
    if block.station >= settings.stations:
        raise Trouble(f"the line is of station {block.station}", f"give --stations {block.station + 1}")
    station = reader.stations[block.station]
    station.wanted = block.segment
    while piece := file.read(1 << 20):
        reader.push(piece)
    if station.kept is None or reader.operator.found is None:
        raise Trouble("the input has no such block or recording", "give the input that the line was printed for")
    heard = bytes(station.kept)
    if station.channels == 0:
        # a print is a word and its mask
        heard = b"".join(heard[first : first + 4] for first in range(0, len(heard) - 7, 8))
    return words_of(station.form, heard, program), words_of(*reader.operator.found, program)
