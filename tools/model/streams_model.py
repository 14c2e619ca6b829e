"""What the bytes of the streams mean: records, a station's packets, the operator's commands."""

import bisect
import struct

from sound_model import sound_last_byte, sound_prints

BLOCK = 256
WEAK = 10


class Stream:
    """The bytes of one stream, and where each of them stood in the input."""

    def __init__(self):
        self.data, self.firsts, self.places = bytearray(), [], []

    def add(self, data, place, end):
        if end > place:
            self.firsts.append(len(self.data))
            self.places.append(place)
            self.data += data[place:end]

    def place(self, at):
        i = bisect.bisect_right(self.firsts, at) - 1
        return self.places[i] + at - self.firsts[i]


def records(data, stations, limit):
    """The streams' bytes, and the line of trouble that the input ends with or None."""
    streams, operator = [Stream() for _ in range(stations)], Stream()
    taken = data[:limit]
    too_long = f"R too-long {limit}" if len(data) > limit else None
    at = 0
    while True:
        if at == len(taken):
            return streams, operator, too_long
        first, bad = at, f"R bad-record {at}"
        if taken[at : at + 1] not in (b"S", b"O"):
            return streams, operator, bad
        head = 3
        stream = operator
        if taken[at : at + 1] == b"S":
            head = 4
            if at + 1 < len(taken):
                if taken[at + 1] >= stations:
                    return streams, operator, bad
                stream = streams[taken[at + 1]]
        if at + head > len(taken):
            return streams, operator, too_long or bad
        size = int.from_bytes(taken[at + head - 2 : at + head], "big")
        at += head + size
        stream.add(taken, first + head, min(at, len(taken)))
        if at > len(taken):
            return streams, operator, too_long or bad


def station_events(b, flips, hop):
    """The events of a station's bytes as (place of the completing byte, what it is), and its end by the bytes alone.

    What it is: ("block", segment, first word, prints) or ("fence", version)."""
    b = bytes(b)
    for p in range(min(6, len(b))):
        if p < 4:
            fine = b[p] == b"HKS1"[p]
        elif p == 4:
            fine = b[p] in (0, 1, 2)
        else:
            fine = b[p] in ((1,) if b[4] == 0 else (1, 2, 4, 8))
        if not fine:
            return [], f"bad-hello {p}"
    if len(b) < 6:
        return [], f"cut {len(b)}"
    channels, factor = b[4], b[5]
    segments, fences = [[]], []  # a segment is a list of the places (from, to) of its bytes
    start, end = 6, None
    while start < len(b):
        if b[start] not in (1, 2, 3):
            end = f"bad-kind {start}"
            break
        if start + 2 >= len(b):
            break
        size = int.from_bytes(b[start + 1 : start + 3], "big")
        if (b[start] == 2 and size != 4) or (b[start] == 3 and size != 0):
            end = f"bad-length {start + 1}"
            break
        body, after = start + 3, start + 3 + size
        if b[start] == 1:
            segments[-1].append((body, min(after, len(b))))
        elif b[start] == 3:
            segments.append([])
        elif after <= len(b):
            fences.append((after - 1, ("fence", int.from_bytes(b[body:after], "big"))))
        start = after
    if end is None:
        end = "ended" if start == len(b) else f"cut {len(b)}"

    events = []
    for g, pieces in enumerate(segments):
        data, firsts = bytearray(), []
        for low, high in pieces:
            firsts.append(len(data))
            data += b[low:high]

        def place(at):
            i = bisect.bisect_right(firsts, at) - 1
            return pieces[i][0] + at - firsts[i]

        bad = None
        if channels == 0:
            numbers = struct.unpack(f">{len(data) // 8 * 2}I", data[: len(data) // 8 * 8])
            prints = list(zip(numbers[0::2], numbers[1::2]))
            for n, (_, mask) in enumerate(prints):
                if mask.bit_count() > WEAK:
                    prints, bad = prints[:n], place(8 * n + 7)
                    break
        else:
            prints = sound_prints(channels, factor, flips, bytes(data))
        for first in range(0, len(prints) - BLOCK + 1, hop):
            last = first + BLOCK - 1
            done = 8 * last + 7 if channels == 0 else sound_last_byte(channels, factor, last)
            events.append((place(done), ("block", g, first, prints[first : last + 1])))
        if bad is not None:
            events += [(p, fence) for p, fence in fences if p < bad]
            return sorted(events, key=lambda event: event[0]), f"bad-mask {bad}"
    events += fences
    return sorted(events, key=lambda event: event[0]), end


def operator_commands(b):
    """The whole commands as (place of the last byte, kind, payload), and the end by the bytes alone."""
    b = bytes(b)
    for p in range(min(4, len(b))):
        if b[p] != b"HKO1"[p]:
            return [], f"bad-hello {p}"
    if len(b) < 4:
        return [], "ended" if not b else f"cut {len(b)}"
    commands, start = [], 4
    while start < len(b):
        kind = b[start]
        if kind not in (1, 2, 3, 4, 5, 6):
            return commands, f"bad-kind {start}"
        if start + 4 >= len(b):
            break
        size = int.from_bytes(b[start + 1 : start + 5], "big")
        fine = {1: size >= 4 and size % 4 == 0, 2: size == 6, 3: True, 4: size == 0, 5: size == 4, 6: size == 0}[kind]
        if not fine:
            return commands, f"bad-length {start + 1}"
        after = start + 5 + size
        if kind == 2:
            for p, allowed in ((start + 9, (1, 2)), (start + 10, (1, 2, 4, 8))):
                if p < len(b) and b[p] not in allowed:
                    return commands, f"bad-format {p}"
        if after <= len(b):
            commands.append((after - 1, kind, b[start + 5 : after]))
        start = after
    return commands, "ended" if start == len(b) else f"cut {len(b)}"
