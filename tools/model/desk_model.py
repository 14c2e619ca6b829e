"""The operator's state and its answers, and the matches of a block."""

import struct

from sound_model import sound_prints
from streams_model import BLOCK

LIMIT = 2867


def song_words(payload):
    return struct.unpack(f">{len(payload) // 4}I", payload)


class OpenSong:
    """The song that is open: its id, its form, and its sound so far."""

    def __init__(self, payload):
        self.number, self.channels, self.factor = int.from_bytes(payload[:4], "big"), payload[4], payload[5]
        self.audio = bytearray()

    def words(self):
        # the masks aren't used, so no bit need be weak
        return tuple(word for word, _ in sound_prints(self.channels, self.factor, 0, bytes(self.audio)))


class Desk:
    """The operator's state: the published songs, the songs with the staged edits done, the open song."""

    def __init__(self, chosen):
        self.songs, self.positions, self.versions = chosen["--songs"], chosen["--positions"], chosen["--versions"]
        self.published, self.present, self.version, self.open = {}, {}, 0, None

    def song_for(self, kind, payload):
        """The id and the words that an add or a close would add, or None."""
        if kind == 1:
            number, *words = song_words(payload)
            return number, tuple(words)
        if kind == 4 and self.open is not None:
            return self.open.number, self.open.words()
        return None

    def refusal_of_add(self, number, words):
        if number in self.present:
            return "duplicate"
        if len(words) < BLOCK:
            return "short"
        if len(self.present) >= self.songs:
            return "songs-full"
        if len(words) > self.positions - sum(len(song) for song in self.present.values()):
            return "positions-full"
        return None

    def refusal(self, kind, payload, song):
        """The first reason to refuse a command, memory aside, or None."""
        if kind in (3, 4) and self.open is None:
            return "no-song-open"
        if kind in (1, 4):
            return self.refusal_of_add(*song)
        if kind == 2 and self.open is not None:
            return "song-open"
        if kind == 5 and int.from_bytes(payload, "big") not in self.present:
            return "unknown"
        if kind == 6 and self.version == self.versions:
            return "versions-full"
        return None

    def answer(self, kind, payload, no_memory=False):
        """The answer to a command; with `no_memory` it is refused for want of memory, if not for another reason."""
        song = self.song_for(kind, payload)
        reason = self.refusal(kind, payload, song) or ("no-memory" if no_memory else None)
        if kind == 4 or (kind == 3 and reason == "no-memory"):
            self.open = None
        if reason is not None:
            return f"refused {reason}"
        if kind in (1, 4):
            self.present = {**self.present, song[0]: song[1]}
        elif kind == 2:
            self.open = OpenSong(payload)
        elif kind == 3:
            self.open.audio.extend(payload)
        elif kind == 5:
            gone = int.from_bytes(payload, "big")
            self.present = {number: words for number, words in self.present.items() if number != gone}
        else:
            self.version += 1
            self.published = self.present
            return f"published {self.version}"
        return "ok"


WINDOWS = {}


def windows(words):
    """The bits of each 256 successive words of a song as one number, the first word lowest."""
    if words not in WINDOWS:
        if len(WINDOWS) > 200:
            WINDOWS.clear()
        raw = struct.pack(f"<{len(words)}I", *words)
        WINDOWS[words] = [
            int.from_bytes(raw[4 * q : 4 * q + 4 * BLOCK], "little") for q in range(len(words) - BLOCK + 1)
        ]
    return WINDOWS[words]


def bits_of(prints):
    """The words of a block as one number, and its strong bits as another."""
    words = int.from_bytes(struct.pack("<256I", *(word for word, _ in prints)), "little")
    strong = int.from_bytes(struct.pack("<256I", *(0xFFFFFFFF ^ mask for _, mask in prints)), "little")
    return words, strong


def matches_in(bits, number, song):
    """Each start of a song, by id and place, that has a hit at some print and few enough wrong bits."""
    words, strong = bits
    out = []
    for q, window in enumerate(windows(song)):
        unlike = window ^ words
        errors = unlike.bit_count()
        if errors <= LIMIT and 0 in struct.unpack("<256I", (unlike & strong).to_bytes(4 * BLOCK, "little")):
            out.append((number, q, errors))
    return out


def matches(prints, songs):
    """The matches of a block in all these songs."""
    bits = bits_of(prints)
    return [found for number in sorted(songs) for found in matches_in(bits, number, songs[number])]
