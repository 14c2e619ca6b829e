"""The bytes of the streams and of a replay's input, by the names of docs/FORMATS.md: writing them.

The operator's stream is OPERATOR_HELLO and commands, a station's stream is a station_hello and packets. `operator` and
`station` cut such bytes into records."""

import struct

# ---- the operator's stream ----

OPERATOR_HELLO = b"HKO1"


def command(kind, payload=b""):
    return struct.pack(">BI", kind, len(payload)) + payload


def add(number, words):
    words = list(words)
    return command(1, struct.pack(f">I{len(words)}I", number, *words))


def open_song(number, channels, factor):
    return command(2, struct.pack(">IBB", number, channels, factor))


def audio(sound):
    return command(3, sound)


CLOSE = command(4)


def withdraw(number):
    return command(5, struct.pack(">I", number))


PUBLISH = command(6)


def song(number, channels, factor, sound):
    """The commands that add a recording as sound."""
    return open_song(number, channels, factor) + audio(sound) + CLOSE


# ---- a station's stream ----

# a data packet of sound: whole groups of samples for each number of channels, and with its head less than a record
PIECE = 60000

PRINTS = 0  # the channels of a station that sends prints; its factor is 1


def station_hello(channels, factor=1):
    return b"HKS1" + bytes([channels, factor])


def packet(kind, payload=b""):
    return struct.pack(">BH", kind, len(payload)) + payload


def data(payload, most=4000):
    """Data packets of at most so many bytes."""
    return b"".join(packet(1, piece) for piece in pieces(payload, most))


def prints(words, mask=0):
    """The payload of prints that all have one mask."""
    return b"".join(struct.pack(">II", word, mask) for word in words)


def fence(version):
    return packet(2, struct.pack(">I", version))


GAP = packet(3)

# ---- the records of an input ----

MOST = 65535  # bytes of a record or a packet


def pieces(payload, size):
    return [payload[i : i + size] for i in range(0, len(payload), size)]


def operator_record(payload):
    return b"O" + struct.pack(">H", len(payload)) + payload


def station_record(number, payload):
    return b"S" + struct.pack(">BH", number, len(payload)) + payload


def operator(*commands, most=4096):
    """Records of at most so many bytes."""
    return b"".join(operator_record(piece) for piece in pieces(b"".join(commands), most))


def station(number, *packets, most=4096):
    """Records of at most so many bytes."""
    return b"".join(station_record(number, piece) for piece in pieces(b"".join(packets), most))
