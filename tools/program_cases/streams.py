"""The bytes of inputs, by the names that docs/FORMATS.md gives their parts: those of examples/, and what cases need more."""

import struct
import sys
from pathlib import Path

sys.path.append(str(Path(__file__).resolve().parents[2] / "examples"))
import built  # noqa: E402, F401
from input_parts import CLOSE, GAP, PUBLISH  # noqa: E402, F401
from input_parts import add, audio, command, fence, open_song, packet, withdraw  # noqa: E402, F401
from input_parts import OPERATOR_HELLO as OPERATOR  # noqa: E402, F401
from input_parts import operator_record, station_record  # noqa: E402
from input_parts import station_hello as station  # noqa: E402, F401

PRINTS = station(0, 1)


def data(payload):
    """One data packet."""
    return packet(1, payload)


def prints(words, masks=None):
    """A data packet; `masks` gives the masks that aren't 0, by the place of their print."""
    masks = masks or {}
    return data(b"".join(struct.pack(">II", word, masks.get(j, 0)) for j, word in enumerate(words)))


def o(*pieces):
    """A record for the operator."""
    return operator_record(b"".join(pieces))


def s(number, *pieces):
    """A record for a station."""
    return station_record(number, b"".join(pieces))


def byte_by_byte(letter, stream):
    """A stream in records of one byte each, which begin with `letter`: O, or S with a number."""
    return b"".join(letter + b"\0\1" + bytes([byte]) for byte in stream)


# ---- the first example, of which many cases are small changes ----

FIRST_COMMANDS = add(7, range(256)) + PUBLISH
FIRST_OPERATOR = o(OPERATOR, FIRST_COMMANDS)
FIRST_STREAM = PRINTS + prints(range(256))
FIRST = FIRST_OPERATOR + s(0, FIRST_STREAM)
FIRST_REPLIES = "O 1 ok\nO 2 published 1\n"
FIRST_LINE = "S 0 B 0 G 0 W 0 V 1: 7@0~0\n"
FIRST_REPORT = FIRST_REPLIES + FIRST_LINE + "T S 0 1 1 ended\nT O 2 1 ended\n"
