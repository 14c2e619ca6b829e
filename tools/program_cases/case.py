"""One run of a program: what it is given, and what it has to do."""

from dataclasses import dataclass
from enum import Enum

BAD_USAGE = "hkreplay: bad usage\n"
NO_MEMORY = "hkreplay: no memory\n"


class Input(Enum):
    """Standard inputs that hold no bytes to read."""

    CLOSED = "none is open"
    FOLDER = "a folder"
    WRITE_ONLY = "a file that is open for writing alone"


@dataclass
class Pipe:
    """A standard input that brings its bytes so many at a time."""

    data: bytes
    piece: int


@dataclass
class Broken:
    """A standard input that is a connection, which breaks behind these bytes: the next read fails."""

    data: bytes


class Output(Enum):
    """Standard outputs and standard errors that can't be read back."""

    FULL = "a full disk"
    CLOSED = "none is open"
    NO_READER = "a pipe whose reader is gone"


@dataclass
class Room:
    """A file as standard output that has room for so many bytes."""

    bytes: int


@dataclass
class Case:
    """`out` and `error` are what it has to write, and looked at where they can be read back.

    Words are texts, or bytes where they aren't UTF-8. `input` is bytes, a Pipe, a Broken or an Input; `output` and
    `complaints` are standard output and standard error where these aren't plain files. `memory` is the most address
    space that the program gets, in bytes. Where `unread` is true nothing of the input may have been taken. `program` is
    the one that is run.
    """

    name: str
    words: list
    status: int
    out: str = ""
    error: str = ""
    input: object = b""
    output: object = None
    complaints: object = None
    memory: int = None
    unread: bool = False
    program: str = "hkreplay"


def bad_usage(name, *words, **changes):
    """Words that are no command: nothing is read, and nothing is written but the complaint."""
    case = {"status": 2, "error": BAD_USAGE, "input": b"left alone", "unread": True}
    return Case(name, list(words), **{**case, **changes})
