"""hk operate: the operator's commands to hkmon, and each reply."""

import os
import shlex
import socket
import sys
import time

from .explain import REFUSALS
from .kept import OPERATOR, Keeper, keep_recording
from .network import address_of, connected
from .printed import read_prints
from .saying import Trouble, unreadable
from .schedule import FACTORS, number_of
from .sound import Form, Silence, Sound
from .streams import CLOSE, OPERATOR_HELLO, PUBLISH, add, audio, open_song, withdraw

WHAT = "add, withdraw and publish on hkmon, and show each reply"
HELP = """Reads commands, a line each, from a file or standard input, sends them to hkmon, and prints each reply. It is
the one operator of its hkmon: when it ends, no other can come. Leave it running as long as the catalogue may change.
The first reply comes once all stations have connected.

  add ID FILE [TITLE [ARTIST]]    a recording by its sound: what ffmpeg reads, or .raw, .pcm, .wav
  words ID FILE [TITLE [ARTIST]]  a recording by its prints, as `hkreplay print` prints them
  withdraw ID
  publish
  wait SECONDS

An add waits for the next publish. With --keep all that was sent is kept for hkreplay: hk pack --kept makes an input
of it. The status is 1 where a command was refused."""


def arguments(parser):
    parser.add_argument("commands", nargs="?", default="-", help="a file of commands; without it, standard input")
    parser.add_argument(
        "--to", default="127.0.0.1:7702", metavar="HOST:PORT", help="hkmon's operator port (127.0.0.1:7702)"
    )
    parser.add_argument("--channels", type=int, choices=(1, 2), default=2, help="channels of recordings' sound (2)")
    parser.add_argument("--factor", type=int, choices=FACTORS, default=8, help="the factor (8)")
    parser.add_argument("--rate", type=int, help="samples a second (5512.5 times the factor)")
    parser.add_argument("--keep", metavar="FOLDER", help="keep what was sent, for hk pack --kept")


class Operator:
    """The operator's connection: commands out, a reply for each in."""

    def __init__(self, address, form, folder):
        self.form, self.folder = form, folder
        self.socket = connected(address, "operator")
        self.socket.settimeout(None)
        self.replies = self.socket.makefile("r", encoding="ascii", newline="\n")
        self.keeper = Keeper(folder, OPERATOR, {"operator": True})
        self.put(OPERATOR_HELLO)

    def put(self, stream):
        try:
            self.socket.sendall(stream)
        except OSError as error:
            raise Trouble(
                "hkmon closed the operator's connection", "its T O line says why: see hk explain"
            ) from error
        self.keeper.keep(stream)

    def ask(self, command, what):
        """Sends one command and prints its reply; the reason where it was refused, else None."""
        self.put(command)
        line = self.replies.readline()
        if not line.endswith("\n"):
            raise Trouble(
                "hkmon closed the operator's connection before a reply", "its T O line says why: see hk explain"
            )
        line = line.rstrip("\n")
        print(f"{line}\t{what}", flush=True)
        words = line.split()
        return words[3] if words[2:3] == ["refused"] else None

    def add(self, number, path):
        """A recording by its sound; the first refusal, and what is known of the recording."""
        silence, sound = Silence(self.form), []
        for piece in Sound(path, self.form).pieces():
            silence.hear(piece)
            sound.append(piece)
        sound = b"".join(sound)
        refused = self.ask(open_song(number, self.form.channels, self.form.factor), f"open {number}")
        if refused is None:
            refused = self.ask(audio(sound), f"sound of {number}")
            refused = refused or self.ask(CLOSE, f"add {number}")
        told = {"seconds": round(len(sound) / self.form.second, 3), "words": self.form.prints(len(sound))}
        return refused, {**told, "silent": silence.spans()}

    def words(self, number, path):
        words = [word for word, _ in read_prints(path)]
        refused = self.ask(add(number, words), f"add {number}")
        return refused, {"seconds": None, "words": len(words), "silent": []}

    def close(self):
        """Says that no more comes. Each reply has been read, so hkmon finds the stream's end and no reset; it keeps its
        side open until its run is over, and isn't waited for."""
        try:
            self.socket.shutdown(socket.SHUT_WR)
        except OSError:
            pass
        self.replies.close()
        self.socket.close()
        self.keeper.close()


def done(operator, words):
    """One command; the reason of a refusal, else None."""
    kind, rest = words[0], words[1:]
    if kind in ("add", "words") and 2 <= len(rest) <= 4:
        number, path = number_of(rest[0], 0, 2**32 - 1, "the id"), rest[1]
        refused, told = getattr(operator, kind)(number, path)
        if refused is None:
            title, artist = (rest[2:] + ["", ""])[:2]
            told = {"id": number, "title": title, "artist": artist, "file": os.path.basename(path), **told}
            keep_recording(operator.folder, told)
        return refused
    if kind == "withdraw" and len(rest) == 1:
        number = number_of(rest[0], 0, 2**32 - 1, "the id")
        return operator.ask(withdraw(number), f"withdraw {number}")
    if kind == "publish" and not rest:
        return operator.ask(PUBLISH, "publish")
    if kind == "wait" and len(rest) == 1:
        time.sleep(number_of(rest[0], 0, 10**6, "seconds"))
        return None
    raise Trouble(f"'{' '.join(words)}' is no command", "see hk operate --help")


def run(given, speaker):
    rate = given.rate or round(5512.5 * given.factor)
    try:
        lines = sys.stdin if given.commands == "-" else open(given.commands, encoding="utf-8")
    except OSError as error:
        raise unreadable(given.commands, error) from error
    operator = Operator(address_of(given.to, 7702), Form(given.channels, given.factor, rate), given.keep)
    refusals = troubles = 0
    try:
        for line in lines:
            try:
                words = shlex.split(line, comments=True)
                refused = done(operator, words) if words else None
            except (Trouble, ValueError) as error:
                if "hkmon" in str(error):
                    raise
                # a line that isn't understood, or a file that isn't there, ends nothing
                speaker.trouble(error)
                troubles += 1
                continue
            if refused is not None:
                refusals += 1
                speaker.note(f"refused {refused}: {REFUSALS[refused]}")
    finally:
        operator.close()
    return 1 if refusals or troubles else 0
