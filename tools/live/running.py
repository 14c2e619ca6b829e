"""Runs hkmon, connects to it, and samples its memory and its processor time."""

import atexit
import itertools
import os
import shlex
import socket
import struct
import subprocess
import sys
import threading
import time
from pathlib import Path

sys.path.append(str(Path(__file__).resolve().parents[2] / "examples"))
import built  # noqa: E402

TICKS = os.sysconf("SC_CLK_TCK")


PORTS = itertools.count(10000 + os.getpid() % 40 * 500)  # below those that the system gives to connections
# A process that is being started holds what was open, for a moment: a port is tried and hkmon is started one at a time.
STARTING = threading.Lock()


def free_port():
    """A port that nobody listens on, another one each time: runs beside each other don't meet."""
    for port in PORTS:
        try:
            with socket.create_server(("127.0.0.1", port % 30000)):
                return port % 30000
        except OSError:
            pass


def add_options(parser):
    parser.add_argument("--program", type=Path, default=built.MONITOR, help="hkmon (that of crates/hkmon/out)")
    parser.add_argument(
        "--program-under",
        metavar="WORDS",
        help="run these words with hkmon's behind them in place of the program, as 'rt try --seconds 600 --'",
    )


def need(given):
    if given.program_under is None:
        built.need(given.program, "hkmon")


def tree(root):
    """The numbers of a process and of all below it."""
    parents = {}
    for name in os.listdir("/proc"):
        if name.isdigit():
            try:
                with open(f"/proc/{name}/stat", encoding="latin-1") as file:
                    parents.setdefault(int(file.read().rpartition(")")[2].split()[1]), []).append(int(name))
            except OSError:
                pass
    found, waiting = [], [root]
    while waiting:
        one = waiting.pop()
        found.append(one)
        waiting += parents.get(one, [])
    return found


def used(numbers):
    """Kilobytes of resident memory, and seconds of processor time, of these processes."""
    memory = ticks = 0
    for number in numbers:
        try:
            with open(f"/proc/{number}/stat", encoding="latin-1") as file:
                fields = file.read().rpartition(")")[2].split()
        except OSError:
            continue
        ticks += int(fields[11]) + int(fields[12])
        memory += int(fields[21]) * (os.sysconf("SC_PAGE_SIZE") // 1024)
    return memory, ticks / TICKS


class Monitor:
    """A running hkmon on two free ports of loopback, with its logs in a folder."""

    def __init__(self, given, folder, words, around=None):
        self.folder = folder
        with STARTING:
            self.start(given, words, around)
        atexit.register(self.process.kill)  # where this script is interrupted
        self.samples, self.over = [], threading.Event()
        self.sampler = threading.Thread(target=self.sample, daemon=True)

    def start(self, given, words, around):
        folder, self.ports = self.folder, (free_port(), free_port())
        logs = [] if given.program_under is None else ["--logs", os.path.join(folder, "station")]
        words = [*words, *logs, "--station-port", str(self.ports[0]), "--operator-port", str(self.ports[1])]
        under = [str(given.program.resolve())] if given.program_under is None else shlex.split(given.program_under)
        where = folder if given.program_under is None else os.getcwd()
        self.patience = 120 if given.program_under is None else 600
        self.out = open(os.path.join(folder, "summary"), "w+b")
        self.errors = open(os.path.join(folder, "errors"), "w+b")
        self.process = subprocess.Popen(
            [*under, *words], cwd=where, stdin=subprocess.DEVNULL, stdout=self.out, stderr=self.errors, env=around
        )

    def sample(self):
        began, numbers = time.monotonic(), tree(self.process.pid)
        while not self.over.wait(1.0):
            self.samples.append((time.monotonic() - began, *used(numbers)))

    def connect(self, port):
        """A connection, once the port listens; it is accepted in the order of these calls."""
        end = time.monotonic() + self.patience
        while True:
            try:
                return socket.create_connection(("127.0.0.1", port))
            except ConnectionRefusedError as error:
                if self.process.poll() is not None:
                    raise OSError(f"it ended: status {self.process.returncode}, {self.complaint()!r}") from error
                if time.monotonic() > end:
                    raise
                time.sleep(0.01)

    def station(self):
        return self.connect(self.ports[0])

    def operator(self):
        return self.connect(self.ports[1])

    def finish(self, seconds):
        """The status and the lines of the summary, or None where it doesn't end in so many seconds."""
        try:
            status = self.process.wait(seconds)
        except subprocess.TimeoutExpired:
            self.process.kill()
            self.process.wait()
            status = None
        self.over.set()
        self.out.seek(0)
        text = self.out.read().decode("latin-1")
        self.out.close()
        self.errors.close()
        self.told = self.complaint()
        return status, [line for line in text.splitlines() if line.startswith("T ")]

    def complaint(self):
        """What is on standard error so far."""
        with open(self.errors.name, encoding="utf-8", errors="replace") as file:
            return file.read()

    def log(self, number):
        path = os.path.join(self.folder, f"station-{number}.log")
        if not os.path.isfile(path):  # a symbolic link to a full disk
            return ""
        with open(path, encoding="latin-1", newline="") as file:
            return file.read()


def reset(connection):
    """Closes a connection so that the other side finds it reset."""
    connection.setsockopt(socket.SOL_SOCKET, socket.SO_LINGER, struct.pack("ii", 1, 0))
    connection.close()


class Operator(threading.Thread):
    """Sends an operator's pieces at their times, and keeps all that comes back until hkmon closes the connection."""

    def __init__(self, connection, pieces, began):
        super().__init__(daemon=True)
        self.connection, self.pieces, self.began, self.text = connection, pieces, began, b""

    def run(self):
        reader = threading.Thread(target=self.read, daemon=True)
        reader.start()
        try:
            for at, piece in self.pieces:
                time.sleep(max(0.0, self.began + at - time.monotonic()))
                self.connection.sendall(piece)
            self.connection.shutdown(socket.SHUT_WR)
        except OSError:
            pass
        reader.join()
        self.connection.close()

    def read(self):
        try:
            while piece := self.connection.recv(65536):
                self.text += piece
        except OSError:
            pass
