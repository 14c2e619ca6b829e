"""Runs of hkmon on loopback with allocations that fail."""

import re
import socket
import tempfile
import time
from dataclasses import dataclass
from types import SimpleNamespace

import fifteen_commands
import input_parts as parts
import judging
import running
from sweeping import kind_of

WORDS = range(256)


@dataclass
class Row:
    """The options' values, each station's bytes, the operator's, and whether stations are held: the last one until all
    replies are there, and each other one until the log of the one behind it has text."""

    chosen: dict
    streams: list
    calls: bytes
    held: bool = False


class Monitored:
    """Runs of one row."""

    def __init__(self, program, failing, row):
        self.given = SimpleNamespace(program=program, program_under=None)
        self.failing, self.row = failing, row
        self.chosen = judging.settings({**row.chosen, "--stations": len(row.streams)})

    def run(self, first, last):
        words = [word for name, value in self.chosen.items() for word in (name, str(value))]
        with tempfile.TemporaryDirectory(prefix="hkmon-") as folder:
            monitor = running.Monitor(self.given, folder, [*words, "--workers", "2"], self.failing.around(first, last))
            clerk = self.play(monitor)
            status, lines = monitor.finish(monitor.patience)
            if clerk is not None:
                clerk.join(10)
            replies = clerk.text.decode("latin-1") if clerk is not None else ""
            kind, wrong = self.verdict(monitor, status, lines, replies)
        return kind, "; ".join(wrong) or None, self.failing.count()

    def play(self, monitor):
        """Is the stations and the operator, whom it returns where there was one."""
        connections, clerk = [], None
        try:
            connections = [monitor.station() for _ in self.row.streams]
            clerk = running.Operator(monitor.operator(), [(0.0, self.row.calls)], time.monotonic())
            clerk.start()
            self.speak(monitor, connections, clerk)
        except OSError:  # it ended before it took them, or in between
            pass
        for connection in connections:
            connection.close()
        return clerk

    def speak(self, monitor, connections, clerk):
        replies = len(judging.operator_commands(self.row.calls)[0])
        for number in reversed(range(len(connections))):
            if self.row.held:
                if number == len(connections) - 1:
                    wait(monitor, lambda: clerk.text.count(b"\n") == replies)
                else:
                    wait(monitor, lambda: "\n" in monitor.log(number + 1))
            connections[number].sendall(self.row.streams[number])
            connections[number].shutdown(socket.SHUT_WR)

    def verdict(self, monitor, status, lines, replies):
        """What a run was, and what is wrong with it."""
        if status is None:
            return "no end", [f"hkmon didn't end in {monitor.patience} s"]
        numbers = range(len(self.row.streams))
        if status == 4:
            written = [*lines, replies, *(monitor.log(n) for n in numbers)]
            fine = not any(written) and monitor.told == "hkmon: no memory\n"
            return "status 4, nothing written", [] if fine else [f"status 4, {written}, {monitor.told!r}"]
        refused = re.findall(r"^O (\d+) refused no-memory$", replies, re.MULTILINE)
        wrong = judging.wrong_end(lines, status, len(numbers))
        if wrong:
            return kind_of(refused), [*wrong, f"status {status}", monitor.told]
        catalogue = judging.Catalogue(self.chosen, self.row.calls, frozenset(map(int, refused)))
        wrong = judging.wrong_operator(catalogue, replies, lines[-1].split())
        for n in numbers:
            told = judging.Station(n, self.row.streams[n], monitor.log(n), lines[n].split())
            wrong += judging.wrong_station(told, catalogue, self.chosen)
        return kind_of(refused), wrong


def wait(monitor, holds):
    """Until this holds, or hkmon has ended."""
    end = time.monotonic() + monitor.patience
    while not holds() and monitor.process.poll() is None and time.monotonic() < end:
        time.sleep(0.002)


def monitored(program, failing):
    """The name and the runs of each row."""
    stream = parts.station_hello(parts.PRINTS) + parts.packet(1, parts.prints(WORDS))
    calls = parts.OPERATOR_HELLO + parts.add(7, WORDS) + parts.PUBLISH
    small = {"--songs": 2, "--positions": 512}
    fifteen = parts.OPERATOR_HELLO + b"".join(sent for sent, _ in fifteen_commands.fifteen())
    rows = {
        "first path": Row(small, [stream], calls),
        "fifteen commands": Row({**small, "--versions": 2}, [parts.station_hello(parts.PRINTS)], fifteen),
        "held links": Row(small, [stream, stream], calls, held=True),
    }
    for name, row in rows.items():
        yield f"hkmon, {name}", Monitored(program, failing, row)
