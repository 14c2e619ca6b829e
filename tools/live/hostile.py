"""Many short runs of hkmon over mutated streams, and over connections that close, stall, are reset or never speak."""

import random
import tempfile
import threading
import time
from concurrent.futures import ThreadPoolExecutor

import broadcast
import judging
import running
from mutations import mutated

parts = broadcast.parts
PRINTS = broadcast.Form(0, 1)
SOUND = broadcast.Form(1, 1)
WAYS = ("whole", "whole", "cut", "stall", "reset", "silent", "late")


def station(draw):
    """A station's stream: prints, now and then sound of a second or two, with gaps and fences."""
    form = SOUND if draw.random() < 0.1 else PRINTS
    out = [parts.station_hello(form.channels, form.factor)]
    for _ in range(draw.randrange(1, 4)):
        seconds = draw.uniform(0.2, 2.0) if form is SOUND else draw.uniform(1.0, 6.0)
        out.append(broadcast.packets(draw, broadcast.made(draw.randrange(4), form, seconds)))
        if draw.random() < 0.3:
            out.append(parts.fence(draw.choice((0, 0, 1, 2, 7))))
        if draw.random() < 0.3:
            out.append(parts.GAP)
    return b"".join(out)


def operator(draw):
    """An operator's stream: recordings of what stations play, withdrawals and publishes, some of them refused."""
    out, number = [parts.OPERATOR_HELLO], 0
    for _ in range(draw.randrange(6)):
        kind = draw.randrange(5)
        if kind < 2:
            number += draw.random() < 0.9
            sound = broadcast.made(draw.randrange(4), PRINTS, draw.uniform(2.0, 4.0))
            out.append(parts.add(number, broadcast.words_of(sound)))
        elif kind == 2:
            out.append(parts.withdraw(draw.randrange(3)))
        else:
            out.append(parts.PUBLISH)
    return b"".join(out)


def hurt(draw, stream):
    """The stream with some changes; one in three stays as it is."""
    return mutated(draw, stream, draw.choice((0, 1, 1, 2, 5, 20)) if draw.random() < 0.67 else 0)


class Client(threading.Thread):
    """Sends one stream in some way; `sent` is what hkmon can have got of it."""

    def __init__(self, connection, stream, way, draw):
        super().__init__(daemon=True)
        self.connection, self.way = connection, way
        if way == "silent":
            stream = b""
        if way in ("cut", "reset"):
            stream = stream[: draw.randrange(len(stream) + 1)]
        self.sent, self.pause, self.at = stream, draw.uniform(0.05, 0.3), draw.randrange(len(stream) + 1)

    def run(self):
        try:
            if self.way in ("late", "silent"):
                time.sleep(self.pause)
            self.connection.sendall(self.sent[: self.at])
            if self.way == "stall":
                time.sleep(self.pause)
            self.connection.sendall(self.sent[self.at :])
        except OSError:
            pass
        if self.way == "reset":
            running.reset(self.connection)
        else:
            self.connection.close()


def one(given, number):
    """What differs in one run, a line each."""
    draw = random.Random(f"{given.seed}/{number}")
    stations, workers, hop = draw.randrange(1, 6), draw.randrange(1, 4), draw.choice((1, 8, 64, 256))
    chosen = judging.settings({"--stations": stations, "--hop": hop, "--songs": 4, "--positions": 2000})
    words = [word for name, value in chosen.items() for word in (name, str(value))]
    streams = [hurt(draw, station(draw)) for _ in range(stations)]
    calls = hurt(draw, operator(draw))
    ways = [draw.choice(WAYS) for _ in range(stations)]
    with tempfile.TemporaryDirectory(prefix="hkmon-") as folder:
        monitor = running.Monitor(given, folder, [*words, "--workers", str(workers)])
        clients = [Client(monitor.station(), stream, way, draw) for stream, way in zip(streams, ways)]
        clerk = running.Operator(monitor.operator(), [(0.0, calls)], time.monotonic())
        for thread in (clerk, *clients):
            thread.start()
        for thread in clients:
            thread.join(monitor.patience)
        status, lines = monitor.finish(monitor.patience)
        clerk.join(10)
        if status is None:
            return [f"hkmon didn't end in {monitor.patience} s; its connections were {ways}"]
        wrong = judging.wrong_end(lines, status, stations)
        if wrong:
            return [*wrong, f"status {status}, standard error {monitor.told[-300:]!r}"]
        catalogue = judging.Catalogue(chosen, calls)
        wrong += judging.wrong_operator(catalogue, clerk.text.decode("latin-1"), lines[-1].split())
        for n, (client, way) in enumerate(zip(clients, ways)):
            told = judging.Station(n, client.sent, monitor.log(n), lines[n].split(), reset=way == "reset")
            wrong += judging.wrong_station(told, catalogue, chosen)
    return wrong


def faults(given):
    """All runs; the status."""
    began, differ, told = time.monotonic(), 0, threading.Lock()

    def tried(number):
        nonlocal differ
        try:
            wrong = one(given, number)
        except OSError as error:
            wrong = [f"hkmon takes no connection: {error}"]
        with told:
            differ += bool(wrong)
            for line in wrong[:5]:
                print(f"run {number}: {line}", flush=True)

    with ThreadPoolExecutor(4 if given.program_under is None else 1) as pool:
        list(pool.map(tried, range(given.first, given.first + given.runs)))
    print(f"{given.runs} runs in {time.monotonic() - began:.0f} s, of which {differ} differ from the model")
    return 1 if differ else 0
