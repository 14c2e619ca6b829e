#!/usr/bin/env python3
"""Runs hkreplay and hkmon on a table of whole runs: words, input, and the status, output and complaints that are wanted.

    tools/program_cases/program_cases.py [--program PATH] [--monitor PATH] [--only WORD] [--list]

The cases stand in the files cases_*.py beside this one. What they want was written by hand from the formats and the
method, never taken from the program; the lines of `make` come from the model. It prints a line for each case that fails,
and last 'N passed, M failed'. The status is 1 where anything failed, and where a program isn't built. It takes some
seconds.
"""

import argparse
import os
import resource
import signal
import socket
import subprocess
import sys
import tempfile
import threading
from pathlib import Path

import cases_devices
import cases_examples
import cases_faults
import cases_make
import cases_monitor
import cases_replay
import cases_sound
import cases_words
from case import Broken, Input, Output, Pipe, Room
from streams import built

TABLES = (
    cases_examples,
    cases_words,
    cases_replay,
    cases_faults,
    cases_sound,
    cases_make,
    cases_devices,
    cases_monitor,
)
CASES = [case for table in TABLES for case in table.CASES]
SECONDS = 20
SHOWN = 60


class Run:
    """One run of the program on one case, with the files that it is given, in a folder of its own."""

    def __init__(self, program, case, folder):
        self.program, self.case, self.folder = program, case, Path(folder)

    def input_file(self):
        """The standard input; a pipe is filled while the program runs."""
        given = self.case.input
        if isinstance(given, Pipe):
            return subprocess.PIPE
        if isinstance(given, Broken):
            return broken_connection(given.data)
        if given is Input.CLOSED:
            return subprocess.DEVNULL
        if given is Input.FOLDER:
            return os.open(self.folder, os.O_RDONLY)
        if given is Input.WRITE_ONLY:
            return os.open(self.folder / "input", os.O_WRONLY | os.O_CREAT)
        (self.folder / "input").write_bytes(given)
        return os.open(self.folder / "input", os.O_RDONLY)

    def output_file(self, output, name):
        if output is Output.FULL:
            return os.open("/dev/full", os.O_WRONLY)
        if output is Output.CLOSED:
            return subprocess.DEVNULL
        if output is Output.NO_READER:
            reader, writer = os.pipe()
            os.close(reader)
            return writer
        return os.open(self.folder / name, os.O_RDWR | os.O_CREAT)

    def prepare(self):
        """In the new process, before the program is there: closes what is to be closed, and sets the limits."""
        case = self.case
        for number, file in enumerate((case.input, case.output, case.complaints)):
            if file in (Input.CLOSED, Output.CLOSED):
                os.close(number)
        if isinstance(case.output, Room):
            signal.signal(signal.SIGXFSZ, signal.SIG_IGN)
            resource.setrlimit(resource.RLIMIT_FSIZE, (case.output.bytes, case.output.bytes))
        if case.memory is not None:
            resource.setrlimit(resource.RLIMIT_AS, (case.memory, case.memory))

    def faults(self):
        """What the run did otherwise than the case wants, as texts."""
        case = self.case
        stdin, stdout = self.input_file(), self.output_file(case.output, "out")
        files = {"stdin": stdin, "stdout": stdout, "stderr": self.output_file(case.complaints, "error")}
        words = [self.program, *(os.fsencode(word) for word in case.words)]
        try:
            started = subprocess.Popen(words, **files, cwd=self.folder, preexec_fn=self.prepare)
            if isinstance(case.input, Pipe):
                threading.Thread(target=pour, args=(case.input, started.stdin), daemon=True).start()
            status = started.wait(SECONDS)
            return list(self.differences(status, stdin))
        except subprocess.TimeoutExpired:
            started.kill()
            started.wait()
            return [f"it hadn't ended after {SECONDS} seconds"]
        finally:
            for file in files.values():
                if file >= 0:
                    os.close(file)

    def differences(self, status, stdin):
        case = self.case
        if status < 0:
            yield f"stopped by signal {-status}, wanted the status {case.status}"
        elif status != case.status:
            yield f"status {status}, wanted {case.status}"
        for name, wanted, output in (("out", case.out, case.output), ("error", case.error, case.complaints)):
            if not isinstance(output, Output):
                found = (self.folder / name).read_bytes()
                if found != wanted.encode():
                    yield f"standard {'output' if name == 'out' else name}: {difference(found, wanted.encode())}"
        if case.unread and os.lseek(stdin, 0, os.SEEK_CUR):
            yield "some of the input was read"


def broken_connection(data):
    """A socket that has the bytes. Its other end was closed with bytes unread, so the read behind them fails."""
    ours, theirs = socket.socketpair()
    theirs.sendall(data)
    ours.sendall(b"unread")
    theirs.close()
    return ours.detach()


def pour(pipe, stdin):
    """Writes the bytes a piece at a time, until all are written or nobody reads them."""
    try:
        with stdin:
            for i in range(0, len(pipe.data), pipe.piece):
                stdin.write(pipe.data[i : i + pipe.piece])
                stdin.flush()
    except BrokenPipeError:
        pass


def difference(found, wanted):
    """Where two texts part, and how each goes on from the beginning of that line."""
    at = next((i for i, (a, b) in enumerate(zip(found, wanted)) if a != b), min(len(found), len(wanted)))
    start = found.rfind(b"\n", 0, at) + 1
    shown = [repr(text[start : start + SHOWN])[1:] for text in (found, wanted)]
    return f"{shown[0]} from byte {start}, wanted {shown[1]}"


def options_of(words):
    parser = argparse.ArgumentParser(description=__doc__, formatter_class=argparse.RawDescriptionHelpFormatter)
    built.add_option(parser)
    parser.add_argument("--monitor", type=Path, default=built.MONITOR, help="hkmon (that of crates/hkmon/out)")
    parser.add_argument("--only", default="", metavar="WORD", help="the cases alone whose name has WORD in it")
    parser.add_argument("--list", action="store_true", help="print the names of the cases, and run none")
    return parser.parse_args(words)


def main():
    options = options_of(sys.argv[1:])
    chosen = [case for case in CASES if options.only in case.name]
    if options.list:
        print("\n".join(case.name for case in chosen))
        return 0
    given = {"hkreplay": options.program, "hkmon": options.monitor}
    programs = {name: built.need(given[name], name) for name in sorted({case.program for case in chosen})}
    failed = 0
    for case in chosen:
        with tempfile.TemporaryDirectory(prefix="program_cases.") as folder:
            faults = Run(programs[case.program], case, folder).faults()
        if faults:
            failed += 1
            print(f"FAILED: {case.name}: {'; '.join(faults)}")
    print(f"{len(chosen) - failed} passed, {failed} failed")
    return 1 if failed else 0


if __name__ == "__main__":
    sys.exit(main())
