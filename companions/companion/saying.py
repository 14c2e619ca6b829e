"""What is said on standard error: progress, notes, and troubles in one line with what to do."""

import sys
import time


class Trouble(Exception):
    """Something that the user can mend: what it is, and what to do."""

    def __init__(self, what, remedy):
        super().__init__(f"{what}; {remedy}")


def unreadable(path, error, remedy="give a file that can be read"):
    """The trouble of a file, a port or a program that the system refuses."""
    return Trouble(f"{path}: {(error.strerror or str(error)).lower()}", remedy)


class Speaker:
    """Says progress and notes, or nothing where the user wants quiet. Troubles are always said."""

    def __init__(self, name, quiet, to=None):
        self.name = name
        self.quiet = quiet
        self.to = to or sys.stderr
        self.last = 0.0
        self.open = False

    def progress(self, text):
        """A line that the next one writes over, at most five a second; a terminal alone gets it."""
        now = time.monotonic()
        if self.quiet or not self.to.isatty() or now - self.last < 0.2:
            return
        self.last = now
        self.open = True
        print(f"\r\x1b[K{text}", end="", file=self.to, flush=True)

    def note(self, text):
        if not self.quiet:
            self.clear()
            print(text, file=self.to, flush=True)

    def trouble(self, trouble):
        self.clear()
        print(f"hk {self.name}: {trouble}", file=self.to, flush=True)

    def clear(self):
        if self.open:
            print("\r\x1b[K", end="", file=self.to)
            self.open = False
