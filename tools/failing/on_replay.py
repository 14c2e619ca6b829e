"""Runs of hkreplay with allocations that fail."""

import functools
import re
import subprocess

import fifteen_commands
import made_input
import replay_model as model
from built import ROOT
from sweeping import kind_of

NO_MEMORY = (4, "", "hkreplay: no memory\n")
MADE_LINES = {tuple(words): line + "\n" for words, line in made_input.cases()}
MADE_WORDS = "make 5 --stations 1 --flips 1 --hop 256".split()


class Replays:
    """Runs with one list of words and one input."""

    def __init__(self, program, failing, words, data):
        self.program, self.failing, self.words, self.data = program, failing, words, data

    def run(self, first, last):
        words, around = [self.program, *self.words], self.failing.around(first, last)
        done = subprocess.run(words, input=self.data, env=around, capture_output=True)
        outcome = done.returncode, done.stdout.decode(), done.stderr.decode()
        kind, right = self.verdict(outcome)
        return kind, None if right else outcome, self.failing.count()

    @functools.lru_cache(maxsize=None)
    def expected(self, no_memory):
        if self.words[0] == "make":
            return 0, MADE_LINES[tuple(self.words[1:])], ""
        return model.outcome(self.words, self.data, no_memory)

    def verdict(self, outcome):
        """What an outcome is, and whether it may be."""
        if outcome[0] == NO_MEMORY[0]:
            return "status 4, nothing written", outcome == NO_MEMORY
        refused = re.findall(r"^O (\d+) refused no-memory$", outcome[1], re.MULTILINE)
        return kind_of(refused), outcome == self.expected(frozenset(map(int, refused)))


def replays(program, failing):
    """The name and the runs of each input."""
    words = (ROOT / "crates/hkreplay/args").read_text().split()
    yield "first input", Replays(program, failing, words, (ROOT / "examples/first.input").read_bytes())
    fifteen = fifteen_commands.WORDS.split(), fifteen_commands.input_of_them()
    yield "fifteen commands", Replays(program, failing, *fifteen)
    yield "make", Replays(program, failing, MADE_WORDS, b"left alone")
