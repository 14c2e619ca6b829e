"""The manual pages and the completion have what the commands have."""

import os
import re
import shutil
import sqlite3
import subprocess
import unittest

from .made import HERE, hk

from companion.command import SUBCOMMANDS
from companion.explain import ENDS, REFUSALS, STATUSES
from companion.plays import COLUMNS

MAN = os.path.join(HERE, "man")
PAGES = ("hkreplay.1", "hkmon.1", "hk.1", "hk-formats.5")


def options_of(subcommand):
    """The long options of a subcommand's help."""
    return set(re.findall(r"^ +(?:-\w(?: \w+)?, )?(--[a-z-]+)", hk(subcommand, "--help")[1], re.MULTILINE))


def completed(line):
    """What bash would offer behind the line."""
    words = line.split(" ")
    script = f"source '{os.path.join(HERE, 'completion', 'hk.bash')}'\n"
    script += f"COMP_WORDS=({' '.join(repr(word) for word in words)})\nCOMP_CWORD={len(words) - 1}\n"
    script += f"_hk_complete {words[0]} '{words[-1]}' '{words[-2]}'\n" + 'printf "%s\\n" "${COMPREPLY[@]}"'
    done = subprocess.run(["bash", "-c", script], capture_output=True, text=True, check=True)
    return set(done.stdout.split())


class Pages(unittest.TestCase):
    @unittest.skipIf(shutil.which("man") is None, "man isn't installed")
    def test_man_shows_each_page_without_a_warning(self):
        for page in PAGES:
            words = ["man", "--warnings", "-P", "cat", "-l", os.path.join(MAN, page)]
            done = subprocess.run(
                words, capture_output=True, text=True, check=False, env={**os.environ, "MANWIDTH": "80"}
            )
            self.assertEqual((done.returncode, done.stderr), (0, ""), page)
            self.assertIn("SEE ALSO", done.stdout)

    def test_the_pages_have_each_status_end_and_reason(self):
        pages = {}
        for page in PAGES:
            with open(os.path.join(MAN, page), encoding="utf-8") as file:
                pages[page] = file.read()
        for status in STATUSES:
            self.assertIn(f".B {status}\n", pages["hkreplay.1"] + pages["hkmon.1"])
        for word in (*ENDS, *REFUSALS):
            self.assertIn(word, pages["hk-formats.5"])
        for subcommand in SUBCOMMANDS:
            self.assertIn(f".B hk {subcommand}\n", pages["hk.1"])


class Completes(unittest.TestCase):
    def test_subcommands_are_offered_first(self):
        self.assertEqual(completed("hk p"), {"pack", "plays"})
        self.assertEqual(completed("hkreplay "), {"replay", "print", "make"})

    def test_each_subcommand_offers_its_own_options(self):
        for subcommand in SUBCOMMANDS:
            self.assertEqual(completed(f"hk {subcommand} --"), options_of(subcommand), subcommand)

    def test_formats_are_offered(self):
        self.assertEqual(completed("hk plays --format "), {"csv", "json", "cue"})


class Counts(unittest.TestCase):
    """The queries of docs/SCALING.md on a list of plays, by the engine that comes with Python."""

    PLAYS = (
        # station_name, id, title, began, ended, seconds, silent
        ("Radio One", "7", "First", "2026-12-01T06:00:00.000Z", "2026-12-01T06:03:00.000Z", "180.0", "no"),
        ("Radio One", "7", "First", "2026-12-01T09:00:00.000Z", "2026-12-01T09:01:30.000Z", "90.0", "no"),
        ("Radio One", "9", "Second", "2026-12-01T09:01:00.000Z", "2026-12-01T09:02:00.000Z", "60.0", "no"),
        ("Radio One", "9", "Second", "2026-12-01T10:00:00.000Z", "2026-12-01T10:00:05.000Z", "5.0", "no"),
        ("Radio Two", "9", "Second", "2026-12-01T06:01:00.000Z", "2026-12-01T06:02:00.000Z", "60.0", "yes"),
    )

    def setUp(self):
        with open(os.path.join(HERE, "..", "docs", "SCALING.md"), encoding="utf-8") as file:
            self.queries = re.findall(r"```sql\n(.*?)```", file.read(), re.DOTALL)
        self.database = sqlite3.connect(":memory:")
        self.addCleanup(self.database.close)
        self.database.execute(f"CREATE TABLE plays ({', '.join(f'{name} TEXT' for name in COLUMNS)})")
        names = "station_name, id, title, began, ended, seconds, silent"
        self.database.executemany(f"INSERT INTO plays ({names}) VALUES (?, ?, ?, ?, ?, ?, ?)", self.PLAYS)

    def test_plays_and_minutes_are_counted_by_station_and_recording(self):
        self.assertEqual(
            self.database.execute(self.queries[0]).fetchall(),
            [
                ("Radio One", "First", 2, 4.5, "2026-12-01T06:00:00.000Z", "2026-12-01T09:01:30.000Z"),
                ("Radio One", "Second", 1, 1.0, "2026-12-01T09:01:00.000Z", "2026-12-01T09:02:00.000Z"),
            ],
        )

    def test_plays_that_overlap_are_found(self):
        expected = [("Radio One", "First", "Second", "2026-12-01T09:00:00.000Z")]
        self.assertEqual(self.database.execute(self.queries[1]).fetchall(), expected)


class Helps(unittest.TestCase):
    def test_each_has_help_and_a_version(self):
        for words in ((), *((subcommand,) for subcommand in SUBCOMMANDS)):
            status, out, _ = hk(*words, "--help")
            self.assertEqual(status, 0)
            self.assertIn("usage: hk", out)
            status, out, _ = hk(*words, "--version")
            self.assertEqual((status, out.split()[0]), (0, "hk"))

    def test_words_that_are_no_command_have_the_status_2(self):
        status, out, err = hk("packs")
        self.assertEqual((status, out), (2, ""))
        self.assertIn("invalid choice", err)
