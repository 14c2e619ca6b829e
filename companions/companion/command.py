"""The command line of hk: its subcommands, and what is the same for all of them."""

import argparse
import importlib
import os
import sys

from . import VERSION
from .saying import Speaker, Trouble

# each subcommand is the module of its name, with WHAT, HELP, arguments(parser) and run(words, speaker)
SUBCOMMANDS = ("pack", "send", "operate", "plays", "check", "explain", "bits")


def parser_of(modules):
    parser = argparse.ArgumentParser(
        prog="hk", description="From sound to a list of plays, around hkreplay and hkmon."
    )
    parser.add_argument("--version", action="version", version=f"hk {VERSION}")
    kinds = parser.add_subparsers(dest="subcommand", metavar="SUBCOMMAND", required=True)
    for name, module in modules.items():
        kind = kinds.add_parser(
            name, help=module.WHAT, description=module.HELP, formatter_class=argparse.RawDescriptionHelpFormatter
        )
        kind.add_argument("--version", action="version", version=f"hk {name} {VERSION}")
        kind.add_argument("--quiet", action="store_true", help="no progress and no notes on standard error")
        module.arguments(kind)
    return parser


def main(words):
    """The status: 0 done, 1 something was found or went wrong, 2 bad usage."""
    modules = {name: importlib.import_module(f"companion.{name}") for name in SUBCOMMANDS}
    given = parser_of(modules).parse_args(words)
    speaker = Speaker(given.subcommand, given.quiet)
    try:
        return modules[given.subcommand].run(given, speaker)
    except Trouble as trouble:
        speaker.trouble(trouble)
        return 1
    except BrokenPipeError:
        # who reads has gone: nothing more can be said to them
        os.dup2(os.open(os.devnull, os.O_WRONLY), sys.stdout.fileno())
        return 1
    except KeyboardInterrupt:
        return 130
