"""The examples of the repository: each input gives the report that lies beside it.

`tools/model/replay_model.py --self-test` compares the same reports with a model, written from the formats alone.
"""

import sys
from pathlib import Path

from case import Case

EXAMPLES = Path(__file__).resolve().parents[2] / "examples"
sys.path.append(str(EXAMPLES))

from small_day import day  # noqa: E402


def report(name):
    return (EXAMPLES / name).read_text()


CASES = [
    Case("examples/first.input", ["replay"], 0, report("first.report"), input=(EXAMPLES / "first.input").read_bytes()),
    Case("a small day", ["replay", "--stations", "2"], 0, report("small_day.report"), input=b"".join(day())),
]
