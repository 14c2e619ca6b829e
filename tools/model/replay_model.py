#!/usr/bin/env python3
"""What `hkreplay replay` prints and its status, straight from the formats and definitions, for any words and any input.

    tools/model/replay_model.py replay [OPTIONS] < INPUT
    tools/model/replay_model.py --no-memory 1,6 replay [OPTIONS] < INPUT
    tools/model/replay_model.py --self-test [--long]

The words are those of hkreplay. With --no-memory the commands of these numbers are refused for want of memory. With
--self-test the model is checked against worked examples whose outcome is known by hand and against the reports in
examples/, in half a minute; with --long also the minute of sound, in a minute or two.

It works on whole texts where the program works byte by byte: first the records give each stream's whole bytes, then
each stream gives the places at which something is complete in it, and then these events are gone through in the order
of the input. A block is compared with every window of every song. It knows nothing else of memory, and nothing of
failing devices: the statuses 4, 5 and 6 never come from it. It shares no line with the crates. It is slow: sound costs
about a hundredth of a second for each 64 working samples.
"""

import sys
from pathlib import Path

sys.path += [str(Path(__file__).resolve().parents[n] / name) for n, name in ((1, ""), (2, "examples"))]

# The other parts of the model are named here too, so that a script may take all of them from this file.
from desk_model import LIMIT, Desk, OpenSong, matches, windows  # noqa: E402, F401
from sound_model import Frames, keep_frames, quick, save_frames, sound_last_byte, sound_prints  # noqa: E402, F401
from streams_model import BLOCK, WEAK, Stream, operator_commands, records, station_events  # noqa: E402, F401

OPTIONS = {  # name: least, greatest, default
    "--stations": (1, 64, 1),
    "--flips": (0, 10, 4),
    "--hop": (1, 256, 64),
    "--songs": (1, 65536, 1000),
    "--positions": (256, 16777216, 1048576),
    "--versions": (1, 1000000000, 1000000),
    "--bytes": (1, 4000000000000000000, 1000000000000),
}
BAD_USAGE = "hkreplay: bad usage\n"


def settings(words):
    """The value of each option, or None where the words are no order to replay."""
    if not words or words[0] != "replay" or len(words) % 2 == 0:
        return None
    found = {}
    for name, number in zip(words[1::2], words[2::2]):
        if name not in OPTIONS or name in found:
            return None
        if not 1 <= len(number) <= 19 or any(c not in "0123456789" for c in number):
            return None
        least, greatest, _ = OPTIONS[name]
        if not least <= int(number) <= greatest:
            return None
        found[name] = int(number)
    return {name: found.get(name, default) for name, (_, _, default) in OPTIONS.items()}


def replay(chosen, data, no_memory=()):
    """The status and the text, where the commands of these numbers are refused for want of memory."""
    streams, operator, trouble = records(data, chosen["--stations"], chosen["--bytes"])
    events, ends = [], []
    for s, stream in enumerate(streams):
        found, end = station_events(stream.data, chosen["--flips"], chosen["--hop"])
        events += [(stream.place(p), s, what) for p, what in found]
        ends.append(end)
    commands, operator_end = operator_commands(operator.data)
    events += [(operator.place(p), None, (kind, payload)) for p, kind, payload in commands]
    events.sort(key=lambda event: event[0])

    desk, lines, replies = Desk(chosen), [], 0
    blocks, versions, over = [0] * len(streams), [0] * len(streams), [False] * len(streams)
    for _, s, what in events:
        if s is None:
            replies += 1
            lines.append(f"O {replies} {desk.answer(*what, replies in no_memory)}")
        elif over[s]:
            continue
        elif what[0] == "fence":
            versions[s] = desk.version
            if desk.version < what[1]:
                over[s] = True
                ends[s] = f"fence-ahead {what[1]} {desk.version}"
        else:
            _, segment, first, prints = what
            versions[s] = desk.version
            items = [f"{number}@{q}~{errors}" for number, q, errors in matches(prints, desk.published)]
            lines.append(f"S {s} B {blocks[s]} G {segment} W {first} V {desk.version}: {' '.join(items) or 'none'}")
            blocks[s] += 1
    if trouble is not None:
        return 7, "".join(line + "\n" for line in lines + [trouble])
    for s, end in enumerate(ends):
        lines.append(f"T S {s} {blocks[s]} {versions[s]} {end}")
    lines.append(f"T O {replies} {desk.version} {operator_end}")
    fine = operator_end == "ended" and all(end == "ended" for end in ends)
    return 0 if fine else 3, "".join(line + "\n" for line in lines)


def outcome(words, data, no_memory=()):
    """The status, the text on standard output and that on standard error."""
    chosen = settings(words)
    if chosen is None:
        return 2, "", BAD_USAGE
    return *replay(chosen, data, no_memory), ""


def main():
    words, no_memory = sys.argv[1:], set()
    if words[:1] in (["--help"], ["-h"]):
        print(__doc__)
        return 0
    if words[:1] == ["--self-test"]:
        from self_test import self_test

        return self_test("--long" in words)
    if words[:1] == ["--no-memory"]:
        if not all(number.isdigit() for number in "".join(words[1:2]).split(",")):
            sys.exit("replay_model: --no-memory is followed by numbers of commands, as 1,6")
        no_memory = {int(number) for number in words[1].split(",")}
        words = words[2:]
    status, text, error = outcome(words, sys.stdin.buffer.read(), no_memory)
    sys.stdout.write(text)
    sys.stderr.write(error)
    return status


if __name__ == "__main__":
    sys.exit(main())
