"""hk explain: a status or a printed line in plain words, with what to do."""

import sys

from .printed import block_of
from .saying import Trouble

WHAT = "explain a status, or an R, T, O, S or refused line"
HELP = """Says in plain words what a status of hkreplay or hkmon means, or a line that they printed, and what to do.

  hk explain 7
  hk explain 'T S 0 12 3 cut 100'
  hk explain refused positions-full
  hkreplay replay < day.input | hk explain          each line that asks for something"""

STATUSES = {
    0: "everything was taken and every stream ended in order. An input that was cut between two packets is in order "
    "too: compare its length.",
    2: "bad usage: the words are no command. Nothing was read or written. Compare them with the manual page.",
    3: "everything was taken, but some stream didn't end in order. The T lines say which, and why.",
    4: "no memory. Nothing was written. Give fewer --positions, --songs or --stations, or a machine with more memory.",
    5: "the input couldn't be read any further. The lines up to there are right; see to the device and run it again.",
    6: "the output couldn't be written: a full disk, or a closed pipe. Lines before are right: make room, run again.",
    7: "the input has a fault, and the R line says which. The lines before it are right; mend the input, run it again.",
    8: "a port is taken, or a log can't be made. Nothing was monitored. Give other ports, or --logs in another folder.",
    9: "a station saw a version that the desk doesn't have. That mustn't happen: keep the logs, and report it.",
}

REFUSALS = {
    "duplicate": "the id is there already. To change a recording, withdraw it, add it anew, and publish once.",
    "short": "the recording has under 256 words (3.4 seconds). Give a longer one.",
    "songs-full": "as many recordings as --songs allows are there. Withdraw some, or start with more.",
    "positions-full": "the recording's words are more than are left of --positions. Withdraw some, or start with more.",
    "no-memory": "memory was refused. Publish more often, or use a machine with more; then give the command again.",
    "song-open": "a recording is open already. Close it first.",
    "no-song-open": "no recording is open. Open one first.",
    "unknown": "no recording has this id.",
    "versions-full": "as many versions as --versions allows were published. Start again with more.",
}

ENDS = {
    "ended": ("it ended in order.", "Nothing is to be done."),
    "cut": ("its bytes ended after {0}, where a stream may not end.", "Send the rest, or find what cut it off."),
    "too-long": ("it has more than {0} bytes, the limit.", "Raise --bytes."),
    "bad-hello": ("byte {0} isn't that of a hello.", "Begin the stream with HKS1 or HKO1; see hk-formats(5)."),
    "bad-kind": (
        "byte {0} is no kind of packet or command.",
        "A length before it is likely wrong; hk check names it.",
    ),
    "bad-length": ("the length at byte {0} isn't one that its kind can have.", "See hk-formats(5)."),
    "bad-mask": ("the print that ends at byte {0} marks more than ten bits as weak.", "Mark at most ten."),
    "bad-format": (
        "byte {0} is no number of channels or no factor.",
        "Use 1 or 2 channels, and the factor 1, 2, 4 or 8.",
    ),
    "fence-ahead": (
        "it asked for version {0}, and the catalogue had {1}.",
        "Publish before the fence, or ask for a version that is there.",
    ),
    "read-fault": ("it couldn't be read any further.", "See to the connection; the lines before are right."),
    "sink-fault": ("its log couldn't be written any further.", "Make room; the whole lines before are right."),
    "gate-fault": ("the system failed while its worker waited.", "See to the system's limits, and start again."),
}

TROUBLES = {
    "read-fault": "the input couldn't be read any further. See to the device and run it again.",
    "bad-record": "the input has no record at byte {0}. Before it all was taken; mend the input. If it is an S, its "
    "station isn't below --stations.",
    "too-long": "the input has more than {0} bytes, the limit. Raise --bytes.",
}


def arguments(parser):
    parser.add_argument("words", nargs="*", help="a status, or a line; without them lines from standard input")


def run(given, speaker):
    if given.words:
        line = " ".join(given.words)
        text = explained(line)
        if text is None:
            raise Trouble(
                f"'{line}' is nothing that the programs say", "give a status, or one line that they printed"
            )
        print(text)
        return 0
    for line in sys.stdin:
        line = line.rstrip("\n")
        if line[:1] in "RT" or " refused " in line:
            text = explained(line)
            print(line if text is None else f"{line}\n    {text}")
    return 0


def explained(line):
    """The text for a status or a line, or None where it is neither."""
    words = line.split()
    if words[:1] == ["status"]:
        words = words[1:]
    if len(words) == 1 and words[0].isdigit() and int(words[0]) in STATUSES:
        return STATUSES[int(words[0])]
    if words[:1] == ["refused"] and words[1:2] and words[1] in REFUSALS:
        return REFUSALS[words[1]]
    readers = {"R": of_trouble, "T": of_summary, "O": of_reply, "S": of_report, "M": of_made}
    try:
        return readers[words[0]](words, line) if words and words[0] in readers else None
    except (IndexError, ValueError, KeyError, Trouble):
        return None


def of_trouble(words, line):
    return TROUBLES[words[1]].format(*words[2:])


def of_end(words):
    what, remedy = ENDS[words[0]]
    return f"{what.format(*words[1:])} {remedy}"


def of_summary(words, line):
    if words[1] == "S":
        int(words[2])
        return f"station {words[2]}, {words[3]} blocks, version {words[4]} at the last: {of_end(words[5:])}"
    if words[1] == "O":
        return f"the operator, {words[2]} commands, {words[3]} versions: {of_end(words[4:])}"
    if words[1] == "M":
        return f"station {words[2]} saw version {words[3]}, and the desk has {words[4]}: {STATUSES[9]}"
    return None


def of_reply(words, line):
    if words[2] == "ok":
        return f"command {words[1]} was done; an edit waits for the next publish."
    if words[2] == "published":
        return f"command {words[1]}: all that waited is version {words[3]} now."
    return f"command {words[1]} wasn't done: {REFUSALS[words[3]]}" if words[2] == "refused" else None


def of_report(words, line):
    block = block_of(line)
    where = f"from print {block.first} of segment {block.segment}"
    head = f"station {block.station}, block {block.block}, {where}, version {block.version}"
    if not block.items:
        return f"{head}: no recording matches."
    found = [
        f"recording {item.number} from word {item.start}, {item.errors} of 8192 bits differ" for item in block.items
    ]
    return f"{head}: {'; '.join(found)}."


def of_made(words, line):
    found = f"{words[2]} blocks, {words[4]} matches and {words[6]} versions"
    return f"the made input gave {found}; the line is the same on each machine."
