"""Standard input and standard output that fail, and memory that is refused."""

from case import NO_MEMORY, Broken, Case, Input, Output, Pipe, Room
from streams import FIRST, FIRST_LINE, FIRST_OPERATOR, FIRST_REPLIES, FIRST_REPORT, PRINTS, s

SOUND = bytes(36864)
LINES = "".join(f"{n} 00000000 0000000f\n" for n in range(256))
FAULT = "R read-fault\n"
FORM = ["--channels", "1", "--factor", "1"]

READS = [
    Case(f"{command} with standard input that is {given.value}", [command], 5, FAULT, input=given)
    for command in ("replay", "print")
    for given in (Input.FOLDER, Input.WRITE_ONLY)
] + [
    Case("replay with standard input closed", ["replay"], 5, FAULT, input=Input.CLOSED),
    Case("print with standard input closed", ["print"], 5, FAULT, input=Input.CLOSED),
    Case("an input through a pipe", ["replay"], 0, FIRST_REPORT, input=Pipe(FIRST, 65536)),
    Case("an input through a pipe in pieces of seven bytes", ["replay"], 0, FIRST_REPORT, input=Pipe(FIRST, 7)),
    Case("an input through a pipe byte by byte", ["replay"], 0, FIRST_REPORT, input=Pipe(FIRST, 1)),
]

BREAKS = [
    Case("a read that fails behind a block", ["replay"], 5, FIRST_REPLIES + FIRST_LINE + FAULT, input=Broken(FIRST)),
    Case("a read that fails inside a block", ["replay"], 5, FIRST_REPLIES + FAULT, input=Broken(FIRST[:-1])),
    Case("a read that fails behind a record", ["replay"], 5, FIRST_REPLIES + FAULT, input=Broken(FIRST_OPERATOR)),
    Case("a read that fails behind prints", ["print", *FORM], 5, LINES + FAULT, input=Broken(SOUND)),
    Case("a read that fails behind a bad record", ["replay"], 7, "R bad-record 0\n", input=Broken(b"X")),
    Case("a read that fails behind the limit", ["replay", "--bytes", "10"], 7, "R too-long 10\n", input=Broken(FIRST)),
    Case(
        "a read that fails at the limit",
        ["replay", "--bytes", "1045"],
        5,
        FIRST_REPLIES + FAULT,
        input=Broken(FIRST_OPERATOR),
    ),
]

WRITES = [
    Case(f"replay with standard output that is {output.value}", ["replay"], 6, input=FIRST, output=output)
    for output in (Output.FULL, Output.NO_READER)
] + [
    Case(f"print with standard output that is {output.value}", ["print", *FORM], 6, input=SOUND, output=output)
    for output in (Output.FULL, Output.NO_READER)
] + [
    Case("replay with standard output closed", ["replay"], 6, input=FIRST, output=Output.CLOSED),
    Case("print with standard output closed", ["print", *FORM], 6, input=SOUND, output=Output.CLOSED),
    Case("a summary alone that can't be written", ["replay"], 6, input=s(0, PRINTS), output=Output.FULL),
    Case("a bad record that can't be told", ["replay"], 6, input=b"X", output=Output.FULL),
    Case("too long an input that can't be told", ["replay", "--bytes", "10"], 6, input=FIRST, output=Output.FULL),
    Case("a read fault that can't be told", ["replay"], 6, input=Input.FOLDER, output=Output.FULL),
    Case("both closed", ["replay"], 6, input=Input.CLOSED, output=Output.CLOSED),
    Case("nothing to write to a full disk", ["print"], 0, output=Output.FULL),
    Case("nothing to write to a closed output", ["print"], 0, output=Output.CLOSED),
] + [
    Case(f"a disk with room for {room} bytes", ["replay"], 6, FIRST_REPORT[:room], input=FIRST, output=Room(room))
    for room in (1, 6, 10, len(FIRST_REPLIES), len(FIRST_REPORT) - 1)
] + [
    Case("a disk with room enough", ["replay"], 0, FIRST_REPORT, input=FIRST, output=Room(len(FIRST_REPORT))),
]

# A catalogue takes room for all its words at once, and these are 64 megabytes without anything else.
MEMORY = [
    Case(
        "memory that is refused",
        ["replay", "--positions", "16777216"],
        4,
        error=NO_MEMORY,
        input=FIRST,
        memory=48 * 2**20,
        unread=True,
    ),
]

CASES = READS + BREAKS + WRITES + MEMORY
