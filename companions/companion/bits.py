"""hk bits: a block beside a recording as a picture of their bit errors."""

from .options import add_options, settings_of
from .png import enlarged, png_of
from .printed import block_of, read_prints
from .program import program_path
from .saying import Trouble, unreadable
from .sound import BLOCK
from .taking import taken

WHAT = "draw a block against a recording as a picture of bit errors"
HELP = """Draws three panels: the block's 256 words, the recording's 256 words, and the bits that differ in red. The
earliest word is at the top, the highest bit at the left, and a bit that is set is black. The bit errors
are said beside it.

  hk bits --input day.input --line 'S 0 B 0 G 0 W 0 V 1: 7@12~310' -o block.png
  hk bits --block heard.prints --from 0 --recording song.prints --at 12 -o block.png"""

SET, CLEAR, DIFFERENT, AROUND = (0, 0, 0), (255, 255, 255), (200, 0, 0), (160, 160, 160)
BITS = 32
BETWEEN = 4


def arguments(parser):
    parser.add_argument("--input", help="a replay's input; - isn't taken here")
    parser.add_argument("--line", help="a report line that hkreplay printed for it")
    parser.add_argument("--id", type=int, help="which of the line's recordings (the one with the fewest errors)")
    parser.add_argument("--block", metavar="PRINTS", help="prints of what was heard, as hkreplay print prints them")
    parser.add_argument("--from", dest="first", type=int, default=0, metavar="W", help="the block's first print (0)")
    parser.add_argument("--recording", metavar="PRINTS", help="prints of the recording")
    parser.add_argument("--at", type=int, default=0, metavar="W", help="the recording's first print (0)")
    parser.add_argument("-o", "--output", required=True, help="the picture, a PNG")
    parser.add_argument("--scale", type=int, default=3, metavar="N", help="pixels of a bit (3)")
    parser.add_argument("--program", help="hkreplay, which makes prints of sound")
    add_options(parser)


def run(given, speaker):
    if not 1 <= given.scale <= 32:
        raise Trouble(f"--scale {given.scale}", "give a number from 1 to 32")
    by_line, by_prints = (given.input, given.line), (given.block, given.recording)
    if None not in by_line and by_prints == (None, None):
        heard, known = words_by_line(given)
    elif None not in by_prints and by_line == (None, None):
        heard = span([word for word, _ in read_prints(given.block)], given.first, given.block)
        known = span([word for word, _ in read_prints(given.recording)], given.at, given.recording)
    else:
        raise Trouble("no block and recording", "give --input and --line, or --block and --recording")
    errors = sum((one ^ other).bit_count() for one, other in zip(heard, known))
    try:
        with open(given.output, "wb") as file:
            file.write(png_of(enlarged(picture(heard, known), given.scale)))
    except OSError as error:
        raise unreadable(given.output, error, "give a place that can be written") from error
    print(f"{errors} of {BITS * BLOCK} bits differ ({100 * errors / (BITS * BLOCK):.1f} %): {given.output}")
    return 0


def words_by_line(given):
    block = block_of(given.line.strip())
    if block is None or not block.items:
        raise Trouble("--line is no report line with a recording", "give a line as hkreplay printed it")
    items = [item for item in block.items if given.id in (None, item.number)]
    if not items:
        raise Trouble(f"the line has no recording {given.id}", "give one of its ids")
    item = min(items, key=lambda one: one.errors)
    settings = settings_of(given)
    if given.stations is None:
        settings.stations = max(settings.stations, block.station + 1)
    try:
        with open(given.input, "rb") as file:
            heard, known = taken(file, block, item, settings, program_path(given.program))
    except OSError as error:
        raise unreadable(given.input, error) from error
    return span(heard, block.first, "the segment"), span(known, item.start, f"recording {item.number}")


def span(words, first, name):
    """The 256 words from `first` on."""
    if first < 0 or first + BLOCK > len(words):
        raise Trouble(
            f"{name} has {len(words)} prints, and {BLOCK} from {first} on were asked for", "give an earlier one"
        )
    return words[first : first + BLOCK]


def picture(heard, known):
    """Three panels of 32 bits, with a space around each."""
    between = [AROUND] * BETWEEN
    rows = [[AROUND] * (3 * BITS + 4 * BETWEEN)] * BETWEEN
    for one, other in zip(heard, known):
        panels = (bits_of(one, SET), bits_of(other, SET), bits_of(one ^ other, DIFFERENT))
        row = list(between)
        for panel in panels:
            row += panel + between
        rows.append(row)
    return rows + rows[:BETWEEN]


def bits_of(word, colour):
    return [colour if word >> place & 1 else CLEAR for place in reversed(range(BITS))]
