"""What hkreplay prints: lines of prints, reports and the summary, read back."""

from dataclasses import dataclass

from .saying import Trouble, unreadable


def read_prints(path):
    """Pairs of a word and a mask, of the lines of `hkreplay print`."""
    try:
        with open(path, encoding="ascii") as file:
            lines = file.read().splitlines()
    except (OSError, UnicodeDecodeError) as error:
        if isinstance(error, OSError):
            raise unreadable(path, error) from error
        raise Trouble(f"{path} has no prints", "give what hkreplay print wrote") from error
    prints = []
    for number, line in enumerate(lines):
        words = line.split(" ")
        try:
            if len(words) != 3 or int(words[0]) != number:
                raise ValueError
            prints.append((int(words[1], 16), int(words[2], 16)))
        except ValueError:
            raise Trouble(f"line {number + 1} of {path} is no print", "give what hkreplay print wrote") from None
    return prints


@dataclass(frozen=True)
class Item:
    number: int
    start: int
    errors: int


@dataclass(frozen=True)
class Block:
    """One report line."""

    station: int
    block: int
    segment: int
    first: int
    version: int
    items: tuple


def block_of(line):
    """The report line's block, or None for a line of another kind; a line that begins as a report must be one."""
    if not line.startswith("S "):
        return None
    try:
        head, _, listed = line.partition(": ")
        words = head.split(" ")
        if words[0::2] != ["S", "B", "G", "W", "V"] or not listed:
            raise ValueError
        items = [] if listed == "none" else [item_of(text) for text in listed.split(" ")]
        return Block(*(int(word) for word in words[1::2]), tuple(items))
    except ValueError:
        raise Trouble(f"'{line[:60]}' is no report line", "give what hkreplay or hkmon wrote") from None


def item_of(text):
    number, _, rest = text.partition("@")
    start, _, errors = rest.partition("~")
    return Item(int(number), int(start), int(errors))
