"""Report lines to plays: items that lie on one line of station time against recording time are one play."""

from dataclasses import dataclass, field

from .sound import BLOCK

# how far, in prints, the place in a recording may move from one block to the next: speeds differ, frames are shifted
DRIFT = 8
# and so much more for each print since then: the speed of a play may be a little wrong
SPEED = 0.02
# the same over a gap, in seconds: the clock of a connection is no better
GAP_DRIFT = 2.0


@dataclass
class Hit:
    """One item of a report line, in prints and in seconds of the station."""

    block: object
    item: object
    second: float

    def alignment(self):
        return self.block.first - self.item.start


@dataclass
class Play:
    """A recording on a station, from its first block to its last one."""

    station: int
    number: int
    hits: list = field(default_factory=list)
    joins: list = field(default_factory=list)
    repeats: int = 0

    def first(self):
        return self.hits[0]

    def last(self):
        return self.hits[-1]

    def errors(self):
        return [hit.item.errors for hit in self.hits]


class Grouping:
    """Takes the report lines of one station in their order, and gives its plays."""

    def __init__(self, station, beside, join):
        self.station, self.beside, self.join = station, beside, join
        self.open, self.done = [], []

    def second(self, block):
        """The block's first moment, in seconds that go on over gaps: by the clock, else by what was sent."""
        within = block.first * self.beside.print_seconds()
        began, origin = self.beside.began(self.station, block.segment), self.beside.began(self.station, 0)
        if began and origin:
            return (began - origin).total_seconds() + within
        before = self.beside.second_of(self.station, block.segment)
        return within + (before or 0.0)

    def take(self, block):
        """One report line: of each recording the item with the fewest errors, first one that a play goes on with."""
        second = self.second(block)
        best = {}
        for item in block.items:
            hit = Hit(block, item, second)
            rank = (item.errors, self.going_on(hit) is None, item.start)
            if item.number not in best or rank < best[item.number][0]:
                best[item.number] = (rank, hit)
        for _, hit in best.values():
            self.place(hit)
        still = []
        for play in self.open:
            (still if second - self.end_of(play.last()) <= self.join else self.done).append(play)
        self.open = still

    def end_of(self, hit):
        return hit.second + self.beside.block_seconds()

    def going_on(self, hit):
        """The open play that the item continues, or None."""
        for play in self.open:
            if play.number == hit.item.number and self.continues(play, hit):
                return play
        return None

    def continues(self, play, hit):
        last = play.last()
        if hit.second - self.end_of(last) > self.join:
            return False
        if last.block.segment == hit.block.segment:
            drift = DRIFT + SPEED * (hit.block.first - last.block.first)
            return abs(hit.alignment() - last.alignment()) <= drift
        step = self.beside.print_seconds()
        moved = (hit.second - hit.item.start * step) - (last.second - last.item.start * step)
        return abs(moved) <= GAP_DRIFT

    def place(self, hit):
        play = self.going_on(hit)
        if play is None:
            self.open.append(Play(self.station, hit.item.number, [hit]))
            return
        last = play.last()
        missing = hit.second - self.end_of(last)
        # blocks that neighbour each other overlap; where they don't, blocks between them had no match
        if last.block.segment != hit.block.segment or missing > 0:
            play.joins.append((self.end_of(last), max(0.0, missing)))
        play.hits.append(hit)

    def finish(self):
        """The plays in the order of their beginnings; one inside a longer one of its recording is a repeat in that."""
        found = sorted(self.done + self.open, key=lambda play: (-len(play.hits), play.first().second))
        kept = []
        for play in found:
            longer = next((one for one in kept if self.lies_inside(play, one)), None)
            if longer is None:
                kept.append(play)
            else:
                longer.repeats += len(play.hits)
        return sorted(kept, key=lambda play: (play.first().second, play.number))

    def lies_inside(self, play, longer):
        if play.number != longer.number:
            return False
        step = BLOCK * self.beside.print_seconds()
        return (
            longer.first().second - step <= play.first().second and play.last().second <= longer.last().second + step
        )
