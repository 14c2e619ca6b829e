"""Words of songs, and wrong bits and weak bits for prints, drawn at random."""

from desk_model import LIMIT
from streams_model import BLOCK

TOP = 0xFFFFFFFF


def u32(n):
    return n.to_bytes(4, "big")


def some_words(r, count, pool):
    """Words of one of several sorts, long runs and repetitions among them."""
    sort = r.randrange(8)
    if sort <= 2 or (sort >= 6 and not pool):
        return [r.getrandbits(32) for _ in range(count)]
    if sort == 3:
        few = [r.getrandbits(32) for _ in range(r.randint(1, 5))]
        return [r.choice(few) for _ in range(count)]
    if sort == 4:
        first, step = r.getrandbits(32), r.choice([0, 1, 1, 2, 256, 65537])
        return [(first + step * i) & TOP for i in range(count)]
    if sort == 5:
        part = [r.getrandbits(32) for _ in range(r.randint(1, 80))]
        return [part[i % len(part)] for i in range(count)]
    song = r.choice(pool)
    at = r.randrange(len(song)) if song else 0
    words = (song[at:] + [r.getrandbits(32) for _ in range(count)])[:count]
    if sort == 7:
        words = with_errors(r, words, error_plan(r)[0])
    return words


def some_length(r):
    return r.choice(
        [
            256,
            256,
            257,
            258,
            300,
            320,
            400,
            r.randint(256, 330),
            r.randint(256, 700),
            r.randint(256, 500),
            r.randint(900, 1300),
        ]
    )


def spread(r, total, places, least):
    """So many errors over these places, at least `least` and at most 32 at each."""
    counts = {j: least for j in places}
    left = total - least * len(places)
    open_places = list(places)
    while left > 0 and open_places:
        j = r.choice(open_places)
        more = min(left, 32 - counts[j], r.choice([1, 1, 2, 5, 30]))
        counts[j] += more
        left -= more
        if counts[j] == 32:
            open_places.remove(j)
    return counts


def error_plan(r):
    """The wrong bits of the print at each place of 256, and the weak bits that cover some of them.

    Successive blocks meet the same places in another order, so all of them have the same number of errors."""
    total = r.choice(
        [
            0,
            1,
            5,
            255,
            256,
            1000,
            2000,
            LIMIT - 1,
            LIMIT,
            LIMIT,
            LIMIT,
            LIMIT - r.randint(0, 9),
            LIMIT + 1,
            LIMIT + 2,
            r.randint(0, 4000),
            r.randint(2800, 2880),
        ]
    )
    hits = r.choice([0, 1, 1, 1, 1, 2, 2, 5, 60])
    chosen = r.sample(range(BLOCK), hits)
    if hits == 1 and r.random() < 0.3:
        chosen = [r.choice([0, 255])]
    others = [j for j in range(BLOCK) if j not in chosen]
    counts = spread(r, total, others, 1 if total >= len(others) and r.random() < 0.8 else 0)
    wrong, weak = [0] * BLOCK, [0] * BLOCK
    for j, count in counts.items():
        wrong[j] = sum(1 << bit for bit in r.sample(range(32), count))
    covered = r.choice([False, True, True])
    for j in chosen:
        if covered:  # the print itself is wrong, and right with some weak bits flipped
            moved = r.randint(1, 10)
            wrong[j] = sum(1 << bit for bit in r.sample(range(32), moved))
            k = r.choice(others)
            while moved and wrong[k]:  # the total stays
                wrong[k] &= wrong[k] - 1
                moved -= 1
            weak[j] = wrong[j] if r.random() < 0.85 else wrong[j] & (wrong[j] - 1)
    often = r.choice([0, 0.2, 0.2, 1])
    for j in range(BLOCK):
        if r.random() < often:
            bits = r.sample(range(32), r.randint(0, 10 - min(10, weak[j].bit_count())))
            near = sum(1 << bit for bit in bits)
            if r.random() < 0.5:  # all but one of the wrong bits
                near = (near | wrong[j] & (wrong[j] - 1)) if (near | wrong[j]).bit_count() <= 10 else near
            if (weak[j] | near).bit_count() <= 10:
                weak[j] |= near
    return wrong, weak


def with_errors(r, words, wrong):
    return [word ^ wrong[i % BLOCK] for i, word in enumerate(words)]
