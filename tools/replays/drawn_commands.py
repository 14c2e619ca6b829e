"""The operator's commands, drawn at random, and the harm done to some."""

from drawn_words import some_length, some_words, u32
from input_parts import CLOSE, PUBLISH, add, audio, command, open_song, withdraw
from print_sound import made

SHORT_SOUND = [made(seed, 5000) for seed in (1, 2)] + [bytes(5000)]


def some_audio(r):
    """Little sound, of at most a few prints."""
    base = SHORT_SOUND[r.randrange(3)]
    return base[: r.choice([0, 1, 2, 7, 100, 4095, 4096, 4223, 4224, 4225, 4300, r.randint(0, 5000)])]


def commands_of(r, pool, ids, many, fuss):
    """Commands that add most of the pool and publish, with others among them. `fuss` is how often these are odd."""
    out, there = [], {}
    for song in pool:
        if r.random() < 0.9:
            free = [number for number in ids if number not in there]
            number = r.choice(free if free and r.random() < 0.8 else ids)
            out.append(add(number, song))
            there[number] = song
        if r.random() < 0.25:
            out.append(PUBLISH)
    out.append(PUBLISH)
    for _ in range(many):
        sort = r.random()
        if sort < 0.25:
            out.append(PUBLISH)
        elif sort < 0.4:
            number = r.choice(list(there) or ids) if r.random() < 0.7 else r.choice(ids + [r.getrandbits(32)])
            there.pop(number, None)
            out.append(withdraw(number))
        elif sort < 0.6:
            number = r.choice(ids)
            song = r.choice(pool) if pool and r.random() < 0.8 else some_words(r, some_length(r), pool)
            there[number] = song
            out.append(add(number, song))
        elif sort < 0.6 + 0.4 * fuss:
            odd = r.randrange(8)
            if odd == 0:
                out.append(add(r.choice(ids), some_words(r, r.choice([0, 1, 100, 254, 255]), pool)))
            elif odd == 1:
                out.append(CLOSE)
            elif odd == 2:
                out.append(audio(some_audio(r)))
            elif odd in (3, 4):
                out.append(open_song(r.choice(ids), r.choice([1, 2]), r.choice([1, 1, 2, 4, 8])))
            elif odd == 5:
                song = [open_song(r.choice(ids), r.choice([1, 2]), r.choice([1, 1, 2]))]
                song += [audio(some_audio(r)) for _ in range(r.randint(0, 2))]
                if r.random() < 0.3:
                    song.append(
                        r.choice([PUBLISH, withdraw(r.choice(ids)), add(r.choice(ids), r.choice(pool) if pool else [])])
                    )
                out += song + [CLOSE]
            elif odd == 6:
                out += [withdraw(r.choice(ids)), add(r.choice(ids), r.choice(pool) if pool else [])]
            else:
                out += [PUBLISH, PUBLISH]
    return out


def hurt_operator(r, out):
    out = list(out)
    sort = r.randrange(9)
    at = r.randint(1, len(out))
    if sort == 0:
        head = bytearray(out[0])
        head[r.randrange(4)] = r.randrange(256)
        out[0] = bytes(head)
    elif sort == 1:
        out.insert(at, command(r.choice([0, 7, 8, 255, 79, r.randrange(256)]), r.randbytes(r.randint(0, 9))))
    elif sort == 2:
        kind, size = r.choice(
            [
                (1, 0),
                (1, 3),
                (1, 5),
                (1, 1030),
                (2, 5),
                (2, 7),
                (4, 1),
                (4, 256),
                (5, 0),
                (5, 3),
                (5, 8),
                (6, 1),
                (6, 4),
            ]
        )
        out.insert(at, command(kind, r.randbytes(size)))
    elif sort in (3, 4):
        out.insert(
            at,
            command(
                2,
                u32(r.getrandbits(32))
                + bytes(r.choice([(0, 1), (3, 1), (1, 0), (1, 3), (2, 16), (255, 255), (2, 48)])),
            ),
        )
    elif sort == 5:
        whole = b"".join(out)
        return [whole[: r.choice([r.randrange(len(whole) + 1), r.randrange(min(12, len(whole)) + 1), len(whole) - 1])]]
    elif sort == 6:
        whole = bytearray(b"".join(out))
        whole[r.randrange(len(whole))] ^= 1 << r.randrange(8)
        return [bytes(whole)]
    elif sort == 7:
        i = r.randrange(len(out))
        head = bytearray(out[i])
        head[r.randrange(min(5, len(head)))] = r.randrange(256)
        out[i] = bytes(head)
    else:
        out.append(r.randbytes(r.randint(1, 10)))
    return out
