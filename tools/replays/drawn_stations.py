"""Stations of prints, drawn at random, and the harm done to some."""

from drawn_words import TOP, error_plan, some_words, u32, with_errors
from input_parts import GAP, PRINTS, fence, packet, station_hello
from streams_model import BLOCK


def prints_bytes(words, masks):
    return b"".join(u32(word) + u32(mask) for word, mask in zip(words, masks))


def a_segment(r, pool, most):
    """Bytes of prints: plays of songs with errors, and other prints between."""
    out = b""
    for _ in range(r.choice([1, 1, 1, 1, 2])):
        count = min(most, r.choice([256, 256, 320, 255, 300, 257, 600, r.randint(1, 255), r.randint(256, 600)]))
        if pool and r.random() < 0.93:
            song = r.choice(pool)
            at = r.choice(
                [0, 0, 0, max(0, len(song) - 256), r.randrange(max(0, len(song) - 256) + 1), r.randrange(len(song) + 1)]
            )
            words = song[at : at + count]
            wrong, weak = error_plan(r) if r.random() < 0.8 else ([0] * BLOCK, [0] * BLOCK)
            words = with_errors(r, words, wrong)
        else:
            words = some_words(r, count, pool)
            weak = error_plan(r)[1] if r.random() < 0.4 else [0] * BLOCK
        out += prints_bytes(words, [weak[i % BLOCK] for i in range(len(words))])
    if r.random() < 0.15:
        out = out[: r.randrange(len(out) + 1)]  # the rest is no whole print
    return out


def print_segment(r, pool, most):
    """Whether a gap should follow, and the bytes."""
    data = a_segment(r, pool, most)
    return len(data) % 8 != 0 and r.random() < 0.9, data


def in_packets(r, data, between):
    """Data packets of random sizes, with packets of `between` (a function) in some places."""
    sizes = r.choice([(65535, 65535), (2048, 2048), (1, 3000), (1, 600), (0, 60)])
    out, at = [], 0
    if r.random() < 0.1:
        out.append(packet(1))
    while at < len(data):
        size = r.randint(*sizes)
        out.append(packet(1, data[at : at + size]))
        at += size
        if r.random() < (0.2 if len(out) < 40 else 0.01):
            extra = between()
            if extra:
                out.append(extra)
    return out


def a_fence(r, versions):
    asked = r.choice(
        [
            0,
            1,
            1,
            versions,
            versions,
            versions,
            max(0, versions - 1),
            versions + 1 if r.random() < 0.3 else 0,
            TOP if r.random() < 0.1 else 1,
            r.randint(0, versions + 1),
        ]
    )
    return fence(asked)


def print_station(r, pool, versions, most, hurt):
    """A station's packets."""
    out = [station_hello(PRINTS)]
    fences = r.random() < 0.4
    for _ in range(r.choice([1, 1, 2, 3])):
        if fences and r.random() < 0.5:
            out.append(a_fence(r, versions))
        must, data = print_segment(r, pool, most)
        out += in_packets(
            r, data, lambda: a_fence(r, versions) if fences and r.random() < 0.2 else GAP if r.random() < 0.03 else b""
        )
        if must or r.random() < 0.85:
            out.append(GAP)
    if r.random() < hurt:
        out = hurt_station(r, out)
    return out


def hurt_station(r, out):
    out = list(out)
    sort = r.randrange(12)
    at = r.randint(1, len(out))
    if sort == 0:
        head = bytearray(out[0])
        head[r.randrange(6)] = r.choice([0, 1, 2, 3, 5, 8, 255, r.randrange(256)])
        out[0] = bytes(head)
    elif sort == 1:
        out.insert(at, packet(r.choice([0, 4, 5, 255, 72, r.randrange(256)]), r.randbytes(r.randint(0, 4))))
    elif sort == 2:
        out.insert(at, packet(2, r.randbytes(r.choice([0, 3, 5, 8, 1024, 260]))))
    elif sort == 3:
        out.insert(at, packet(3, r.randbytes(r.choice([1, 4, 256]))))
    elif sort in (4, 5, 6):  # a print with too many weak bits, or just not
        bits = r.choice([11, 11, 11, 10, 12, 32])
        sent = u32(r.getrandbits(32)) + u32(sum(1 << bit for bit in r.sample(range(32), bits)))
        out.insert(at, packet(1, r.choice([sent, sent[:7], prints_bytes([1] * 3, [0] * 3) + sent])))
    elif sort == 7:
        whole = b"".join(out)
        return [whole[: r.choice([r.randrange(len(whole) + 1), r.randrange(min(12, len(whole)) + 1), len(whole) - 1])]]
    elif sort == 8:
        whole = bytearray(b"".join(out))
        whole[r.randrange(len(whole))] ^= 1 << r.randrange(8)
        return [bytes(whole)]
    elif sort == 9:
        i = r.randrange(len(out))
        head = bytearray(out[i])
        head[r.randrange(min(3, len(head)))] = r.randrange(256)
        out[i] = bytes(head)
    elif sort == 10:
        del out[r.randrange(len(out))]
    else:
        out.append(r.randbytes(r.randint(1, 10)))
    return out
