"""Bytes that are changed at random: flipped, cut out, doubled, or put in."""


def mutated(draw, stream, changes):
    """The stream with so many changes; three in ten of them are near its front."""
    stream = bytearray(stream)
    for _ in range(changes):
        at = draw.randrange(len(stream) + 1) if draw.random() < 0.7 else draw.randrange(min(20, len(stream)) + 1)
        size = draw.choice((1, 1, 2, 3, 8, 100))
        kind = draw.randrange(4)
        if kind == 0 and at < len(stream):
            stream[at] ^= 1 << draw.randrange(8)
        elif kind == 1:
            del stream[at : at + size]
        elif kind == 2:
            stream[at:at] = stream[at : at + size]
        else:
            stream[at:at] = draw.randbytes(size)
    return bytes(stream)
