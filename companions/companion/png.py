"""A picture as PNG, by the standard library."""

import struct
import zlib


def chunk(kind, content):
    return struct.pack(">I", len(content)) + kind + content + struct.pack(">I", zlib.crc32(kind + content))


def png_of(rows):
    """Rows of (red, green, blue) triples, all of one length, to the bytes of a PNG."""
    width, height = len(rows[0]), len(rows)
    content = b"".join(b"\0" + b"".join(bytes(pixel) for pixel in row) for row in rows)
    head = struct.pack(">IIBBBBB", width, height, 8, 2, 0, 0, 0)
    return (
        b"\x89PNG\r\n\x1a\n" + chunk(b"IHDR", head) + chunk(b"IDAT", zlib.compress(content, 9)) + chunk(b"IEND", b"")
    )


def enlarged(rows, times):
    """Each pixel as a square."""
    return [wide for row in rows for wide in [[pixel for pixel in row for _ in range(times)]] * times]
