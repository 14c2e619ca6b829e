"""Connections to hkmon."""

import socket
import time

from .saying import Trouble

# seconds for which a refused connection is tried again: hkmon takes its memory before it listens
PATIENCE = 3.0


def address_of(text, port):
    """A host and a port of HOST, HOST:PORT or :PORT."""
    host, colon, number = text.rpartition(":")
    if not colon:
        host, number = text, str(port)
    if not number.isdigit() or not 1 <= int(number) <= 65535:
        raise Trouble(f"'{text}' is no address", f"write it as 127.0.0.1:{port}")
    return host or "127.0.0.1", int(number)


def connected(address, what):
    end = time.monotonic() + PATIENCE
    while True:
        try:
            return socket.create_connection(address, timeout=10)
        except OSError as error:
            if not isinstance(error, ConnectionRefusedError) or time.monotonic() >= end:
                where = f"{address[0]}:{address[1]}"
                raise Trouble(
                    f"{where} takes no {what} ({error.strerror or error})", "start hkmon first, and give its port"
                ) from error
        time.sleep(0.1)
