"""The records of an input."""


def head_size(record):
    return 4 if record[:1] == b"S" else 3


def record_list(data):
    """The records of an input."""
    out, at = [], 0
    while at < len(data):
        body = at + head_size(data[at:])
        end = body + int.from_bytes(data[body - 2 : body], "big")
        out.append(data[at:end])
        at = end
    return out
