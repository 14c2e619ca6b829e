"""The records of streams, cut and mixed at random, and the harm done to some inputs."""

from input_parts import operator_record, station_record


def mixed(r, stations, operator):
    """The records of the streams: in rounds, each stream's part of a round cut and mixed with those of the others."""
    rounds = r.choice([1, 2, 3, 5, 9])
    streams = [(s, b"".join(packets)) for s, packets in enumerate(stations) if packets is not None]
    parts = [[] for _ in range(rounds)]
    for s, data in streams:
        cuts = sorted(r.randrange(len(data) + 1) for _ in range(rounds - 1))
        for i, (low, high) in enumerate(zip([0] + cuts, cuts + [len(data)])):
            parts[i].append((s, data[low:high]))
    if operator is not None:
        early = r.random() < 0.85
        cuts = sorted(r.randrange(len(operator) + 1) if r.random() < 0.7 else len(operator) for _ in range(rounds - 1))
        whole = b"".join(operator)
        if rounds > 1 and early:
            cuts[0] = max(cuts[0], min(len(operator), r.choice([6, 8, 8, 12, len(operator)])))
            cuts.sort()
        ends = [len(b"".join(operator[:cut])) for cut in cuts]
        if r.random() < 0.2:  # also within commands
            ends = sorted(min(len(whole), max(0, end - r.randint(0, 300))) for end in ends)
        for i, (low, high) in enumerate(zip([0] + ends, ends + [len(whole)])):
            parts[i].insert(0, (None, whole[low:high]))
    out = []
    for part in parts:
        sizes = r.choice([(65535, 65535), (65535, 65535), (1, 5000), (1, 500), (1, 40), (2048, 2048), (8, 8)])
        if sum(len(data) for _, data in part) > 200000:
            sizes = r.choice([(65535, 65535), (1, 65535), (30000, 40000)])
        queues = []
        for s, data in part:
            queue, at = [], 0
            while at < len(data):
                size = r.randint(*sizes)
                queue.append((s, data[at : at + size]))
                at += size
            if queue:
                queues.append(queue[::-1])
        in_turn = r.random() < 0.75
        if in_turn:  # the operator's part first, then the stations' as they come
            for queue in queues:
                if queue[0][0] is None:
                    out += queue[::-1]
            queues = [queue for queue in queues if queue[0][0] is not None]
        while queues:
            queue = r.choice(queues)
            out.append(queue.pop())
            if not queue:
                queues.remove(queue)
        if r.random() < 0.1 and streams:
            out.append((r.choice(streams)[0], b""))
    return [operator_record(data) if s is None else station_record(s, data) for s, data in out]


def hurt_input(r, found, stations):
    """The input with one bad record or cut or changed byte."""
    sort = r.randrange(6)
    at = r.randint(0, len(found))
    if sort == 0:
        return (
            b"".join(found[:at])
            + bytes([r.choice([0, 82, 84, 78, 80, 83 + 32, r.randrange(256)])])
            + b"".join(found[at:])
        )
    if sort == 1:
        number = min(255, r.choice([stations, stations, 255, 64, stations + 1]))
        return b"".join(found[:at]) + station_record(number, r.randbytes(r.randint(0, 5))) + b"".join(found[at:])
    whole = b"".join(found)
    if sort in (2, 3):
        return whole[: r.choice([r.randrange(len(whole) + 1), max(0, len(whole) - r.randint(1, 5))])]
    if sort == 4 and whole:
        changed = bytearray(whole)
        changed[r.randrange(len(changed))] ^= 1 << r.randrange(8)
        return bytes(changed)
    return whole + r.choice([b"S", b"O", b"S\0", b"O\0\1", b"S\0\0", b"\0"])
