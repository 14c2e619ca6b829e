"""Small inputs in order, of which some streams, records or bytes are then changed."""

from drawn_records import mixed
from drawn_words import u32
from input_parts import GAP, OPERATOR_HELLO, PRINTS, PUBLISH, add, fence, packet, station_hello, withdraw
from mutations import mutated
from record_lists import record_list


def few_errors(r, word):
    """A print of this word: as it is, or with some bits wrong, or with weak bits."""
    sort = r.randrange(4)
    if sort < 2:
        return u32(word) + u32(0)
    bit = 1 << r.randrange(32)
    return u32(word ^ bit) + u32(bit if sort == 2 else 0)


def small_station(r, song):
    """A station's packets: prints of the song's words, in a few packets, with a fence or a gap."""
    first = r.choice([0, 0, r.randrange(10)])
    prints = b"".join(few_errors(r, word) for word in (song + song)[first : first + r.choice([256, 257, 280])])
    at = r.randrange(0, len(prints) + 1, 8)
    between = r.choice([b"", b"", fence(r.randrange(3)), GAP])
    return [station_hello(PRINTS), packet(1, prints[:at]), between, packet(1, prints[at:])]


def small_operator(r, songs):
    """An operator's commands: recordings that are added, published, withdrawn."""
    out = [OPERATOR_HELLO]
    for number, song in enumerate(songs, 1):
        out.append(add(number, song))
        if r.random() < 0.7:
            out.append(PUBLISH)
    if r.random() < 0.3:
        out += [withdraw(r.randrange(3)), PUBLISH]
    return out


def changed_order(r, records):
    """The records with some of them left out, doubled, moved or turned round."""
    records = list(records)
    for _ in range(r.choice([1, 1, 2, 4])):
        if not records:
            break
        sort, at = r.randrange(4), r.randrange(len(records))
        if sort == 0:
            del records[at]
        elif sort == 1:
            records.insert(r.randrange(len(records) + 1), records[at])
        elif sort == 2:
            records.insert(r.randrange(len(records)), records.pop(at))
        else:
            records[at : at + 3] = records[at : at + 3][::-1]
    return records


def commands_in(calls):
    """An operator's bytes cut behind its hello and behind each command, as far as they are in order."""
    out, at = [calls[:4]], 4
    while at < len(calls):
        after = at + 5 + int.from_bytes(calls[at + 1 : at + 5], "big")
        out.append(calls[at:after])
        at = after
    return out


def some_changes(r):
    return r.choice([1, 1, 1, 2, 3, 10])


def changed_input(r, data):
    """The input with its records in another order, or with some bytes changed, or both."""
    sort = r.randrange(4)
    if sort:
        data = b"".join(changed_order(r, record_list(data)))
    return mutated(r, data, some_changes(r)) if sort < 2 else data


def small_case(r):
    """The options' values and the input of a small replay of prints, changed in its streams or behind them."""
    songs = [[r.getrandbits(32) for _ in range(r.choice([256, 256, 257, 270]))] for _ in range(r.choice([1, 1, 2]))]
    stations = [small_station(r, r.choice(songs)) for _ in range(r.choice([1, 1, 2]))]
    values = {"--songs": 2, "--positions": r.choice([512, 540, 2000]), "--hop": r.choice([1, 8, 64, 64, 256])}
    if len(stations) > 1 or r.random() < 0.1:
        values["--stations"] = r.choice([len(stations), len(stations), 64])
    if r.random() < 0.2:
        values["--versions"] = r.choice([1, 2])
    streams = [b"".join(packets) for packets in (*stations, small_operator(r, songs))]
    if is_in_streams := r.random() < 0.7:
        chosen = r.randrange(len(streams))
        streams[chosen] = mutated(r, streams[chosen], some_changes(r))
    data = b"".join(mixed(r, [[stream] for stream in streams[:-1]], commands_in(streams[-1])))
    if not is_in_streams or r.random() < 0.2:
        data = changed_input(r, data)
    if r.random() < 0.05:
        values["--bytes"] = r.randint(1, len(data) + 2)
    return values, data
