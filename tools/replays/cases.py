"""Cases: words and an input, drawn by their kind and seed."""

import random

from drawn_commands import commands_of, hurt_operator
from drawn_mutations import changed_input, small_case
from drawn_records import hurt_input, mixed
from drawn_sound import a_sound, in_audio, sound_form
from drawn_stations import in_packets, print_station
from drawn_words import TOP, some_length, some_words
from input_parts import (
    CLOSE,
    GAP,
    OPERATOR_HELLO,
    PRINTS,
    PUBLISH,
    add,
    audio,
    fence,
    open_song,
    operator_record,
    packet,
    prints,
    station_hello,
    station_record,
    withdraw,
)
from replay_model import OPTIONS
from sound_model import sound_prints


def option_words(r, values):
    names = list(values)
    r.shuffle(names)
    words = ["replay"]
    for name in names:
        words += [name, ("0" * r.randint(1, 5) if r.random() < 0.05 else "") + str(values[name])]
    return words


def a_hop(r):
    return r.choice([64, 64, 32, 128, 256, 255, 100, r.randint(1, 256), r.randint(20, 256), r.choice([1, 2, 3, 7])])


def finish(r, values, found, stations, hurt):
    data = hurt_input(r, found, stations) if r.random() < hurt else b"".join(found)
    if r.random() < 0.08:
        values["--bytes"] = max(
            1,
            r.choice(
                [len(data), len(data), len(data) - 1, len(data) + 1, r.randint(1, 20), r.randint(1, len(data) + 1)]
            ),
        )
    elif r.random() < 0.05:
        values["--bytes"] = 4000000000000000000
    return option_words(r, values), data


def station_count(r):
    return r.choice([1, 1, 1, 2, 2, 2, 3, 3, 4, 4, r.randint(5, 12), 64 if r.random() < 0.3 else 1])


def prints_case(r, operator=True):
    values = {"--hop": a_hop(r)}
    stations = station_count(r)
    if stations > 1 or r.random() < 0.1:
        values["--stations"] = stations
    if r.random() < 0.3:
        values["--flips"] = r.randint(0, 10)
    pool = []
    for _ in range(r.randint(1, 4)):
        pool.append(some_words(r, some_length(r), pool))
    ids = r.choice(
        [[7, 70], [1, 2, 3], [10, 9, 8, 100, 0, TOP], [r.getrandbits(32) for _ in range(6)], list(range(1, 12))]
    )
    commands = commands_of(r, pool, ids, r.choice([0, 0, 2, 5, 10]), 0.7) if operator else []
    versions = min(sum(each == PUBLISH for each in commands), 5)
    if operator:
        if r.random() < 0.25:
            values["--songs"] = r.choice([1, 1, 2, 3, 65536])
        if r.random() < 0.25:
            total = sum(len(song) for song in pool)
            values["--positions"] = max(
                256, r.choice([256, 512, total, total - 1, len(pool[0]), len(pool[0]) - 1, r.randint(256, total + 256)])
            )
        if r.random() < 0.2:
            values["--versions"] = r.choice([1, 1, 2, 3, 1000000000])
    operator_stream = [OPERATOR_HELLO] + commands if operator and r.random() < 0.95 else None
    if operator_stream and r.random() < 0.12:
        operator_stream = hurt_operator(r, operator_stream)
    most = 700 if stations <= 4 else 300
    packets = [print_station(r, pool, versions, most, 0.2) if r.random() < 0.93 else None for _ in range(stations)]
    if stations > 12:
        packets = [each if r.random() < 0.3 else [station_hello(PRINTS)] for each in packets]
    return finish(r, values, mixed(r, packets, operator_stream), stations, 0.07)


def operator_case(r):
    values = {
        "--songs": r.choice([1, 2, 3, 4, 1000]),
        "--positions": r.choice([256, 512, 600, 1024, 1048576]),
        "--versions": r.choice([1, 2, 3, 5, 1000000]),
    }
    for name in list(values):
        if r.random() < 0.3:
            del values[name]
    pool = []
    for _ in range(r.randint(0, 4)):
        pool.append(some_words(r, r.choice([256, 257, 300, 512, 255]), pool))
    ids = r.choice([[1, 2], [1, 2, 3, 4], [0, 5, TOP]])
    commands = commands_of(r, pool, ids, r.randint(5, 25), 1.0)
    if r.random() < 0.3:
        r.shuffle(commands)
    stream = [OPERATOR_HELLO] + commands
    if r.random() < 0.25:
        stream = hurt_operator(r, stream)
    station = print_station(r, pool, 2, 300, 0.1) if r.random() < 0.6 else [station_hello(PRINTS)]
    return finish(r, values, mixed(r, [station], stream), 1, 0.06)


def sound_case(r):
    values = {"--hop": a_hop(r)}
    if r.random() < 0.7:
        values["--flips"] = r.randint(0, 10)
    stations = r.choice([1, 1, 2, 3])
    if stations > 1:
        values["--stations"] = stations
    form, sort = sound_form(r), r.choice([0, 0, 0, 1, 2])
    commands, pool, versions = [], [], 0
    ids = [5, 6, 7]
    for _ in range(r.choice([1, 1, 2])):
        channels, factor = (r.choice([1, 2]), form[1]) if r.random() < 0.9 else (1, 1)
        data = a_sound(r, channels, factor, sort, True, song=True)
        words = [word for word, _ in sound_prints(channels, factor, 0, data)]
        pool.append(words)
        number = r.choice(ids)
        if r.random() < 0.75:
            song = [open_song(number, channels, factor)] + in_audio(r, data) + [CLOSE]
            if r.random() < 0.3:
                song.insert(
                    r.randint(1, len(song)),
                    r.choice(
                        [PUBLISH, CLOSE, open_song(9, 1, 1), withdraw(5), add(number, words), add(8, words), audio(b"")]
                    ),
                )
            commands += song
        else:
            commands.append(add(number, words))
        commands.append(PUBLISH)
        versions += 1
    if r.random() < 0.2:
        values["--positions"] = r.choice([256, 257, 512, 300])
    if r.random() < 0.1:
        commands += [withdraw(r.choice(ids)), PUBLISH]
    packets = []
    for _ in range(stations):
        if r.random() < 0.25:
            packets.append(print_station(r, pool, versions, 400, 0.1))
            continue
        channels, factor = (r.choice([1, 2]), form[1]) if r.random() < 0.9 else sound_form(r)
        out = [station_hello(channels, factor)]
        for _ in range(r.choice([1, 1, 2])):
            data = a_sound(r, channels, factor, sort, r.random() < 0.85)
            if r.random() < 0.15 and data:  # a wrong sample changes few frames
                changed = bytearray(data)
                changed[r.randrange(len(changed))] ^= 1 << r.randrange(8)
                data = bytes(changed)
            out += in_packets(r, data, lambda: fence(r.randint(0, versions)) if r.random() < 0.1 else b"")
            if r.random() < 0.6:
                out.append(GAP)
        if r.random() < 0.1:
            out.insert(r.randint(1, len(out)), GAP)
        if r.random() < 0.12:
            sort_of = r.randrange(3)
            if sort_of == 0:
                out.insert(r.randint(1, len(out)), packet(r.choice([2, 4, 3, 0]), b"\0"))
            elif sort_of == 1:
                whole = b"".join(out)
                out = [whole[: r.randrange(len(whole) + 1)]]
            else:
                head = bytearray(out[0])
                head[r.choice([4, 5])] = r.choice([0, 1, 2, 3, 4, 8, 16, 48])
                out[0] = bytes(head)
        packets.append(out)
    operator = [OPERATOR_HELLO] + commands
    return finish(r, values, mixed(r, packets, operator if r.random() < 0.95 else None), stations, 0.05)


def words_case(r):
    """Words in and out of their form, on a small input."""

    def number(name):
        least, greatest, default = OPTIONS[name]
        if name == "--positions":
            greatest = 2**20  # room is taken at opening
        value = str(
            r.choice(
                [
                    least,
                    greatest,
                    default,
                    least,
                    r.randint(least, greatest),
                    r.randint(least, greatest),
                    r.choice([max(least - 1, 0), OPTIONS[name][1] + 1, least]),
                ]
            )
        )
        odd = r.randrange(150)
        return {
            0: "",
            1: "+" + value,
            2: "-1",
            3: "0x10",
            4: value.zfill(19),
            5: value.zfill(20),
            6: " " + value,
            7: value + " ",
            8: "9" * 19,
            9: "9" * 20,
            10: "18446744073709551617",
            11: "1.0",
            12: "\u0661",
            13: value + "\n",
            14: "1e1",
            15: "0" * 19,
        }.get(odd, value)

    names = r.sample(list(OPTIONS), r.randint(0, 7))
    words = ["replay"]
    for name in names:
        words += [name, number(name)]
    odd = r.randrange(20)
    if odd == 0:
        words[0] = r.choice(["Replay", "", "repla", "replays", "--replay", "help", "--help", "-h"])
    elif odd == 1:
        words.insert(r.randint(0, len(words)), r.choice(["--", "", "replay", "-h", "--help", "--version", "64"]))
    elif odd == 2 and names:
        words += [names[0], number(names[0])]
    elif odd == 3 and len(words) > 1:
        words.pop()
    elif odd == 4:
        words += [
            r.choice(["--channels", "--factor", "--depth", "--Hop", "--hop ", "-hop", "hop", "--workers", "--hops"]),
            "1",
        ]
    elif odd == 5 and names:
        words[1:3] = ["=".join(words[1:3])]
    elif odd == 6:
        words = []
    song = list(range(256))
    data = operator_record(OPERATOR_HELLO + add(7, song) + PUBLISH) + station_record(
        0, station_hello(PRINTS) + packet(1, prints(song))
    )
    return words, data if r.random() < 0.7 else b""


def tiny_case(r):
    """A few bytes of each stream, which are in order about as often as not."""

    def some(alphabet, least, most):
        return bytes(r.choice(alphabet) for _ in range(r.randint(least, most)))

    stations = r.choice([1, 1, 2, 3])
    packets = []
    for _ in range(stations):
        wrong = [b"HKS1\0\2", b"HKS1\2\3", b"HKS2\0\1", b"HKO1\0\1", b"HKS1\3\1", b"HKS1\0\0", b"HKS1\1\x10"]
        out = [r.choice([b"HKS1\0\1", b"HKS1\0\1", b"HKS1\1\1", b"HKS1\2\x08"] if r.random() < 0.9 else wrong)]
        for _ in range(r.randint(0, 5)):
            out.append(
                r.choice(
                    [
                        packet(1, some(b"\0\0\1\xff", 0, 12)),
                        packet(1, some(b"\0\3", 8, 8)),
                        fence(r.randint(0, 2)),
                        GAP,
                        GAP,
                        some(bytes(range(6)), 0, 4),
                    ]
                )
            )
        whole = b"".join(out)
        packets.append([whole] if r.random() < 0.6 else [whole[: r.randrange(len(whole) + 1)]])
    out = [b"HKO1" if r.random() < 0.9 else r.choice([b"HKO2", b"HKS1", b"hKO1", b"HJO1"])]
    for _ in range(r.randint(0, 8)):
        out.append(
            r.choice(
                [
                    PUBLISH,
                    PUBLISH,
                    CLOSE,
                    open_song(1, r.choice([1, 2]), r.choice([1, 2, 4, 8])),
                    open_song(2, r.choice([0, 1, 2, 3]), r.choice([0, 1, 3, 8])),
                    audio(some(b"\0\xff", 0, 9)),
                    withdraw(1),
                    add(1, list(some(b"\0\1", 0, 3))),
                    some(bytes(range(8)), 1, 6) if r.random() < 0.4 else PUBLISH,
                ]
            )
        )
    whole = b"".join(out)
    operator = None if r.random() < 0.1 else [whole] if r.random() < 0.6 else [whole[: r.randrange(len(whole) + 1)]]
    values = {"--versions": r.choice([1, 2, 3])}
    if stations > 1:
        values["--stations"] = stations
    return finish(r, values, mixed(r, packets, operator), stations, 0.25)


def mutated_case(r):
    """An input with some bytes or records changed: most often a small one, and now and then one of another kind."""
    if r.random() < 0.75:
        values, data = small_case(r)
        return option_words(r, values), data
    words, data = r.choices((tiny_case, prints_case, operator_case, sound_case), (100, 100, 50, 2))[0](r)
    return words, changed_input(r, data)


MIXED = {
    "tiny": tiny_case,
    "stations": lambda r: prints_case(r, operator=False),
    "prints": prints_case,
    "operator": operator_case,
    "sound": sound_case,
    "words": words_case,
}
KINDS = {**MIXED, "mutated": mutated_case}


def case(kind, seed):
    r = random.Random(f"{kind} {seed}")
    chosen = kind
    if kind == "mixed":
        chosen = r.choices(list(MIXED), (10, 5, 55, 20, 5, 5))[0]
    return KINDS[chosen](r)
