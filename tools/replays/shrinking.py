"""A smaller input of a kept case on which program and model still differ."""

import built
from record_lists import head_size, record_list
from replay_model import outcome
from running import keep, run


def with_body(record, body):
    return record[: head_size(record) - 2] + len(body).to_bytes(2, "big") + body


def joined(found):
    """Successive records of the same stream as one."""
    out = []
    for each in found:
        head = head_size(each)
        if out and out[-1][: head - 2] == each[: head - 2] and len(out[-1]) + len(each) < 60000 and len(each) >= head:
            out[-1] = with_body(each, out[-1][head:] + each[head:])
        else:
            out.append(each)
    return out


def fewer(items, holds):
    """The items, without runs of them that aren't needed for `holds`; the runs become shorter by halves."""
    size = max(1, len(items) // 2)
    while True:
        at = 0
        while at < len(items):
            rest = items[:at] + items[at + size :]
            if holds(rest):
                items = rest
            else:
                at += size
        if size == 1:
            return items
        size //= 2


def shrink(options):
    program, name = built.need(options.program), options.input.name.removesuffix(".input")
    beside = options.input.with_name(f"{name}.words")
    for path in (options.input, beside):
        built.need_file(path)
    data, words = options.input.read_bytes(), beside.read_text().split("\n")

    def unlike(words, data):
        return run(program, words, data) != outcome(words, data)

    if not unlike(words, data):
        print("no difference")
        return 0
    at = 1
    while at < len(words):  # options that don't matter
        without = words[:at] + words[at + 2 :]
        if unlike(without, data):
            words = without
        else:
            at += 2
    records = record_list(data)
    if unlike(words, b"".join(joined(records))):
        records = joined(records)
    records = fewer(records, lambda rest: unlike(words, b"".join(rest)))
    for i, each in enumerate(records):  # bytes that don't matter
        before, after = b"".join(records[:i]), b"".join(records[i + 1 :])
        body = fewer(each[head_size(each) :], lambda rest: unlike(words, before + with_body(each, rest) + after))
        records[i] = with_body(each, body)
    data = b"".join(records)
    path = keep(options.keep, f"{name}-small", words, data, outcome(words, data), run(program, words, data))
    print(f"{len(data)} bytes: {path}.input")
    return 1
