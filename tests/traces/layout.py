#!/usr/bin/env python3
"""A second reading and writing of traces, made from the words of document 02's Orders 1, 7, 8, 9 and 13 alone, to hold libspindle.a to.

usage: layout.py rows FILE      writes FILE, some hundred rows of calls for `traces play`, and prints what it must print
       layout.py strings FILE   writes FILE, byte strings for `traces judge`, and prints what it must print of each of them, and of small traces also
                                for every truncation and every single-byte change
       layout.py puts FILE      writes FILE, some hundred rows of puts for `traces puts`, and prints what it must print: each answer, the whole buffer,
                                what a seal of every number of bytes does, and which record begins at every place
       layout.py --help         this text

A row of words is told as the number that it spells, modulo 2^61 - 1. Exit status 2: bad usage.
"""
import random
import struct
import sys

MOST = 4096
NAN = 0x7FF8000000000000
INFINITE = 0x7FF0000000000000
NEWEST = 3
# step and smallest step by default, of each edition that is known
DEFAULTS = {
    1: [0x3FE999999999999A, 0x3F1A36E2EB1C432D], 2: [0x3FE0000000000000, 0x3F1A36E2EB1C432D], 3: [0x3FE0000000000000, 0x3F1A36E2EB1C432D],
}
# the editions whose records have the rule after dim2; cones of the others are under rule 1
RULED = {3}


def value(pattern):
    """A pattern as a double has it: there is one NaN."""
    return NAN if pattern & (2**63 - 1) > INFINITE else pattern


def told(words):
    return "%x" % (int.from_bytes(struct.pack(">%dQ" % len(words), *words), "big") % (2**61 - 1))


# ---- what document 02 says


def exponents(kind, dim1):
    return dim1 if kind == 3 else kind - 1


def shape_ok(kind, dim1, dim2):
    if kind == 3:
        return 1 <= dim1 <= 32 and 1 <= dim2 <= 32
    return kind in (1, 2) and (dim1, dim2) == (3, 0)


def step_ok(pattern):
    """+0, or positive and finite"""
    return pattern < INFINITE


class Broken(Exception):
    pass


def read_record(data, place, end, edition):
    """The words that are compared, and the place behind the record."""

    def take(form):
        nonlocal at
        size = struct.calcsize("<" + form)
        if at + size > end:
            raise Broken
        at += size
        return struct.unpack_from("<" + form, data, at - size)

    at = place
    mark, size, kind, dim1, dim2 = take("4s4I")
    if mark != b"STEP" or not shape_ok(kind, dim1, dim2):
        raise Broken
    rule = take("I")[0] if edition in RULED else 1
    *numbers, flag = take("%dQI" % (exponents(kind, dim1) + 1))
    if flag > 1:
        raise Broken
    numbers += take("2Q") if flag == 0 else DEFAULTS[edition]
    numbers += take("%dQ" % (4 * (dim1 + dim2)))
    dual_step, dual_count, primal_step, primal_count = take("QIQI")
    if at - place != size or not step_ok(dual_step) or not step_ok(primal_step):
        raise Broken
    return [kind, dim1, dim2, rule, flag, *map(value, numbers), dual_step, dual_count, primal_step, primal_count], at


def judge(data):
    """The line that `traces judge` must print of a byte string."""
    try:
        if len(data) < 20:
            raise Broken
        list_at, count, edition, mark = struct.unpack("<QII4s", data[-20:])
        if mark != b"BACK" or edition not in DEFAULTS or count > MOST or list_at + 8 * count + 20 != len(data):
            raise Broken
        line, place = ["%d %d" % (edition, count)], 0
        for entry in struct.unpack_from("<%dQ" % count, data, list_at):
            words, behind = read_record(data, place, list_at, edition)
            if entry != place:
                raise Broken
            line.append("%d %s" % (place, told(words)))
            place = behind
        if place != list_at:
            raise Broken
        return " ".join(line)
    except Broken:
        return "9"


def rescued(data, line):
    """The words that `traces judge` must print behind that line: records kept, bytes dropped, whether the data is a trace, its edition, and the whole output;
    or 9. The caller names an edition of 0 to 4."""
    right, records, place = line != "9", [], 0
    edition = sum(data) % 5
    if data[-4:] == b"BACK" and len(data) >= 8 and struct.unpack("<I", data[-8:-4])[0] in DEFAULTS:
        edition = data[-8]
    if edition not in DEFAULTS:
        return "9"
    if right:
        count = struct.unpack_from("<I", data, len(data) - 12)[0]
        saved, dropped = data, 0
    else:
        try:
            while len(records) < MOST:
                behind = read_record(data, place, len(data), edition)[1]
                records.append(data[place:behind])
                place = behind
        except Broken:
            pass
        count, saved, dropped = len(records), trace_bytes(records, edition), len(data) - place
    return "%d %d %d %d %d %s" % (count, dropped, right, saved[-8], len(saved), told(saved + b"\xa5" * 8))


def thinned(data, judged):
    """The words behind those: records kept and dropped, and the whole output; or 9, of data that is judged so."""
    if judged == "9":
        return "9"
    list_at, count, edition, _ = struct.unpack("<QII4s", data[-20:])
    offsets = [*struct.unpack_from("<%dQ" % count, data, list_at), list_at]
    kept = list(dict.fromkeys(data[at:end] for at, end in zip(offsets, offsets[1:])))
    new = trace_bytes(kept, edition)
    return "%d %d %d %s" % (len(kept), count - len(kept), len(new), told(new + b"\xa5" * 8))


def record_bytes(call, edition):
    """The record of a call in a trace of the edition, or none where it cannot be laid out."""
    kind, dim1, dim2, rule = call["kind"], call["dim1"], call["dim2"], call["rule"]
    if edition not in RULED and rule != 1:
        return None
    if kind in (1, 2):
        dim1, dim2 = 3, 0
    n = dim1 + dim2
    if not shape_ok(kind, dim1, dim2) or call["flag"] > 1 or any(len(row) != n for row in call["rows"]):
        return None
    dual_step, dual_count, primal_step, primal_count = call["steps"]
    if not step_ok(value(dual_step)) or not step_ok(value(primal_step)):
        return None
    start, *others = map(value, call["settings"])
    body = struct.pack("<3I", kind, dim1, dim2) + (struct.pack("<I", rule) if edition in RULED else b"")
    for pattern in call["exps"][: exponents(kind, dim1)]:
        body += struct.pack("<Q", value(pattern))
    body += struct.pack("<QI", start, call["flag"])
    if call["flag"] == 0:
        body += struct.pack("<2Q", *others)
    for row in call["rows"]:
        body += struct.pack("<%dQ" % n, *map(value, row))
    body += struct.pack("<QIQI", dual_step, dual_count, primal_step, primal_count)
    return b"STEP" + struct.pack("<I", len(body) + 8) + body


def closed(body, offsets, edition=NEWEST):
    """Some bytes, and behind them a list of these offsets and its trailer."""
    return body + struct.pack("<%dQ" % len(offsets), *offsets) + struct.pack("<QII4s", len(body), len(offsets), edition, b"BACK")


def trace_bytes(records, edition=NEWEST):
    offsets, place = [], 0
    for r in records:
        offsets.append(place)
        place += len(r)
    return closed(b"".join(records), offsets, edition)


# ---- rows of calls

ODD = [0, 1 << 63, INFINITE, INFINITE | 1 << 63, NAN, NAN | 5, INFINITE + 1, 1, 0x3FF0000000000000, 0x3FE999999999999A, 0xBFF0000000000000]


def pattern(rng):
    return rng.choice(ODD) if rng.random() < 0.3 else rng.getrandbits(64)


def step(rng):
    return rng.choice(ODD) if rng.random() < 0.1 else rng.getrandbits(63) % INFINITE


def made_call(rng, kind, dim1, dim2, rule, flag, lengths, steps):
    return {
        "kind": kind, "dim1": dim1, "dim2": dim2, "rule": rule, "flag": flag, "exps": [pattern(rng) for _ in range(32)],
        "settings": [pattern(rng) for _ in range(3)], "rows": [[pattern(rng) for _ in range(m)] for m in lengths], "steps": steps,
    }


def some_call(rng):
    kind = rng.choice([1, 2, 3, 3, 3, rng.choice([0, 4, 2**32 - 1])] if rng.random() < 0.2 else [1, 2, 3])
    small = [1, 2, 3, 5, 32]
    dim1, dim2 = (rng.choice([0, 33, 2**32 - 1] if rng.random() < 0.05 else small) for _ in range(2))
    n = dim1 + dim2 if kind == 3 and dim1 + dim2 <= 64 else 3
    lengths = [n + rng.choice([-1, 1]) if rng.random() < 0.02 else n for _ in range(4)]
    flag = rng.choice([2, 256, 2**32 - 1]) if rng.random() < 0.04 else rng.choice([0, 1])
    rule = rng.choice([0, 2, 3, 257, 2**31, 2**32 - 1]) if rng.random() < 0.2 else 1
    return made_call(rng, kind, dim1, dim2, rule, flag, lengths, [step(rng), rng.getrandbits(32), step(rng), rng.getrandbits(32)])


def call_words(call):
    """A call as the words of a file."""
    words = [call["kind"], call["dim1"], call["dim2"], call["rule"], *call["exps"], call["flag"], *call["settings"]]
    for numbers in call["rows"]:
        words += [len(numbers), *numbers]
    return words + call["steps"]


def played(room, edition, row):
    """The line that `traces play` must print of a row of calls on a trace that was created, and then made one of the edition."""
    buffer = bytearray(b"\xa5" * room)
    if room < 20:
        return "8 0" + " 9 0" * len(row) + " " + told(buffer)
    records, line = [], ["0 20 %d" % NEWEST]
    buffer[:20] = trace_bytes([], edition)
    for used, call in row:
        record = record_bytes(call, edition)
        if used is not None and used != len(trace_bytes(records)) or record is None:
            line.append("9 0")
        elif len(records) == MOST or len(trace_bytes(records + [record])) > room:
            line.append("8 0")
        else:
            records.append(record)
            grown = trace_bytes(records, edition)
            buffer[: len(grown)] = grown
            line.append("0 %d" % len(grown))
    return " ".join(line) + " " + told(buffer)


def rows(path):
    rng = random.Random(1)
    with open(path, "wb") as out:
        for _ in range(900):
            room = rng.choice([0, 19, 20, 187, 196, 400, 1000, 4000, 9000])
            edition = rng.choice(sorted(DEFAULTS))
            row = [(rng.choice([0, 19, 21, 2**63, 2**64 - 2]) if rng.random() < 0.05 else None, some_call(rng)) for _ in range(rng.randrange(6))]
            words = [room, edition, len(row)]
            for used, call in row:
                words += [2**64 - 1 if used is None else used, *call_words(call)]
            out.write(struct.pack("<%dQ" % len(words), *words))
            print(played(room, edition, row))


# ---- rows of puts, and what is then there


def put_row(room, edition, row):
    """The line that `traces puts` must print of a row of puts in an edition, which may be none."""
    buffer, place, line = bytearray(b"\xa5" * room), 0, []
    for at, call in row:
        at = place if at is None else at
        record = record_bytes(call, edition) if edition in DEFAULTS else None
        if record is None or at > room:
            line.append("9 0")
        elif at + len(record) > room:
            line.append("8 0")
        else:
            place = at + len(record)
            buffer[at:place] = record
            line.append("0 %d" % place)
    line.append(told(buffer))
    # the ends of whole records from byte 0 on, each with the offsets of the records before it
    ends, offsets, place = {0: []}, [], 0
    try:
        while edition in DEFAULTS:
            behind = read_record(buffer, place, room, edition)[1]
            offsets, place = [*offsets, place], behind
            ends[place] = offsets
    except Broken:
        pass
    words = []
    for used in (*range(room + 2), 2**64 - 1):
        if edition not in DEFAULTS or used not in ends:
            words += [9, 0]
            continue
        new = closed(bytes(buffer[:used]), ends[used], edition)
        words += [8, 0] if len(new) > room else [0, len(new), int(told(new + bytes(buffer[len(new) :])), 16)]
    line.append(told(words))
    words = []
    for at in (*range(room + 2), 2**64 - 1):
        try:
            if edition not in DEFAULTS or at > room:
                raise Broken
            numbers, behind = read_record(buffer, at, room, edition)
            words += [at, behind, int(told(numbers), 16)]
        except Broken:
            words.append(9)
    return " ".join(line) + " " + told(words)


def puts(path):
    rng = random.Random(3)
    with open(path, "wb") as out:
        for _ in range(400):
            room = rng.choice([0, 19, 20, 155, 156, 400, 1000, 3000])
            edition = rng.choice([0, 4, 2**32 - 1]) if rng.random() < 0.05 else rng.choice(sorted(DEFAULTS))
            row = [(rng.choice([0, 4, room, room + 1, 2**64 - 2]) if rng.random() < 0.1 else None, some_call(rng)) for _ in range(rng.randrange(8))]
            words = [room, edition, len(row)]
            for at, call in row:
                words += [2**64 - 1 if at is None else at, *call_words(call)]
            out.write(struct.pack("<%dQ" % len(words), *words))
            print(put_row(room, edition, row))


# ---- byte strings


def one_record(rng, edition, kind, dim1, dim2, rule, flag):
    n = dim1 + dim2 if kind == 3 else 3
    return record_bytes(made_call(rng, kind, dim1, dim2, rule, flag, [n] * 4, [rng.getrandbits(63) % INFINITE, rng.getrandbits(32), 0, 4]), edition)


def small_traces(rng):
    """Traces of the three kinds, both flags and the three editions, to be changed in every byte, and trailers that no one-byte change of theirs is near."""
    for edition in sorted(DEFAULTS):
        rules = (1, 2, 2, 1) if edition in RULED else (1, 1, 1, 1)
        shapes = ((1, 0, 0, rules[0], 1), (2, 9, 9, rules[1], 0), (3, 1, 1, rules[2], 1), (3, 2, 1, rules[3], 0))
        first, second, third, fourth = (one_record(rng, edition, *shape) for shape in shapes)
        yield trace_bytes([], edition)
        # of the older editions one each, which share their layout; all four of the newest
        if edition != 1:
            yield trace_bytes([first, third], edition)
        if edition != 2:
            yield trace_bytes([second, fourth], edition)
    # equal records, of which every change of a byte makes two that differ in one
    third = one_record(rng, 3, 3, 1, 1, 2, 1)
    yield trace_bytes([third, third], 3)
    # trailers whose numbers make the length only where a sum wraps, or point nowhere
    yield struct.pack("<QII4s", 2**64 - 8, 1, 1, b"BACK")
    yield struct.pack("<QII4s", 2**64 - 8 * 4096, 4096, 1, b"BACK")
    yield struct.pack("<QII4s", 2**64 - 1, 0, 1, b"BACK")
    # as many records as there may be, and one more, where the bytes for them are not there
    yield struct.pack("<QII4s", 0, 4096, 1, b"BACK")
    yield struct.pack("<QII4s", 0, 4097, 1, b"BACK")


def near_traces(rng):
    """What more than one byte keeps from a trace, and traces at a limit."""
    for edition in sorted(DEFAULTS):
        yield from near_traces_of(rng, edition)
    # a rule is no layout fault, whatever it is
    for rule in (0, 1, 2, 3, 255, 256, 257, 2**16, 2**31, 2**32 - 1, 0x50455453):
        yield trace_bytes([one_record(rng, 3, kind, 2, 1, rule, flag) for kind in (1, 2, 3) for flag in (0, 1)], 3)
    # records of one layout in a trace of the other
    for edition in sorted(DEFAULTS):
        for other in sorted(DEFAULTS):
            records = [one_record(rng, edition, kind, 1, 1, 1, flag) for kind in (1, 2, 3) for flag in (0, 1)]
            yield trace_bytes(records, other)
            yield trace_bytes(records, other)[:-1]
            for r in records:
                yield trace_bytes([r], other)


def near_traces_of(rng, edition):
    one, two = one_record(rng, edition, 1, 0, 0, 1, 0), one_record(rng, edition, 3, 32, 32, 1, 1)
    yield trace_bytes([two, one], edition)
    for again in ([two, two], [two, one, two, one], [one, one, one], [one, two, two, one, two]):
        yield trace_bytes(again, edition)
    for stray in (b"\0", b"\0" * 8, b"STEP", one[:-8], one):
        yield closed(stray, [], edition)
        yield closed(stray + one, [len(stray)], edition)
        yield closed(one + stray, [0], edition)
        yield closed(one + stray + two, [0, len(one) + len(stray)], edition)
    for offsets in ([len(one), 0], [0, 0], [0], [len(one)], [0, len(one), len(one) + len(two)], [0, len(one), 0]):
        yield closed(one + two, offsets, edition)
    for pattern in ODD + [INFINITE - 1, 2**63 - 1, 2**64 - 1, 1 << 63 | 1]:
        for behind in (24, 12):
            at = len(one) - behind
            yield closed(one[:at] + struct.pack("<Q", pattern) + one[at + 8 :], [0], edition)
    for kind, dim1, dim2 in ((3, 3, 0), (3, 0, 3), (3, 33, 1), (3, 1, 33), (1, 1, 2), (2, 3, 1), (2, 2, 1), (0, 3, 0), (4, 3, 0)):
        n = dim1 + dim2
        head = struct.pack("<3I", kind, dim1, dim2) + (struct.pack("<I", 1) if edition in RULED else b"")
        body = head + bytes(8 * exponents(max(kind, 1), dim1)) + bytes(8) + struct.pack("<I", 1) + bytes(32 * n + 24)
        yield closed(b"STEP" + struct.pack("<I", len(body) + 8) + body, [0], edition)


def print_all(data):
    line = judge(data)
    print(line, "rescued", rescued(data, line), "thinned", thinned(data, line))


def strings(path):
    rng = random.Random(2)
    with open(path, "wb") as out:
        for data in near_traces(rng):
            out.write(struct.pack("<2Q", len(data), 0) + data)
            print_all(data)
        for data in small_traces(rng):
            out.write(struct.pack("<2Q", len(data), 1) + data)
            print_all(data)
            for n in range(len(data)):
                print_all(data[:n])
            print_all(data + b"\0")
            for i in range(len(data)):
                for by in range(1, 256):
                    print_all(data[:i] + bytes([data[i] ^ by]) + data[i + 1 :])


def main(words):
    if words in (["-h"], ["--help"]):
        print(__doc__.strip())
    elif len(words) == 2 and words[0] in ("rows", "puts", "strings"):
        {"rows": rows, "puts": puts, "strings": strings}[words[0]](words[1])
    else:
        print("layout: no such words: %s (try --help)" % " ".join(words), file=sys.stderr)
        return 2
    return 0


if __name__ == "__main__":
    sys.exit(main(sys.argv[1:]))
