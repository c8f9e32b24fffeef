#!/usr/bin/env python3
"""A second reading of document 02's Order 14, to hold the program sheet to.

usage: sheet.py cases DIR    writes below DIR a folder of files for each case, NAME/0001 and on, and NAME.text, what the program must print of them
       sheet.py month DIR    writes DIR/0001 to DIR/1000, a month's worth of the largest traces, and DIR.text
       sheet.py --help       this text

Each sheet of two groups of files is held to the two groups' sheets added, as text. Exit status 1: they differ; 2: bad usage.
"""
import functools
import itertools
import math
import random
import struct
import sys
from collections import Counter
from pathlib import Path

import layout

SIDES = ("dual", "primal")
LARGEST = 65536
EDITIONS = sorted(layout.DEFAULTS)


# ---- what document 02 says


@functools.lru_cache(maxsize=None)
def searches(data):
    """For each record its offset and, side by side, its step and count; None of a file that is skipped."""
    if len(data) > LARGEST or layout.judge(data) == "9":
        return None
    end, count, edition = struct.unpack("<QII", data[-20:-4])
    place, found = 0, []
    for _ in range(count):
        words, behind = layout.read_record(data, place, end, edition)
        found.append((place, (words[-4:-2], words[-2:])))
        place = behind
    return found


def line_of(step):
    """Where a step is counted: `zero`, `subnormal`, or its binary exponent."""
    number = struct.unpack("<d", struct.pack("<Q", step))[0]
    if number == 0:
        return "zero"
    return "subnormal" if number < 2.0**-1022 else math.frexp(number)[1] - 1


def sheet(files):
    """The lines of a sheet."""
    read = [searches(data) for data in files]
    lines = ["skipped file %d" % n for n, found in enumerate(read, 1) if found is None]
    for side, name in enumerate(SIDES):
        seen = [(*sides[side], n, at) for n, found in enumerate(read, 1) for at, sides in found or []]
        places = Counter(line_of(step) for step, *_ in seen)
        lines.append("%s records %d" % (name, len(seen)))
        lines.append("%s zero %d" % (name, places["zero"]))
        for exponent in sorted((p for p in places if isinstance(p, int)), reverse=True):
            lines.append("%s exp %d %d" % (name, exponent, places[exponent]))
        lines.append("%s subnormal %d" % (name, places["subnormal"]))
        if seen:
            most = max(count for _, count, _, _ in seen)
            lines.append("%s most %d file %d at %d" % (name, *next((c, n, at) for _, c, n, at in seen if c == most)))
    return lines


def added(first, files, second):
    """Two sheets added, as text: the first is of so many files."""
    skipped = [line for line in first if line.startswith("skipped")]
    skipped += ["skipped file %d" % (int(line.split()[-1]) + files) for line in second if line.startswith("skipped")]
    lines = skipped
    for name in SIDES:
        counts, most = {}, None
        for part, up in ((first, 0), (second, files)):
            for words in (line.split() for line in part if line.startswith(name)):
                if words[1] == "most":
                    here = (int(words[2]), int(words[4]) + up, int(words[6]))
                    most = here if most is None or here[0] > most[0] else most
                else:
                    key = tuple(words[1:-1])
                    counts[key] = counts.get(key, 0) + int(words[-1])
        exps = sorted((key for key in counts if key[0] == "exp"), key=lambda key: -int(key[1]))
        for key in [("records",), ("zero",), *exps, ("subnormal",)]:
            lines.append("%s %s %d" % (name, " ".join(key), counts[key]))
        if most:
            lines.append("%s most %d file %d at %d" % (name, *most))
    return lines


# ---- files


def record(rng, edition, shape, flag, steps):
    kind, dim1, dim2 = shape
    body = struct.pack("<3I", kind, dim1, dim2) + (struct.pack("<I", rng.choice([1, 2])) if edition == 3 else b"")
    words = layout.exponents(kind, dim1) + 1
    body += struct.pack("<%dQ" % words, *(rng.getrandbits(64) for _ in range(words))) + struct.pack("<I", flag)
    words = (2 if flag == 0 else 0) + 4 * (dim1 + dim2)
    body += struct.pack("<%dQ" % words, *(rng.getrandbits(64) for _ in range(words)))
    (dual, dual_count), (primal, primal_count) = steps
    body += struct.pack("<QIQI", dual, dual_count, primal, primal_count)
    return b"STEP" + struct.pack("<I", len(body) + 8) + body


def bits(number):
    return struct.unpack("<Q", struct.pack("<d", number))[0]


STEPS = [0, 1, 2**52 - 1, 2**52, 2**53 - 1, layout.INFINITE - 1, bits(1.0), bits(2.0) - 1, bits(2.0), bits(0.125), bits(0.8), bits(0.5)]


def some_steps(rng):
    return [(rng.choice(STEPS) if rng.random() < 0.6 else rng.getrandbits(63) % layout.INFINITE, rng.choice([0, 1, 5, 69, 2**32 - 1, rng.getrandbits(6)]))
            for _ in SIDES]


def some_trace(rng, records):
    edition = rng.choice(EDITIONS)
    shapes = [(1, 3, 0), (2, 3, 0), (3, 1, 1), (3, 2, 1), (3, 32, 32)]
    return layout.trace_bytes([record(rng, edition, rng.choice(shapes), rng.choice([0, 1]), some_steps(rng)) for _ in range(records)], edition)


def steps_trace(rng, steps, edition):
    return layout.trace_bytes([record(rng, edition, (1, 3, 0), 1, two) for two in steps], edition)


def largest_trace(rng, edition):
    """A trace of the largest size that a file may have: of editions 1 and 2 that is 65,532 bytes, since their records are whole words."""
    sizes = [len(record(rng, edition, shape, flag, some_steps(rng))) + 8 for shape, flag in (((1, 3, 0), 1), ((1, 3, 0), 0), ((3, 1, 1), 1), ((2, 3, 0), 1))]
    for total in range(LARGEST, LARGEST - 8, -1):
        for b, c, d in itertools.product(range(24), repeat=3):
            left = total - 20 - b * sizes[1] - c * sizes[2] - d * sizes[3]
            if left >= 0 and left % sizes[0] == 0:
                kinds = [((1, 3, 0), 1)] * (left // sizes[0]) + [((1, 3, 0), 0)] * b + [((3, 1, 1), 1)] * c + [((2, 3, 0), 1)] * d
                return layout.trace_bytes([record(rng, edition, shape, flag, some_steps(rng)) for shape, flag in kinds], edition)
    raise AssertionError


def cases():
    rng = random.Random(14)
    example = [[(0, 42), (1, 1)], [(bits(1.5), 1), (0, 2)], [(bits(0.125), 10), (bits(4.0), 3)]]
    yield "example", [steps_trace(rng, example, 2)]
    yield "no-records", [layout.trace_bytes([], e) for e in EDITIONS]
    # a later record, and a later file, with as many tests: the first is named
    tie = [[(0, 3), (0, 4)], [(0, 7), (0, 4)], [(0, 7), (0, 1)]]
    yield "ties", [steps_trace(rng, tie[:1], 1), steps_trace(rng, tie, 2), steps_trace(rng, tie, 1)]
    whole = steps_trace(rng, example, 1)
    yield "cut", [whole, whole[:-1], b"", whole, whole + b"\0"]
    yield "all-skipped", [whole[:-1], b"BACK"]
    for edition in EDITIONS:
        largest = largest_trace(rng, edition)
        too_large = layout.trace_bytes([record(rng, edition, (1, 3, 0), 1, some_steps(rng))] * 410, edition)
        assert len(too_large) > LARGEST and layout.judge(too_large) != "9"
        yield "largest-%d" % edition, [too_large, largest, too_large, whole]
    # every exponent on both sides, with the ends of its range
    words = [w for field in range(2047) for w in (field << 52, (field + 1 << 52) - 1)]
    pairs = [[(words[i], 1), (words[-1 - i], 2)] for i in range(len(words))]
    yield "exponents", [steps_trace(rng, pairs[i : i + 400], EDITIONS[-1]) for i in range(0, len(pairs), 400)]
    for n in range(24):
        files = [some_trace(rng, rng.randrange(9)) for _ in range(rng.randrange(1, 9))]
        for i in range(len(files)):
            if rng.random() < 0.2:
                files[i] = files[i][: rng.randrange(len(files[i]))]
        yield "some-%d" % n, files


def checked(name, files):
    """The lines of a sheet, held to those of its files in two groups, wherever they are parted."""
    lines = sheet(files)
    for cut in range(len(files) + 1) if len(files) < 20 else (0, len(files) // 3):
        if lines != added(sheet(files[:cut]), cut, sheet(files[cut:])):
            print("sheet: %s: the sheets of %d files and of the others, added, are another sheet" % (name, cut), file=sys.stderr)
            sys.exit(1)
    return lines


def write(folder, files, lines):
    folder.mkdir(parents=True)
    for n, data in enumerate(files, 1):
        (folder / ("%04d" % n)).write_bytes(data)
    folder.with_name(folder.name + ".text").write_text("".join(line + "\n" for line in lines), encoding="ascii")


def main(words):
    if words in (["-h"], ["--help"]):
        print(__doc__.strip())
    elif len(words) == 2 and words[0] == "cases":
        for name, files in cases():
            write(Path(words[1]) / name, files, checked(name, files))
    elif len(words) == 2 and words[0] == "month":
        rng = random.Random(15)
        some = [largest_trace(rng, EDITIONS[-1]) for _ in range(25)]
        files = [some[n % 25] for n in range(1000)]
        write(Path(words[1]), files, sheet(files))
    else:
        print("sheet: no such words: %s (try --help)" % " ".join(words), file=sys.stderr)
        return 2
    return 0


if __name__ == "__main__":
    sys.exit(main(sys.argv[1:]))
