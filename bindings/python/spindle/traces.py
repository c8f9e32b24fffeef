"""Traces by their bytes: records, sheets and CSV. docs/traces.md of the repository has the layout; document 02's Orders 1, 8, 9 and 14 order it."""
import csv
import math
import os
import struct
from collections import Counter
from pathlib import Path
from typing import NamedTuple, Tuple

MOST_RECORDS = 4096
MOST_FILES = 1000
# a file of more bytes is skipped by a sheet
LARGEST_FILE = 65536
TRAILER = struct.Struct("<QII4s")
# the step and the smallest step that flag 1 means, by the trace's edition
DEFAULTS = {1: (0.8, 0.0001), 2: (0.5, 0.0001), 3: (0.5, 0.0001)}
# the editions whose records have the cone's rule; in the others every cone is under rule 1
RULED = {3}


class NotATrace(ValueError):
    """The bytes are no trace; the message says at which byte, and why."""


class Cone(NamedTuple):
    """A cone: kind 1 is the exponential, 2 the power, 3 the generalized power cone. Kinds 1 and 2 have the dims 3 and 0."""

    kind: int
    dim1: int = 3
    dim2: int = 0
    rule: int = 2
    exponents: Tuple[float, ...] = ()

    @property
    def length(self):
        """How many numbers a vector of this cone has."""
        return self.dim1 + self.dim2 if self.kind == 3 else 3


class Settings(NamedTuple):
    """A search tries start, then each product with step, until one is below smallest. The defaults are the house's."""

    start: float = 1.0
    step: float = 0.5
    smallest: float = 0.0001


class Side(NamedTuple):
    """What a search answered on one side: its step, and how many points it tested."""

    step: float
    count: int


class Record(NamedTuple):
    """One search. `flag` is 1 if it ran with the default settings of the trace's edition, which `settings` then has."""

    offset: int
    cone: Cone
    flag: int
    settings: Settings
    dz: Tuple[float, ...]
    ds: Tuple[float, ...]
    z: Tuple[float, ...]
    s: Tuple[float, ...]
    dual: Side
    primal: Side


class _Reader:
    """The record that begins at a place. A part that does not fit before `end` breaks the trace."""

    def __init__(self, data, place, end):
        self.data, self.place, self.at, self.end = data, place, place, end

    def broken(self, why):
        return NotATrace("the record at byte %d %s" % (self.place, why))

    def take(self, form):
        form = "<" + form
        size = struct.calcsize(form)
        if self.at + size > self.end:
            raise self.broken("is cut")
        self.at += size
        return struct.unpack_from(form, self.data, self.at - size)

    def record(self, edition):
        mark, size, kind, dim1, dim2 = self.take("4s4I")
        if mark != b"STEP":
            raise self.broken("does not begin with STEP")
        if not ((1 <= dim1 <= 32 and 1 <= dim2 <= 32) if kind == 3 else kind in (1, 2) and (dim1, dim2) == (3, 0)):
            raise self.broken("has kind %d and dims %d, %d" % (kind, dim1, dim2))
        rule = self.take("I")[0] if edition in RULED else 1
        exponents = self.take("%dd" % (dim1 if kind == 3 else kind - 1))
        start, flag = self.take("dI")
        if flag > 1:
            raise self.broken("has the flag %d" % flag)
        step, smallest = DEFAULTS[edition] if flag else self.take("2d")
        dz, ds, z, s = (self.take("%dd" % (dim1 + dim2)) for _ in range(4))
        dual_step, dual_count, primal_step, primal_count = self.take("dIdI")
        for found in (dual_step, primal_step):
            if math.copysign(1.0, found) < 0 or not math.isfinite(found):
                raise self.broken("has the step %r" % found)
        if self.at - self.place != size:
            raise self.broken("is %d bytes long, and says %d" % (self.at - self.place, size))
        settings = Settings(start, step, smallest)
        cone = Cone(kind, dim1, dim2, rule, exponents)
        return Record(self.place, cone, flag, settings, dz, ds, z, s, Side(dual_step, dual_count), Side(primal_step, primal_count))


class Trace:
    """The trace that a file or some bytes are: a sequence of records. The whole layout is judged at once; NotATrace says what breaks it."""

    def __init__(self, source):
        data = bytes(source) if isinstance(source, (bytes, bytearray, memoryview)) else Path(source).read_bytes()
        if len(data) < TRAILER.size:
            raise NotATrace("%d bytes are fewer than a trailer has" % len(data))
        list_at, count, edition, mark = TRAILER.unpack_from(data, len(data) - TRAILER.size)
        if mark != b"BACK":
            raise NotATrace("it does not end with BACK")
        if edition not in DEFAULTS:
            raise NotATrace("its edition is %d, and 1 to 3 are known" % edition)
        if count > MOST_RECORDS:
            raise NotATrace("it has %d records, and at most %d are allowed" % (count, MOST_RECORDS))
        if list_at + 8 * count + TRAILER.size != len(data):
            raise NotATrace("its list of offsets does not fill the place between records and trailer")
        records, place = [], 0
        for entry in struct.unpack_from("<%dQ" % count, data, list_at):
            reader = _Reader(data, place, list_at)
            records.append(reader.record(edition))
            if entry != place:
                raise NotATrace("its list has %d for the record at byte %d" % (entry, place))
            place = reader.at
        if place != list_at:
            raise NotATrace("its records end at byte %d, and its list begins at %d" % (place, list_at))
        self.data, self.edition, self._records = data, edition, tuple(records)

    def __len__(self):
        return len(self._records)

    def __getitem__(self, i):
        return self._records[i]

    def __iter__(self):
        return iter(self._records)


def _line(step):
    """Where a sheet counts a step: `zero`, `subnormal`, or its binary exponent."""
    if step == 0:
        return "zero"
    return "subnormal" if step < 2.0**-1022 else math.frexp(step)[1] - 1


def sheet(files):
    """The sheet of these files, paths or bytes, as the program sheet prints it: for each side how many records there are, how many steps have each binary
    exponent, and the largest count of tests with the first record that has it. A file that is no trace, or above 65,536 bytes, is named and left out."""
    files = list(files)
    if len(files) > MOST_FILES:
        raise ValueError("a sheet has at most %d files, and these are %d" % (MOST_FILES, len(files)))
    lines, seen = [], []
    for number, file in enumerate(files, 1):
        data = bytes(file) if isinstance(file, (bytes, bytearray, memoryview)) else Path(file).read_bytes()
        try:
            if len(data) > LARGEST_FILE:
                raise NotATrace("it has more than %d bytes" % LARGEST_FILE)
            seen += [(number, record) for record in Trace(data)]
        except NotATrace:
            lines.append("skipped file %d" % number)
    for name in ("dual", "primal"):
        sides = [(getattr(record, name), number, record.offset) for number, record in seen]
        places = Counter(_line(side.step) for side, _, _ in sides)
        lines += ["%s records %d" % (name, len(sides)), "%s zero %d" % (name, places["zero"])]
        lines += ["%s exp %d %d" % (name, e, places[e]) for e in sorted((p for p in places if isinstance(p, int)), reverse=True)]
        lines.append("%s subnormal %d" % (name, places["subnormal"]))
        if sides:
            most, number, offset = max(sides, key=lambda row: row[0].count)
            lines.append("%s most %d file %d at %d" % (name, most.count, number, offset))
    return "".join(line + "\n" for line in lines)


COLUMNS = (
    "offset", "kind", "dim1", "dim2", "rule", "exponents", "flag", "start", "step", "smallest", "dual_step", "dual_count", "primal_step", "primal_count",
    "dz", "ds", "z", "s",
)


def write_csv(trace, file):
    """Writes the trace, a Trace, a path or bytes, as CSV to a path or an open text file: a line of names, then a line for each record. A vector's numbers stand
    in one field, with spaces between them. Every number is written so that reading it gives the same double."""
    if isinstance(file, (str, os.PathLike)):
        with open(file, "w", newline="", encoding="utf-8") as opened:
            return write_csv(trace, opened)
    rows = csv.writer(file)
    rows.writerow(COLUMNS)
    for r in trace if isinstance(trace, Trace) else Trace(trace):
        vectors = [" ".join(map(repr, v)) for v in (r.dz, r.ds, r.z, r.s)]
        rows.writerow([r.offset, *r.cone[:4], " ".join(map(repr, r.cone.exponents)), r.flag, *map(repr, r.settings), repr(r.dual.step), r.dual.count,
                       repr(r.primal.step), r.primal.count, *vectors])
    return None
