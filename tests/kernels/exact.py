#!/usr/bin/env python3
"""exact.py: the answers of log and exp against document 01's bounds, and a table of how accurate all were.

usage: exact.py SAMPLE      exit status 0 if every bound held, 1 if one did not, 2 for bad usage. tests/kernels/run makes the sample.

SAMPLE has lines "log X ANSWER", "exp X ANSWER" and "powf X Y ANSWER" of bit patterns, as kernels.c writes them.
The bounds are checked on whole numbers: L and the sum of forty terms are enclosed between two whole numbers of
2^-320, rounded down and up at each step, and an answer must be within the bound of both. Accuracy is measured
against Python's decimal at 60 digits, which owes nothing to document 01's series: where the two disagree, it says so.
"""
import struct
import sys
import time
from decimal import Context, Decimal
from fractions import Fraction
from math import floor, log2

BITS = 320
ONE = 1 << BITS
WIDE = Context(prec=60, Emin=-99999, Emax=99999)


def double(pattern):
    return struct.unpack("<d", struct.pack("<Q", pattern))[0]


def down(num, den):
    return num // den


def up(num, den):
    return -(-num // den)


def series(p, q):
    """S(p/q) = twice the sum of (p/q)^(2j+1)/(2j+1), j = 0..39, enclosed, in units of 2^-BITS."""
    ends = []
    for cut in (down, up):
        power, square, total = cut(p * ONE, q), cut(p * p * ONE, q * q), 0
        for j in range(40):
            total += cut(power, 2 * j + 1)
            power = cut(power * square, ONE)
        ends.append(2 * total)
    return ends


THIRD = sum(Fraction(2, (2 * j + 1) * 3 ** (2 * j + 1)) for j in range(40))  # S(1/3), exact


def log_ends(x):
    """L(x), enclosed."""
    num, den = Fraction(x).numerator, Fraction(x).denominator
    k = num.bit_length() - den.bit_length()
    if Fraction(x) < Fraction(2) ** k:
        k -= 1
    m = Fraction(x) / Fraction(2) ** k
    low, high = series((m - 1).numerator * ((m + 1).denominator), (m + 1).numerator * ((m - 1).denominator))
    turns = k * THIRD * ONE
    return low + floor(turns), high + floor(turns) + 1


def exp_ends(x):
    """j, and the sum of r^i/i!, i = 0..39, enclosed: j the floor of x/S(1/3), r = x - j·S(1/3)."""
    j = floor(Fraction(x) / THIRD)
    r = Fraction(x) - j * THIRD
    ends = []
    for cut in (down, up):
        rest, term, total = cut(r.numerator * ONE, r.denominator), ONE, 0
        for i in range(40):
            total += term
            term = cut(term * rest, ONE * (i + 1))
        ends.append(total)
    return j, ends


def log_holds(x, answer):
    got = Fraction(answer) * ONE
    return all(abs(got - end) * 2 ** 44 <= max(ONE, abs(end)) for end in log_ends(x))


def exp_holds(x, answer):
    j, ends = exp_ends(x)
    got = Fraction(answer) * ONE / Fraction(2) ** j
    return all(abs(got - end) * 2 ** 44 <= end for end in ends)


def ulp(x):
    """The distance of the doubles at the size of x."""
    exponent = max(struct.unpack("<Q", struct.pack("<d", abs(x)))[0] >> 52, 1)
    return Fraction(2) ** (exponent - 1075)


class Tally:
    """Answers of one kind: how many are correctly rounded, and the largest error, in ulps and over `scale`."""

    def __init__(self):
        self.count = self.right = 0
        self.ulps, self.part, self.at = Fraction(0), Fraction(0), None

    def add(self, answer, true, scale, at):
        error = abs(Fraction(answer) - Fraction(true))
        ulps = error / ulp(answer)
        self.count += 1
        self.right += ulps <= Fraction(1, 2)
        self.part = max(self.part, error / scale)
        if ulps > self.ulps:
            self.ulps, self.at = ulps, at

    def row(self, name, of):
        part = f"2^{log2(self.part):.2f}{of}" if self.part else "0"
        where = ", ".join(map(repr, self.at)) if self.at else ""
        return f"| {name} | {self.count} | {100 * self.right / self.count:.2f} % | {part} | {float(self.ulps):.4g} ulps at {where} |"


def main():
    if len(sys.argv) != 2 or sys.argv[1].startswith("-"):
        asked = sys.argv[1:] in (["-h"], ["--help"])
        print(__doc__.strip() if asked else "exact: it takes one file, SAMPLE (try exact.py --help)", file=sys.stdout if asked else sys.stderr)
        sys.exit(0 if asked else 2)
    try:
        lines = open(sys.argv[1]).read().split("\n")[:-1]
    except OSError as why:
        print(f"exact: {sys.argv[1]}: {why.strerror}", file=sys.stderr)
        sys.exit(2)
    kinds = {"log x, 1 or more in size": " relative", "log x, below 1 in size": " absolute", "exp x": " relative", "x^y, 0 < y < 1": " relative", "x^y, other y": " relative"}
    tallies = {name: Tally() for name in kinds}
    counts = {"log": 0, "exp": 0}
    failed, said = 0, time.time()
    for number, line in enumerate(lines):
        if time.time() - said > 5:
            said = time.time()
            print(f"exact: {number} of {len(lines)} lines", file=sys.stderr)
        name, *patterns = line.split()
        *given, answer = [double(int(p, 16)) for p in patterns]
        x = given[0]
        if name == "powf":
            true = WIDE.exp(WIDE.multiply(Decimal(given[1]), WIDE.ln(Decimal(x))))
            if Decimal(2) ** -1022 <= true < Decimal(2) ** 1024 and answer not in (0.0, float("inf")):
                tallies["x^y, 0 < y < 1" if 0 < given[1] < 1 else "x^y, other y"].add(answer, true, Fraction(true), given)
            continue
        if not {"log": log_holds, "exp": exp_holds}[name](x, answer):
            failed += 1
            if failed <= 10:
                print(f"FAILED {name}: {line}")
        counts[name] += 1
        if name == "exp":
            true = WIDE.exp(Decimal(x))
            tallies["exp x"].add(answer, true, Fraction(true), given)
        else:
            true = WIDE.ln(Decimal(x))
            size = abs(Fraction(true))
            tallies["log x, 1 or more in size" if size >= 1 else "log x, below 1 in size"].add(answer, true, max(1, size), given)
    for name in counts:
        print(f"{name}    {counts[name]} numbers within document 01's bound{': NOT SO' if failed else ''}")
    print("\n| answer | numbers | correctly rounded | largest error | in ulps |\n|---|---|---|---|---|")
    for name, t in tallies.items():
        if t.count:
            print(t.row(name, kinds[name]))
    print()
    sys.exit(failed != 0)


if __name__ == "__main__":
    main()
