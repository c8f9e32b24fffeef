#!/usr/bin/env python3
"""exact_points.py: points of the three cones and their duals, and whether they lie exactly inside.

usage: exact_points.py calls POINTS SEARCHES    writes calls, always the same ones: that many of the exponential cone, half as many of the
                                                power cone, a tenth of the generalized one
       exact_points.py judge CALLS ANSWERS      exit status 0 if every answer keeps Order 12's promise, 1 if one does not

tests/certain/run makes both files; certain.c says what their lines are. "Exactly" is that a number is above zero, with document 01's L on
exact fractions:
  exponential        s2·L(s3/s2) - s1, dual z2 - z1 - z1·L(-z3/z1)
  power              2α·L(s1) + 2(1-α)·L(s2) - L(s3²), dual with z1/α and z2/(1-α); inside, too, where s3 is 0
  generalized        Σ 2αᵢ·L(sᵢ) less L of the tail's sum of squares, dual with zᵢ/αᵢ; inside, too, where the tail is all 0
L is enclosed between two whole numbers of 2^-320 (tests/kernels/exact.py), and where the sign is not certain from both ends it is computed
as a fraction. Beside it stands Python's own logarithm at 60 digits, which owes nothing to that series: every 16th sign is asked of it, too.
"""
import math
import random
import struct
import sys
from collections import Counter, namedtuple
from decimal import Context, Decimal
from fractions import Fraction
from pathlib import Path

sys.dont_write_bytecode = True  # the folder of the import is the repository's
sys.path.insert(0, str(Path(__file__).resolve().parent.parent / "kernels"))
from exact import BITS, THIRD, log_ends  # noqa: E402

LARGEST = 2.0**500
WIDE = Context(prec=60, Emin=-99999, Emax=99999)
NO, YES, UNDECIDED = 0, 1, 2
EXPONENTIAL, POWER, GENERALIZED = 1, 2, 3
KINDS = {EXPONENTIAL: "exponential", POWER: "power", GENERALIZED: "generalized"}
LEAST = 2.0**-1074

# exps: the exponents in use; tail: how many coordinates of a generalized cone's point have none
Cone = namedtuple("Cone", "kind exps tail rule")
PLAIN = Cone(EXPONENTIAL, (), 0, 2)


def pattern(x):
    return format(struct.unpack("<Q", struct.pack("<d", x))[0], "x")


def double(text):
    return struct.unpack("<d", struct.pack("<Q", int(text, 16)))[0]


def in_range(point):
    return all(x == 0 or 1 / LARGEST <= abs(x) <= LARGEST for x in point)


# ---- the exact number

def signs(cone, primal, point):
    if cone.kind == EXPONENTIAL:
        x, y, z = point
        return z > 0 and y > 0 if primal else z > 0 and x < 0
    return all(x > 0 for x in point[: 2 if cone.kind == POWER else len(cone.exps)])


def parts(cone, primal, point):
    """c and pairs (w, q): the exact number is c plus the sum of w·L(q). No pairs: the tail is 0, and a point with the signs is inside."""
    exact = list(map(Fraction, point))
    if cone.kind == EXPONENTIAL:
        x, y, z = exact
        return (-x, [(y, z / y)]) if primal else (y - x, [(-x, -z / x)])
    weights = list(map(Fraction, cone.exps))
    if cone.kind == POWER:
        weights.append(1 - weights[0])
    head, tail = exact[: len(weights)], exact[len(weights):]
    squares = sum(x * x for x in tail)
    if squares == 0:
        return Fraction(1), []
    return Fraction(0), [(2 * w, x if primal else x / w) for w, x in zip(weights, head)] + [(Fraction(-1), squares)]


def log_fraction(q):
    """L(q) as the fraction that it is."""
    k = q.numerator.bit_length() - q.denominator.bit_length()
    if q < Fraction(2) ** k:
        k -= 1
    m = q / Fraction(2) ** k
    t = (m - 1) / (m + 1)
    return k * THIRD + 2 * sum(t ** (2 * j + 1) / (2 * j + 1) for j in range(40))


def exact_sign(cone, primal, point):
    """-1, 0 or 1: the sign of the exact number."""
    c, logs = parts(cone, primal, point)
    low = high = c
    for w, q in logs:
        ends = [w * Fraction(end, 1 << BITS) for end in log_ends(q)]
        low, high = low + min(ends), high + max(ends)
    if low > 0 or high < 0:
        return 1 if low > 0 else -1
    number = c + sum(w * log_fraction(q) for w, q in logs)
    return (number > 0) - (number < 0)


def as_decimal(f):
    return WIDE.divide(Decimal(f.numerator), Decimal(f.denominator))


def decimal_sign(cone, primal, point):
    """The same by Python's logarithm; 0 where 60 digits do not tell."""
    c, logs = parts(cone, primal, point)
    number, size = as_decimal(c), Decimal(0)
    for w, q in logs:
        product = WIDE.multiply(as_decimal(w), WIDE.ln(as_decimal(q)))
        number = WIDE.add(number, product)
        size = WIDE.add(size, max(abs(product), abs(as_decimal(w))))
    # the series of L ends after forty terms: at m up to 2 it is within 2^-128 of the logarithm, and k·S(1/3) within k·2^-128
    return 0 if abs(number) <= WIDE.multiply(size, Decimal(2) ** -110) else 1 if number > 0 else -1


# ---- points

RANGES = [(-3, 4), (-40, 40), (-500, -480), (480, 500), (-500, 500)]


def sized(rng, low, high):
    """A number from 2^low to 2^high, any digits, at times one of the ends, a power of two or beside one."""
    x = math.ldexp(1 + rng.random(), rng.randrange(low, high))
    ends = rng.choice([2.0**low, 2.0**high])
    return rng.choice([x, x, x, 2.0 ** math.frexp(x)[1], math.nextafter(2.0 ** math.frexp(x)[1], 0), ends])


def nearby(rng, x):
    for _ in range(rng.choice([0, 0, 1, 3])):
        x = math.nextafter(x, rng.choice([-math.inf, math.inf]))
    return x


# a residue as a part of its margin
PARTS = [0, 0, 0, 0.1, 0.9, 0.999, 1, 1, 1.001, 1.1, 2, 100, 2**20]


def exponential_wall(rng):
    """A point whose residue is a chosen part of its margin, give or take some units in the last place, and the side it is for."""
    primal = rng.random() < 0.5
    b = sized(rng, *rng.choice(RANGES))
    apart = rng.choice([0, 0, 1, 30, 990])
    if apart == 0:  # the logarithm of a quotient near 1
        a = b * (1 + rng.choice([-1, 1]) * 2.0 ** -rng.randrange(1, 54))
    else:
        a = b * 2.0 ** rng.uniform(-apart, apart)
    a = min(max(a, 1 / LARGEST), LARGEST)
    low, high = log_ends(Fraction(a) / Fraction(b))
    l = Fraction(low + high, 2 << BITS)
    # primal: the residue is b·l - s1; dual: with z1 = -b it is z2 + b + b·l
    at_wall = Fraction(b) * l if primal else -Fraction(b) * (1 + l)
    margin = (Fraction(b) * (1 + abs(l)) + abs(at_wall)) / 2**40
    part = rng.choice([*PARTS, 2**39]) * rng.choice([-1, 1])
    c = nearby(rng, float(at_wall - Fraction(part) * margin if primal else at_wall + Fraction(part) * margin))
    if 0 < abs(c) < 1 / LARGEST or abs(c) > LARGEST:
        c = rng.choice([0.0, math.copysign(1 / LARGEST, c), math.copysign(LARGEST, c)])
    return PLAIN, primal, (c, b, a) if primal else (-b, c, a)


def power_cone(rng):
    """A power cone; its exponent may be near 0, down to the least double, or near 1, up to the double below it."""
    near = 2.0 ** -rng.randrange(1, 54)
    alpha = rng.choice([rng.uniform(0.01, 0.99), rng.uniform(0.01, 0.99), 0.5, 0.1, near, 1 - near, 2.0 ** -rng.randrange(54, 1075), LEAST])
    return Cone(POWER, (alpha if alpha < 1 else 0.5,), 0, rng.choice([1, 2]))


def generalized_cone(rng):
    """A generalized cone that rule 2 takes, or rule 1 alone: 1 to 32 exponents, their computed sum 1 or as far from it as the rule allows."""
    n = rng.choice([1, 1, 2, 3, rng.randrange(1, 33), rng.randrange(1, 33), 32])
    shares = [rng.choice([rng.random() + 0.01, rng.random() + 0.01, 2.0 ** -rng.randrange(0, 60)]) for _ in range(n)]
    exps = [share / sum(shares) for share in shares]
    off = rng.choice([0, 0, 0, 1, -1]) * rng.choice([2.0**-50, 2.0**-41, 2.0**-40])
    largest = max(range(n), key=lambda i: exps[i])
    exps[largest] = min(1.0, exps[largest] + off)
    total = 0.0
    for x in exps:
        total += x
    rule = 2 if abs(total - 1) <= 2.0**-50 else 1
    if abs(total - 1) > 2.0**-40 or not all(0 < x <= 1 for x in exps):
        return generalized_cone(rng)
    return Cone(GENERALIZED, tuple(exps), rng.choice([1, 1, 2, rng.randrange(1, 33), 32]), rule)


def power_wall(rng, cone):
    """The same for a cone of the other kinds: the last number of its tail is chosen so that the residue is a chosen part of the margin."""
    primal = rng.random() < 0.5
    ends = rng.choice(RANGES)
    n, tail = (2, 1) if cone.kind == POWER else (len(cone.exps), cone.tail)
    head = [min(max(sized(rng, *ends), 1 / LARGEST), LARGEST) for _ in range(n)]
    weights = [*cone.exps, 1 - Fraction(cone.exps[0])] if cone.kind == POWER else cone.exps
    exponent = Fraction(0)  # 2·log of the tail's norm, at the wall
    for w, x in zip(map(Fraction, weights), map(Fraction, head)):
        low, high = log_ends(x if primal else x / w)
        exponent += 2 * w * Fraction(low + high, 2 << BITS)
    # e - q is part·2^-30·(e + q): q is e times (1 - part·2^-30)/(1 + part·2^-30)
    part = Fraction(rng.choice(PARTS)) * rng.choice([-1, 1]) / 2**30
    squares = WIDE.multiply(WIDE.exp(as_decimal(exponent)), as_decimal((1 - part) / (1 + part)))
    shares = [rng.random() for _ in range(tail - 1)]
    whole = math.sqrt(sum(x * x for x in shares) + (rng.random() + 0.1) ** 2)
    norm = float(WIDE.sqrt(squares)) if squares < Decimal(2) ** 1020 else math.inf
    others = [rng.choice([-1, 1]) * x / whole * norm for x in shares]
    others = [0.0 if abs(x) < 1 / LARGEST or rng.random() < 0.1 else x for x in others]
    if norm > LARGEST:  # beyond the sizes: any tail will do
        return cone, primal, (*head, *[LARGEST] * tail)
    rest = WIDE.subtract(squares, as_decimal(sum((Fraction(x) ** 2 for x in others), Fraction(0))))
    last = nearby(rng, float(WIDE.sqrt(rest))) if rest > 0 else 0.0
    return cone, primal, (*head, *others, rng.choice([-1, 1]) * max(last, 1 / LARGEST))


def wall(rng, kind):
    if kind == EXPONENTIAL:
        return exponential_wall(rng)
    return power_wall(rng, power_cone(rng) if kind == POWER else generalized_cone(rng))


def anywhere(rng, kind):
    cone, primal, point = wall(rng, kind)
    return cone, primal, tuple(rng.choice([0.0, -0.0]) if rng.random() < 0.05 else rng.choice([-1, 1, 1]) * sized(rng, -500, 500)
                               for _ in point)


# ---- the calls

# Beyond the sizes: s3/s2 is 0.7 of the least double, and is rounded up to it. Its logarithm is 0.36 too large, and a yes lies outside.
BEYOND = (-744.6 * 2.0**600, 2.0**600, 1.4 * 2.0**-475)


def write(job, cone, primal, numbers):
    print(job, cone.kind, len(cone.exps), cone.tail, cone.rule, int(primal), *map(pattern, [*cone.exps, *numbers]))


def further_in(cone, primal, point):
    """A point from which the way to the wall is longer."""
    if cone.kind == EXPONENTIAL:
        x, y, z = point
        return (x - abs(y), y, z) if primal else (x, y + 2 * abs(x), z)
    n = 2 if cone.kind == POWER else len(cone.exps)
    return (*point[:n], *(x / 4 for x in point[n:]))


def calls(points, searches):
    rng = random.Random(12)
    write("point", PLAIN, True, BEYOND)
    for kind, of in ((EXPONENTIAL, 1), (POWER, 2), (GENERALIZED, 10)):
        for i in range(points // of):
            write("point", *(anywhere(rng, kind) if i % 10 == 9 else wall(rng, kind)))
        for i in range(searches // of):
            # from a point at the wall or from far inside towards the outside and beyond
            cone, primal, q = wall(rng, kind)
            if i % 2:
                q = further_in(cone, primal, q)
            dq = [rng.uniform(-2, 2) * max(abs(x), 2.0**-490) for x in q]
            step = rng.choice([0.5, 0.8, 0.99])
            how = [rng.choice([1.0, 1.0, 3.0, 2.0**-20]), step, rng.choice([1e-4, 2.0**-40])]
            write("search", cone, primal, [*dq, *q, *how])
            if i % 4 == 1:  # the same point on both sides
                write("round", cone, primal, [*dq, *dq, *q, *q, *how])


def read(line):
    """The job of a call, its cone, its side, and the rest of its numbers."""
    job, kind, n, tail, rule, side, *numbers = line.split()
    numbers = tuple(map(double, numbers))
    return job, Cone(int(kind), numbers[: int(n)], int(tail), int(rule)), side == "1", numbers[int(n):]


# ---- the judgement

STEPS = ("search's point inside", "step_length's point inside", "common_step's point inside", "plan_step's point inside")


def steps_of(job, primal, numbers):
    """What was stepped by which call, on which side, and to which point: of an answer's numbers behind its code."""
    if job == "search":
        return [(STEPS[0], primal, numbers[0], tuple(numbers[1:]))]
    dual_step, primal_step, common, plan, *coordinates = numbers
    n = len(coordinates) // 6
    points = [tuple(coordinates[i * n: i * n + n]) for i in range(6)]
    steps = [(STEPS[1], False, dual_step), (STEPS[1], True, primal_step), (STEPS[2], primal, common), (STEPS[2], primal, common),
             (STEPS[3], False, plan), (STEPS[3], True, plan)]
    return [(*step, point) for step, point in zip(steps, points)]


def heads(cone, primal, point):
    """The coordinates that a sign test asks for, without their signs."""
    if cone.kind == EXPONENTIAL:
        return [abs(point[1 if primal else 0]), point[2]]
    return point[: 2 if cone.kind == POWER else len(cone.exps)]


def judge(calls_file, answers_file):
    names = {NO: "no on the residue", YES: "yes", UNDECIDED: "undecided"}
    counts, other, met = Counter(), Counter(), Counter()
    wrong = asked = told = 0
    beyond = False
    with open(calls_file) as c, open(answers_file) as a:
        lines = list(zip(c, a, strict=True))
    for call, answer in lines:
        job, cone, primal, numbers = read(call)
        got = answer.split()
        failed = got[0] != "0"
        if job == "point":
            point, verdict = numbers, int(got[1])
            failed |= verdict not in names
            if point == BEYOND:
                beyond = verdict == YES and exact_sign(cone, primal, point) == -1
            elif not in_range(point):
                other["out of range"] += 1
            elif not signs(cone, primal, point):
                other["no on a sign"] += 1
                failed |= verdict != NO
            else:
                sign = exact_sign(cone, primal, point)
                counts[cone.kind, verdict, sign] += 1
                for end in (1 / LARGEST, LARGEST):
                    met[cone.kind, f"head at {end:.0e}", primal] += end in heads(cone, primal, point)
                met[cone.kind, names.get(verdict), primal] += 1
                failed |= verdict == YES and sign != 1 or verdict == NO and sign != -1
                asked += 1
                if asked % 16 == 0:
                    by_decimal = decimal_sign(cone, primal, point)
                    told += by_decimal != 0
                    failed |= by_decimal not in (0, sign)
        else:
            for what, side, step, point in steps_of(job, primal, list(map(double, got[1:]))):
                if step == 0:
                    other["step zero"] += 1
                elif not in_range(point):
                    other["out of range"] += 1
                else:
                    met[cone.kind, what, side] += 1
                    failed |= not signs(cone, side, point) or exact_sign(cone, side, point) != 1
        if failed:
            wrong += 1
            print("certain: WRONG:", KINDS[cone.kind], call.strip(), "->", answer.strip())
    print(f"{'':34}{'exactly inside':>16}{'on the wall':>13}{'outside':>10}")
    for kind, cone_name in KINDS.items():
        for verdict, name in names.items():
            print(f"{cone_name + ', ' + name:34}{counts[kind, verdict, 1]:16}{counts[kind, verdict, 0]:13}{counts[kind, verdict, -1]:10}")
    inside = sum(met[kind, what, side] for kind in KINDS for what in STEPS for side in (False, True))
    others = "; ".join(f"{name}: {count}" for name, count in other.items())
    print(f"{others}; point of a step inside: {inside}; signs that Python's logarithm told, too: {told}")
    if not beyond:
        wrong += 1
        print("certain: the point beyond the sizes should have been a yes, and lie outside")
    for kind, cone_name in KINDS.items():
        if not (counts[kind, UNDECIDED, 1] and counts[kind, UNDECIDED, -1]):
            wrong += 1
            print(f"certain: {cone_name}: no undecided point on one of the sides: the points are not near enough to the wall")
        for what in ("yes", "no on the residue", *STEPS, *(f"head at {end:.0e}" for end in (1 / LARGEST, LARGEST))):
            for primal in (False, True):
                if not met[kind, what, primal]:
                    wrong += 1
                    print(f"certain: {cone_name}: no {what} on the {'primal' if primal else 'dual'} side: nothing was held to it")
    held = "certain: a yes lies inside, a no on the residue outside, the point of a step inside; beyond the sizes one yes lies outside"
    print("certain: FAILED" if wrong else held)
    return 1 if wrong else 0


def main(words):
    if len(words) == 3 and words[0] == "calls" and words[1].isdigit() and words[2].isdigit():
        calls(int(words[1]), int(words[2]))
        return 0
    if len(words) == 3 and words[0] == "judge":
        return judge(words[1], words[2])
    print(__doc__, file=sys.stderr)
    return 2


if __name__ == "__main__":
    sys.exit(main(sys.argv[1:]))
