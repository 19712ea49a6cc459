#!/usr/bin/env python3
"""Holds the factors that `factors` wrote to the check, in exact fractions.

  exact.py FILE

A line of FILE is F, U, sigma and V^T as bits and the answer's number. The last line is 'N passed, M failed': a line passes where the
answer is 0 and the factors meet the check, or where it is 14. The worst distances are told in the check's bounds.
"""
import math
import struct
import sys
from fractions import Fraction


def float_of(word):
    return struct.unpack("<d", struct.pack("<Q", int(word, 16)))[0]


def rows(x):
    return [x[3 * i:3 * i + 3] for i in range(3)]


def distance(left, middle, right, target):
    """The largest distance of an entry of left diag(middle) right^T from the target's."""
    return max(abs(sum(left[i][k] * middle[k] * right[j][k] for k in range(3)) - target[i][j]) for i in range(3) for j in range(3))


IDENTITY = [[Fraction(i == j) for j in range(3)] for i in range(3)]
ONES = [Fraction(1)] * 3


def judged(x):
    """Of F, U, sigma and V^T, 30 finite floats: the distances from F and from the identity in the check's bounds, and whether the check is met."""
    x = [Fraction(y) for y in x]
    f, u, sigma, vt = rows(x[:9]), rows(x[9:18]), x[18:21], rows(x[21:30])
    v = [list(column) for column in zip(*vt)]
    m = max(abs(y) for y in x[:9])
    of_f = distance(u, sigma, v, f)
    of_identity = max(distance(u, ONES, u, IDENTITY), distance(v, ONES, v, IDENTITY)) * 2**40
    good = of_f * 2**40 <= m and of_identity <= 1 and all(0 <= s for s in sigma)
    return of_f * 2**40 / m if m else Fraction(0), of_identity, good


def main():
    passed = failed = 0
    worst = [Fraction(0), Fraction(0)]
    for line in open(sys.argv[1], encoding="utf-8"):
        words = line.split()
        x = [float_of(w) for w in words[:30]]
        if words[30] == "14":
            passed += 1
            continue
        if words[30] != "0" or not all(map(math.isfinite, x)):
            failed += 1
            continue
        of_f, of_identity, good = judged(x)
        worst = [max(worst[0], of_f), max(worst[1], of_identity)]
        passed += good
        failed += not good
    print(f"worst of F {float(worst[0]):.6f}, of the identity {float(worst[1]):.6f} of the bound")
    print(f"{passed} passed, {failed} failed")
    return failed != 0


if __name__ == "__main__":
    sys.exit(main())
