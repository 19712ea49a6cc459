#!/usr/bin/env python3
"""Demand 3 in two axes: how near its surface the flat Rankine projection comes, in exact whole numbers.

  tools/measure/flat_surface.py [COUNT] [SEED]

Works the definition's order of operations (crates/flat_rankine, specs) on COUNT pairs of log strains (default 1,000,000) exactly in the premises,
half of them at a corner, and prints for each branch the worst distance of the largest principal stress from s, in units of (2mu + 2lambda)/2^44.
The status is 1 where a promise is broken.
"""
import math
import pathlib
import sys

sys.path[:0] = [str(pathlib.Path(__file__).resolve().parent.parent), str(pathlib.Path(__file__).resolve().parent)]
import draws  # noqa: E402
import shell  # noqa: E402
from surface import DEMANDED, ONE, exact, largest, modulus  # noqa: E402

BRANCHES = ["untouched", "one moves", "both move"]


def project(mu, la, e, s):
    """The branch, and the strains after it in index order."""
    up = e[0] <= e[1]
    b, a = e if up else (e[1], e[0])
    total = e[0] + e[1]
    if la * total + 2.0 * mu * a <= s:
        return 0, e
    if (2.0 * mu + la) * b + la * (total - a) <= s:
        z = (s - la * (total - a)) / (2.0 * mu + la)
        return 1, (b, z) if up else (z, b)
    z = s / (2.0 * mu + 2.0 * la)
    return 2, (z, z)


def strains(d):
    e = [d.between(-4.0, 4.0) for _ in range(2)]
    kind = d.one_of(6)
    if kind < 2:
        e[d.one_of(2)] = (4.0, -4.0)[kind]
    elif kind == 2:
        e = [(-4.0, 4.0)[d.one_of(2)]] * 2
    elif kind == 3:
        e = [e[0]] * 2
    elif kind == 4:
        e = [x * 2.0 ** -40 for x in e]
    return tuple(e)


def strength(d, mu, la, e):
    """A softened strength: anywhere, at an end, or beside one of the two tests."""
    b, a = sorted(e)
    k, total, beside = 2 * mu + 2 * la, sum(e), 1 + math.ldexp(d.between(-1.0, 1.0), -d.one_of(53))
    corners = [4 * k, -4 * k, (la * total + 2 * mu * a) * beside, ((2 * mu + la) * b + la * (total - a)) * beside, 0.0]
    kind = d.one_of(8)
    return corners[kind] if kind < len(corners) else d.between(-4.0, 4.0) * k


def measure(args):
    d, worst, seen, bad = draws.Draws(args.seed), [[0, 0.0, 0.0] for _ in BRANCHES], 0, 0
    while seen < args.count:
        mu, la = modulus(d, 1.0), modulus(d, 0.0) if d.one_of(4) else 0.0
        e = strains(d)
        s = strength(d, mu, la, e)
        m, lam = exact(mu), exact(la)
        unit = (2 * m + 2 * lam) * ONE
        if not (1.0 <= mu <= 2.0 ** 40 and 0.0 <= la <= 2.0 ** 40 and abs(exact(s)) * ONE <= 4 * unit):
            continue
        seen += 1
        branch, after = project(mu, la, e, s)
        gap = (largest(m, lam, after) - exact(s) * ONE) << DEMANDED
        kept = gap <= unit and (branch == 0 or -gap <= unit)
        w = worst[branch]
        w[0], w[1], w[2] = w[0] + 1, max(w[1], gap / unit), max(w[2], -gap / unit if branch else 0.0)
        if not kept:
            bad += 1
            print("NOT KEPT:", mu, la, e, s)
    for (count, above, below), name in zip(worst, BRANCHES):
        print("%-10s %9d pairs, worst %.4f above%s" % (name, count, above, ", %.4f below" % below if name != BRANCHES[0] else ""))
    print("%d pairs in the premises, %d do not keep the promise; distances in units of (2mu + 2lambda)/2^%d" % (seen, bad, DEMANDED))
    return 1 if bad or not all(w[0] for w in worst) else 0


def main(argv=None):
    return shell.run("flat_surface.py", measure, draws.arguments(__doc__, 1000000, argv))


if __name__ == "__main__":
    sys.exit(main())
