#!/usr/bin/env python3
"""Demand 3 run: how near its surface Rankine's update comes, in exact whole numbers.

  tools/measure/surface.py [COUNT] [SEED]

Draws COUNT records (default 1,000,000) exactly in the premises, half of them at a corner, and prints for each branch the worst distance of the
largest principal stress from s: of the strains that the update projects, in units of (2mu + 3lambda)/2^44, and of our logarithms of the sigma
that it stores, as an archive has them, in units of (2mu + 3lambda)/2^40. The status is 1 where a promise is broken. Needs the library
(PASOLETU_LIB, else the one that the Python package finds).
"""
import math
import pathlib
import sys
import time

sys.path[:0] = [str(pathlib.Path(__file__).resolve().parent.parent), str(pathlib.Path(__file__).resolve().parent)]
import cases  # noqa: E402
import draws  # noqa: E402
import shell  # noqa: E402

BRANCHES = ["untouched", "one moves", "two move", "all move"]
SIGMA, HARDENING = slice(18, 21), 32
ONE = 1 << 1074
DEMANDED, ARCHIVED = 44, 40


def exact(x):
    """A finite float as whole units of 2^-1074."""
    m, e = math.frexp(x)
    return int(m * 2.0 ** 53) << (e + 1021) if e > -1021 else int(x * 2.0 ** 537 * 2.0 ** 537)


def largest(mu, la, strains):
    e = [exact(x) for x in strains]
    return la * sum(e) + 2 * mu * max(e)


# ---- what is drawn


def modulus(d, least):
    kind = d.one_of(4)
    return (least, 2.0 ** 40)[kind] if kind < 2 else 2.0 ** d.between(0.0, 40.0)


def strains(d):
    e = [d.between(-4.0, 4.0) for _ in range(3)]
    kind = d.one_of(8)
    if kind < 2:
        e[d.one_of(3)] = (4.0, -4.0)[kind]
    elif kind == 2:
        e = [(-4.0, 4.0)[d.one_of(2)]] * 3
    elif kind == 3:
        e[d.one_of(3)] = e[d.one_of(3)]
    elif kind == 4:
        e = [e[0]] * 3
    elif kind == 5:
        e = [x * 2.0 ** -40 for x in e]
    return e


def strength(d, mu, la, e):
    """A softened strength: anywhere, at an end, or beside one of the three tests."""
    c, b, a = sorted(e)
    k, total, beside = 2 * mu + 3 * la, sum(e), 1 + math.ldexp(d.between(-1.0, 1.0), -d.one_of(53))
    corners = [4 * k, -4 * k, (la * total + 2 * mu * a) * beside, ((2 * mu + la) * b + la * (total - a)) * beside, k * c * beside, 0.0]
    kind = d.one_of(8)
    return corners[kind] if kind < len(corners) else d.between(-4.0, 4.0) * k


def stretch(ours, e):
    """A sigma whose logarithm, ours, is near e and in -4 to 4; and that logarithm."""
    x = math.exp(e)
    log = ours.ln(x)
    while abs(log) > 4.0:
        x = math.nextafter(x, 1.0)
        log = ours.ln(x)
    return x, log


class Drawn:
    """A record and a law to update it."""

    def __init__(self, pasoletu, d):
        self.ours = pasoletu
        mu, la = modulus(d, 1.0), modulus(d, 0.0) if d.one_of(4) else 0.0
        young, poisson = mu * (3 * la + 2 * mu) / (la + mu), la / (2 * (la + mu))
        self.la, self.mu = pasoletu.utils.lame_lambda_mu(young, poisson)
        sigma, self.before = zip(*[stretch(pasoletu.elementary, e) for e in strains(d)])
        self.was = cases.completed([d.between(-1.0, 1.0) for _ in range(30)] + [1.0] * 6)
        self.was[SIGMA] = sigma
        self.was[HARDENING] = hardening = 1.0 if d.one_of(2) else 2.0 ** d.between(-3.0, 20.0)
        tensile = strength(d, self.mu, self.la, self.before) + (hardening - 1.0)
        self.s = tensile - (hardening - 1.0)
        self.law = pasoletu.RankinePlasticity(young, poisson, tensile, d.between(-1.0, 10.0) if d.one_of(4) else 0.0)

    def in_premises(self):
        moduli = 1.0 <= self.mu <= 2.0 ** 40 and 0.0 <= self.la <= 2.0 ** 40
        return moduli and abs(exact(self.s)) <= 4 * (2 * exact(self.mu) + 3 * exact(self.la))

    def gap(self, strains, k):
        """How far the largest principal stress lies above s, and (2mu + 3lambda)/2^k, as whole numbers of one unit."""
        mu, la = exact(self.mu), exact(self.la)
        return (largest(mu, la, strains) - exact(self.s) * ONE) << k, (2 * mu + 3 * la) * ONE

    def update(self):
        """Works the record; the branch, the two gaps to the surface in their units, and whether the promises are kept."""
        particle = self.ours.Particle.from_floats(self.was)
        stored = isinstance(self.law.update_particle(particle), self.ours.Stored)
        record = particle.floats()
        if not stored:
            gap, unit = self.gap(self.before, DEMANDED)
            return 0, [gap / unit, 0.0], gap <= unit and cases.floats(record) == cases.floats(self.was)
        after = self.law.project(self.before, self.s)
        gaps = [self.gap(after, DEMANDED), self.gap([self.ours.elementary.ln(x) for x in record[SIGMA]], ARCHIVED)]
        follows = [self.ours.elementary.exp(x) for x in after] == record[SIGMA] and record[HARDENING] <= self.law.tensile_strength
        branch = max(1, sum(x != y for x, y in zip(self.before, after)))
        return branch, [gap / unit for gap, unit in gaps], follows and all(abs(gap) <= unit for gap, unit in gaps)


class Worst:
    """The furthest above and below of a branch, for the strains and for the archive's."""

    def __init__(self):
        self.seen, self.above, self.below = 0, [0.0, 0.0], [0.0, 0.0]

    def take(self, gaps):
        self.seen += 1
        self.above = [max(x, gap) for x, gap in zip(self.above, gaps)]
        self.below = [max(x, -gap) for x, gap in zip(self.below, gaps)]

    def say(self, name):
        told = ["%.4f above, %.4f below" % pair for pair in zip(self.above, self.below)] if name != BRANCHES[0] else ["%.4f above" % self.above[0]]
        print("%-10s %9d records, worst %s" % (name, self.seen, "; in the archive ".join(told)))


def drawn_in_premises(pasoletu, d):
    """The next draw, or nothing where it lies outside."""
    try:
        drawn = Drawn(pasoletu, d)
    except pasoletu.Refused:
        return None
    return drawn if drawn.in_premises() else None


def measure(args):
    pasoletu, d = shell.package(), draws.Draws(args.seed)
    worst, seen, bad, said = [Worst() for _ in BRANCHES], 0, 0, time.time()
    while seen < args.count:
        drawn = drawn_in_premises(pasoletu, d)
        if drawn is None:
            continue
        try:
            branch, gaps, kept = drawn.update()
        except pasoletu.Refused as refusal:
            raise shell.Wrong("a record in the premises is refused: %s: %s, %s" % (refusal, drawn.law, drawn.was))
        seen += 1
        worst[branch].take(gaps)
        if not kept:
            bad += 1
            print("NOT KEPT:", drawn.law, drawn.was)
        if time.time() - said > 5:
            said = time.time()
            print("%d of %d" % (seen, args.count), file=sys.stderr, flush=True)
    for branch, name in zip(worst, BRANCHES):
        branch.say(name)
    print("%d records in the premises, %d do not keep the promise; distances in units of (2mu + 3lambda)/2^%d, in the archive /2^%d" % (seen, bad, DEMANDED, ARCHIVED))
    return 1 if bad or not all(branch.seen for branch in worst) else 0


def main(argv=None):
    return shell.run("surface.py", measure, draws.arguments(__doc__, 1000000, argv))


if __name__ == "__main__":
    sys.exit(main())
