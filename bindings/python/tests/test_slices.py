"""Slices of a slope: the four laws in two axes beside a second reading with Python's own floats, written from docs/RULES.md."""
import math
import random
import struct
import sys
import unittest
from array import array

import pasoletu
from pasoletu import raw
from pasoletu.refusal import LENGTH, NOT_FINITE, UNKNOWN

NAN, INF = float("nan"), float("inf")
PHASE, PDET, PHARD, EHARD, GAIN, ALPHA = range(14, 20)
NEAR = 2.0 ** -30


class Told(Exception):
    pass


def ranged(f, low, high, x):
    if x != x:
        raise Told(3)
    if not low <= x <= high:
        raise Told(2 if x < low else 10)
    return f(x)


def ln(x):
    return ranged(math.log, 2.0 ** -60, 2.0 ** 60, x)


def exp(x):
    return ranged(math.exp, -700.0, 700.0, x)


def root(x):
    return ranged(math.sqrt, 0.0, sys.float_info.max, x)


def power(x, k):
    """The powers -2/d, 1/d and 2/d with d = 2, within the range of powers."""
    return ranged({-2: lambda x: 1.0 / x, 1: math.sqrt, 2: lambda x: x}[k], 2.0 ** -60, 2.0 ** 60, x)


def divide(a, b):
    return a / b if b else NAN if a == 0 or a != a else math.copysign(INF, a) * math.copysign(1.0, b)


def numbers(*xs):
    if any(x != x for x in xs):
        raise Told(3)


def finite(*xs):
    if not all(map(math.isfinite, xs)):
        raise Told(3)


def norm(e):
    return root(e[0] * e[0] + e[1] * e[1])


def moduli(young, poisson):
    lame = divide(young * poisson, (1.0 + poisson) * (1.0 - 2.0 * poisson))
    return lame, divide(young, 2.0 * (1.0 + poisson)), divide(young, 3.0 * (1.0 - 2.0 * poisson))


def snow(p, r):
    old = r[8:10]
    new = [min(max(e, 1.0 - p[0]), 1.0 + p[1]) for e in old]
    d = r[PDET] * divide(old[0] * old[1], new[0] * new[1])
    h = exp(p[2] * (1.0 - d))
    finite(d)
    return h, new, {PDET: d, EHARD: h}


def rankine(p, r):
    lame, mu, _ = moduli(p[0], p[1])
    finite(lame, mu)
    e = [ln(x) for x in r[8:10]]
    small, large = (1, 0) if e[1] < e[0] else (0, 1)
    s = p[2] - (r[PHARD] - 1.0)
    total = e[0] + e[1]
    new = list(e)
    if lame * total + 2.0 * mu * e[large] <= s:
        return None
    if (2.0 * mu + lame) * e[small] + lame * (total - e[large]) <= s:
        new[large] = divide(s - lame * (total - e[large]), 2.0 * mu + lame)
    else:
        new = [divide(s, 2.0 * mu + 2.0 * lame)] * 2
    h = r[PHARD] + p[3] * norm([x - y for x, y in zip(e, new)])
    numbers(h)
    sigma = [exp(x) for x in new]
    finite(*sigma)
    h = min(h, p[2])
    return h, sigma, {PHARD: h}


def drucker_prager(p, r):
    h0, h1, h2, h3, lame, mu, flag, correction = p
    if flag and r[PHASE] != 0.0:
        return None
    q = r[PHARD]
    s = ranged(math.sin, -8.0, 8.0, h0 + (h1 * q - h3) * exp(-h2 * q))
    alpha = math.sqrt(2.0 / 3.0) * (2.0 * s) / (3.0 - s)
    e = [ln(x) + r[GAIN] / 2.0 for x in r[8:10]]
    trace = e[0] + e[1]
    dev = [x - trace / 2.0 for x in e]
    if dev == [0.0] * 2 or trace > 0.0:
        new, dq = [1.0] * 2, norm(e)
    else:
        n = norm(dev)
        dq = n + divide(2.0 * lame + 2.0 * mu, 2.0 * mu) * trace * alpha
        numbers(dq)
        if dq <= 0.0:
            return None
        new = [exp(x - dq * divide(d, n)) for x, d in zip(e, dev)]
    before, after = r[8] * r[9], new[0] * new[1]
    if not after - before > 0.0:
        after = before + (after - before) * correction
    scalars = {PDET: r[PDET] * divide(before, after), GAIN: r[GAIN] + (ln(before) - ln(after)), PHARD: q + dq}
    finite(*scalars.values())
    return dq, new, scalars


def nacc(p, r):
    _, mu, kappa = moduli(p[0], p[1])
    finite(mu, kappa)
    beta, hardens, xi, m = p[2:]
    alpha, v = r[ALPHA], r[8:10]
    p0 = kappa * (1.0e-5 + ranged(math.sinh, -700.0, 700.0, xi * max(-alpha, 0.0)))
    squares = [x * x for x in v]
    total = squares[0] + squares[1]
    j = v[0] * v[1]
    shear = [mu * power(j, -2) * (x - total / 2.0) for x in squares]
    pressure = -(kappa / 2.0 * (j - divide(1.0, j))) * j
    numbers(p0, pressure, *shear)
    if pressure > p0 or pressure < -beta * p0:
        tip = root((-2.0 * p0 if pressure > p0 else 2.0 * beta * p0) / kappa + 1.0)
        sigma = [power(tip, 1)] * 2
        if hardens:
            alpha += ln(j / tip)
        return alpha, sigma, {ALPHA: alpha}
    y0 = (1.0 + 2.0 * beta) * 2.0
    y1 = m * m * (pressure + beta * p0) * (pressure - p0)
    if y0 * (shear[0] * shear[0] + shear[1] * shear[1]) + y1 < 1.0e-4:
        return None
    if hardens and p0 > 1.0e-4 and pressure < p0 - 1.0e-4 and pressure > -beta * p0 + 1.0e-4:
        pc = (1.0 - beta) * p0 / 2.0
        d = [pc - pressure, -(math.sqrt(2.0) * norm(shear))]
        size = math.hypot(*d)
        d = [d[0] / size, d[1] / size]
        c = m * m * (pc + beta * p0) * (pc - p0)
        b = m * m * d[0] * (2.0 * pc - p0 + beta * p0)
        a = m * m * d[0] * d[0] + (1.0 + 2.0 * beta) * d[1] * d[1]
        of = root(b * b - 4.0 * a * c)
        p1, p2 = pc + (-b + of) / (2.0 * a) * d[0], pc + (-b - of) / (2.0 * a) * d[0]
        px = p1 if (pressure - pc) * (p1 - pc) > 0.0 else p2
        jx = math.sqrt(abs(-2.0 * px / kappa + 1.0))
        if jx > 1.0e-4:
            alpha += ln(j / jx)
    scale = root(-y1 / y0) * (power(j, 2) / mu)
    return alpha, [root(scale * x / norm(shear) + total / 2.0) for x in shear], {ALPHA: alpha}


def recompose(u, sigma, vt):
    return [u[2 * i] * sigma[0] * vt[k] + u[2 * i + 1] * sigma[1] * vt[2 + k] for i in range(2) for k in range(2)]


def worked(law, p, r):
    """The number of the refusal, None where the record is untouched, or the amount and the record afterwards."""
    if not all(map(math.isfinite, p + r)):
        return 1
    try:
        told = law(p, r)
        if told is None:
            return None
        amount, sigma, scalars = told
        f = recompose(r[4:8], sigma, r[10:14])
        finite(*f)
        return amount, f + r[4:8] + list(sigma) + r[10:14] + [scalars.get(k, r[k]) for k in range(14, 20)]
    except Told as told:
        return told.args[0]


LAME = [1e5 * 0.3 / (1.3 * 0.4), 1e5 / 2.6]
SAND = [0.6108652381980153, 0.15707963267948966, 0.2, 0.17453292519943295, *LAME]
LAWS = [
    (pasoletu.SnowPlasticity(), snow),
    (pasoletu.SnowPlasticity(0.1, 0.2, 3.0), snow),
    (pasoletu.RankinePlasticity(1e5, 0.3, 500.0, 2.0), rankine),
    (pasoletu.RankinePlasticity(1e5, 0.3, 2e4, 1.0), rankine),
    (pasoletu.RankinePlasticity(1e5, 0.5, 500.0, 2.0), rankine),
    (pasoletu.DruckerPragerPlasticity(*SAND, False, 1.0), drucker_prager),
    (pasoletu.DruckerPragerPlasticity(*SAND, True, 0.5), drucker_prager),
    (pasoletu.NaccPlasticity(1e4, 0.3, 0.05, True, 3.0, 2.36), nacc),
    (pasoletu.NaccPlasticity(1e4, 0.3, 0.05, False, 3.0, 2.36), nacc),
]


def turned(angle):
    return [math.cos(angle), -math.sin(angle), math.sin(angle), math.cos(angle)]


def drawn(rng):
    """A record near rest, far from it, or at the ends; now and then with a float that is not finite."""
    size = rng.choice([0.001, 0.05, 0.3, 2.0, 50.0])
    sigma = [math.exp(rng.uniform(-size, size)) for _ in range(2)]
    if rng.random() < 0.1:
        sigma[1] = sigma[0]
    if rng.random() < 0.05:
        sigma[rng.randrange(2)] = rng.choice([0.0, -1.0, 1e300, 5e-324])
    u, vt = turned(rng.uniform(-4, 4)), turned(rng.uniform(-4, 4))
    scalars = [rng.choice([1.0, 1.0, 0.0, 0.5]), rng.uniform(0.5, 2.0), rng.uniform(0.0, 3.0), rng.uniform(0.1, 3.0), rng.uniform(-0.2, 0.2), rng.uniform(-0.2, 0.05)]
    r = recompose(u, sigma, vt) + u + sigma + vt + scalars
    if rng.random() < 0.03:
        r[rng.randrange(20)] = rng.choice([NAN, INF, -INF])
    return r


def bits(xs):
    return struct.pack("<%dd" % len(xs), *xs)


def near(a, b):
    return abs(a - b) <= NEAR * max(1.0, abs(a), abs(b))


class SecondReading(unittest.TestCase):
    def test_random_records(self):
        seen = {}
        for k, (law, by) in enumerate(LAWS):
            rng = random.Random(k)
            for _ in range(2000):
                r = drawn(rng)
                want = worked(by, [float(x) for x in law.parameters()], r)
                seen[by, "stored" if isinstance(want, tuple) else want] = True
                self.one(law, r, want)
        self.assertGreater(len(seen), 14)

    def one(self, law, r, want):
        particle = pasoletu.FlatParticle.from_floats(r)
        try:
            got = particle.update(law)
        except pasoletu.Refused as refused:
            self.assertEqual(refused.number, want, (law, r))
            self.assertEqual(bits(particle.floats()), bits(r))
            return
        if want is None:
            self.assertEqual(got, pasoletu.Untouched(), (law, r))
            self.assertEqual(bits(particle.floats()), bits(r))
            return
        self.assertIsInstance(want, tuple, (law, r, want))
        amount, after = want
        self.assertTrue(near(got.amount, amount), (law, r, got, amount))
        self.assertTrue(all(map(near, particle.floats(), after)), (law, r, particle, after))


class Lists(unittest.TestCase):
    def test_pass_is_the_update_of_each(self):
        rng = random.Random(7)
        for law, _ in LAWS:
            held = [pasoletu.FlatParticle.from_floats(drawn(rng)) for _ in range(30)]
            alone = [pasoletu.FlatParticle.from_floats(particle.floats()) for particle in held]
            passed = pasoletu.flat_pass(law, held)
            for particle, one, outcome in zip(held, alone, passed.outcomes):
                try:
                    self.assertEqual(one.update(law), outcome)
                except pasoletu.Refused as refused:
                    self.assertEqual((outcome.number, outcome.place), (refused.number, refused.place))
                self.assertEqual(bits(particle.floats()), bits(one.floats()))
            self.assertEqual(passed.untouched + passed.stored + passed.refused, 30)

    def test_refusals(self):
        particle = pasoletu.FlatParticle(u=[[1.0, NAN], [0.0, 1.0]])
        with self.assertRaises(pasoletu.Refused) as told:
            particle.update(pasoletu.SnowPlasticity())
        self.assertEqual((told.exception.number, told.exception.place), (NOT_FINITE, "u[0][1]"))
        for number in (0, 19, 21, 37):
            with self.assertRaises(pasoletu.Refused) as told:
                pasoletu.FlatParticle.from_floats([1.0] * number)
            self.assertEqual(told.exception.number, LENGTH)
        with self.assertRaises(pasoletu.Refused) as told:
            pasoletu.FlatParticle(singular_values=[1.0, 1.0, 1.0]).update(pasoletu.SnowPlasticity())
        self.assertEqual(told.exception.number, LENGTH)
        self.assertEqual(len(pasoletu.flat_pass(pasoletu.SnowPlasticity(), [])), 0)

    def test_smaller_strain(self):
        """The larger strain is the second: only it is brought back while the smaller one stays below the surface."""
        particle = pasoletu.FlatParticle.stretched([0.9, 1.3])
        particle.update(pasoletu.RankinePlasticity(1e5, 0.3, 500.0, 2.0))
        self.assertTrue(near(particle.singular_values[0], 0.9))
        self.assertLess(particle.singular_values[1], 1.3)


CLAY = (1e4, 0.3, 0.05, True, 3.0)


def friction(d, angle):
    s = math.sin(angle)
    return math.sqrt(2.0 / 3.0) * 2.0 * s / (3.0 - s) * d / math.sqrt(2.0 / (6.0 - d))


class FrictionAngle(unittest.TestCase):
    def test_m_is_that_of_the_axes(self):
        for angle in (0.0, -0.4, 0.5, math.radians(35.0), 1.2, 8.0):
            self.assertTrue(near(pasoletu.FlatNaccPlasticity.new(*CLAY, angle).m, friction(2.0, angle)), angle)
            self.assertTrue(near(pasoletu.NaccPlasticity.new(*CLAY, angle).m, friction(3.0, angle)), angle)
        self.assertAlmostEqual(pasoletu.FlatNaccPlasticity.new(*CLAY, math.radians(35.0)).m, 1.0918, 4)

    def test_the_law_is_that_of_its_m(self):
        made = pasoletu.FlatNaccPlasticity.new(*CLAY, math.radians(35.0))
        given = pasoletu.NaccPlasticity.with_m(*CLAY, made.m)
        rng = random.Random(35)
        held = [pasoletu.FlatParticle.from_floats(drawn(rng)) for _ in range(500)]
        alike = [pasoletu.FlatParticle.from_floats(particle.floats()) for particle in held]
        told, also = pasoletu.flat_pass(made, held), pasoletu.flat_pass(given, alike)
        self.assertEqual((told.untouched, told.stored, told.refused), (also.untouched, also.stored, also.refused))
        for one, other in zip(held, alike):
            self.assertEqual(bits(one.floats()), bits(other.floats()))
        self.assertGreater(told.stored, 0)

    def test_a_law_of_the_other_axes_is_not_taken(self):
        three, two = pasoletu.NaccPlasticity.new(*CLAY, 0.6), pasoletu.FlatNaccPlasticity.new(*CLAY, 0.6)
        particle = pasoletu.FlatParticle.stretched([1.5, 0.8])
        was = bits(particle.floats())
        for call in (lambda: particle.update(three), lambda: pasoletu.flat_pass(three, [particle])):
            with self.assertRaises(pasoletu.Refused) as told:
                call()
            self.assertEqual(told.exception.number, UNKNOWN)
            self.assertEqual(bits(particle.floats()), was)
        self.assertFalse(hasattr(two, "update_particle"))
        with self.assertRaises(TypeError):
            pasoletu.pass_particles(two, [pasoletu.Particle()])
        with self.assertRaises(TypeError):
            pasoletu.write_sheet(two, [pasoletu.Particle()])

    def test_refusals(self):
        for number, angle in ((NOT_FINITE, NAN), (NOT_FINITE, INF), (2, -8.5), (10, 8.5)):
            with self.assertRaises(pasoletu.Refused) as told:
                pasoletu.FlatNaccPlasticity.new(*CLAY, angle)
            self.assertEqual(told.exception.number, number)
        with self.assertRaises(pasoletu.Refused) as told:
            pasoletu.FlatNaccPlasticity.new(1e5, 0.5, 0.05, True, 3.0, 9.0)
        self.assertEqual(told.exception.number, 3)
        out = array("d", [7.0])
        for axes in (0, 1, 4, 2 ** 63):
            self.assertEqual(raw.call("nacc_friction", axes, 0.5, out), UNKNOWN)
        self.assertEqual(raw.call("nacc_friction", 2, 0.5, array("d", [])), LENGTH)
        self.assertEqual(raw.call("nacc_friction", 7, 0.5, array("d", [])), LENGTH)
        self.assertEqual(raw.call("nacc_friction", 7, NAN, out), UNKNOWN)
        self.assertEqual(out[0], 7.0)


if __name__ == "__main__":
    unittest.main()
