"""A second reading of neo-Hookean's energy in both modes (RULES, sections 4 to 6): worked in Python's own floats, in the same
order, with the library's logarithm and its power -1/3, and compared bit for bit."""
import math
import random
import struct
import unittest
from collections import Counter

from pasoletu import NeoHookeanElasticity, Refused, elementary

DRAWN = 4000
ODD = [float("nan"), float("inf"), -float("inf"), 0.0, -0.0, 5e-324, 1e200, -1e300]


def bits(x):
    return struct.pack("<d", x)


def determinant(m):
    (a, b, c), (d, e, f), (g, h, i) = m
    return a * (e * i - f * h) - b * (d * i - f * g) + c * (d * h - e * g)


def parts(law, hardening, f):
    """j, the deviatoric and the volumetric part, or the number of a refusal before the split."""
    k = 2.0 / 3.0 * (law.mu * hardening) + law.lam * hardening
    j = determinant(f)
    if math.isnan(k) or math.isnan(j):
        return 3
    if not 2.0**-60 <= j <= 2.0**60:
        return 2 if j < 2.0**-60 else 10
    w = elementary.inv_cbrt(j)
    a = [[w * x for x in row] for row in f]
    s = [[a[0][r] * a[0][c] + a[1][r] * a[1][c] + a[2][r] * a[2][c] for c in range(3)] for r in range(3)]
    if any(math.isnan(x) for row in s for x in row):
        return 3
    deviatoric = law.mu * hardening / 2.0 * (s[0][0] + s[1][1] + s[2][2] - 3.0)
    volumetric = k / 2.0 * ((j * j - 1.0) / 2.0 - elementary.ln(j))
    return j, deviatoric, volumetric


def energy(law, one_split, phase, hardening, f):
    """The energy, or the refusal's number."""
    if not all(map(math.isfinite, [law.cfl_coeff, law.lam, law.mu, phase, hardening, *f[0], *f[1], *f[2]])):
        return 1
    found = parts(law, hardening, f)
    if isinstance(found, int):
        return found
    j, deviatoric, volumetric = found
    coefficient = (1.0 - 0.001) * phase * phase + 0.001
    if j >= 1.0:
        total = coefficient * (volumetric + deviatoric) + 0.0
    elif one_split:
        total = coefficient * deviatoric + volumetric
    else:
        total = coefficient * volumetric + deviatoric
    return total if math.isfinite(total) else 3


def asked(law, one_split, phase, hardening, f):
    try:
        return law.elastic_energy_density(phase, hardening, f, one_split=one_split)
    except Refused as refused:
        return refused.number


def drawn(r):
    """A law, a phase, a hardening and F; one draw in four has an odd number in it."""
    scale = r.choice([1.0, 1.0, 1.0, 1e-3, 1e4, 1e90])
    numbers = [0.5, 10 ** r.uniform(-2, 7), 10 ** r.uniform(-2, 7), r.choice([0.0, 1.0, r.random()]), 10 ** r.uniform(-2, 2)]
    numbers += [scale * ((k % 4 == 0) * r.choice([0.5, 1.0, 1.0, 2.0]) + r.choice([0.0, r.gauss(0.0, 0.2)])) for k in range(9)]
    if r.random() < 0.25:
        numbers[r.randrange(14)] = r.choice(ODD)
    return NeoHookeanElasticity(*numbers[:3]), numbers[3], numbers[4], [numbers[5:8], numbers[8:11], numbers[11:14]]


def kind(found, f):
    if isinstance(found, int):
        return "refused %d" % found
    return "j below 1" if determinant(f) < 1.0 else "j from 1 up"


class Energy(unittest.TestCase):
    def test_both_modes_bit_for_bit(self):
        r, kinds, differ = random.Random(14), Counter(), 0
        for _ in range(DRAWN):
            law, phase, hardening, f = drawn(r)
            told = [asked(law, mode, phase, hardening, f) for mode in (False, True)]
            for mode in (False, True):
                wanted = energy(law, mode, phase, hardening, f)
                self.assertEqual(bits(told[mode]), bits(wanted), (law, mode, phase, hardening, f))
                self.assertEqual(isinstance(told[mode], int), isinstance(wanted, int))
                kinds[kind(wanted, f)] += 1
            if bits(told[0]) != bits(told[1]):
                differ += 1
                self.assertLess(determinant(f), 1.0)
        for name in ("refused 1", "refused 2", "refused 3", "refused 10", "j below 1", "j from 1 up"):
            self.assertGreater(kinds[name], 50, kinds)
        self.assertGreater(differ, 200)


if __name__ == "__main__":
    unittest.main()
