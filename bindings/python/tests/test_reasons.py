"""Tests of reasons: each kind, by the rules' own words, and that a reason refuses where the update does."""
import math
import struct
import unittest

import pasoletu
from pasoletu import Clamped, Particle, Refused, Stopped, Tested


def bits(x):
    return struct.unpack("<Q", struct.pack("<d", x))[0]


class Reasons(unittest.TestCase):
    def test_snow_names_the_bound_that_last_changed_it(self):
        crossed = pasoletu.SnowPlasticity(min_epsilon=-2.0, max_epsilon=-0.5, hardening_coeff=1.0)
        self.assertEqual(crossed.reason(Particle()), Clamped(("upper",) * 3))
        law = pasoletu.SnowPlasticity()
        self.assertEqual(law.reason(Particle.stretched([1.0, 0.5, 2.0])), Clamped(("neither", "lower", "upper")))

    def test_rankine_names_its_last_test(self):
        law = pasoletu.RankinePlasticity.new(young_modulus=1000.0, poisson_ratio=0.25, tensile_strength=10.0, softening_rate=1.0)
        self.assertEqual(law.reason(Particle()), Tested(4, True, 0, (bits(0.0), bits(10.0))))
        mu, lame = 400.0, 400.0
        for sigma, test, held, branch in (([1.1, 0.9, 0.9], 5, True, 1), ([1.1, 1.1, 0.8], 6, True, 2), ([1.1, 1.1, 1.1], 6, False, 3)):
            told = law.reason(Particle.stretched(sigma))
            self.assertEqual((told.test, told.held, told.branch), (test, held, branch))
            c, b, a = sorted(math.log(x) for x in sigma)
            side = (2 * mu + lame) * b + lame * (c + b) if test == 5 else (2 * mu + 3 * lame) * c
            value, strength = (struct.unpack("<d", struct.pack("<Q", w))[0] for w in told.compared)
            self.assertAlmostEqual(value, side, 9)
            self.assertEqual(strength, 10.0)

    def test_drucker_prager_names_its_flag_and_its_zeros(self):
        law = pasoletu.DruckerPragerPlasticity.new(young_modulus=1000.0, poisson_ratio=0.25)
        self.assertEqual(law.reason(Particle()), Tested(8, True, 1, (0, 0, 0)))

    def test_a_refusal_has_its_step_and_its_place(self):
        law = pasoletu.RankinePlasticity.new(young_modulus=1000.0, poisson_ratio=0.25, tensile_strength=10.0, softening_rate=1.0)
        particle = Particle.stretched([1.0, 0.0, 1.0])
        self.assertEqual(law.reason(particle), Stopped(2, 2))
        with self.assertRaises(Refused) as refused:
            law.update_particle(particle)
        self.assertEqual(refused.exception.number, 2)
        self.assertEqual(pasoletu.SnowPlasticity(max_epsilon=math.inf).reason(particle), Stopped(1, 0, "parameter", 1))


if __name__ == "__main__":
    unittest.main()
