"""Stress and verdict as one: the verdict beside principal values worked a second time, and what is refused, in its order."""
import math
import random
import unittest

from pasoletu import CorotatedLinearElasticity, MaximumStressFailure, NeoHookeanElasticity, Particle, Refused

NEO, COROTATED = NeoHookeanElasticity(0.5, 1.0, 3.0), CorotatedLinearElasticity(True, 0.9, 3.0, 1.0)
WIDE = MaximumStressFailure(1e300, 1e300)


def ends(stress):
    """Least and greatest principal value of the lower triangle, by Jacobi's turns."""
    a = [[stress[max(i, j)][min(i, j)] for j in range(3)] for i in range(3)]
    for _ in range(12):
        for p, q in (0, 1), (0, 2), (1, 2):
            if a[p][q] == 0.0:
                continue
            h = (a[q][q] - a[p][p]) / (2.0 * a[p][q])
            t = math.copysign(1.0, h) / (abs(h) + math.hypot(1.0, h))
            c = 1.0 / math.hypot(1.0, t)
            s = t * c
            for row in a:
                row[p], row[q] = c * row[p] - s * row[q], s * row[p] + c * row[q]
            a[p], a[q] = [c * x - s * y for x, y in zip(a[p], a[q])], [s * x + c * y for x, y in zip(a[p], a[q])]
    values = [a[k][k] for k in range(3)]
    return min(values), max(values)


def drawn(d):
    f = [[(r == k) + d.gauss(0.0, 0.3) for k in range(3)] for r in range(3)]
    p = Particle(deformation_gradient=f, phase=d.choice([0.0, 1.0, 0.5]), elastic_hardening=d.uniform(0.1, 3.0))
    p.factor()
    return p


def number(call, *given):
    try:
        call(*given)
    except Refused as refused:
        return refused.number
    return 0


class Judged(unittest.TestCase):
    def test_the_verdict_is_that_on_the_principal_values_of_the_stress_beside_it(self):
        d, seen = random.Random(9), set()
        for _ in range(1500):
            p = drawn(d)
            for law in NEO, COROTATED:
                try:
                    stress, failed = law.stress_and_verdict(WIDE, p)
                except Refused as refused:
                    self.assertEqual((type(law), refused.number), (NeoHookeanElasticity, 2))  # F is turned inside out
                    seen.add(2)
                    continue
                self.assertFalse(failed)
                least, greatest = ends(stress)
                part = 2.0**-36 * max(abs(x) for row in stress for x in row)
                shear = (greatest - least) / 2.0
                if part == 0.0:
                    continue  # the tensile part is dropped, and nothing is left
                for limits, wanted in ((greatest + part, 1e300), False), ((greatest - part, 1e300), True), ((1e300, shear + part), False), ((1e300, shear - part), True):
                    self.assertEqual(law.stress_and_verdict(MaximumStressFailure(*limits), p), (stress, wanted))
                seen.add((type(law), p.phase, abs(stress[1][0]) > part))
        self.assertIn(2, seen)
        self.assertLessEqual({(type(law), phase, True) for law in (NEO, COROTATED) for phase in (1.0, 0.5)}, seen)

    def test_1_then_11_then_the_stress_itself(self):
        flat = Particle(deformation_gradient=[[0.0] * 3] * 3)
        self.assertEqual((number(NEO.stress_and_verdict, WIDE, flat), number(COROTATED.stress_and_verdict, WIDE, flat)), (2, 0))
        for law in NEO, COROTATED:
            wrong = flat.floats()
            wrong[36] = 2.0
            self.assertEqual(number(law.stress_and_verdict, WIDE, Particle.from_floats(wrong)), 11)
            for k in range(37):
                floats = list(wrong)
                floats[k] = math.inf
                self.assertEqual(number(law.stress_and_verdict, WIDE, Particle.from_floats(floats)), 1)
            for limits in MaximumStressFailure(math.nan, 1.0), MaximumStressFailure(1.0, -math.inf):
                self.assertEqual(number(law.stress_and_verdict, limits, Particle.from_floats(wrong)), 1)
        stiff = CorotatedLinearElasticity(True, 0.9, 0.0, 1e308)
        self.assertEqual(number(stiff.stress_and_verdict, WIDE, Particle.stretched([9.0, 1.0, 1.0])), 3)

    def test_14_last(self):
        # The entries are floats and the greatest principal value, 2e308, is none.
        u = [[0.6, -0.8, 0.0], [0.8, 0.6, 0.0], [0.0, 0.0, 1.0]]
        f = [[1.2, -0.8, 0.0], [1.6, 0.6, 0.0], [0.0, 0.0, 1.0]]
        p = Particle(deformation_gradient=f, u=u, singular_values=[2.0, 1.0, 1.0])
        self.assertEqual(number(CorotatedLinearElasticity(True, 0.9, 0.0, 5e307).stress_and_verdict, WIDE, p), 14)
        self.assertEqual(number(CorotatedLinearElasticity(True, 0.9, 0.0, 5e306).stress_and_verdict, WIDE, p), 0)

    def test_what_is_wrong_is_named(self):
        with self.assertRaisesRegex(Refused, "NeoHookeanElasticity.stress_and_verdict refused by 1: .*, first limits.max_shear_stress"):
            NEO.stress_and_verdict(MaximumStressFailure(1.0, math.nan), Particle())
        with self.assertRaisesRegex(TypeError, "CorotatedLinearElasticity.stress_and_verdict: limits is a tuple and must be a MaximumStressFailure"):
            COROTATED.stress_and_verdict((1.0, 1.0), Particle())
        with self.assertRaisesRegex(TypeError, "NeoHookeanElasticity.stress_and_verdict: particle is a list and must be a Particle"):
            NEO.stress_and_verdict(WIDE, [1.0] * 37)


if __name__ == "__main__":
    unittest.main()
