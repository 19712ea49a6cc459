"""Stress and energy of a particle, with the determinant that it holds, beside those of its bare F: every bit, and what is refused."""
import math
import random
import struct
import unittest

from pasoletu import CorotatedLinearElasticity, NeoHookeanElasticity, Particle, Refused

NEO, COROTATED = NeoHookeanElasticity(0.5, 1.0, 3.0), CorotatedLinearElasticity(True, 0.9, 3.0, 1.0)


def answer(call, *given, **named):
    """The bits of what a call answers, or its refusal's number."""
    try:
        told = call(*given, **named)
    except Refused as refused:
        return refused.number
    flat = [x for row in told for x in row] if isinstance(told, list) else [told]
    return struct.pack("<%dd" % len(flat), *flat)


def pairs(neo, corotated, p):
    """Each call of a particle, and the one of its parts."""
    f, s = p.deformation_gradient, p.singular_values
    phase, h = p.phase, p.elastic_hardening
    yield (neo.fpk_stress_of, p), (neo.fpk_stress, f, h), {}
    yield (neo.elastic_energy_density_of, p), (neo.elastic_energy_density, phase, h, f), {}
    yield (neo.elastic_energy_density_of, p), (neo.elastic_energy_density, phase, h, f), {"one_split": True}
    yield (neo.pos_energy_of, p), (neo.pos_energy, phase, h, f), {}
    yield (corotated.elastic_energy_density_of, p), (corotated.elastic_energy_density, s, h), {}
    yield (corotated.pos_energy_of, p), (corotated.pos_energy, f, s, h), {}


class OfRecord(unittest.TestCase):
    def drawn(self, d):
        size = d.choice([0.01, 0.3, 1.0, 30.0, 1e20])
        def matrix():
            return [[(r == k) + d.gauss(0.0, size) for k in range(3)] for r in range(3)]
        sigma = [math.exp(d.gauss(0.0, min(size, 1.0))) for _ in range(3)]
        return Particle(
            deformation_gradient=matrix(), u=matrix(), v_t=matrix(), singular_values=sigma, phase=d.choice([0.0, 1.0, 0.5, -0.0]), elastic_hardening=d.uniform(0.1, 3.0)
        )

    def test_what_it_answers_is_what_the_bare_call_does(self):
        d, seen = random.Random(11), set()
        for _ in range(1500):
            corotated = CorotatedLinearElasticity(d.random() < 0.5, 0.9, 3.0, 1.0)
            for place, (of, bare, named) in enumerate(pairs(NEO, corotated, self.drawn(d))):
                told = answer(*of, **named)
                self.assertEqual(told, answer(*bare, **named), (of, named))
                seen.add((place, told if isinstance(told, int) else 0))
        for place in range(6):
            self.assertIn((place, 0), seen)
        self.assertLessEqual({2, 10}, {number for place, number in seen if place < 4})

    def test_1_then_11(self):
        for k in range(37):
            floats = Particle.stretched([0.9, 1.1, 1.0]).floats()
            floats[36] = 2.0
            for of, _, named in pairs(NEO, COROTATED, Particle.from_floats(floats)):
                self.assertEqual(answer(*of, **named), 11)
            floats[k] = math.nan
            for of, _, named in pairs(NEO, COROTATED, Particle.from_floats(floats)):
                self.assertEqual(answer(*of, **named), 1)
        for of, _, named in pairs(NeoHookeanElasticity(0.5, math.inf, 1.0), CorotatedLinearElasticity(True, 0.9, 1.0, math.nan), Particle(determinant=2.0)):
            self.assertEqual(answer(*of, **named), 1)

    def test_the_place_is_told(self):
        with self.assertRaisesRegex(Refused, "NeoHookeanElasticity.pos_energy_of refused by 1: .*, first nacc_alpha"):
            NEO.pos_energy_of(Particle(nacc_alpha=math.nan))
        with self.assertRaisesRegex(Refused, "CorotatedLinearElasticity.pos_energy_of refused by 1: .*, first the law's mu"):
            CorotatedLinearElasticity(True, 0.9, 1.0, math.nan).pos_energy_of(Particle())
        with self.assertRaisesRegex(TypeError, "NeoHookeanElasticity.fpk_stress_of: particle is a list and must be a Particle"):
            NEO.fpk_stress_of([1.0] * 37)


if __name__ == "__main__":
    unittest.main()
