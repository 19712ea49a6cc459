"""The library's own factors: of a particle, of a list, and first in a pass. What is accepted is held to the check in exact fractions."""
import array
import math
import random
import struct
import unittest
from fractions import Fraction

import pasoletu
from pasoletu import (
    CorotatedLinearElasticity,
    DruckerPragerPlasticity,
    MaximumStressFailure,
    NaccPlasticity,
    Particle,
    RankinePlasticity,
    Refused,
    SnowPlasticity,
    Stored,
    raw,
)

I = [[1.0, 0.0, 0.0], [0.0, 1.0, 0.0], [0.0, 0.0, 1.0]]
NAN = struct.unpack("<d", struct.pack("<Q", 0xFFF8000000C0FFEE))[0]
LAWS = (
    SnowPlasticity(),
    RankinePlasticity(1e5, 0.3, 500.0, 2.0),
    DruckerPragerPlasticity.new(1e5, 0.3),
    NaccPlasticity(1e4, 0.3, 0.05, True, 3.0, 2.36),
)
JUDGE = MaximumStressFailure(2e4, 2e4), CorotatedLinearElasticity.new(1e5, 0.3)


def bits(floats):
    return struct.pack("<%dd" % len(floats), *floats)


def of(f, **parts):
    """With factors that are none of F."""
    return Particle(deformation_gradient=f, u=[[7.0] * 3] * 3, singular_values=[-7.0] * 3, v_t=[[0.0] * 3] * 3, nacc_alpha=-0.05, **parts)


def drawn(draw):
    """Entry by entry, sizes from 2^-20 to 2^20 (docs/FACTORS.md)."""
    return of([[draw.choice((-1, 1)) * math.ldexp(1.0 + draw.random(), draw.randrange(-20, 20)) for _ in range(3)] for _ in range(3)])


def near_rest(draw):
    return of([[x + draw.uniform(-0.4, 0.4) for x in row] for row in I])


def too_large():
    """Its largest singular value, 1.7e308 times the root of 2, is no double."""
    return of([[1.7e308, 1.7e308, 0.0], [0.0] * 3, [0.0] * 3])


def accepted(particle):
    """The check of RULES, section 7, in fractions."""
    if not all(map(math.isfinite, particle.floats()[:30])):
        return False
    f, u, vt = ([[Fraction(x) for x in row] for row in m] for m in (particle.deformation_gradient, particle.u, particle.v_t))
    sigma, span = [Fraction(x) for x in particle.singular_values], range(3)
    bound = Fraction(1, 2**40)
    most = max(abs(x) for row in f for x in row)
    places = [(r, c) for r in span for c in span]
    return (
        all(abs(sum(u[r][k] * sigma[k] * vt[k][c] for k in span) - f[r][c]) <= most * bound for r, c in places)
        and all(abs(sum(u[r][k] * u[c][k] for k in span) - (r == c)) <= bound for r, c in places)
        and all(abs(sum(vt[k][r] * vt[k][c] for k in span) - (r == c)) <= bound for r, c in places)
        and all(x >= 0 for x in sigma)
    )


def told(work):
    try:
        return work()
    except Refused as refused:
        return refused.number


class Particles(unittest.TestCase):
    def test_accepted_factors_pass_the_check(self):
        draw = random.Random(6)
        for k in range(2000):
            particle = (drawn, near_rest)[k % 2](draw)
            came = particle.floats()
            self.assertFalse(accepted(particle))
            particle.factor()
            self.assertTrue(accepted(particle), came[:9])
            after = particle.floats()
            self.assertEqual(bits(after[:9] + after[30:]), bits(came[:9] + came[30:]))

    def test_a_diagonal_keeps_its_entries_with_their_bits(self):
        for sigma in ([1.0, 2.0, 3.0], [0.0, -0.0, 1e-300], [0.1, 1e300, 0.0], [5e-324, 0.0, 1.7976931348623157e308], [0.0] * 3):
            particle = of([[sigma[0], -0.0, 0.0], [0.0, sigma[1], -0.0], [0.0, 0.0, sigma[2]]])
            particle.factor()
            self.assertEqual(bits(particle.singular_values), bits(sigma))
            self.assertTrue(accepted(particle))

    def test_the_refusals_in_their_order(self):
        for particle, number, place in (
            (too_large(), 14, None),
            (of(too_large().deformation_gradient, determinant=1.0), 11, None),
            (of(I, determinant=2.0, phase=NAN), 1, "phase"),
            (Particle(v_t=[I[0], I[1], [math.inf, 0.0, 1.0]]), 1, "v_t[2][0]"),
        ):
            came = particle.floats()
            with self.assertRaises(Refused) as caught:
                particle.factor()
            self.assertEqual((caught.exception.number, caught.exception.place), (number, place))
            self.assertEqual(bits(particle.floats()), bits(came))
        with self.assertRaisesRegex(
            Refused, "^Particle.factor refused by 14: the factors or the principal values worked out miss their check; look at the sizes of F's or the stress's entries"
        ):
            too_large().factor()

    def test_the_length(self):
        for n in (0, 36, 38, 74):
            record = array.array("d", [1.0] * n)
            self.assertEqual((raw.call("factor", record), record.tolist()), (8, [1.0] * n))


class Lists(unittest.TestCase):
    def given(self):
        draw = random.Random(1)
        return [drawn(draw), too_large(), of(I, phase=NAN), of(I, determinant=2.0), near_rest(draw), Particle()]

    def test_particles(self):
        listed, alone = self.given(), self.given()
        passed = pasoletu.factor_particles(listed)
        self.assertEqual((passed.untouched, passed.stored, passed.refused, passed.failed), (0, 3, 3, 0))
        self.assertEqual([getattr(o, "number", 0) for o in passed.outcomes], [0, 14, 1, 11, 0, 0])
        self.assertEqual([o for o in passed.outcomes if isinstance(o, Stored)], [Stored(0.0)] * 3)
        self.assertEqual((passed.outcomes[2].particle, passed.outcomes[2].place), (2, "phase"))
        for one, other in zip(listed, alone):
            told(other.factor)
            self.assertEqual(bits(one.floats()), bits(other.floats()))

    def test_records(self):
        listed = self.given()
        records = array.array("d", [x for particle in listed for x in particle.floats()])
        passed = pasoletu.factor_records(records)
        self.assertEqual(str(passed.outcomes[2]), str(Refused(1, "factor_records", 2, "phase")))
        pasoletu.factor_particles(listed)
        self.assertEqual(records.tobytes(), bits([x for particle in listed for x in particle.floats()]))
        self.assertEqual(len(pasoletu.factor_records(array.array("d"))), 0)
        with self.assertRaisesRegex(Refused, "factor_records refused by 8"):
            pasoletu.factor_records(array.array("d", [1.0] * 36))

    def test_the_lengths(self):
        records, answers, counts = array.array("d", [1.0] * 74), array.array("Q", [5] * 4), array.array("Q", [5] * 3)
        for lists in (
            (records[:73], answers, counts),
            (records, answers[:3], counts),
            (records, answers, counts[:2]),
            (records, answers, array.array("Q", [5] * 4)),
        ):
            was = [list(x) for x in lists]
            self.assertEqual((raw.call("factor_list", *lists), [list(x) for x in lists]), (8, was))


class Passes(unittest.TestCase):
    def test_factored_is_the_factors_and_then_the_pass(self):
        """But a refused particle has the factors that it had."""
        seen = set()
        for law in LAWS:
            for by in ((), JUDGE):
                draw = random.Random(3)
                came = [near_rest(draw) for _ in range(80)] + [too_large(), of(I, determinant=2.0), of(I, phase=NAN), of(I), of([[0.0] * 3] * 3)]
                was = [particle.floats() for particle in came]
                after = [Particle.from_floats(floats) for floats in was]
                records = array.array("d", [x for floats in was for x in floats])
                factored = pasoletu.factor_particles(after)
                if by:
                    first, then = pasoletu.pass_with_failure(law, *by, came, factored=True), pasoletu.pass_with_failure(law, *by, after)
                else:
                    first, then = pasoletu.pass_particles(law, came, factored=True), pasoletu.pass_particles(law, after)
                for k, outcome in enumerate(first.outcomes):
                    seen.add(type(outcome))
                    before = factored.outcomes[k]
                    wanted = before if isinstance(before, Refused) else then.outcomes[k]
                    if isinstance(wanted, Refused):
                        self.assertEqual((outcome.number, outcome.place), (wanted.number, wanted.place))
                        self.assertEqual(bits(came[k].floats()), bits(was[k]))
                    else:
                        self.assertEqual(outcome, wanted)
                        self.assertEqual(bits(came[k].floats()), bits(after[k].floats()))
                passed = pasoletu.pass_records(law, records, *by, factored=True)
                self.assertEqual(bytes(memoryview(passed.answers).cast("B")), bytes(memoryview(first.answers).cast("B")))
                self.assertEqual((passed.stored, passed.failed), (first.stored, first.failed))
                self.assertEqual(records.tobytes(), bits([x for particle in came for x in particle.floats()]))
        self.assertEqual(len(seen), 3)

    def test_an_untouched_particle_has_the_new_factors(self):
        strong, particle = RankinePlasticity(1e5, 0.3, 1e9, 1.0), near_rest(random.Random(2))
        self.assertEqual(pasoletu.pass_particles(strong, [particle], factored=True).untouched, 1)
        self.assertTrue(accepted(particle))

    def test_parameters_and_limits_come_first(self):
        wrong = of(too_large().deformation_gradient, determinant=1.0)
        self.assertEqual(pasoletu.pass_particles(SnowPlasticity(max_epsilon=math.nan), [wrong], factored=True).outcomes[0].number, 1)
        limits = MaximumStressFailure(math.nan, 1.0)
        passed = pasoletu.pass_with_failure(SnowPlasticity(), limits, JUDGE[1], [wrong], factored=True)
        self.assertEqual((passed.outcomes[0].number, passed.outcomes[0].place), (1, "the limits' max_principal_stress"))


if __name__ == "__main__":
    unittest.main()
