"""The determinant in the record: filled in, kept by what stores F, refused where it is another."""
import array
import math
import random
import struct
import sys
import pathlib
import unittest
import unittest.mock

import pasoletu
from pasoletu import (
    CorotatedLinearElasticity,
    DruckerPragerPlasticity,
    MaximumStressFailure,
    NaccPlasticity,
    Particle,
    RankinePlasticity,
    Refused,
    SnowPlasticity,
    Stored,
    Untouched,
    _arrays,
    raw,
)

TOP = pathlib.Path(__file__).resolve().parent.parent.parent.parent
sys.path.insert(0, str(TOP / "tools"))
import cases  # noqa: E402

NAN = struct.unpack("<d", struct.pack("<Q", 0xFFF8000000C0FFEE))[0]
I = [[1.0, 0.0, 0.0], [0.0, 1.0, 0.0], [0.0, 0.0, 1.0]]
TURN = [[0.8, -0.6, 0.0], [0.6, 0.8, 0.0], [0.0, 0.0, 1.0]]
LAWS = (
    SnowPlasticity(),
    RankinePlasticity(1e5, 0.3, 500.0, 2.0),
    DruckerPragerPlasticity.new(1e5, 0.3),
    NaccPlasticity(1e4, 0.3, 0.05, True, 3.0, 2.36),
)


def bits(floats):
    return struct.pack("<%dd" % len(floats), *floats)


def right(particle):
    """Whether the determinant is section 4's, by tools/cases.py."""
    floats = particle.floats()
    return bits(floats[36:]) == bits([cases.determinant(floats[:9])])


def turned(sigma):
    f = [[TURN[r][k] * sigma[k] for k in range(3)] for r in range(3)]
    return Particle(deformation_gradient=f, u=TURN, singular_values=list(sigma), nacc_alpha=-0.05)


def told(law, particle):
    try:
        return law.update_particle(particle)
    except Refused as refused:
        return refused.number


class Particles(unittest.TestCase):
    def test_an_f_that_is_set_has_its_determinant(self):
        particle = Particle()
        self.assertEqual(particle.determinant, 1.0)
        particle.deformation_gradient = [[2.0, 0.0, 0.0], [0.0, 3.0, 0.0], [0.0, 0.0, 5.0]]
        self.assertEqual((particle.determinant, particle.floats()[36]), (30.0, 30.0))
        self.assertEqual(Particle.stretched([2.0, 3.0, 5.0]).determinant, 30.0)
        self.assertTrue(right(turned([0.8, 1.2, 1.1])))

    def test_one_that_is_given_stays(self):
        self.assertEqual(Particle(determinant=7.0, deformation_gradient=I).floats()[36], 7.0)
        particle = Particle.stretched([2.0, 1.0, 1.0])
        particle.determinant = -0.0
        self.assertEqual(bits(particle.floats()[36:]), bits([-0.0]))

    def test_an_entry_of_f_that_is_changed_is_told(self):
        """The entries are the caller's own lists: by 11, until fill_determinant."""
        particle = Particle()
        particle.deformation_gradient[0][0] = 0.9
        with self.assertRaises(Refused) as caught:
            SnowPlasticity().update_particle(particle)
        self.assertEqual(
            str(caught.exception),
            "update_particle refused by 11: the record's stored determinant is not that of its F; fill it in where you write F (fill_determinants)",
        )
        particle.fill_determinant()
        self.assertIsInstance(SnowPlasticity().update_particle(particle), Stored)

    def test_floats_of_36_are_completed(self):
        particle = turned([0.8, 1.2, 1.1])
        floats = particle.floats()
        self.assertEqual(Particle.from_floats(floats[:36]), particle)
        self.assertEqual(Particle.from_floats(floats[:36] + [7.0]).determinant, 7.0)
        for n in (0, 35, 38):
            with self.assertRaisesRegex(Refused, "by 8"):
                Particle.from_floats([1.0] * n)

    def test_shown(self):
        self.assertIn("nacc_alpha=0.0, determinant=1.0)", repr(Particle()))
        with unittest.mock.patch("pasoletu.particle.ask", side_effect=AssertionError):
            self.assertTrue(repr(Particle.stretched([2.0, 1.0, 1.0])).endswith("nacc_alpha=0.0)"))


class Laws(unittest.TestCase):
    def test_what_stores_f_keeps_it(self):
        judge = MaximumStressFailure(1.0, 1.0), CorotatedLinearElasticity.new(1e5, 0.3)
        for law in LAWS:
            alone, listed, judged = (turned([0.8, 1.2, 1.1]) for _ in range(3))
            was = alone.deformation_gradient
            self.assertIsInstance(law.update_particle(alone), Stored)
            self.assertEqual(pasoletu.pass_particles(law, [listed]).stored, 1)
            self.assertEqual(pasoletu.pass_with_failure(law, *judge, [judged]).stored, 1)
            for after in (alone, listed, judged):
                self.assertNotEqual(after.deformation_gradient, was)
                self.assertTrue(right(after))

    def test_another_is_refused_and_keeps_its_bits(self):
        for law in LAWS:
            for wrong in (math.nextafter(1.0, 2.0), -1.0, 0.0, 2.0):
                particles = [Particle(), Particle(determinant=wrong), Particle()]
                passed = pasoletu.pass_particles(law, particles)
                self.assertEqual((passed.outcomes[1].number, passed.outcomes[1].place, passed.refused), (11, None, 1))
                self.assertEqual(particles[1], Particle(determinant=wrong))

    def test_its_place_in_the_order(self):
        snow = SnowPlasticity()
        self.assertEqual(told(snow, Particle(phase=NAN, determinant=2.0)), 1)
        self.assertEqual(told(snow, Particle(determinant=math.inf)), 1)
        self.assertEqual(told(SnowPlasticity(max_epsilon=math.nan), Particle(determinant=2.0)), 1)
        self.assertEqual(told(snow, Particle(plastic_deformation_gradient_det=-1e3, determinant=2.0)), 11)
        self.assertEqual(told(RankinePlasticity(1.0, 0.5, 1.0, 1.0), Particle(determinant=2.0)), 11)
        limits = MaximumStressFailure(math.nan, 1.0)
        passed = pasoletu.pass_with_failure(snow, limits, CorotatedLinearElasticity.new(1e5, 0.3), [Particle(determinant=2.0)])
        self.assertEqual(passed.outcomes[0].number, 1)

    def test_the_sign_of_a_zero_counts(self):
        for f, zero in (([[0.0] * 3] * 3, 0.0), ([[-0.0, 0.0, -0.0], I[1], I[2]], -0.0)):
            particle = Particle(deformation_gradient=f)
            self.assertEqual(bits([particle.determinant]), bits([zero]))
            self.assertEqual(told(SnowPlasticity(), Particle(deformation_gradient=f, determinant=-zero)), 11)
            self.assertIsInstance(told(SnowPlasticity(), particle), Stored)

    def test_a_new_one_that_is_not_finite(self):
        far = Particle(u=[[1e150 * x for x in row] for row in I])
        was = far.floats()
        self.assertEqual(told(SnowPlasticity(), far), 3)
        self.assertEqual(bits(far.floats()), bits(was))
        self.assertIsInstance(told(LAWS[1], far), Untouched)


class Lists(unittest.TestCase):
    def drawn(self, n):
        draw = random.Random(n)
        odd = (math.inf, -math.inf, NAN, 0.0, -0.0, 1e200, 5e-324)
        return [[draw.choice(odd) if draw.random() < 0.05 else draw.gauss(0.0, 1.0) for _ in range(37)] for _ in range(n)]

    def test_filling_writes_the_determinants_alone(self):
        for n in (0, 1, 2, 300):
            given = self.drawn(n)
            records = array.array("d", [x for r in given for x in r])
            pasoletu.fill_determinants(records)
            wanted = array.array("d", [x for r in given for x in r[:36] + [cases.determinant(r[:9])]])
            self.assertEqual(records.tobytes(), wanted.tobytes())

    def test_the_old_length_is_refused_by_8(self):
        records = array.array("d", [1.0] * 72)
        with self.assertRaisesRegex(Refused, r"fill_determinants refused by 8: .* give 37 floats \(the determinant last\)"):
            pasoletu.fill_determinants(records)
        self.assertEqual(raw.call("fill_determinants", records), 8)
        self.assertEqual(records.tolist(), [1.0] * 72)

    def completed_ones(self):
        given = self.drawn(20)
        wanted = bits([x for r in given for x in r[:36] + [cases.determinant(r[:9])]])
        old = array.array("d", [x for r in given for x in r[:36]])
        for records in (old, memoryview(old).toreadonly(), memoryview(old).cast("B").cast("d", [20, 36])):
            new = pasoletu.completed(records)
            self.assertEqual((memoryview(new).tobytes(), tuple(new.shape)), (wanted, (20, 37)))
            self.assertEqual(len(pasoletu.pass_records(SnowPlasticity(), new)), 20)
        self.assertEqual(len(pasoletu.completed(array.array("d"))), 0)

    def test_records_of_36_are_completed(self):
        self.completed_ones()
        with unittest.mock.patch.object(_arrays, "numpy_if_installed", lambda: None):
            self.completed_ones()

    def test_what_is_not_of_36_is_told(self):
        with self.assertRaisesRegex(Refused, "completed refused by 8.*records, which has 37 floats"):
            pasoletu.completed(array.array("d", [1.0] * 37))
        with self.assertRaisesRegex(ValueError, r"completed: records has the shape \(2, 37\) and needs a record a row, \(n, 36\)"):
            pasoletu.completed(memoryview(array.array("d", [1.0] * 74)).cast("B").cast("d", [2, 37]))


class Sheets(unittest.TestCase):
    def test_a_sheet_of_36_whose_f_overflows(self):
        big = Particle(deformation_gradient=[[1e200, 0.0, 0.0], [0.0, 1e200, 0.0], [0.0, 0.0, 1.0]])
        data = pasoletu.write_sheet(SnowPlasticity(), [Particle(), big, Particle()])
        self.assertEqual(pasoletu.read_sheet(data).particles[1].determinant, math.inf)
        ran = pasoletu.run(data)
        self.assertEqual((ran.passed.outcomes[1].number, ran.passed.outcomes[1].place, ran.passed.stored), (1, "determinant", 2))

    def test_a_wrong_one_is_told_by_a_sheet_that_keeps_it(self):
        given = [Particle(), Particle(determinant=7.0)]
        kept = pasoletu.run(pasoletu.write_sheet(SnowPlasticity(), given, determinants=True))
        self.assertEqual((kept.passed.outcomes[1].number, kept.particles[1].determinant), (11, 7.0))
        filled = pasoletu.run(pasoletu.write_sheet(SnowPlasticity(), given))
        self.assertEqual((filled.passed.stored, filled.particles[1].determinant), (2, 1.0))


if __name__ == "__main__":
    unittest.main()
