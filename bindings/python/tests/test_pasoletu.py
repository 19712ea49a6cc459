"""Tests of the Python module. The values are RULES' (section 7's example; section 8: P1 to P12) and such as are worked
by hand."""
import array
import dataclasses
import math
import os
import pathlib
import re
import struct
import subprocess
import sys
import unittest

import pasoletu
from pasoletu import (
    CorotatedLinearElasticity,
    DruckerPragerPlasticity,
    MaximumStressFailure,
    MonaghanSphEos,
    NaccPlasticity,
    NeoHookeanElasticity,
    Particle,
    RankinePlasticity,
    Refused,
    SnowPlasticity,
    Stored,
    Untouched,
    elementary,
    utils,
)
from pasoletu._table import LAW_OF
from pasoletu.refusal import ABOVE_RANGE, BELOW_RANGE, REFUSALS

HERE = pathlib.Path(__file__).resolve().parent.parent
TOP = HERE.parent.parent
SAMPLE = TOP / "samples" / "snow.sheet"
CASES = TOP / "crates" / "slope_cases"
NAN, INF = float("nan"), float("inf")
I = [[1.0, 0.0, 0.0], [0.0, 1.0, 0.0], [0.0, 0.0, 1.0]]
ZERO = [[0.0] * 3] * 3
WIDE = MaximumStressFailure(1e300, 1e300)
PAYLOAD = struct.unpack("<d", struct.pack("<Q", 0xFFF8000000C0FFEE))[0]


def diagonal(a, b, c):
    return [[a, 0.0, 0.0], [0.0, b, 0.0], [0.0, 0.0, c]]


def bits(particle):
    return struct.pack("<37d", *particle.floats())


def same(a, b):
    """In every bit. (assertEqual would take minutes to tell the difference of long lists.)"""
    return [bits(p) for p in a] == [bits(p) for p in b]


def printed(outcome):
    """An outcome as the program prints it."""
    if isinstance(outcome, Stored):
        return "stored " + struct.pack(">d", outcome.amount).hex()
    return "refused %d" % outcome.number if isinstance(outcome, Refused) else "untouched"


def groups(n):
    return bytes([n]) if n < 128 else bytes([n % 128 | 128, n // 128])


def sheet(model, parameters, particles):
    head = bytes([model]) + struct.pack("<%dd" % len(parameters), *parameters)
    return head + groups(len(particles)) + b"".join(bits(p)[:8 * (37 if LAW_OF.get(model, (0, True))[1] else 36)] for p in particles)


class Tests(unittest.TestCase):
    def refused(self, number, call, *arguments):
        with self.assertRaises(Refused) as caught:
            call(*arguments)
        self.assertEqual(caught.exception.number, number)
        return caught.exception


class Document(Tests):
    def test_p1_to_p3(self):
        clamped = SnowPlasticity().project_deformation_gradient([1.0, NAN, 2.0])
        self.assertEqual(clamped, [1.0, 1.0 - 0.025, 1.0 + 0.0045])

    def test_p4_p5(self):
        self.assertEqual(utils.inv_exact(0.0), 0.0)
        self.assertEqual(NeoHookeanElasticity.phase_coeff(0.0), 0.001)

    def test_p6_to_p9(self):
        def pressure(gamma, density):
            return MonaghanSphEos.new(10.0, gamma, 0.0).pressure(1.0, 1.0, density)

        self.assertEqual([pressure(2, 2.0), pressure(2, 0.0), pressure(0, 2.0), pressure(4294967295, 0.5)], [30.0, -1.0, 0.0, 10.0])

    def test_p10_p11(self):
        # lambda 0: each stress is 2 mu (sigma - 1) sigma, so these are (5, 0, 0) and, near, (4, 0, -1)
        def failed(principal, shear, mu, sigma):
            law, limits = CorotatedLinearElasticity(True, 0.9, 0.0, mu), MaximumStressFailure.new(principal, shear)
            return law.stress_and_verdict(limits, Particle.stretched(sigma)).failed

        self.assertIs(failed(5.0, 9.0, 1.25, [2.0, 1.0, 1.0]), False)
        self.assertIs(failed(5.0, 2.0, 8.0 / 3.0, [1.5, 1.0, 0.25]), True)

    def test_p12(self):
        self.assertEqual(DruckerPragerPlasticity.new(1e5, 0.3).update_particle(Particle()), Stored(0.0))

    def test_section_7_example(self):
        self.assertEqual(SAMPLE.read_bytes(), sheet(0, [0.025, 0.0045, 10.0], [Particle()]))
        ran = pasoletu.run(SAMPLE.read_bytes())
        self.assertEqual(ran.passed.outcomes, [Stored(1.0)])
        self.assertEqual((ran.passed.untouched, ran.passed.stored, ran.passed.refused, ran.passed.failed), (0, 1, 0, 0))
        self.assertEqual(ran.model, SnowPlasticity())
        self.assertEqual(ran.particles, [Particle()])

    def test_section_3(self):
        self.assertEqual([elementary.exp(0.0), elementary.ln(1.0), elementary.sinh(0.0), elementary.sin(0.0)], [1.0, 0.0, 0.0, 0.0])
        self.assertEqual(elementary.sqrt(2.0), math.sqrt(2.0))
        near = lambda x, y: self.assertLessEqual(abs(x - y), 2.0**-44 * max(1.0, abs(y)))
        near(elementary.exp(1.0), math.e)
        near(elementary.ln(10.0), math.log(10.0))
        near(elementary.sinh(1.0), math.sinh(1.0))
        near(elementary.sin(1.0), math.sin(1.0))
        near(elementary.cbrt(8.0), 2.0)
        near(elementary.inv_cbrt(8.0), 0.5)
        near(elementary.cbrt_squared(8.0), 4.0)
        near(elementary.inv_cbrt_squared(8.0), 0.25)


    def test_the_program_s_sheets(self):
        """Each sheet that the gate runs gets the answers that the proved program printed."""
        lines = []
        for file in sorted((CASES / "data").iterdir()):
            lines.append("-- " + file.name)
            try:
                passed = pasoletu.run(file.read_bytes()).passed
            except Refused as refused:
                lines.append("sheet refused %d" % refused.number)
                continue
            lines.append("particles %d" % len(passed.outcomes))
            lines += ["%d %s" % (k, printed(outcome)) for k, outcome in enumerate(passed.outcomes)]
            lines.append("end")
        told = re.split("^(?=-- )", (CASES / "stdout").read_text(), flags=re.M)  # a part a heading: an answer, or its reasons
        self.assertEqual(lines, [line for part in told if not part.partition("\n")[0].endswith(" why") for line in part.splitlines()])


class Laws(Tests):
    def test_physics(self):
        self.assertEqual(utils.shear_modulus(10.0, 0.25), 4.0)
        self.assertEqual(utils.bulk_modulus(3.0, 0.25), 2.0)
        self.assertEqual(utils.shear_modulus_from_lame(7.0, 3.0), 3.0)
        self.assertEqual(utils.bulk_modulus_from_lame(1.0, 3.0), 3.0)
        self.assertEqual(utils.lame_lambda_mu(10.0, 0.25), (4.0, 4.0))
        self.assertEqual(utils.solve_quadratic(1.0, -3.0, 2.0), (2.0, 1.0))
        gradient = [[0.0, 2.0, 0.0], [0.0] * 3, [0.0] * 3]
        self.assertEqual(utils.spin_tensor(gradient), [[0.0, 1.0, 0.0], [-1.0, 0.0, 0.0], [0.0] * 3])
        self.assertEqual(utils.strain_rate(gradient), [[0.0, 1.0, 0.0], [1.0, 0.0, 0.0], [0.0] * 3])
        self.assertEqual(utils.deviatoric_part(diagonal(1.0, 2.0, 3.0)), diagonal(-1.0, 0.0, 1.0))
        self.assertEqual(utils.spherical_part(diagonal(1.0, 2.0, 3.0)), 2.0)
        self.assertEqual(utils.decomposed_times(2.0, diagonal(-1.0, 0.0, 1.0), [1.0, 2.0, 3.0]), [1.0, 4.0, 9.0])

    def test_neo_hookean(self):
        # phase_coeff(0.5) is 0.25075; lambda 1, mu 3 and hardening 2 make the bulk modulus 6; F's determinant is 8
        law, f = NeoHookeanElasticity(0.5, 1.0, 3.0), diagonal(2.0, 2.0, 2.0)
        twice = Particle(deformation_gradient=f, phase=0.5, elastic_hardening=2.0)
        for k in range(3):
            self.assertAlmostEqual(law.stress_and_verdict(WIDE, twice).stress[k][k], 189.0 * 0.25075)
            self.assertAlmostEqual(law.fpk_stress(f, 2.0)[k][k], 94.5)
        volumetric = 3.0 * (31.5 - math.log(8.0))
        self.assertAlmostEqual(law.elastic_energy_density(0.5, 2.0, f), volumetric * 0.25075)
        self.assertAlmostEqual(law.pos_energy(0.5, 2.0, f), volumetric * 0.5)
        # Below determinant 1 the deviatoric part.
        deviatoric = 3.0 * (2.25 * 4.0 ** (1.0 / 3.0) - 3.0)
        self.assertAlmostEqual(law.pos_energy(0.5, 2.0, diagonal(0.5, 1.0, 1.0)), deviatoric * 0.25075)
        half, volumetric_half = diagonal(0.5, 1.0, 1.0), 3.0 * (math.log(2.0) - 0.375)
        self.assertAlmostEqual(law.elastic_energy_density(0.5, 2.0, half), volumetric_half * 0.25075 + deviatoric)
        one_split = law.elastic_energy_density(0.5, 2.0, half, one_split=True)
        self.assertAlmostEqual(one_split, deviatoric * 0.25075 + volumetric_half)
        self.assertEqual(law.elastic_energy_density(0.5, 2.0, f, one_split=True), law.elastic_energy_density(0.5, 2.0, f))
        self.assertEqual(NeoHookeanElasticity.new(1.0, 0.0), NeoHookeanElasticity(0.5, 0.0, 0.5))

    def test_corotated(self):
        # F is diag(2, 1, 1) turned: U a quarter turn, V^T the identity
        law, sigma = CorotatedLinearElasticity(True, 0.9, 3.0, 1.0), [2.0, 1.0, 1.0]
        f, u = [[0.0, -1.0, 0.0], [2.0, 0.0, 0.0], [0.0, 0.0, 1.0]], [[0.0, -1.0, 0.0], [1.0, 0.0, 0.0], [0.0, 0.0, 1.0]]
        whole = Particle(deformation_gradient=f, u=u, singular_values=sigma, elastic_hardening=2.0)
        lost = Particle(deformation_gradient=f, u=u, singular_values=sigma, elastic_hardening=2.0, phase=0.0)
        self.assertEqual(law.stress_and_verdict(WIDE, whole), (diagonal(12.0, 20.0, 12.0), False))
        self.assertEqual(law.stress_and_verdict(WIDE, lost), (ZERO, False))
        unsplit = CorotatedLinearElasticity(False, 0.9, 3.0, 1.0)
        self.assertEqual(unsplit.stress_and_verdict(WIDE, lost), (diagonal(12.0, 20.0, 12.0), False))
        self.assertEqual(law.elastic_energy_density(sigma, 2.0), 5.0)
        self.assertEqual(law.pos_energy(f, sigma, 2.0), 5.0)
        self.assertEqual(law.pos_energy(I, sigma, 2.0), 2.0)
        self.assertEqual(CorotatedLinearElasticity.new(1.0, 0.0), CorotatedLinearElasticity(True, 0.9, 0.0, 0.5))

    def test_monaghan(self):
        # mass 2 in volume 4: the density at rest is 0.5
        law = MonaghanSphEos(10.0, 2, 0.5, 7.0)
        self.assertEqual([law.pressure(2.0, 4.0, 1.0), law.pressure(2.0, 4.0, 0.0)], [30.0, -7.0])
        gradient = [[0.0, 2.0, 0.0], [0.0] * 3, [0.0] * 3]
        stress = law.kirchhoff_stress(2.0, 4.0, 1.0, 3.0, gradient)
        self.assertEqual(stress, [[-90.0, 3.0, 0.0], [3.0, -90.0, 0.0], [0.0, 0.0, -90.0]])
        velocity = [3.0, 4.0, 0.0]
        self.assertAlmostEqual(law.timestep_bound(0.5, 2.0, 4.0, 1.0, velocity, 3.0), 6.0 * math.sqrt(0.25 / 540.0))
        self.assertAlmostEqual(law.timestep_bound(2.0, 2.0, 4.0, 1.0, velocity, 3.0), 3.0 / math.sqrt(250.0))
        self.assertEqual(MonaghanSphEos.new(10.0, 2, 0.5), MonaghanSphEos(10.0, 2, 0.5, 1.0))
        for gamma in (-1, 2**32):
            self.assertRaises(ValueError, MonaghanSphEos, 10.0, gamma, 0.0)

    def test_verdict(self):
        # lambda 0 and mu 1.25: the stress of the stretch (2, 1, 1) is diag(5, 0, 0), its shear 2.5 (P10: at the limit is not over it)
        law, stretched = CorotatedLinearElasticity(True, 0.9, 0.0, 1.25), Particle.stretched([2.0, 1.0, 1.0])
        for limits, failed in ((5.0, 2.5), False), ((4.75, 9.0), True), ((5.0, 2.25), True), ((9.0, 9.0), False):
            self.assertEqual(law.stress_and_verdict(MaximumStressFailure(*limits), stretched), (diagonal(5.0, 0.0, 0.0), failed))
        # 16/3 of (1.5, 1, 0.25): the stresses are near 4, 0 and -1 (P11: the shear is 2.5)
        torn = Particle.stretched([1.5, 1.0, 0.25])
        self.assertTrue(CorotatedLinearElasticity(True, 0.9, 0.0, 8.0 / 3.0).stress_and_verdict(MaximumStressFailure(5.0, 2.0), torn).failed)

    def test_rankine(self):
        # lambda 0 and 2 mu 1: the stresses are the strains, and s is the strength 10 at first
        law = RankinePlasticity.new(1.0, 0.0, 10.0, 0.5)
        self.assertEqual(law.project([3.0, 1.0, 4.0], 2.0), [2.0, 1.0, 2.0])
        inside = Particle.stretched([1.5, 1.0, 1.0])
        self.assertEqual(law.update_particle(inside), Untouched())
        self.assertEqual(inside, Particle.stretched([1.5, 1.0, 1.0]))
        over = Particle.stretched([math.exp(12.0), 1.0, 1.0])
        self.assertAlmostEqual(law.update_particle(over).amount, 2.0)
        self.assertAlmostEqual(over.plastic_hardening, 2.0)
        self.assertAlmostEqual(over.singular_values[0] / math.exp(10.0), 1.0)

    def test_drucker_prager(self):
        law = DruckerPragerPlasticity(0.6, 0.15, 0.2, 0.17, 3.0, 2.0, False, 0.5)
        s = math.sin(0.6 + (0.15 * 2.0 - 0.17) * math.exp(-0.4))
        self.assertAlmostEqual(law.alpha(2.0), math.sqrt(2.0 / 3.0) * 2.0 * s / (3.0 - s))
        expanded = Particle.stretched([1.1, 1.0, 1.0])
        self.assertAlmostEqual(law.update_particle(expanded).amount, math.log(1.1))
        self.assertEqual(expanded.singular_values, [1.0, 1.0, 1.0])
        # The determinant falls from 1.1 to 1, of which half is kept.
        self.assertAlmostEqual(expanded.plastic_deformation_gradient_det, 1.1 / 1.05)
        self.assertAlmostEqual(expanded.log_vol_gain, math.log(1.1 / 1.05))
        self.assertAlmostEqual(expanded.plastic_hardening, 1.0 + math.log(1.1))
        idle = DruckerPragerPlasticity(0.6, 0.15, 0.2, 0.17, 3.0, 2.0, only_active_when_failed=True)
        self.assertEqual(idle.update_particle(Particle.stretched([1.1, 1.0, 1.0])), Untouched())
        made = DruckerPragerPlasticity.new(1.0, 0.0)
        degrees = [math.radians(x) for x in (35.0, 9.0, 10.0)]
        self.assertEqual([made.h0, made.h1, made.h3, made.h2, made.lam, made.mu], degrees + [0.2, 0.0, 0.5])

    def test_nacc(self):
        law = NaccPlasticity.with_m(1e4, 0.3, 0.05, True, 3.0, 2.36)
        self.assertEqual(law.update_particle(Particle(nacc_alpha=-0.01)), Untouched())
        # Crushed: to the upper tip, all singular values alike; torn: to the lower one.
        sinh = math.sinh(0.03) + 1e-5
        for sigma, j in (([0.5, 0.4, 0.5], math.sqrt(1.0 - 2.0 * sinh)), ([1.5, 1.4, 1.5], math.sqrt(1.0 + 0.1 * sinh))):
            tip = Particle.stretched(sigma)
            tip.nacc_alpha = -0.01
            self.assertAlmostEqual(law.update_particle(tip).amount, -0.01 + math.log(sigma[0] * sigma[1] * sigma[2] / j))
            self.assertAlmostEqual(tip.singular_values[1], j ** (1.0 / 3.0))
        self.assertAlmostEqual(NaccPlasticity.new(1e4, 0.3, 0.05, True, 3.0, math.asin(0.5)).m, 1.2)


class Passes(Tests):
    def test_a_refused_particle_keeps_its_bits_and_the_next_are_worked(self):
        for place in range(37):
            particles = [Particle.stretched([2.0, 1.0, 1.0]) for _ in range(3)]
            floats = particles[1].floats()
            floats[place] = PAYLOAD
            particles[1] = Particle.from_floats(floats)
            was = bits(particles[1])
            passed = pasoletu.pass_particles(SnowPlasticity(), particles)
            self.assertEqual((passed.untouched, passed.stored, passed.refused), (0, 2, 1))
            refusal = passed.outcomes[1]
            self.assertIsInstance(refusal, Refused)
            self.assertEqual((refusal.number, refusal.particle, refusal.place), (1, 1, pasoletu.particle.PLACES[place]))
            self.assertEqual(bits(particles[1]), was)
            self.assertEqual(particles[2].singular_values, [1.0045, 1.0, 1.0])

    def test_with_failure(self):
        # The principal stresses of the second are 10, 6, 6, and the law leaves both as they stand.
        law = CorotatedLinearElasticity(True, 0.9, 3.0, 1.0)
        for principal, phase, failed in ((9.5, 0.0, 1), (12.0, 1.0, 0)):
            particles = [Particle(), Particle.stretched([2.0, 1.0, 1.0])]
            passed = pasoletu.pass_with_failure(RankinePlasticity(10.0, 0.25, 100.0, 1.0), MaximumStressFailure(principal, 100.0), law, particles)
            self.assertEqual([p.phase for p in particles], [1.0, phase])
            self.assertEqual((passed.untouched, passed.failed), (2, failed))
        bad = pasoletu.pass_with_failure(SnowPlasticity(), MaximumStressFailure(NAN, 1.0), law, particles)
        self.assertEqual((bad.refused, bad.outcomes[0].place), (2, "the limits' max_principal_stress"))

    def test_the_verdict_is_on_what_the_law_leaves(self):
        elasticity, limits = CorotatedLinearElasticity(True, 0.9, 3.0, 1.0), MaximumStressFailure(9.5, 100.0)
        stretched = lambda: Particle.stretched([2.0, 1.0, 1.0])
        crushed = lambda: Particle.from_floats(Particle.stretched([0.9, 1.0, 1.0]).floats()[:31] + [0.5, 1.0, 1.0, 0.0, 0.0])
        sand = DruckerPragerPlasticity(0.6, 0.15, 0.2, 0.17, 3.0, 1.0, only_active_when_failed=True)
        for law, limits, drawn, failed in (
            # relaxed below the limits; hardened from 1 to 218, over the shear limit; for failed ones alone, and this came whole
            (SnowPlasticity(), limits, stretched, False),
            (RankinePlasticity(10.0, 0.25, 1.0, 1.0), limits, stretched, False),
            (SnowPlasticity(), MaximumStressFailure(100.0, 1.0), crushed, True),
            (sand, limits, stretched, True),
        ):
            alone, judged = drawn(), [drawn()]
            outcome = law.update_particle(alone)
            passed = pasoletu.pass_with_failure(law, limits, elasticity, judged)
            self.assertEqual((list(passed.outcomes), passed.failed), ([outcome], int(failed)))
            alone.phase = 0.0 if failed else 1.0
            self.assertEqual(bits(judged[0]), bits(alone))
            self.assertEqual(isinstance(outcome, Untouched), law is sand)

    def test_a_refused_law_or_stress_is_no_verdict(self):
        # As it came its stress would be refused by 3: the law's 10 comes, and before it the limits' 1. The last is refused as hardened alone.
        elasticity, stiff = CorotatedLinearElasticity(True, 0.9, 3.0, 1.0), CorotatedLinearElasticity(True, 0.9, 0.0, 1e307)
        for limits, law, scalars, number in (
            ((-1.0, 100.0), elasticity, [-1000.0, 1.0, 1.7e308, 0.0, 0.0], 10),
            ((NAN, 100.0), elasticity, [-1000.0, 1.0, 1.7e308, 0.0, 0.0], 1),
            ((1.0, 1.0), stiff, [0.5, 1.0, 1.0, 0.0, 0.0], 3),
        ):
            particle = Particle.from_floats(Particle.stretched([0.9, 1.0, 1.0]).floats()[:31] + scalars)
            was = bits(particle)
            passed = pasoletu.pass_with_failure(SnowPlasticity(), MaximumStressFailure(*limits), law, [particle])
            self.assertEqual((passed.outcomes[0].number, passed.refused, passed.failed), (number, 1, 0))
            self.assertEqual(bits(particle), was)

    def test_a_buffer_is_worked_in_place(self):
        records = array.array("d", Particle.stretched([2.0, 1.0, 1.0]).floats() + Particle(phase=PAYLOAD).floats())
        was = records[37:].tobytes()
        passed = pasoletu.pass_records(SnowPlasticity(), records)
        self.assertEqual((records[0], records[18], passed.refused), (1.0045, 1.0045, 1))
        self.assertEqual(records[37:].tobytes(), was)
        law, limits = CorotatedLinearElasticity(True, 0.9, 1.0, 1.0), MaximumStressFailure(-1.0, 100.0)
        self.assertEqual(pasoletu.pass_records(SnowPlasticity(), records, limits, law).failed, 1)
        self.assertEqual(records[30], 0.0)
        records.append(0.0)
        self.refused(8, pasoletu.pass_records, SnowPlasticity(), records)
        self.assertRaises(TypeError, pasoletu.pass_records, SnowPlasticity(), array.array("f", [0.0] * 36))
        self.assertRaises(TypeError, pasoletu.pass_records, SnowPlasticity(), bytes(288))
        self.assertEqual(pasoletu.pass_records(SnowPlasticity(), array.array("d")).outcomes, [])

    def test_a_pass_is_each_update(self):
        clay = NaccPlasticity.with_m(1e4, 0.3, 0.05, True, 3.0, 2.36)
        for law in (SnowPlasticity(), RankinePlasticity.new(1e5, 0.3, 500.0, 2.0), DruckerPragerPlasticity.new(1e5, 0.3), clay):
            drawn = lambda: [Particle.stretched([0.8 + 0.05 * k, 1.1, 0.97]) for k in range(10)]
            one_by_one, at_once = drawn(), drawn()
            outcomes = [law.update_particle(p) for p in one_by_one]
            self.assertEqual(pasoletu.pass_particles(law, at_once).outcomes, outcomes)
            self.assertEqual(at_once, one_by_one)


class Refusals(Tests):
    def test_texts(self):
        passed = pasoletu.pass_particles(SnowPlasticity(), [Particle(), Particle(elastic_hardening=INF)])
        self.assertEqual(
            str(passed.outcomes[1]),
            "pass_particles refused particle 1 by 1: an input is NaN or infinite, first elastic_hardening; find who wrote that value",
        )
        r = self.refused(1, SnowPlasticity(max_epsilon=NAN).update_particle, Particle())
        self.assertIn("the law's max_epsilon", str(r))
        r = self.refused(4, pasoletu.read_sheet, b"")
        self.assertEqual(str(r), "read_sheet refused by 4: the sheet ends early; send the sheet again, whole")
        for number in REFUSALS:
            self.assertGreater(len(str(Refused(number, "run"))), 30)

    def test_a_refused_update_changes_nothing(self):
        for number, determinant in ((ABOVE_RANGE, -1e3), (BELOW_RANGE, 1e3), (ABOVE_RANGE, -1e308), (BELOW_RANGE, 1e308)):
            particle = Particle(plastic_deformation_gradient_det=determinant)
            was = bits(particle)
            self.refused(number, SnowPlasticity().update_particle, particle)
            self.assertEqual(bits(particle), was)

    def test_single_calls(self):
        self.refused(10, elementary.exp, 700.5)
        self.refused(2, elementary.exp, -700.5)
        self.refused(1, elementary.ln, INF)
        self.refused(2, utils.solve_quadratic, 1.0, 0.0, 1.0)
        self.refused(10, utils.solve_quadratic, 1.0, 1e200, 1.0)
        self.refused(3, utils.inv_exact, 1e-310)
        self.refused(2, NeoHookeanElasticity(0.5, 1.0, 1.0).stress_and_verdict, WIDE, Particle(deformation_gradient=ZERO))
        self.refused(1, NeoHookeanElasticity(0.5, 1.0, 1.0).stress_and_verdict, MaximumStressFailure(NAN, 1.0), Particle())

    def test_new(self):
        self.refused(1, RankinePlasticity.new, 1e5, 0.3, NAN, 1.0)
        r = self.refused(3, RankinePlasticity.new, 1e5, 0.5, 1.0, 1.0)
        self.assertTrue(str(r).startswith("RankinePlasticity.new refused by 3: "))
        self.refused(10, NaccPlasticity.new, 1e5, 0.3, 0.0, True, 1.0, 9.0)
        self.refused(2, NaccPlasticity.new, 1e5, 0.3, 0.0, True, 1.0, -9.0)
        self.refused(3, CorotatedLinearElasticity.new, 1e5, 0.5)

    def test_lengths(self):
        self.refused(8, utils.spin_tensor, [[0.0] * 3] * 2)
        self.refused(8, SnowPlasticity().project_deformation_gradient, [1.0, 1.0])
        self.refused(8, Particle.from_floats, [0.0] * 35)
        r = self.refused(8, SnowPlasticity().update_particle, Particle(singular_values=[1.0]))
        self.assertIn("singular_values", str(r))
        self.assertRaises(TypeError, Particle, sigma=[1.0] * 3)

    def test_sheets(self):
        snow = [0.025, 0.0045, 10.0]
        good = sheet(0, snow, [Particle()])
        for end in range(len(good)):
            self.refused(4, pasoletu.run, good[:end])
        self.refused(7, pasoletu.run, good + b"\0")
        self.refused(7, pasoletu.run, sheet(0, snow, [Particle()] * 201))
        self.refused(5, pasoletu.run, b"\x80\0" + good[1:])
        self.refused(6, pasoletu.read_sheet, sheet(len(LAW_OF), snow, []))
        self.refused(6, pasoletu.read_sheet, sheet(2, [0.0, 0.0, 0.0, 0.0, 1.0, 1.0, -0.0, 1.0], []))

    def test_sheets_are_read_as_bits(self):
        odd = Particle(u=[[1.0, 0.0, 0.0], [0.0, 1.0, PAYLOAD], [0.0, 0.0, 1.0]])
        given = [Particle.stretched([0.8, 1.1, 0.9 + k / 500.0]) for k in range(199)] + [odd]
        for k, particle in enumerate(given):
            particle.phase = float(k % 2)
        for law in (
            SnowPlasticity(0.02, 0.03, 9.0),
            RankinePlasticity(1e5, 0.3, 500.0, 2.0),
            DruckerPragerPlasticity(0.6, 0.15, 0.2, 0.17, 3.0, 2.0, True, 0.5),
            NaccPlasticity(1e4, 0.3, 0.05, True, 3.0, 2.36),
        ):
            parameters = [float(getattr(law, f.name)) for f in dataclasses.fields(law)]
            whole = pasoletu.read_sheet(sheet(law.model + 4, parameters, given))
            self.assertEqual((whole.model, whole.determinants), (law, True))
            self.assertTrue(same(whole.particles, given))
            data = sheet(law.model, parameters, given)
            read = pasoletu.read_sheet(data)
            self.assertEqual((read.model, read.determinants), (law, False))
            self.assertTrue(same(read.particles, given))
            # Run, the sheet does what a pass does.
            ran = pasoletu.run(data)
            passed = pasoletu.pass_particles(law, read.particles)
            self.assertTrue(same(ran.particles, read.particles))
            self.assertTrue(ran.passed.outcomes[:199] == passed.outcomes[:199])
            self.assertEqual((ran.passed.untouched, ran.passed.stored, ran.passed.refused), (passed.untouched, passed.stored, 1))
            self.assertEqual((ran.passed.outcomes[199].number, ran.passed.outcomes[199].place), (1, "u[1][2]"))


class Programs(Tests):
    def run_example(self, *arguments, **environment):
        command = [sys.executable, str(HERE / "examples" / "run_sheet.py"), *map(str, arguments)]
        env = {**os.environ, "PYTHONPATH": str(HERE), **environment}
        return subprocess.run(command, env=env, capture_output=True, text=True)

    def test_the_example(self):
        done = self.run_example(SAMPLE)
        self.assertEqual(done.stderr, "")
        self.assertEqual(done.stdout.splitlines()[1:], ["particle 0: stored 1.0, sigma [1.0, 1.0, 1.0]", "0 untouched, 1 stored, 0 refused"])

    def test_the_example_says_what_is_wrong(self):
        self.assertIn("run_sheet.py SHEET", self.run_example().stderr)
        self.assertIn("cannot be read", self.run_example("no/such.sheet").stderr)
        self.assertIn("refused by", self.run_example(__file__).stderr)

    def test_a_missing_library_is_told(self):
        done = self.run_example(SAMPLE, PASOLETU_LIB="/no/such/libpasoletu.so")
        self.assertIn("install.sh", done.stderr)
        self.assertIn("/no/such/libpasoletu.so", done.stderr)


if __name__ == "__main__":
    unittest.main()
