"""The calls as they are, and the messages that name the argument."""
import array
import math
import os
import unittest

import pasoletu
from pasoletu import (
    CorotatedLinearElasticity,
    DruckerPragerPlasticity,
    MaximumStressFailure,
    MonaghanSphEos,
    NaccPlasticity,
    NeoHookeanElasticity,
    Particle,
    RankinePlasticity,
    Refused,
    SnowPlasticity,
    elementary,
    raw,
    utils,
)
from pasoletu._table import CALLS, LAW_OF, MODELS
from pasoletu.laws import PLASTICITIES

NAN = math.nan
I = [[1.0, 0.0, 0.0], [0.0, 1.0, 0.0], [0.0, 0.0, 1.0]]
SNOW = array.array("d", [0.025, 0.0045, 10.0])


def record():
    return array.array("d", Particle.stretched([0.9, 1.0, 1.0]).floats())


class Raw(unittest.TestCase):
    def test_written_lists_are_written_where_they_stand(self):
        records, answers, counts = record() + record(), array.array("Q", [7] * 4), array.array("Q", [7] * 3)
        self.assertEqual(raw.call("pass", 0, SNOW, records, answers, counts), 0)
        self.assertEqual((records[18], records[55], answers[0], counts.tolist()), (0.975, 0.975, 1, [0, 2, 0]))

    def test_what_the_classes_cannot_say(self):
        clay = array.array("d", [1e4, 0.3, 0.05, 0.5, 3.0, 2.36])
        answer, counts = array.array("Q", [7, 7]), array.array("Q", [7] * 3)
        self.assertEqual(raw.call("pass", 3, clay, record(), answer, counts), 6)
        self.assertEqual(raw.call("pass", len(LAW_OF), SNOW, record(), answer, counts), 6)
        self.assertEqual(raw.call("pass", 0, SNOW, record()[:36], answer, counts), 8)
        self.assertEqual(raw.call("pass", 0, SNOW[:2], record(), answer, counts), 8)
        self.assertEqual(answer.tolist() + counts.tolist(), [7] * 5)

    def test_a_sheet_is_lent_as_bytes(self):
        header, room = array.array("Q", bytes(88)), array.array("d", bytes(200 * 296))
        self.assertEqual(raw.call("read_sheet", b"", header, room), 4)
        self.assertEqual(raw.call("read_sheet", b"\0" + SNOW.tobytes() + b"\0", header, room), 0)

    def test_what_does_not_fit_is_told(self):
        answer, counts = array.array("Q", [0, 0]), array.array("Q", [0] * 3)
        for words, arguments in (
            ("parameters of pass must be a contiguous buffer of f64", (0, answer, record(), answer, counts)),
            ("records of pass must be a contiguous buffer of f64", (0, SNOW, memoryview(record() * 2)[::2], answer, counts)),
            ("records of pass is written and can only be read", (0, SNOW, memoryview(record()).toreadonly(), answer, counts)),
            (r"pass takes 5 arguments \(model, parameters, records, answers, counts\), not 2", (0, SNOW)),
        ):
            with self.assertRaisesRegex(TypeError, words):
                raw.call("pass", *arguments)
        with self.assertRaisesRegex(ValueError, "there is no call 'passes'"):
            raw.call("passes")

    def test_the_file_is_told(self):
        named = os.environ.get("PASOLETU_LIB")
        self.assertTrue(raw.file() == named if named else raw.file().endswith("libpasoletu.so.1"), raw.file())


class Table(unittest.TestCase):
    def test_the_laws_fields_are_the_table_s_parameters(self):
        self.assertEqual([law.model for law in PLASTICITIES], list(MODELS))
        for number, law in enumerate(PLASTICITIES):
            names = ["lam" if name == "lambda" else name for name in MODELS[number].parameters]
            self.assertEqual(list(law.names()), names)
            made = pasoletu.law(number, [1.0] * len(names))
            self.assertEqual((made.model, made.parameters()), (number, [1.0] * len(names)))
            self.assertTrue(all(getattr(made, flag) is True for flag in MODELS[number].flags))

    def test_a_law_of_no_model_or_of_other_parameters(self):
        for words, arguments in (
            ("law: model is 4 and must be one of 0, 1, 2, 3", (4, [])),
            ("law: parameters has 2 entries and must have 3: min_epsilon, max_epsilon, hardening_coeff", (0, [1.0, 2.0])),
            ("law: parameters has 4 entries and must have 3", (0, [1.0] * 4)),
        ):
            with self.assertRaisesRegex(ValueError, words):
                pasoletu.law(*arguments)

    def test_every_call_of_the_table_is_used_or_passed_on(self):
        functions = pasoletu._library.library().functions
        self.assertEqual(set(functions), set(CALLS))


class Names(unittest.TestCase):
    """What is wrong is told with the argument's name."""

    def test_not_finite(self):
        eos, law = MonaghanSphEos(10.0, 2, 0.5), NeoHookeanElasticity(0.5, 1.0, NAN)
        bad = [[1.0, 0.0, 0.0], [0.0, 1.0, math.inf], [0.0, 0.0, 1.0]]
        for place, call, arguments in (
            ("x", elementary.exp, (NAN,)),
            ("poisson_ratio", utils.lame_lambda_mu, (1.0, NAN)),
            ("velocity_gradient[1][2]", utils.spin_tensor, (bad,)),
            ("v[2]", utils.decomposed_times, (1.0, I, [0.0, 0.0, NAN])),
            ("the law's mu", law.fpk_stress, (I, 1.0)),
            ("density", eos.pressure, (1.0, 1.0, NAN)),
            ("limits.max_shear_stress", NeoHookeanElasticity(0.5, 1.0, 1.0).stress_and_verdict, (MaximumStressFailure(1.0, NAN), Particle())),
            ("tensile_strength", RankinePlasticity.new, (1e5, 0.3, NAN, 1.0)),
            ("friction_angle", NaccPlasticity.new, (1e5, 0.3, 0.0, True, 1.0, NAN)),
            ("young_modulus", DruckerPragerPlasticity.new, (NAN, 0.3)),
            ("max_shear_stress", MaximumStressFailure.new, (1.0, NAN)),
        ):
            with self.assertRaises(Refused) as caught:
                call(*arguments)
            self.assertEqual((caught.exception.number, caught.exception.place), (1, place))

    def test_wrong_lengths(self):
        ragged = [[1.0, 2.0, 3.0, 4.0], [5.0, 6.0], [7.0, 8.0, 9.0]]
        for place, call, arguments in (
            ("velocity_gradient, which is not three rows of three", utils.spin_tensor, (ragged,)),
            ("singular_values, which has 2 entries and not 3", SnowPlasticity().project_deformation_gradient, ([1.0, 1.0],)),
            ("strains, which has 4 entries and not 3", RankinePlasticity(1.0, 0.0, 1.0, 1.0).project, ([0.0] * 4, 1.0)),
        ):
            with self.assertRaises(Refused) as caught:
                call(*arguments)
            self.assertEqual((caught.exception.number, caught.exception.place), (8, place))

    def test_what_is_no_number(self):
        elasticity = CorotatedLinearElasticity(True, 0.9, 1.0, 1.0)
        for words, call, arguments in (
            ("elementary.exp: x is 'a' and must be a number", elementary.exp, ("a",)),
            ("utils.spin_tensor: velocity_gradient is 1.0 and must be three rows of three", utils.spin_tensor, (1.0,)),
            ("singular_values is 1.0 and must be a list of numbers", SnowPlasticity().project_deformation_gradient, (1.0,)),
            ("SnowPlasticity: min_epsilon is 'a' and must be a number", SnowPlasticity("a").update_particle, (Particle(),)),
            ("MonaghanSphEos: gamma is 2.5 and must be a whole number", MonaghanSphEos, (1.0, 2.5, 0.0)),
            (r"pass_particles: particles\[1\] is a float and must be a Particle", pasoletu.pass_particles, (SnowPlasticity(), [Particle(), 1.0])),
            ("pass_with_failure: limits is a NoneType", pasoletu.pass_with_failure, (SnowPlasticity(), None, elasticity, [])),
            ("pass_with_failure: limits is given and elasticity is not", pasoletu.pass_with_failure, (SnowPlasticity(), MaximumStressFailure(1.0, 1.0), None, [])),
            ("read_sheet: data is a str and must be the sheet's bytes", pasoletu.read_sheet, ("a",)),
        ):
            with self.assertRaisesRegex(TypeError, words):
                call(*arguments)


if __name__ == "__main__":
    unittest.main()
