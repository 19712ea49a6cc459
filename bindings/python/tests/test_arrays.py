"""Records in one array, and answers as arrays: with numpy, and without it."""
import array
import math
import unittest
import unittest.mock

import pasoletu
from pasoletu import CorotatedLinearElasticity, MaximumStressFailure, Particle, RankinePlasticity, Refused, SnowPlasticity, Stored, Untouched
from pasoletu import _arrays

try:
    import numpy
except ImportError:
    numpy = None

NUMPY = unittest.skipUnless(numpy, "there is no numpy; on Debian: apt-get install -y python3-numpy")
NAN = math.nan
LIMITS, ELASTICITY = MaximumStressFailure(2e4, 1e5), CorotatedLinearElasticity(True, 0.9, 4e4, 6e4)
# lambda 0 and 2 mu 1: the stresses are the strains, and the strength is 10.
RANKINE = RankinePlasticity(1.0, 0.0, 10.0, 0.5)
TORN = math.exp(12.0)


def floats(*firsts):
    """Records of particles stretched along the first axis."""
    return array.array("d", [x for first in firsts for x in Particle.stretched([first, 1.0, 1.0]).floats()])


def shaped(shape):
    """Ones in a buffer of several dimensions, without numpy."""
    return memoryview(array.array("d", [1.0] * math.prod(shape))).cast("B").cast("d", shape)


class Tests(unittest.TestCase):
    def told(self, error, words, records, **named):
        """The pass over the records raises the error with the words, and names itself; the records keep their bits."""
        was = memoryview(records).tobytes()
        with self.assertRaises(error) as caught:
            pasoletu.pass_records(SnowPlasticity(), records, **named)
        self.assertIn(words, str(caught.exception))
        self.assertIn("pass_records", str(caught.exception))
        self.assertEqual(memoryview(records).tobytes(), was)


class Records(Tests):
    def test_a_columnwise_array_is_an_error(self):
        self.told(ValueError, "(37, 2) and needs a record a row, (n, 37): pass numpy.ascontiguousarray(records.T)", shaped([37, 2]))

    def test_any_other_shape_is_an_error(self):
        for shape in ([2, 38], [74, 1], [1, 74], [2, 37, 1], [2, 2, 37], [1, 1, 37]):
            self.told(ValueError, "needs a record a row, (n, 37)", shaped(shape))

    def test_records_of_36_are_an_error_that_says_what_to_do(self):
        self.told(ValueError, "(2, 36) and needs a record a row, (n, 37): pass pasoletu.completed(records)", shaped([2, 36]))
        self.told(Refused, "first records, which has 72 floats; give 37 floats (the determinant last)", array.array("d", [1.0] * 72))

    def test_a_record_a_row_or_all_in_one_dimension(self):
        for shape in ([2, 37], [74], [37, 37]):
            records = shaped(shape)
            self.assertEqual(len(pasoletu.pass_records(SnowPlasticity(), records)), records.nbytes // 296)

    def test_one_dimension_without_whole_records_is_refused_by_8(self):
        self.told(Refused, "first records, which has 38 floats", array.array("d", [1.0] * 38))

    def test_gaps_are_an_error(self):
        self.told(ValueError, "pass numpy.ascontiguousarray(records)", memoryview(array.array("d", [1.0] * 148))[::2])

    def test_what_holds_no_writable_doubles_is_an_error(self):
        self.told(TypeError, "records holds format 'f', not doubles", array.array("f", [1.0] * 36))
        self.told(TypeError, "records holds format 'B', not doubles", bytes(288))
        self.told(TypeError, "records can only be read", memoryview(floats(1.0)).toreadonly())
        with self.assertRaisesRegex(TypeError, "records is a list, not a buffer of doubles"):
            pasoletu.pass_records(SnowPlasticity(), [1.0] * 36)

    def test_limits_and_elasticity_both_or_none(self):
        records = floats(1.0)
        self.told(TypeError, "elasticity is given and limits is not", records, elasticity=ELASTICITY)
        self.told(TypeError, "limits is given and elasticity is not", records, limits=LIMITS)
        self.told(TypeError, "limits is a CorotatedLinearElasticity and must be a MaximumStressFailure", records, limits=ELASTICITY, elasticity=LIMITS)

    def test_a_model_that_is_none_is_an_error(self):
        with self.assertRaisesRegex(TypeError, "pass_records: model is a int and must be a Plasticity"):
            pasoletu.pass_records(0, floats(1.0))

    def test_the_array_is_free_after_the_pass(self):
        records = floats(NAN)
        passed = pasoletu.pass_records(SnowPlasticity(), records)
        self.assertEqual(passed.outcomes[0].place, "deformation_gradient[0][0]")
        records.append(0.0)
        self.assertEqual(len(records), 38)


class Answers:
    """What holds with numpy and without it."""

    def passed(self):
        return pasoletu.pass_records(RANKINE, floats(1.5, TORN, NAN, -1.0))

    def test_columns(self):
        passed = self.passed()
        self.assertEqual((passed.untouched, passed.stored, passed.refused, passed.failed), (1, 1, 2, 0))
        self.assertEqual(passed.codes.tolist(), [0, 1, 2, 2])
        self.assertEqual(passed.refusals.tolist(), [0, 0, 1, 2])
        amounts = passed.amounts.tolist()
        self.assertAlmostEqual(amounts[1], 2.0)
        self.assertEqual([math.isnan(x) for x in amounts], [True, False, True, True])
        self.assertEqual([row[0] for row in passed.answers.tolist()], [0, 1, 2, 2])
        self.assertEqual(passed.answers.shape, (4, 2))

    def test_outcomes_are_a_view(self):
        passed = self.passed()
        outcomes = passed.outcomes
        self.assertEqual([type(outcome) for outcome in outcomes], [Untouched, Stored, Refused, Refused])
        self.assertEqual(outcomes[1], Stored(passed.amounts[1]))
        self.assertEqual((outcomes[-1].particle, outcomes[-1].number, outcomes[-1].place), (3, 2, None))
        self.assertEqual(outcomes[:2], [Untouched(), outcomes[1]])
        self.assertRaises(IndexError, lambda: outcomes[4])
        self.assertEqual((len(outcomes), len(passed)), (4, 4))
        self.assertIsNot(outcomes[1], outcomes[1])

    def test_no_particle(self):
        passed = pasoletu.pass_records(RANKINE, array.array("d"))
        for column in (passed.codes, passed.amounts, passed.refusals, passed.answers):
            self.assertEqual(len(column), 0)
        self.assertEqual(passed.outcomes, [])

    def test_a_sheet_s_records(self):
        data = b"\0" + array.array("d", [0.025, 0.0045, 10.0]).tobytes() + b"\2" + b"".join(floats(x)[:36].tobytes() for x in (0.9, 1.0))
        read, ran = pasoletu.read_sheet(data), pasoletu.run(data)
        self.assertEqual((read.records.shape, ran.records.shape), ((2, 37), (2, 37)))
        self.assertEqual((read.records[0, 18], ran.records[0, 18]), (0.9, 0.975))
        self.assertEqual(ran.particles[0].singular_values, [0.975, 1.0, 1.0])
        self.assertIs(ran.particles, ran.particles)


@NUMPY
class WithNumpy(Answers, Tests):
    def test_arrays_are_numpy_s_and_share_the_library_s_room(self):
        passed = self.passed()
        for column, dtype in ((passed.codes, "u8"), (passed.answers, "u8"), (passed.refusals, "u8"), (passed.amounts, "f8")):
            self.assertIsInstance(column, numpy.ndarray)
            self.assertEqual(column.dtype, dtype)
        self.assertTrue(numpy.shares_memory(passed.codes, passed.answers))
        self.assertTrue(numpy.shares_memory(passed.answers, passed.answers))

    def test_an_array_is_worked_in_place(self):
        records = numpy.asarray(floats(0.9, 1.0)).reshape(2, 37)
        pasoletu.pass_records(SnowPlasticity(), records)
        self.assertEqual(records[:, 18].tolist(), [0.975, 1.0])
        # So is a part of it.
        records[:, 18] = 0.9
        pasoletu.pass_records(SnowPlasticity(), records[1:])
        self.assertEqual(records[:, 18].tolist(), [0.9, 0.975])

    def test_columns_and_fortran_s_order_are_errors(self):
        rows = numpy.asarray(floats(0.9, 1.0, 0.8)).reshape(3, 37)
        self.told(ValueError, "pass numpy.ascontiguousarray(records.T)", numpy.ones((37, 2)))
        self.told(ValueError, "pass numpy.ascontiguousarray(records.T)", numpy.asfortranarray(rows.T))
        self.told(ValueError, "pass numpy.ascontiguousarray(records)", numpy.asfortranarray(rows))
        self.told(ValueError, "pass numpy.ascontiguousarray(records)", numpy.ascontiguousarray(rows.T).T)
        self.told(ValueError, "pass numpy.ascontiguousarray(records)", rows[::2])
        self.told(ValueError, "pass numpy.ascontiguousarray(records)", rows[::-1])
        self.told(ValueError, "needs a record a row", rows[:, :18])
        self.told(ValueError, "needs a record a row", numpy.array(1.0))

    def test_what_is_advised_works(self):
        columns = numpy.ascontiguousarray(numpy.asarray(floats(0.9, 1.0)).reshape(2, 37).T)
        rows = numpy.ascontiguousarray(columns.T)
        pasoletu.pass_records(SnowPlasticity(), rows)
        self.assertEqual(rows[:, 18].tolist(), [0.975, 1.0])

    def test_other_numbers_are_errors(self):
        for dtype in ("f4", ">f8", "i8", "c16", "O"):
            self.told(TypeError, "records.astype(numpy.float64)", numpy.ones((2, 37)).astype(dtype))
        self.told(TypeError, "can only be read", numpy.broadcast_to(numpy.ones(37), (2, 37)))

    def test_no_aligned_doubles(self):
        odd = numpy.frombuffer(bytearray(8 * 37 + 1), dtype="u1")[1:].view("f8")
        self.told(ValueError, "multiple of 8 bytes", odd)

    def test_single_calls_take_numpy_s(self):
        self.assertEqual(pasoletu.utils.deviatoric_part(numpy.eye(3)), [[0.0] * 3] * 3)
        self.assertEqual(SnowPlasticity().project_deformation_gradient(numpy.ones(3)), [1.0] * 3)
        self.assertEqual(pasoletu.elementary.exp(numpy.float32(0.0)), 1.0)
        self.assertEqual(Particle.from_floats(numpy.asarray(floats(0.9))), Particle.stretched([0.9, 1.0, 1.0]))


class WithoutNumpy(Answers, Tests):
    def setUp(self):
        left_out = unittest.mock.patch.object(_arrays, "numpy_if_installed", lambda: None)
        left_out.start()
        self.addCleanup(left_out.stop)

    def test_arrays_are_python_s_own(self):
        passed = self.passed()
        self.assertIsInstance(passed.codes, memoryview)
        self.assertIsInstance(passed.answers, memoryview)
        self.assertIsInstance(passed.amounts, array.array)


if __name__ == "__main__":
    unittest.main()
