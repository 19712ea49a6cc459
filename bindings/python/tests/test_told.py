"""What does not fit a call is told with its place, and nothing is cut or taken for something else."""
import array
import unittest

import pasoletu
from pasoletu import Column, FlatParticle, NeoHookeanElasticity, Particle, Refused, Report, SnowPlasticity, Zones, raw

try:
    import numpy
except ImportError:
    numpy = None

OVER = 2**64


class Told(unittest.TestCase):
    def told(self, error, words, call, *arguments, **named):
        with self.assertRaises(error) as caught:
            call(*arguments, **named)
        self.assertIn(words, str(caught.exception))

    def test_zones_beyond_64_bits(self):
        self.told(OverflowError, "Zones: zones[1] is %d and must lie between 0 and %d" % (OVER, OVER - 1), Zones, 1, [0, OVER])
        self.told(OverflowError, "Zones: zones[0] is -1", Zones, 1, [-1])
        self.told(TypeError, "Zones: zones[0] is 0.5 and must be a whole number", Zones, 1, [0.5])
        self.told(OverflowError, "Zones: number is %d" % OVER, Zones, OVER, [])
        self.told(OverflowError, "Zones: number is -1", Zones, -1, [])
        zones = Zones(2, [0, 0])
        self.told(OverflowError, "Zones.move: particle is %d" % OVER, zones.move, OVER, 1)
        self.told(OverflowError, "Zones.move: zone is %d" % (OVER + 1), zones.move, 0, OVER + 1)
        self.assertEqual((zones.zones, [tally.particles for tally in zones.tallies]), ([0, 0], [2, 0]))
        self.told(Refused, "Zones.move refused by 12", zones.move, OVER - 1, 1)

    def test_raw_numbers_beyond_64_bits(self):
        record, answer = array.array("d", Particle().floats()), array.array("Q", [7, 7])
        for model in (OVER, -1):
            self.told(OverflowError, "pasoletu_update: model is %d" % model, raw.call, "update", model, array.array("d", [0.025, 0.0045, 10.0]), record, answer)
        self.told(TypeError, "pasoletu_update: model is 0.0 and must be a whole number", raw.call, "update", 0.0, array.array("d", [0.025, 0.0045, 10.0]), record, answer)
        self.assertEqual((list(record), list(answer)), (Particle().floats(), [7, 7]))
        self.assertEqual(raw.call("update", OVER - 1, array.array("d", [0.0] * 3), record, answer), 6)
        self.told(OverflowError, "pasoletu_monaghan_pressure: gamma is 4294967296", raw.call, "monaghan_pressure", 1.0, 2**32, *[1.0] * 5, array.array("d", [0.0]))

    def test_reports_beyond_64_bits(self):
        for entry in ("count", "outside", "not_finite"):
            for value in (OVER, -1):
                self.told(OverflowError, "Report.joined: elastic_hardening.%s is %d" % (entry, value), Report(elastic_hardening=Column(**{entry: value})).joined, Report())
        for entry in ("least", "greatest", "total"):
            for value in (2**63, -(2**63) - 1):
                self.told(OverflowError, "Report.joined: plastic_determinant.%s is %d" % (entry, value), Report().joined, Report(plastic_determinant=Column(**{entry: value})))
        lowest = Column(1, -(2**63), 2**63 - 1, -5)
        self.assertEqual(Report(lowest).joined(Report()), Report(lowest))

    def test_numbers_beyond_the_doubles(self):
        self.told(OverflowError, "elementary.exp: x is larger than every double", pasoletu.elementary.exp, 10**400)
        self.told(OverflowError, "is larger than every double", Particle.stretched, [10**400, 1, 1])

    def test_the_energys_flag(self):
        law = NeoHookeanElasticity(0.5, 1.0, 1.0)
        pressed = [[0.5, 0.0, 0.0], [0.0, 1.0, 0.0], [0.0, 0.0, 1.0]]
        particle = Particle.stretched([0.5, 1.0, 1.0])
        for call, given in ((law.elastic_energy_density, (0.0, 1.0, pressed)), (law.elastic_energy_density_of, (particle,))):
            plain, one = call(*given), call(*given, one_split=True)
            self.told(TypeError, "one_split is None and must be a number", call, *given, one_split=None)
            for flag in (-0.0, 0.5, 2):
                self.told(Refused, "refused by 6", call, *given, one_split=flag)
            for no in (False, 0, 0.0):
                self.assertEqual(call(*given, one_split=no), plain)
            self.assertEqual(call(*given, one_split=1), one)

    def test_parts_of_a_flat_particle(self):
        """20 floats in all, in wrong parts."""
        wrong = FlatParticle(deformation_gradient=[[1.0, 0.0, 0.0], [1.0]])
        self.told(Refused, "deformation_gradient, which is not two rows of two", wrong.update, SnowPlasticity())
        wrong = FlatParticle(u=[[1.0, 0.0], [0.0]], singular_values=[1.0, 1.0, 1.0])
        self.told(Refused, "u, which is not two rows of two", wrong.floats)
        wrong = FlatParticle(singular_values=[1.0] * 3, v_t=[[1.0, 0.0], [0.0]])
        self.told(Refused, "singular_values, which has 3 entries and not 2", pasoletu.flat_pass, SnowPlasticity(), [wrong])
        self.told(TypeError, "must be two rows of two numbers", FlatParticle(u=5.0).floats)

    def test_stretched(self):
        for kind, count in ((Particle, 3), (FlatParticle, 2)):
            name = kind.__name__
            self.told(TypeError, "%s.stretched: sigma[0] is 'a' and must be a number" % name, kind.stretched, ["a"] + [1] * (count - 1))
            self.told(Refused, "sigma, which has 1 entries and not %d" % count, kind.stretched, [1])
            self.told(TypeError, "sigma is 1.0 and must be %d numbers" % count, kind.stretched, 1.0)

    def test_unknown_parts(self):
        for kind in (Particle, FlatParticle):
            self.told(TypeError, "foo", kind, foo=1)
        self.assertEqual(Particle(determinant=2.0).determinant, 2.0)
        self.assertEqual(Particle(deformation_gradient=[[2.0, 0.0, 0.0], [0.0, 1.0, 0.0], [0.0, 0.0, 1.0]]).determinant, 2.0)

    @unittest.skipUnless(numpy, "numpy is not here")
    def test_masked_and_structured_arrays(self):
        rows = numpy.array(Particle().floats() * 2).reshape(2, 37)
        masked = numpy.ma.masked_array(rows, mask=[[True] * 37, [False] * 37])
        for call in (lambda r: pasoletu.pass_records(SnowPlasticity(), r), pasoletu.report, pasoletu.fill_determinants):
            self.told(TypeError, "records is a masked array, and the masked rows would be worked as well", call, masked)
        self.assertEqual(pasoletu.pass_records(SnowPlasticity(), masked.compressed()).stored, 1)
        self.assertEqual(pasoletu.pass_records(SnowPlasticity(), masked.data).stored, 2)
        structured = numpy.zeros(2, dtype=[("f", "f8", 37)])
        for given in (structured, bytearray(8 * 37)):
            self.told(TypeError, "not doubles: pass an array('d') or a numpy array of float64, a record a row", pasoletu.pass_records, SnowPlasticity(), given)

    def test_every_public_name_says_what_it_is(self):
        """Classes, functions, methods and properties."""
        silent = []
        for name in pasoletu.__all__:
            thing = getattr(pasoletu, name)
            if callable(thing) and not thing.__doc__:
                silent.append(name)
            if isinstance(thing, type):
                silent += ["%s.%s" % (name, part) for part, value in vars(thing).items()
                           if not part.startswith("_") and (callable(value) or isinstance(value, (property, classmethod, staticmethod))) and not value.__doc__]
        for module in (pasoletu.utils, pasoletu.elementary):
            silent += ["%s.%s" % (module.__name__, part) for part, value in vars(module).items()
                       if not part.startswith("_") and callable(value) and value.__module__ == module.__name__ and not value.__doc__]
        self.assertEqual(silent, [])


if __name__ == "__main__":
    unittest.main()
