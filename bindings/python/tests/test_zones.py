"""Tallies by zone: random sequences of calls beside a second implementation, written from docs/RULES.md, section 7."""
import array
import random
import unittest

import pasoletu
from pasoletu.refusal import BAD_ZONE, TALLY_FULL

PHASE = 30
LAST = 2 ** 32 - 1
LIMITS = pasoletu.MaximumStressFailure(max_principal_stress=10.0, max_shear_stress=1.0e9)
ELASTICITY = pasoletu.CorotatedLinearElasticity(split_stress_on_failure=False, cfl_coeff=0.5, lam=1000.0, mu=1000.0)


class Model:
    """The rules by themselves: tallies as dictionaries, events in a list."""

    def __init__(self, number, zones):
        self.number, self.zones, self.events = number, list(zones), []

    def fits(self, particles):
        return self.number <= 256 and len(self.zones) == particles and all(z < self.number for z in self.zones)

    def count(self, zone, kind):
        return sum(1 for z, kinds in self.events if z == zone and kind in kinds)

    def table(self):
        kinds = ("untouched", "stored", "refused", "failed")
        return [(self.zones.count(z), *(self.count(z, kind) for kind in kinds)) for z in range(self.number)]

    def passed(self, kinds):
        self.events += [(zone, kind) for zone, kind in zip(self.zones, kinds)]


def record(rng):
    """A record at rest, stretched, squeezed, or with a NaN."""
    sigma = rng.choice([1.0, 1.02, 0.9, 1.3, float("nan")])
    return pasoletu.Particle.stretched([sigma, 1.0, 1.0]).floats()


class Sequences(unittest.TestCase):
    def test_random_sequences(self):
        for seed in range(200):
            rng = random.Random(seed)
            number, particles = rng.randint(1, 9), rng.randint(0, 12)
            model = Model(number, [rng.randrange(number) for _ in range(particles)])
            zones = pasoletu.Zones(number, model.zones)
            for _ in range(30):
                self.step(rng, model, zones, particles)
                self.assertEqual([tuple(t) for t in zones.tallies], model.table())
                self.assertEqual(zones.zones, model.zones)

    def step(self, rng, model, zones, particles):
        what = rng.random()
        if what < 0.1:
            zones.clear()
            model.events = []
        elif what < 0.5:
            self.move(rng, model, zones, particles)
        else:
            self.run_pass(rng, model, zones, particles)

    def move(self, rng, model, zones, particles):
        particle, zone = rng.randint(0, particles), rng.randint(0, model.number)
        if particle < particles and zone < model.number:
            zones.move(particle, zone)
            model.zones[particle] = zone
        else:
            with self.assertRaises(pasoletu.Refused) as told:
                zones.move(particle, zone)
            self.assertEqual(told.exception.number, BAD_ZONE)

    def run_pass(self, rng, model, zones, particles):
        records = array.array("d", [x for _ in range(particles) for x in record(rng)])
        by = (LIMITS, ELASTICITY) if rng.random() < 0.5 else ()
        law = rng.choice([pasoletu.SnowPlasticity(), pasoletu.RankinePlasticity(1000.0, 0.25, 5.0, 0.0)])
        passed = zones.pass_records(law, records, *by)
        model.passed([self.kind(passed.codes[k], records[k * pasoletu.FLOATS + PHASE]) for k in range(particles)])

    def kind(self, code, phase):
        name = ("untouched", "stored", "refused")[code]
        return (name, "failed") if name != "refused" and phase == 0.0 else (name,)


class Refusals(unittest.TestCase):
    def refused(self, number, call, *given):
        with self.assertRaises(pasoletu.Refused) as told:
            call(*given)
        self.assertEqual(told.exception.number, number)

    def test_twelve(self):
        self.refused(BAD_ZONE, pasoletu.Zones, 257, [])
        self.refused(BAD_ZONE, pasoletu.Zones, 2, [2])
        zones = pasoletu.Zones(2, [0])
        records = array.array("d", pasoletu.Particle.stretched([1.0, 1.0, 1.0]).floats() * 2)
        self.refused(BAD_ZONE, zones.pass_records, pasoletu.SnowPlasticity(), records)

    def test_thirteen(self):
        for field in range(1, 5):
            zones = pasoletu.Zones(2, [1])
            zones._tallies[5 + field] = LAST
            records = array.array("d", pasoletu.Particle.stretched([1.0, 1.0, 1.0]).floats())
            was = bytes(records)
            self.refused(TALLY_FULL, zones.pass_records, pasoletu.SnowPlasticity(), records)
            self.assertEqual(bytes(records), was)
            zones._tallies[5 + field] = LAST - 1
            zones.pass_records(pasoletu.SnowPlasticity(), records)


if __name__ == "__main__":
    unittest.main()
