#!/usr/bin/env python3
"""Writes the sheets of samples/, the same bytes at every run: the laws' with 40 particles each, and three about the determinant;
samples/snow.sheet is the example of docs/RULES.md and stays.

  tools/samples.py [FOLDER]   (default samples/)
"""
import argparse
import math
import pathlib
import sys

sys.path.insert(0, str(pathlib.Path(__file__).resolve().parent))
import cases  # noqa: E402
import sheet  # noqa: E402
import shell  # noqa: E402

COUNT = 40


def spread(k, ratio):
    """Evenly spread numbers from -1 to 1: multiples of an irrational number, less their whole part."""
    return 2.0 * math.modf((k + 1) * ratio)[0] - 1.0


def rotation(angle, axis):
    c, s = math.cos(angle), math.sin(angle)
    i, j = (axis + 1) % 3, (axis + 2) % 3
    m = list(sheet.IDENTITY)
    m[4 * i], m[4 * j], m[3 * i + j], m[3 * j + i] = c, c, -s, s
    return m


def particle(k, sigma, **scalars):
    """A particle whose factors are turned, each by its own angle."""
    given = {"U": rotation(0.1 * k, k % 3), "sigma": sigma, "V^T": rotation(0.07 * k, (k + 1) % 3)}
    return sheet.record(given, scalars, "particle %d" % k)


def strained(k, mean, shear):
    """Stretches with a log strain of the given mean, and a shear part of the given size in a direction that turns with k."""
    turn = 2.0 * math.pi * spread(k, 0.4142135623730951)
    part = [shear * math.sqrt(2.0 / 3.0) * math.cos(turn + 2.0 * math.pi * i / 3.0) for i in range(3)]
    return [math.exp(mean + x) for x in part]


def snow(k):
    s = strained(k, 0.014 * spread(k, 0.6180339887498949) - 0.008, 0.014 * (1.0 + spread(k, 0.7548776662466927)))
    return particle(k, s, plastic_determinant=1.0 - 0.02 * (k % 5))


def rankine(k):
    s = strained(k, 0.003 * spread(k, 0.6180339887498949), 0.004 * (1.0 + spread(k, 0.7548776662466927)))
    return particle(k, s, plastic_hardening=(1.0, 1.0, 2001.0)[k % 3])


def drucker_prager(k):
    s = strained(k, 0.05 * spread(k, 0.6180339887498949) - 0.035, 0.075 * (1.0 + spread(k, 0.7548776662466927)))
    return particle(k, s, plastic_hardening=(0.0, 0.0, 2.0)[k % 3])


def nacc(k):
    s = strained(k, 0.05 * spread(k, 0.6180339887498949) - 0.025, 0.07 * (1.0 + spread(k, 0.7548776662466927)))
    return particle(k, s, alpha=(-0.05, -0.05, -0.025)[k % 3])


LAWS = {
    "snow_slope": ("snow", {}, snow),
    "rankine": ("rankine", {"young_modulus": 1e6, "poisson_ratio": 0.3, "tensile_strength": 5000.0, "softening_rate": 1e5}, rankine),
    "drucker_prager": ("drucker_prager", {"young_modulus": 1e6, "poisson_ratio": 0.3}, drucker_prager),
    "nacc": ("nacc", {"young_modulus": 1e6, "poisson_ratio": 0.3, "cohesion": 0.3, "hardening_enabled": 1.0, "hardening_factor": 3.0, "m": 1.8}, nacc),
}


def drawn_parameters(d):
    """Of each law parameters of sizes that a user might give, for tests that draw."""
    young, poisson, flag = 10.0 ** d.uniform(2, 7), d.uniform(0, 0.49), float(d.randint(0, 1))
    return {
        "snow": [d.uniform(0, 0.1), d.uniform(0, 0.02), d.uniform(1, 20)],
        "rankine": [young, poisson, young * 10.0 ** d.uniform(-5, 0), 10.0 ** d.uniform(-2, 6)],
        "drucker_prager": [d.uniform(0, 1.2), d.uniform(0, 0.4), d.uniform(0, 0.5), d.uniform(0, 0.4), young * d.uniform(0.1, 2), young * d.uniform(0.1, 1), flag, d.uniform(0, 1.5)],
        "nacc": [young, poisson, d.uniform(0, 1), flag, d.uniform(0, 5), d.uniform(0.1, 3)],
    }


def of_a_law(name):
    """Particle 12 has a phase that is no number and is refused by 1, particle 27 a sigma of 0 and is refused by 2, of Snow a plastic
    determinant far out and is refused by 10."""
    model, given, at = LAWS[name]
    records = [at(k) for k in range(COUNT)]
    records[12][30] = cases.NAN
    if model == "snow":
        records[27][31] = -100.0
    else:
        records[27] = particle(27, [0.0, 1.0, 1.0])
    return model, sheet.parameters(model, given, name), records


def written(name, kept, model, values, records):
    return sheet.written(model, kept, values, records, name)


def rankine_determinants(name):
    """Rankine's particles with their determinants. Particle 31's is one bit off, as if F had been written without it: refused by 11."""
    model, values, records = of_a_law("rankine")
    records[31][36] = math.nextafter(records[31][36], math.inf)
    return written(name, True, model, values, records)


def zero_signs(name):
    """Flat particles, with a determinant of 0.0 (0, 1) and of -0.0 (2, 3): the other zero is another number, refused by 11 (1, 3)."""
    flat = sheet.record({"F": [0.0] * 9, "U": sheet.IDENTITY, "sigma": [1.0, 1.0, 1.0], "V^T": sheet.IDENTITY}, {}, name)
    turned = cases.completed([-0.0, 0.0, -0.0] + sheet.IDENTITY[3:] + flat[9:])
    return written(name, True, "snow", cases.SNOW, [flat, flat[:36] + [-0.0], turned, turned[:36] + [0.0]])


def overflow(name):
    """A sheet without determinants whose particle 1 has a finite F with an infinite determinant, particle 2 one that is no number: both
    are read and refused by 1."""
    rest = sheet.record({}, {}, name)
    big = [1e200, 0.0, 0.0, 0.0, 1e200, 0.0, 0.0, 0.0, 1.0]
    return written(name, False, "snow", cases.SNOW, [cases.completed(f + rest[9:]) for f in (sheet.IDENTITY, big, [1e200] * 9, sheet.IDENTITY)])


SAMPLES = {name: lambda name: written(name, False, *of_a_law(name)) for name in LAWS}
SAMPLES |= {"rankine_determinants": rankine_determinants, "zero_signs": zero_signs, "overflow": overflow}


def sample(name):
    """A sample's bytes."""
    return SAMPLES[name](name)


def write(folder):
    with shell.Together() as files:
        for name in SAMPLES:
            files.add(pathlib.Path(folder) / (name + ".sheet"), sample(name))
    shell.say("%s: %s\n" % (folder, ", ".join(name + ".sheet" for name in SAMPLES)))


def main(argv=None):
    about = argparse.ArgumentParser(description=__doc__, formatter_class=argparse.RawDescriptionHelpFormatter, usage=argparse.SUPPRESS)
    about.add_argument("folder", nargs="?", default=shell.TOP / "samples", metavar="FOLDER")
    return shell.run("samples.py", write, about.parse_args(argv).folder)


if __name__ == "__main__":
    sys.exit(main())
