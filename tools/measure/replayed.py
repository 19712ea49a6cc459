#!/usr/bin/env python3
"""Checks by a second reading which refusals of the replayed list (tests/replay/data/list) are 2, which are 10 and which are 11.

  tools/measure/replayed.py [LIST]

Of every call that asks an elementary function, each entry that the list refuses by 2, 10 or 11 is worked with Python's own floats up to the
first argument outside its range, or to a record's determinant that isn't that of its F, the four updates by tools/cases.py and the others
here; and no entry that it answers or refuses by 3 may come upon such a thing. The last line is 'N passed, M failed'.
"""
import argparse
import pathlib
import struct
import sys

TOP = pathlib.Path(__file__).resolve().parents[2]
sys.path[:0] = [str(TOP / "tools")]
import cases  # noqa: E402
import shell  # noqa: E402
import vectors  # noqa: E402
from making.rows import Table  # noqa: E402

LIST = TOP / "tests/replay/data/list"
TOLD = (2, 10, 11)
ENDS = {"exp": (-700.0, 700.0), "sinh": (-700.0, 700.0), "sin": (-8.0, 8.0), "sqrt": (0.0, sys.float_info.max)}
THIRDS = (2.0 ** -60, 2.0 ** 60)


def asked(low, high, x):
    cases.ranged(lambda x: x, low, high, x)


def bare(name):
    low, high = ENDS.get(name, THIRDS)
    return lambda x: asked(low, high, x)


def root(x):
    asked(*ENDS["sqrt"], x)


def quadratic(a, b, c):
    root(b * b - 4.0 * a * c)


def times(a, b):
    return [a[3 * i] * b[j] + a[3 * i + 1] * b[3 + j] + a[3 * i + 2] * b[6 + j] for i in range(3) for j in range(3)]


def neo_hookean(name):
    """The determinant, the modulus, the inverse (of fpk_stress) and F F^T are worked before the power; of the energy the modulus alone."""
    def reading(_, lame, mu, *words):
        h, m = words[-10], list(words[-9:])
        a, b, c, d, e, f, g, i, k = m
        det = a * (e * k - i * f) - b * (d * k - g * f) + c * (d * i - g * e)
        cases.tell(det, 2.0 / 3.0 * mu * h + lame * h)
        if name.endswith("fpk_stress") and det != 0.0:
            cofactors = e * k - i * f, c * i - b * k, b * f - c * e, f * g - d * k, a * k - c * g, c * d - a * f, d * i - e * g, b * g - a * i, a * e - b * d
            cases.tell(*(cases.divide(x, det) for x in cofactors))
        if not name.endswith("elastic_energy_density"):
            cases.tell(*times(m, [a, d, g, b, e, i, c, f, k]))
        asked(*THIRDS, det)
    return reading


def judged(name):
    """A record's determinant, and then, of the neo-Hookean law, what its stress asks: after 1 over law, limits and record."""
    def reading(*words):
        record = list(words[-37:])
        cases.taken(list(words[:-37]), record)
        if name.startswith("neo_hookean_"):
            neo_hookean("neo_hookean_kirchhoff_stress")(*words[:3], record[30], record[33], *record[:9])
    return reading


def of_record(name):
    """A record's determinant, and then, of the neo-Hookean law, what the plain call asks."""
    def reading(*words):
        record = list(words[-37:])
        cases.taken(list(words[:-37]), record)
        if name.startswith("record_neo_hookean_"):
            neo_hookean(name.removeprefix("record_").removesuffix("_in"))(*words[:3], record[30], record[33], *record[:9])
    return reading


def timestep(pressure0, gamma, _, largest, j, mass, volume, density, x, y, z, __):
    """The exponent is a u32 read as i32, halved; a negative argument of the first root, or a NaN, is let through."""
    exponent = struct.unpack("<Q", struct.pack("<d", gamma))[0]
    size, r, base = min(exponent, 2 ** 32 - exponent), 1.0, cases.divide(density, cases.divide(mass, volume))
    while size:
        r, base, size = r * base if size & 1 else r, base * base, size >> 1
    r = r if exponent < 2 ** 31 else cases.divide(1.0, r)
    pressure = cases.rust_max(pressure0 * (r - 1.0), -largest)
    argument = cases.divide(cases.divide(mass, volume) * (j - 1.0), 6.0 * -pressure * 3.0)
    if argument >= 0.0:
        root(argument)
    root(cases.rust_max(x * x + y * y + z * z, 1.0) / 0.1)


def alpha(h0, h1, h2, h3, _, __, ___, ____, q):
    asked(*ENDS["sin"], h0 + (h1 * q - h3) * cases.exp(-h2 * q))


def update(model):
    n = len(model.parameters)
    return lambda *words: cases.worked(model.number, list(words[:n]), list(words[n:]))


def readings(table):
    """What works a call's words up to the first refusal, by the call's number."""
    by_name = {name: bare(name) for name in ("exp", "ln", "sinh", "sin", "sqrt", "cbrt", "inv_cbrt", "cbrt_squared", "inv_cbrt_squared")}
    by_name |= {"solve_quadratic": quadratic, "monaghan_timestep_bound": timestep, "drucker_prager_alpha": alpha}
    for number, c, model in table.numbered:
        if model is not None:
            yield number, update(model)
        elif c.name.endswith("_stress_and_verdict"):
            yield number, judged(c.name)
        elif c.name.startswith("neo_hookean_"):
            yield number, neo_hookean(c.name)
        elif c.name in by_name:
            yield number, by_name[c.name]
    for number, c, _ in table.replayed:
        if c.name.startswith("record_"):
            yield number, of_record(c.name)
        elif c.name.startswith("neo_hookean_"):
            yield number, neo_hookean(c.name.removesuffix("_in"))


def entries(b):
    """Each entry of the list: where it stands, its call's number, the refusal and the words that go in."""
    lengths = vectors.lengths()
    at = 0
    while b[at] != 255:
        number, refusal = b[at], b[at + 1]
        taken, out = lengths[number]
        yield at, number, refusal, struct.unpack_from("<%dd" % taken, b, at + 2)
        at += 2 + 8 * (taken + (0 if refusal else out))


def told(reading, words):
    """2 or 10 where the reading comes upon an argument on that side, 11 upon a wrong determinant, else another number or 0."""
    try:
        reading(*words)
    except cases.Refused as e:
        return e.args[0]
    except (ArithmeticError, ValueError):
        return 0
    return 0


def check(path):
    table = Table(TOP)
    known = dict(readings(table))
    passed = failed = 0
    for at, number, refusal, words in entries(path.read_bytes()):
        if refusal in (0, 3, *TOLD) and number in known:
            side = told(known[number], words)
            if (refusal in TOLD or side in TOLD) and side != refusal:
                failed += 1
                print("byte %d: call %d is refused by %d, by the second reading %d" % (at, number, refusal, side))
            else:
                passed += 1
        elif refusal in TOLD:
            failed += 1
            print("byte %d: call %d is refused by %d, and the second reading does not know it" % (at, number, refusal))
    print("%d passed, %d failed" % (passed, failed))
    return failed != 0


def main(argv=None):
    about = argparse.ArgumentParser(description=__doc__, formatter_class=argparse.RawDescriptionHelpFormatter, usage=argparse.SUPPRESS)
    about.add_argument("list", nargs="?", type=pathlib.Path, default=LIST, metavar="LIST")
    return shell.run("replayed.py", check, about.parse_args(argv).list)


if __name__ == "__main__":
    sys.exit(main())
