"""Tests of reports: the definition by Python's fractions, values at the ends, lists cut anywhere, and what is refused."""
import array
import math
import random
import struct
import unittest
from fractions import Fraction

import pasoletu
from pasoletu import Column, Particle, Refused, Report, raw
from pasoletu._table import FLOATS, RECORD, REPORT, REPORT_MOST

COLUMNS = {"plastic_hardening": "plastic_hardening", "elastic_hardening": "elastic_hardening", "plastic_determinant": "plastic_deformation_gradient_det"}
AT = {name: next(part.at for part in RECORD if part.field == field) for name, field in COLUMNS.items()}
BOUND = 0x4130000000000000
SIGN = 1 << 63


def as_float(word):
    return struct.unpack("<d", struct.pack("<Q", word))[0]


def defined(words):
    """A column, from the ticket's words."""
    values = [as_float(w) for w in words]
    finite = [Fraction(x) for x in values if math.isfinite(x)]
    wholes = [math.floor(x * 2**30) for x in finite if abs(x) <= 2**20]
    ends = (min(wholes), max(wholes), sum(wholes)) if wholes else (0, 0, 0)
    return Column(len(wholes), *ends, len(finite) - len(wholes), len(values) - len(finite))


def records(columns, other=0x3FF0000000000000):
    """The records with these values, as words of each column; every other float has the same bits."""
    rows = []
    for values in zip(*columns):
        row = [other] * FLOATS
        for place, word in zip(AT.values(), values):
            row[place] = word
        rows += row
    return array.array("d", struct.pack("<%dQ" % len(rows), *rows))


def told(columns):
    return pasoletu.report(records(columns))


def drawn(draw):
    """A word: any bits, a number near the ends, a whole multiple of 2^-30 or one beside it, a NaN or an infinity."""
    kind = draw.randrange(6)
    if kind == 0:
        return draw.getrandbits(64)
    if kind == 1:
        return (BOUND + draw.randrange(-2, 3)) | draw.choice((0, SIGN))
    if kind == 2:
        word = struct.unpack("<Q", struct.pack("<d", draw.randrange(-2**50, 2**50) / 2**30))[0]
        return word + draw.choice((-1, 0, 1)) if word % SIGN else word
    if kind == 3:
        return draw.choice((0x7FF0000000000000, 0xFFF0000000000000, 0x7FF0000000000001, 0xFFFFFFFFFFFFFFFF, draw.getrandbits(52) | 0x7FF << 52))
    if kind == 4:
        return draw.choice((0, SIGN, 1, SIGN | 1, 0x000FFFFFFFFFFFFF, 0x800FFFFFFFFFFFFF))
    return struct.unpack("<Q", struct.pack("<d", draw.choice((-1, 1)) * 2.0 ** draw.uniform(-40, 21)))[0]


class Reports(unittest.TestCase):
    def test_one_value_at_the_ends(self):
        for word in (0, 1, BOUND - 1, BOUND, BOUND + 1, 0x7FEFFFFFFFFFFFFF, 0x7FF0000000000000, 0x3E10000000000000, 0x3E0FFFFFFFFFFFFF, 0x000FFFFFFFFFFFFF, 0x0010000000000000):
            for w in (word, word | SIGN):
                self.assertEqual(told([[w]] * 3), Report(*[defined([w])] * 3), hex(w))
        self.assertEqual(told([[SIGN | 1]] * 3).plastic_hardening, Column(1, -1, -1, -1, 0, 0))
        self.assertEqual(told([[SIGN]] * 3).plastic_hardening, Column(1, 0, 0, 0, 0, 0))
        self.assertEqual(told([[BOUND | SIGN]] * 3).plastic_hardening, Column(1, -2**50, -2**50, -2**50, 0, 0))

    def test_every_exponent(self):
        """Of both signs, with no digit, one digit, all digits."""
        for exponent in range(2048):
            words = [s | exponent << 52 | d for s in (0, SIGN) for d in (0, 1, 1 << 51, (1 << 52) - 1)]
            self.assertEqual(told([words] * 3), Report(*[defined(words)] * 3), exponent)

    def test_nan_patterns(self):
        """Each digit of a NaN by itself, and all of them, of both signs."""
        words = [s | 0x7FF << 52 | d for s in (0, SIGN) for d in [1 << k for k in range(52)] + [(1 << 52) - 1]]
        self.assertEqual(told([words] * 3), Report(*[Column(not_finite=len(words))] * 3))

    def test_random_lists_cut_anywhere(self):
        draw = random.Random(11)
        for _ in range(400):
            n = draw.choice((0, 1, 2, 3, 7, 20))
            columns = [[drawn(draw) for _ in range(n)] for _ in range(3)]
            wanted = Report(*map(defined, columns))
            self.assertEqual(told(columns), wanted)
            parts, at = Report(), 0
            while at < n:
                to = draw.randint(at, n)
                parts, at = parts.joined(told([c[at:to] for c in columns])), to
            self.assertEqual(parts.joined(Report()), wanted)

    def test_the_other_floats_are_not_looked_at(self):
        for other in (0x7FF0000000000001, 0xFFF0000000000000, 0):
            self.assertEqual(pasoletu.report(records([[BOUND]] * 3, other)), told([[BOUND]] * 3))

    def test_particles_and_records(self):
        particles = [Particle.stretched([0.9, 1.0, 1.1]), Particle(plastic_hardening=-0.1, elastic_hardening=math.nan)]
        held = array.array("d", particles[0].floats() + particles[1].floats())
        made = pasoletu.report(particles)
        self.assertEqual(made, pasoletu.report(memoryview(held).toreadonly()))
        self.assertEqual(made.plastic_hardening, Column(2, -107374183, 2**30, 2**30 - 107374183, 0, 0))
        self.assertEqual(made.elastic_hardening, Column(1, 2**30, 2**30, 2**30, 0, 1))
        self.assertEqual(pasoletu.report([]), Report())

    def test_4096_and_one_more(self):
        least = [BOUND | SIGN] * REPORT_MOST
        most = told([least] * 3)
        self.assertEqual(most.elastic_hardening, Column(REPORT_MOST, -2**50, -2**50, -2**62, 0, 0))
        self.assertEqual(most.joined(Report()), most)
        one = told([[0x7FF0000000000000]] * 3)
        for refused in (lambda: told([least + [0]] * 3), lambda: most.joined(one), lambda: one.joined(most)):
            with self.assertRaises(Refused) as e:
                refused()
            self.assertEqual(e.exception.number, 16)
        self.assertIn("over 4096", str(e.exception))


class AsTheyAre(unittest.TestCase):
    """The C calls by themselves, in rooms with marked entries."""

    def report(self, floats, places=REPORT):
        room = array.array("Q", [99] * places)
        return raw.call("report", array.array("d", bytes(8 * floats)), room), list(room)

    def join(self, first, second, places=REPORT):
        room = array.array("Q", [99] * places)
        return raw.call("join_reports", array.array("Q", first), array.array("Q", second), room), list(room)

    def test_lengths_come_first(self):
        for floats in (1, FLOATS - 1, FLOATS + 1, (REPORT_MOST + 1) * FLOATS + 1):
            self.assertEqual(self.report(floats), (8, [99] * REPORT))
        for places in (0, REPORT - 1, REPORT + 1):
            self.assertEqual(self.report((REPORT_MOST + 1) * FLOATS, places), (8, [99] * places))
            self.assertEqual(self.join([9999] * REPORT, [0] * REPORT, places), (8, [99] * places))
            self.assertEqual(self.join([0] * places, [0] * REPORT), (8, [99] * REPORT))
            self.assertEqual(self.join([0] * REPORT, [0] * places), (8, [99] * REPORT))
        self.assertEqual(self.report((REPORT_MOST + 1) * FLOATS), (16, [99] * REPORT))
        self.assertEqual(self.report(REPORT_MOST * FLOATS)[0], 0)
        self.assertEqual(self.report(0), (0, [0] * REPORT))

    def test_reports_that_no_list_has(self):
        """Any entries are put together by the same rule: totals modulo 2^64, 16 by each column, 0 where nothing is counted."""
        top = (1 << 64) - 1
        odd = [0, 5, 6, top, 0, 0] + [1, top, 7, 2, 0, 0] + [0, 0, 0, 0, 4000, 90]
        self.assertEqual(self.join(odd, odd[:6] + [1, 1, 1, SIGN, 5, 0] + [0] * 6), (
            0, [0, 0, 0, top - 1, 0, 0] + [2, top, 7, SIGN + 2, 5, 0] + [0, 0, 0, 0, 4000, 90]))
        for column in range(3):
            for place in (0, 4, 5):
                long, full = [0] * REPORT, [0] * REPORT
                long[6 * column + place], full[6 * column] = top, REPORT_MOST
                self.assertEqual(self.join(long, [0] * REPORT), (16, [99] * REPORT))
                self.assertEqual(self.join([0] * REPORT, long), (16, [99] * REPORT))
                long[6 * column + place] = 1
                self.assertEqual(self.join(full, long), (16, [99] * REPORT))
                self.assertEqual(self.join(full, [0] * REPORT)[0], 0)


if __name__ == "__main__":
    unittest.main()
