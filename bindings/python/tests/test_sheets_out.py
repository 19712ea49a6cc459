"""Tests of sheets that are written: read back, the same bytes, what is refused, and tools/sheet.py beside the library."""
import array
import math
import pathlib
import random
import struct
import sys
import tempfile
import unittest

import pasoletu
from pasoletu import DruckerPragerPlasticity, NaccPlasticity, Particle, RankinePlasticity, Refused, SnowPlasticity, raw
from pasoletu._table import LAW_OF, MODELS, SHEET_BYTES

TOP = pathlib.Path(__file__).resolve().parent.parent.parent.parent
sys.path.insert(0, str(TOP / "tools"))
import sheet as tool  # noqa: E402

NAN = struct.unpack("<d", struct.pack("<Q", 0x7FF0000000C0FFEE))[0]
LAWS = (
    SnowPlasticity(min_epsilon=NAN),
    RankinePlasticity(1e5, 0.3, 500.0, -0.0),
    DruckerPragerPlasticity(0.6, 0.15, 0.2, 0.17, 3.0, 2.0, True, 0.5),
    NaccPlasticity(1e4, 0.3, 0.05, False, 3.0, 2.36),
)
ONE = 0x3FF0000000000000


def drawn(draw, n):
    """Words of n records: any bits, and now and then a NaN with a payload, an infinity, a zero of either sign."""
    odd = (0x7FF0000000000001, 0xFFF8000000C0FFEE, 0x7FF0000000000000, 1 << 63, 0)
    return [draw.choice(odd) if draw.random() < 0.1 else draw.getrandbits(64) for _ in range(37 * n)]


def doubles(words):
    return array.array("d", struct.pack("<%dQ" % len(words), *words))


def spelled(model, parameters, words):
    """Section 7, from the page: models 0 to 3 leave the determinant out."""
    n = len(words) // 37
    number = bytes([n]) if n < 128 else bytes([n % 128 + 128, n // 128])
    kept = [w for k, w in enumerate(words) if model > 3 or k % 37 < 36]
    return bytes([model]) + struct.pack("<%dQ" % len(parameters), *parameters) + number + struct.pack("<%dQ" % len(kept), *kept)


def any_parameters(draw, model):
    m = MODELS[LAW_OF[model][0]]
    return [draw.choice((0, ONE)) if name in m.flags else draw.getrandbits(64) for name in m.parameters]


class Written(unittest.TestCase):
    def test_what_was_written_is_read_back(self):
        draw = random.Random(1)
        for law in LAWS:
            for n in (0, 1, 127, 128, 200):
                records = doubles(drawn(draw, n))
                whole = pasoletu.write_sheet(law, records, determinants=True)
                back = pasoletu.read_sheet(whole)
                self.assertEqual((memoryview(back.records).tobytes(), back.determinants), (records.tobytes(), True))
                self.assertEqual(bytes(back), whole)
                data = pasoletu.write_sheet(law, records)
                read = pasoletu.read_sheet(data)
                pasoletu.fill_determinants(records)
                self.assertEqual((memoryview(read.records).tobytes(), read.determinants), (records.tobytes(), False))
                self.assertEqual(struct.pack("<8d", *(law.parameters() + [0.0] * 8)[:8]), struct.pack("<8d", *(read.model.parameters() + [0.0] * 8)[:8]))
                self.assertEqual(bytes(read), data)

    def test_particles_and_records_are_the_same_sheet(self):
        particles = [Particle.stretched([0.9, 1.0, 1.1]), Particle(phase=NAN)]
        records = array.array("d", particles[0].floats() + particles[1].floats())
        data = pasoletu.write_sheet(LAWS[0], particles)
        self.assertEqual(data, pasoletu.write_sheet(LAWS[0], records))
        self.assertEqual(data, pasoletu.write_sheet(LAWS[0], memoryview(records).toreadonly()))
        self.assertEqual(data, pasoletu.write_sheet(LAWS[0], iter(particles)))

    def test_a_sheet_is_written_to_a_file(self):
        with tempfile.TemporaryDirectory() as folder:
            name = pathlib.Path(folder) / "new.sheet"
            data = pasoletu.write_sheet(LAWS[2], [Particle()] * 3)
            pasoletu.read_sheet(data).write(name)
            self.assertEqual(name.read_bytes(), data)

    def test_a_run_is_a_sheet_of_its_updated_records(self):
        given = [Particle.stretched([0.9, 1.0, 1.0]), Particle(phase=NAN)]
        ran = pasoletu.run(pasoletu.write_sheet(SnowPlasticity(), given))
        updated = pasoletu.read_sheet(bytes(ran))
        self.assertEqual(updated.particles[0].singular_values, [0.975, 1.0, 1.0])
        self.assertEqual(struct.pack("<37d", *updated.particles[1].floats()), struct.pack("<37d", *given[1].floats()))
        kept = pasoletu.run(pasoletu.write_sheet(SnowPlasticity(), given, determinants=True))
        self.assertEqual((kept.determinants, len(bytes(kept)) - len(bytes(ran)), bytes(kept)[0]), (True, 16, 4))

    def test_over_200_particles(self):
        for given in ([Particle()] * 201, doubles([0] * 37 * 201)):
            with self.assertRaises(Refused) as told:
                pasoletu.write_sheet(SnowPlasticity(), given)
            self.assertEqual((told.exception.number, told.exception.call), (7, "write_sheet"))

    def test_what_is_no_list_of_particles(self):
        with self.assertRaises(Refused) as told:
            pasoletu.write_sheet(SnowPlasticity(), doubles([0] * 36))
        self.assertEqual(told.exception.number, 8)
        self.assertRaises(TypeError, pasoletu.write_sheet, SnowPlasticity(), [1.0])
        self.assertRaises(TypeError, pasoletu.write_sheet, SnowPlasticity(), bytes(288))
        self.assertRaises(TypeError, pasoletu.write_sheet, 0, [Particle()])


class AsTheyAre(unittest.TestCase):
    """The C call by itself, in rooms with marked bytes."""

    def write(self, model, parameters, words, room, places=1):
        """Status, the room afterwards, and the length's places."""
        held, written = bytearray(b"\x55" * room), array.array("Q", [99] * places)
        status = raw.call("write_sheet", model, doubles(parameters), doubles(words), held, written)
        return status, bytes(held), list(written)

    def test_the_order_of_the_refusals(self):
        nacc, two, many = [0, 0, 0, ONE, 0, 0], [7] * 74, [7] * 37 * 201
        for number, model, parameters, words, room in (
            (8, 9, nacc, two[1:], 0),
            (8, 3, nacc[1:], two, 0),
            (8, 3, nacc + [0], many, 0),
            (8, 3, nacc, [7] * 72, 700),
            (6, len(LAW_OF), nacc, two, 0),
            (6, 7, [0, 0, 0, 1 << 63, 0, 0], two, 700),
            (6, 1 << 63, [], many, 0),
            (6, 3, [0, 0, 0, 1 << 63, 0, 0], two, 700),
            (6, 3, [0, 0, 0, ONE + 1, 0, 0], many, 0),
            (7, 3, nacc, many, 0),
            (9, 3, nacc, two, 0),
            (9, 3, nacc, two, 1 + 48 + 1 + 576 - 1),
            (9, 7, nacc, two, 1 + 48 + 1 + 592 - 1),
        ):
            self.assertEqual(self.write(model, parameters, words, room), (number, b"\x55" * room, [99]), (number, model))
        for places in (0, 2):
            self.assertEqual(self.write(3, nacc, two, 700, places), (8, b"\x55" * 700, [99] * places))

    def test_random_sheets_in_rooms_of_any_size(self):
        draw = random.Random(2)
        for _ in range(300):
            model, n = draw.randrange(len(LAW_OF)), draw.choice((0, 1, 2, 3, 127, 128, 200) if draw.random() < 0.1 else (0, 1, 2, 3))
            parameters, words = any_parameters(draw, model), drawn(draw, n)
            data = spelled(model, parameters, words)
            for room in (len(data), len(data) + draw.randrange(1, 99), len(data) - 1, draw.randrange(len(data))):
                wanted = (0, data + b"\x55" * (room - len(data)), [len(data)]) if room >= len(data) else (9, b"\x55" * room, [99])
                self.assertEqual(self.write(model, parameters, words, room), wanted)

    def test_the_longest_sheet(self):
        cone = [0] * 8
        self.assertEqual(self.write(6, cone, [1] * 7400, SHEET_BYTES - 1)[0], 9)
        status, room, written = self.write(6, cone, [1] * 7400, SHEET_BYTES + 1)
        self.assertEqual((status, written, room[-1]), (0, [SHEET_BYTES], 0x55))


class TheTool(unittest.TestCase):
    def test_sheet_py_makes_the_library_s_bytes(self):
        """tools/sheet.py's own writer beside the proved one, byte by byte."""
        draw = random.Random(3)
        for _ in range(500):
            model, n = draw.randrange(len(LAW_OF)), draw.choice((0, 1, 2, 5) if draw.random() < 0.95 else (127, 128, 200))
            parameters, words = any_parameters(draw, model), drawn(draw, n)
            records = [doubles(words[37 * k:37 * (k + 1)]).tolist() for k in range(n)]
            made = tool.written(MODELS[LAW_OF[model][0]].name, LAW_OF[model][1], doubles(parameters).tolist(), records, "a test")
            room, written = bytearray(SHEET_BYTES), array.array("Q", [0])
            self.assertEqual(raw.call("write_sheet", model, doubles(parameters), doubles(words), room, written), 0)
            self.assertEqual(made, bytes(room[:written[0]]))

    def test_a_csv_s_sheet_is_the_library_s(self):
        with tempfile.TemporaryDirectory() as folder:
            table, made = pathlib.Path(folder) / "a.csv", pathlib.Path(folder) / "a.sheet"
            table.write_text("sigma1,sigma2,sigma3,phase\n1,1,1,1\n0.9,1,1.02,0\nnan,1,1,1\n")
            tool.main(["make", str(table), str(made), "--model", "snow"])
            particles = [Particle(), Particle.stretched([0.9, 1.0, 1.02]), Particle.stretched([math.nan, 1.0, 1.0])]
            particles[1].phase = 0.0
            self.assertEqual(made.read_bytes(), pasoletu.write_sheet(SnowPlasticity(), particles))

    def test_the_models_parameters_are_the_table_s(self):
        for m in MODELS.values():
            self.assertEqual(tool.PARAMETERS[m.name], list(m.parameters))
            self.assertEqual([n for n in m.parameters if n in tool.FLAGS], list(m.flags))


if __name__ == "__main__":
    unittest.main()
