"""A floating-point mode other than IEEE's default is seen, and every call on a list raises in it with nothing written."""
import array
import contextlib
import ctypes
import platform
import struct
import unittest

import pasoletu
from pasoletu import _mode
from pasoletu._table import CALLS, MODE_DENORMALS, MODE_FLUSHED, MODE_ROUNDING

# Of glibc's fenv_t: its size, the place of the control word in it, and the bits that make a mode.
PLACES = {
    "x86_64": (32, 28, {0x2000: MODE_ROUNDING, 0x4000: MODE_ROUNDING, 0x6000: MODE_ROUNDING, 0x8000: MODE_FLUSHED, 0x0040: MODE_DENORMALS,
                        0x8040: MODE_FLUSHED | MODE_DENORMALS, 0xA040: MODE_ROUNDING | MODE_FLUSHED | MODE_DENORMALS}),
    "aarch64": (8, 0, {0x400000: MODE_ROUNDING, 0x800000: MODE_ROUNDING, 0xC00000: MODE_ROUNDING, 0x1000000: MODE_FLUSHED | MODE_DENORMALS}),
}
SIZE, PLACE, MODES = PLACES.get(platform.machine(), (0, 0, {}))


@contextlib.contextmanager
def mode(bits):
    """This thread in another mode."""
    libm = ctypes.CDLL("libm.so.6")
    was, other = ctypes.create_string_buffer(64), ctypes.create_string_buffer(64)
    libm.fegetenv(was)
    other.raw = was.raw
    struct.pack_into("<I", other, PLACE, struct.unpack_from("<I", was, PLACE)[0] | bits)
    libm.fesetenv(other)
    try:
        yield
    finally:
        libm.fesetenv(was)


@unittest.skipUnless(MODES, "no way is known here to set the mode")
class Mode(unittest.TestCase):
    def test_every_mode_is_seen(self):
        self.assertEqual(pasoletu.float_mode(), 0)
        for bits, wanted in MODES.items():
            with mode(bits):
                told = pasoletu.float_mode()
            self.assertEqual((told, pasoletu.float_mode()), (wanted, 0), hex(bits))

    def test_the_calls_on_lists_raise(self):
        law = pasoletu.SnowPlasticity()
        sheet = pasoletu.write_sheet(law, [pasoletu.Particle()])
        given = pasoletu.Particle.stretched([0.9, 1.0, 1.0]).floats() * 2
        records, flat = array.array("d", given), [pasoletu.FlatParticle.stretched([0.9, 1.0])]
        zones = pasoletu.Zones(1, [0, 0])
        calls = {
            "pass": lambda: pasoletu.pass_records(law, records),
            "pass_factored": lambda: pasoletu.pass_records(law, records, factored=True),
            "factor_list": lambda: pasoletu.factor_records(records),
            "fill_determinants": lambda: pasoletu.fill_determinants(records),
            "flat_pass": lambda: pasoletu.flat_pass(law, flat),
            "pass_by_zone": lambda: zones.pass_records(law, records),
            "read_sheet": lambda: pasoletu.run(sheet),
            "part": lambda: pasoletu.Arrival().feed(sheet),
            "report": lambda: pasoletu.report(records),
        }
        for bits in MODES:
            for name, call in calls.items():
                with mode(bits):
                    try:
                        call()
                        words = None
                    except FloatingPointError as error:
                        words = error
                self.assertTrue(str(words).startswith("pasoletu_%s: this thread's floating-point mode is not IEEE 754's default (" % name), (name, words))
        self.assertEqual((list(records), flat[0].singular_values, zones.tallies[0][1:]), (given, [0.9, 1.0], (0, 0, 0, 0)))
        self.assertEqual(pasoletu.pass_records(law, records).stored, 2)


class Lists(unittest.TestCase):
    def test_which_calls_ask(self):
        """Every call of a list of records, and none of a single number."""
        self.assertTrue({"pass", "pass_with_failure", "pass_factored", "pass_by_zone", "flat_pass", "factor_list", "run_sheet", "part", "report"} <= _mode.LISTS <= set(CALLS))
        self.assertFalse({"exp", "update", "why", "move_particle"} & _mode.LISTS)


if __name__ == "__main__":
    unittest.main()
