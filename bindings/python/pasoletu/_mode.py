"""The floating-point mode of the thread that calls. The proofs speak of IEEE 754's default: rounding to nearest, no flushing of small numbers
to zero. A library built with -ffast-math may have set another when it was loaded."""
from __future__ import annotations

import struct

from ._table import CALLS, MODE_DENORMALS, MODE_FLUSHED, MODE_ROUNDING

# The calls on lists of particles and on sheets: those ask for the mode.
LISTS = frozenset(name for name, takes in CALLS.items() if any(argument.name == "records" for argument in takes))

# By their bits, since a text is read in the mode of the moment. They stand in lists, so that no sum of them is worked beforehand.
_ONE, _LOW, _HIGH, _LEAST, _HALF, _TINY, _LARGE = struct.unpack(
    "<7d",
    struct.pack(
        "<7Q",
        0x3FF0000000000000,
        0x3C90000000000000,  # 2^-54, a quarter of the last place of 1
        0x3CA8000000000000,  # three quarters of it
        0x0010000000000000,  # the smallest normal number
        0x3FE0000000000000,
        1,  # the smallest number
        0x4330000000000000,  # 2^52
    ),
)
_NOTHING = bytes(8)
_WORDS = (
    (MODE_ROUNDING, "results are not rounded to nearest"),
    (MODE_FLUSHED, "results below the smallest normal number become 0"),
    (MODE_DENORMALS, "inputs below it are read as 0"),
)


def float_mode() -> int:
    """What of this thread's floating-point mode is not IEEE 754's default: 0, or a sum of 1 (results are not rounded to nearest), 2 (a result
    below the smallest normal number becomes 0) and 4 (an input below it is read as 0). Every call on a list asks for it first, and raises
    FloatingPointError where it is not 0."""
    wrong = 0
    if _ONE + _LOW != _ONE or _ONE + _HIGH == _ONE:
        wrong |= MODE_ROUNDING
    if struct.pack("<d", _LEAST * _HALF) == _NOTHING:
        wrong |= MODE_FLUSHED
    if struct.pack("<d", _TINY * _LARGE) == _NOTHING:
        wrong |= MODE_DENORMALS
    return wrong


def held(call: str) -> None:
    """FloatingPointError where the mode is not the default: what is proved of this call would not hold."""
    wrong = float_mode()
    if wrong:
        told = ", ".join(words for number, words in _WORDS if wrong & number)
        raise FloatingPointError(
            "pasoletu_%s: this thread's floating-point mode is not IEEE 754's default (%s): set it back before the call, and leave out what "
            "set it (a library built with -ffast-math)" % (call, told)
        )
