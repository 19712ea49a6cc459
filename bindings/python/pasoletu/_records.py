"""The caller's records, lent to a pass where they stand. What is not a record a row is an error, never read otherwise."""
from __future__ import annotations

import ctypes
import sys
from typing import TYPE_CHECKING, Any, Union

from ._table import FLOATS, SHEET_FLOATS
from .refusal import LENGTH, Refused

if TYPE_CHECKING:
    import array

    import numpy

Records = Union["numpy.ndarray[Any, Any]", "array.array[float]", memoryview, "ctypes.Array[ctypes.c_double]"]
FORMATS = ("d", "@d", "=d", "<d" if sys.byteorder == "little" else ">d")
PLAIN = ("f", "i", "u", "b", "c", "O")  # numpy's kinds of single values
BYTES = ctypes.sizeof(ctypes.c_double)
ADVICE = ": pass numpy.ascontiguousarray(%s), and take the result from that copy"


def lent(told: str, records: Any) -> ctypes.Array[ctypes.c_double]:
    """The records' own room. TypeError for what holds no writable doubles, ValueError for doubles in any other shape or order,
    refused by 8 for a list of one dimension that has no whole records."""
    view = _doubles(told, records)
    if view.readonly:
        raise TypeError("%s: records can only be read, and the pass works in place: pass a copy of it" % told)
    _rows(told, view)
    if not view.c_contiguous:
        raise ValueError(
            "%s: records does not stand row after row in memory (it is a slice, or in Fortran's order)%s"
            % (told, ADVICE % "records")
        )
    room = (ctypes.c_double * (view.nbytes // BYTES)).from_buffer(records)
    if len(room) and ctypes.addressof(room) % BYTES:
        raise ValueError("%s: records does not begin at a multiple of %d bytes: pass a copy of it" % (told, BYTES))
    return room


def copied(told: str, records: Any) -> ctypes.Array[ctypes.c_double]:
    """A copy of the records in the same shapes, row after row, whatever their order in memory; they may be read-only."""
    view = _doubles(told, records)
    _rows(told, view)
    return (ctypes.c_double * (view.nbytes // BYTES)).from_buffer_copy(view.tobytes())


def widened(told: str, records: Any) -> ctypes.Array[ctypes.c_double]:
    """A copy of records of 36 floats, each with room for its determinant; they may be read-only."""
    view = _doubles(told, records)
    _rows(told, view, SHEET_FLOATS)
    given = view.tobytes()
    row = SHEET_FLOATS * BYTES
    parts = (given[at:at + row] + bytes(BYTES) for at in range(0, len(given), row))
    return (ctypes.c_double * (len(given) // row * FLOATS)).from_buffer_copy(b"".join(parts))


def _doubles(told: str, records: Any) -> memoryview:
    if any(kind.__name__ == "MaskedArray" for kind in type(records).__mro__):
        raise TypeError(
            "%s: records is a masked array, and the masked rows would be worked as well: pass records.data to work them, or "
            "records.compressed() where whole rows are masked"
            % told
        )
    try:
        view = memoryview(records)
    except (TypeError, ValueError, BufferError):
        raise TypeError(
            "%s: records is a %s, not a buffer of doubles: pass an array('d') or a numpy array of float64"
            % (told, type(records).__name__)
        ) from None
    if view.format not in FORMATS:
        dtype = getattr(records, "dtype", None)
        remedy = "an array('d') or a numpy array of float64, a record a row"
        if getattr(dtype, "kind", "") in PLAIN:
            remedy = "records.astype(numpy.float64), or an array('d')"
        raise TypeError("%s: records holds %s, not doubles: pass %s" % (told, dtype or "format %r" % view.format, remedy))
    return view


def _rows(told: str, view: memoryview, floats: int = FLOATS) -> None:
    """A record a row, or all records in one dimension."""
    shape = view.shape or ()
    if len(shape) == 1:
        if shape[0] % floats:
            raise Refused(LENGTH, told, place="records, which has %d floats" % shape[0])
    elif len(shape) != 2 or shape[1] != floats:
        turned = ADVICE % "records.T" if len(shape) == 2 and shape[0] == floats else ""
        if len(shape) == 2 and shape[1] == SHEET_FLOATS:
            turned = ": pass pasoletu.completed(records), which adds the determinants"
        raise ValueError("%s: records has the shape %r and needs a record a row, (n, %d)%s" % (told, shape, floats, turned))
