"""Arrays over the calls' own rooms, without a copy: numpy's where numpy is installed, else memoryviews."""
from __future__ import annotations

import array
import ctypes
import functools
from typing import TYPE_CHECKING, Any, Optional, Union

if TYPE_CHECKING:
    import numpy

Array = Union["numpy.ndarray[Any, Any]", memoryview, "array.array[Any]"]


@functools.lru_cache(maxsize=None)
def numpy_if_installed() -> Optional[Any]:
    try:
        import numpy
    except ImportError:
        return None
    return numpy


def flat(room: Any, typecode: str) -> memoryview:
    """A contiguous buffer of eight-byte entries, read as the type told, in one dimension."""
    view = memoryview(room)
    # No shape with a zero can be cast.
    return view.cast("B").cast(typecode) if view.nbytes else memoryview(array.array(typecode))


def table(room: ctypes.Array[Any], width: int, typecode: str) -> Array:
    """A room as rows of `width` entries. (A memoryview of no row has one dimension.)"""
    numpy = numpy_if_installed()
    if numpy:
        return numpy.asarray(flat(room, typecode)).reshape(-1, width)  # type: ignore[no-any-return]
    view = flat(room, typecode)
    return view.cast("B").cast(typecode, [len(view) // width, width]) if len(view) else view


def column(room: ctypes.Array[Any], width: int, k: int, typecode: str) -> Array:
    """Column k of the table."""
    view = flat(room, typecode)[k::width]
    numpy = numpy_if_installed()
    return numpy.asarray(view) if numpy else view


def chosen(chooses: Array, code: int, values: Array, otherwise: float, typecode: str) -> Array:
    """A new array: the values where `chooses` has the code, elsewhere another."""
    numpy = numpy_if_installed()
    if numpy:
        return numpy.where(chooses == code, values, otherwise)  # type: ignore[no-any-return]
    return array.array(typecode, (value if chosen == code else otherwise for chosen, value in zip(chooses, values)))
