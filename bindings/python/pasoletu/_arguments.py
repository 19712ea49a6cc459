"""Python's numbers, lists and matrices as the calls take them. What does not fit is told with the call's and the argument's name."""
from __future__ import annotations

import ctypes
import dataclasses
import math
import operator
from typing import TYPE_CHECKING, Any, Iterable, List, Optional, Sequence, Union

from .refusal import LENGTH, Refused

if TYPE_CHECKING:
    import numpy

Rows = List[List[float]]
Vector = Union[Sequence[float], "numpy.ndarray[Any, Any]"]
Matrix = Union[Sequence[Vector], "numpy.ndarray[Any, Any]"]


class Law:
    """A law whose fields are numbers that the calls take as one list."""

    @classmethod
    def names(cls) -> tuple[str, ...]:
        """The fields' names, in the order of the list."""
        return tuple(field.name for field in dataclasses.fields(cls))

    def parameters(self) -> list[float]:
        """The fields as floats; a flag is 0.0 or 1.0."""
        return [number(type(self).__name__, name, getattr(self, name)) for name in self.names()]


def number(told: str, name: str, value: Any) -> float:
    """The float of a number of any kind."""
    try:
        return ctypes.c_double(value).value
    except TypeError:
        raise TypeError("%s: %s is %r and must be a number" % (told, name, value)) from None
    except OverflowError:
        raise OverflowError("%s: %s is larger than every double" % (told, name)) from None


def whole(told: str, name: str, value: Any, bits: int = 64, signed: bool = False) -> int:
    """A whole number that fits into so many bits, which ctypes would cut to them. OverflowError for any other."""
    try:
        held = operator.index(value)
    except TypeError:
        raise TypeError("%s: %s is %r and must be a whole number" % (told, name, value)) from None
    least, most = (-(1 << bits - 1), (1 << bits - 1) - 1) if signed else (0, (1 << bits) - 1)
    if not least <= held <= most:
        raise OverflowError("%s: %s is %d and must lie between %d and %d" % (told, name, held, least, most))
    return held


def numbers(told: str, name: str, values: Any, count: int) -> list[float]:
    """So many numbers; refused by 8 where there are more or fewer."""
    try:
        held = list(values)
    except TypeError:
        raise TypeError("%s: %s is %r and must be %d numbers" % (told, name, values, count)) from None
    if len(held) != count:
        raise Refused(LENGTH, told, place="%s, which has %d entries and not %d" % (name, len(held), count))
    return [number(told, "%s[%d]" % (name, k), x) for k, x in enumerate(held)]


def doubles(told: str, name: str, values: Iterable[Any]) -> ctypes.Array[ctypes.c_double]:
    """A list of numbers."""
    try:
        held = list(values)
        return (ctypes.c_double * len(held))(*held)
    except TypeError:
        raise TypeError("%s: %s is %r and must be a list of numbers" % (told, name, values)) from None
    except OverflowError:
        raise OverflowError("%s: %s has a number that is larger than every double" % (told, name)) from None


def entries(told: str, name: str, matrix: Any) -> list[float]:
    """The entries of a matrix of three rows, row by row."""
    try:
        held = [list(row) for row in matrix]
    except TypeError:
        raise TypeError("%s: %s is %r and must be three rows of three numbers" % (told, name, matrix)) from None
    if [len(row) for row in held] != [3, 3, 3]:
        raise Refused(LENGTH, told, place="%s, which is not three rows of three" % name)
    return [x for row in held for x in row]


def rows(nine: Sequence[float]) -> Rows:
    """Nine entries as three rows."""
    return [list(nine[0:3]), list(nine[3:6]), list(nine[6:9])]


def first_not_finite(floats: Iterable[float], names: Iterable[str]) -> Optional[str]:
    """The name of the first float that is NaN or infinite, or None."""
    return next((name for x, name in zip(floats, names) if not math.isfinite(x)), None)
