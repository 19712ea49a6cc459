"""The calls on single numbers, vectors and matrices. The arguments are given by Python's names for them, in the order of the C call:
a refusal by 1 or by 8 names the argument."""
from __future__ import annotations

import ctypes
from typing import Any, Optional

from ._arguments import Law, Rows, doubles, entries, first_not_finite, number, rows
from ._library import array_type, ask
from ._table import CALLS, Argument
from .particle import PLACES, Particle
from .refusal import LENGTH, NOT_FINITE, Refused

MATRIX = 9


def lists(call: str, told: str, **given: Any) -> list[list[Any]]:
    """The lists that pasoletu_CALL writes, which come last. A refusal is told of the call `told`."""
    takes, written = CALLS[call][: len(given)], CALLS[call][len(given) :]
    lent = [_lent(told, name, argument, value) for argument, (name, value) in zip(takes, given.items())]
    rooms = [array_type(out.kind, out.length or 0)() for out in written]
    status = ask(call, *lent, *rooms)
    if status:
        raise Refused(status, told, place=_place(status, list(takes), given, lent))
    return [list(room) for room in rooms]


def floats(call: str, told: str, **given: Any) -> list[float]:
    """What a call writes that writes one list."""
    return lists(call, told, **given)[0]


def one(call: str, told: str, **given: Any) -> float:
    """What a call writes that writes one number."""
    return floats(call, told, **given)[0]


def matrix(call: str, told: str, **given: Any) -> Rows:
    """What a call writes that writes a matrix."""
    return rows(floats(call, told, **given))


def _lent(told: str, name: str, argument: Argument, value: Any) -> Any:
    if argument.length is None:
        return number(told, name, value) if argument.kind == "f64" else int(value)
    if isinstance(value, Law):
        return doubles(told, name, value.parameters())
    if isinstance(value, Particle):
        return doubles(told, name, value.floats())
    return doubles(told, name, entries(told, name, value) if argument.length == MATRIX else value)


def _place(status: int, takes: list[Argument], given: dict[str, Any], lent: list[Any]) -> Optional[str]:
    """Where the first argument is not finite (1) or of the wrong length (8)."""
    for argument, (name, value), passed in zip(takes, given.items(), lent):
        held = list(passed) if isinstance(passed, ctypes.Array) else [passed]
        if status == NOT_FINITE:
            place = first_not_finite(held, _names(argument, name, value))
            if place:
                return place
        if status == LENGTH and argument.length is not None and argument.length != len(held):
            return "%s, which has %d entries and not %d" % (name, len(held), argument.length)
    return None


def _names(argument: Argument, name: str, value: Any) -> list[str]:
    """The names of an argument's entries."""
    if argument.length is None:
        return [name]
    if isinstance(value, Law):
        return [("the law's " if name == "law" else name + ".") + field for field in value.names()]
    if isinstance(value, Particle):
        return list(PLACES)
    if argument.length == MATRIX:
        return ["%s[%d][%d]" % (name, k // 3, k % 3) for k in range(MATRIX)]
    return ["%s[%d]" % (name, k) for k in range(argument.length)]
