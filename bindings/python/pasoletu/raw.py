"""The calls of include/pasoletu.h as they are: numbers and buffers in, the refusal's number out. For tools that must also call what
the laws' classes cannot say, as an unknown model or a flag of 0.5.

    answer, counts = array("Q", [0, 0]), array("Q", [0, 0, 0])
    status = raw.call("pass", 0, array("d", [0.025, 0.0045, 10.0]), record, answer, counts)
"""
from __future__ import annotations

from typing import Any

from ._find import NoLibrary
from ._library import array_type, ask, library
from ._table import CALLS, Argument

# The formats of buffers that hold a list of each kind, on a machine of 64 bits.
FORMATS = {"f64": ("d",), "u8": ("B",), "u64": ("Q", "L")}
__all__ = ["NoLibrary", "call", "file"]


def file() -> str:
    """The file of the library that is called. Raises NoLibrary where there is none."""
    return library().file


def call(name: str, *arguments: Any) -> int:
    """Calls pasoletu_NAME: 0, or the refusal's number. A list is a buffer of its own entries, with no length beside it: doubles in
    array('d'), whole numbers in array('Q'), a sheet's bytes; or numpy's arrays. Written lists are written where they stand."""
    if name not in CALLS:
        raise ValueError("raw.call: there is no call %r" % name)
    takes = CALLS[name]
    if len(arguments) != len(takes):
        told = ", ".join(argument.name for argument in takes)
        raise TypeError("raw.call: %s takes %d arguments (%s), not %d" % (name, len(takes), told, len(arguments)))
    return ask(name, *(_lent(name, argument, given) for argument, given in zip(takes, arguments)))


def _lent(name: str, argument: Argument, given: Any) -> Any:
    if argument.length is None:
        return given
    view = memoryview(given)
    if view.format.lstrip("@=<") not in FORMATS[argument.kind] or not view.c_contiguous:
        raise TypeError("raw.call: %s of %s must be a contiguous buffer of %s" % (argument.name, name, argument.kind))
    if argument.written and view.readonly:
        raise TypeError("raw.call: %s of %s is written and can only be read" % (argument.name, name))
    room = array_type(argument.kind, view.nbytes // view.itemsize)
    return room.from_buffer_copy(view) if view.readonly else room.from_buffer(given)
