"""Opens the shared library at the first call and asks it. The calls are those of include/pasoletu.h."""
from __future__ import annotations

import ctypes
import functools
from typing import Any, Callable, Iterator, NamedTuple

from ._arguments import whole
from ._find import NoLibrary, opened
from ._mode import LISTS, held
from ._table import ARGTYPES, CALLS, KINDS


BITS = {"u32": 32, "u64": 64}


class Library(NamedTuple):
    """An opened library: its file, and its calls by name."""

    file: str
    functions: dict[str, Callable[..., int]]


@functools.lru_cache(maxsize=None)
def library() -> Library:
    """The library, opened once. Raises NoLibrary where there is none."""
    file, shared = opened()
    return Library(file, {name: _declared(file, shared, name) for name in ARGTYPES})


def _declared(file: str, shared: ctypes.CDLL, name: str) -> Callable[..., int]:
    try:
        function = getattr(shared, "pasoletu_" + name)
    except AttributeError:
        raise NoLibrary(
            "pasoletu: %s lacks the call pasoletu_%s, so it is of another version than this package: run install.sh anew"
            % (file, name)
        ) from None
    function.argtypes, function.restype = ARGTYPES[name], ctypes.c_uint8
    return function  # type: ignore[no-any-return]


def ask(name: str, *arguments: Any) -> int:
    """Calls pasoletu_NAME with numbers and ctypes arrays: 0, or the refusal's number. A call on a list asks for the floating-point mode
    first. OverflowError for a whole number that has not the argument's bits."""
    function = library().functions[name]
    if name in LISTS:
        held(name)
    return function(*_spread(name, arguments))


def _spread(name: str, arguments: tuple[Any, ...]) -> Iterator[Any]:
    """A list is two arguments: where it is, and how many entries it has."""
    for takes, argument in zip(CALLS[name], arguments):
        if isinstance(argument, ctypes.Array):
            yield ctypes.addressof(argument)
            yield len(argument)
        elif takes.kind in BITS:
            yield whole("pasoletu_" + name, takes.name, argument, BITS[takes.kind])
        else:
            yield argument


def array_type(kind: str, count: int) -> Any:
    """The ctypes array of so many entries of one of the table's kinds."""
    entry: Any = KINDS[kind]
    return entry * count


def words(count: int) -> ctypes.Array[ctypes.c_uint64]:
    """Room for whole numbers."""
    return (ctypes.c_uint64 * count)()
