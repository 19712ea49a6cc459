"""Why a law moves a particle, leaves it or refuses it (docs/RULES.md, section 7; docs/STEPS.md has the numbers of tests, steps and branches)."""
from __future__ import annotations

from dataclasses import dataclass
from typing import Optional, Union

BOUNDS = ("neither", "lower", "upper")


@dataclass(frozen=True)
class Tested:
    """The last test that chose among the law's branches, whether it held, the branch (0 is untouched) and the numbers that it compared, as bits
    since they may be infinite: two, of Drucker-Prager's zero test the three deviatoric entries, of its flag none."""

    test: int
    held: bool
    branch: int
    compared: tuple[int, ...]


@dataclass(frozen=True)
class Clamped:
    """Snow: for each singular value the bound whose step last changed it: "neither", "lower" or "upper"."""

    bounds: tuple[str, str, str]


@dataclass(frozen=True)
class Stopped:
    """A refusal: its number, the step that gave it and, for 1, whose place it is, "parameter" or "record", and the place from 0."""

    number: int
    step: int
    of: Optional[str] = None
    place: Optional[int] = None


Reason = Union[Tested, Clamped, Stopped]


def told(entries: list[int]) -> Reason:
    """The reason that these entries spell."""
    kind, number, step, of, place, test, held, branch, *numbers = entries
    if kind == 4:
        return Stopped(number, step, ("parameter", "record")[of - 1], place) if of else Stopped(number, step)
    if kind == 3:
        a, b, c = (BOUNDS[n] for n in numbers)
        return Clamped((a, b, c))
    return Tested(test, bool(held), branch, tuple(numbers[:(2, 3, 0)[kind]]))
