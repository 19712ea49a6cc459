"""Refusals (docs/RULES.md, section 6)."""
from __future__ import annotations

from typing import Optional

from ._table import (
    ABOVE_RANGE,
    AFTER_END,
    BAD_ZONE,
    BELOW_RANGE,
    ENDS_EARLY,
    LENGTH,
    NO_NUMBER,
    NOT_ACCEPTED,
    NOT_FINITE,
    NOT_SHORTEST,
    REFUSALS,
    TALLY_FULL,
    TOO_LONG,
    TOO_MANY,
    UNKNOWN,
    WRONG_DETERMINANT,
)

__all__ = [
    "ABOVE_RANGE",
    "AFTER_END",
    "BAD_ZONE",
    "BELOW_RANGE",
    "ENDS_EARLY",
    "LENGTH",
    "NOT_ACCEPTED",
    "NOT_FINITE",
    "NOT_SHORTEST",
    "NO_NUMBER",
    "REFUSALS",
    "Refused",
    "TALLY_FULL",
    "TOO_LONG",
    "TOO_MANY",
    "UNKNOWN",
    "WRONG_DETERMINANT",
]


class Refused(Exception):
    """A call or a particle was refused: whatever was refused holds every bit it held.

    number    1 to 8, 10 to 14 or 16; REFUSALS has its name and its words
    call      the call that refused
    particle  which particle of a list, or None
    place     of refusal 1, the first float that is not finite; of refusal 8, the list; or None
    """

    def __init__(self, number: int, call: str, particle: Optional[int] = None, place: Optional[str] = None) -> None:
        super().__init__(number, call, particle, place)
        self.number, self.call, self.particle, self.place = number, call, particle, place

    @property
    def what(self) -> str:
        """What the number means."""
        return REFUSALS[self.number].what

    @property
    def remedy(self) -> str:
        """What to do about it."""
        return REFUSALS[self.number].remedy

    def __str__(self) -> str:
        particle = "" if self.particle is None else " particle %d" % self.particle
        place = "" if self.place is None else ", first %s" % self.place
        return "%s refused%s by %d: %s%s; %s" % (self.call, particle, self.number, self.what, place, self.remedy)
