"""Tallies by zone (docs/RULES.md, section 7): how many particles of each zone there are, and what became of them so far."""
from __future__ import annotations

from typing import Iterable, NamedTuple, Optional

from ._arguments import whole
from ._library import ask, words
from ._records import Records, lent
from ._table import ANSWERS, FLOATS
from .laws import CorotatedLinearElasticity, MaximumStressFailure, Plasticity
from .lists import Pass, _list, judge
from .outcome import Passed
from .refusal import Refused

FIELDS = 5


class Tally(NamedTuple):
    """One zone: particles now; and since the tallies were cleared how many outcomes in it were untouched, stored, refused, and how
    many of those not refused have failed."""

    particles: int
    untouched: int
    stored: int
    refused: int
    failed: int


class Zones:
    """The zone of each particle of a list, and a tally a zone.

        zones = pasoletu.Zones(8, [7, 7, 0])
        zones.pass_records(law, records, limits, elasticity)
        print(zones.tallies[7].failed)

    number: how many zones there are, at most 256; zones: a zone number for each particle. A refused call changes nothing."""

    def __init__(self, number: int, zones: Iterable[int]) -> None:
        held = list(zones)
        self._zones = words(len(held))
        for particle, zone in enumerate(held):
            self._zones[particle] = whole("Zones", "zones[%d]" % particle, zone)
        self._tallies = words(whole("Zones", "number", number, 32) * FIELDS)
        self.clear()

    @property
    def zones(self) -> list[int]:
        """The zone of each particle."""
        return list(self._zones)

    @property
    def tallies(self) -> list[Tally]:
        """The tally of each zone."""
        held = list(self._tallies)
        return [Tally(*held[k:k + FIELDS]) for k in range(0, len(held), FIELDS)]

    def clear(self) -> None:
        """Clears the four numbers so far, and counts the particles now."""
        self._done("clear", ask("clear_tallies", len(self._zones), self._zones, self._tallies))

    def move(self, particle: int, zone: int) -> None:
        """Moves one particle, counted from 0, to another zone. What happened to it before stays where it happened."""
        place = whole("Zones.move", "particle", particle), whole("Zones.move", "zone", zone)
        self._done("move", ask("move_particle", len(self._zones), *place, self._zones, self._tallies))

    def pass_records(
        self,
        model: Plasticity,
        records: Records,
        limits: Optional[MaximumStressFailure] = None,
        elasticity: Optional[CorotatedLinearElasticity] = None,
    ) -> Passed:
        """Either pass over records in one buffer, as pasoletu.pass_records, with each outcome added to its zone's tally."""
        by = judge("Zones.pass_records", limits, elasticity)
        room = lent("Zones.pass_records", records)
        answers = words(len(room) // FLOATS * ANSWERS)
        laws = [_list(law) for law in (model, *(by or ()))]
        call = "pass_with_failure_by_zone" if by else "pass_by_zone"
        before = self._so_far()
        self._done("pass_records", ask(call, model.model, *laws, self._zones, room, answers, self._tallies))
        counts = [after - was for after, was in zip(self._so_far(), before)]
        return Passed(answers, counts, Pass("Zones.pass_records", model, records, by).refusal)

    def _so_far(self) -> list[int]:
        """The four numbers so far of all zones together."""
        return [sum(self._tallies[k::FIELDS]) for k in range(1, FIELDS)]

    def _done(self, told: str, status: int) -> None:
        if status:
            raise Refused(status, "Zones." + told)
