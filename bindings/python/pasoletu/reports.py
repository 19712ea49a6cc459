"""The report over particles, and two reports put together (docs/RULES.md, section 7)."""
from __future__ import annotations

import ctypes
from dataclasses import dataclass
from fractions import Fraction
from typing import Any, Iterable, Union

from ._arguments import whole
from ._library import ask, words
from ._records import Records, copied
from ._table import REPORT, REPORT_COLUMN
from .lists import _room
from .particle import Particle
from .refusal import Refused

SIGNED = ("least", "greatest", "total")
UNIT = Fraction(1, 2**30)  # what least, greatest and total are whole numbers of


@dataclass(frozen=True)
class Column:
    """A column of a report. Each counted value is taken down, towards minus infinity, to the next whole multiple of 2^-30; least,
    greatest and total are of those whole numbers, so that no digit of them depends on the machine. Of no value they are 0.

    outside      how many values lie not within 2^20 of zero: they are counted only here
    not_finite   how many are NaN or infinite: they are counted only here
    """

    count: int = 0
    least: int = 0
    greatest: int = 0
    total: int = 0
    outside: int = 0
    not_finite: int = 0


@dataclass(frozen=True)
class Report:
    """What `report` tells of particles; Report() is that of none."""

    plastic_hardening: Column = Column()
    elastic_hardening: Column = Column()
    plastic_determinant: Column = Column()

    def joined(self, other: Report) -> Report:
        """Both together: what `report` tells of the particles of both. Refused by 16 where these are over 4096."""
        return _asked("Report.joined", "join_reports", _words(self), _words(other))


def report(particles: Union[Iterable[Particle], Records]) -> Report:
    """The report over particles, or over their records as pass_records takes them. No value is refused. Refused by 16 for over 4096
    particles, by 8 for records of one dimension that are not whole."""
    given: Any = particles
    try:
        memoryview(given)
    except TypeError:
        return _asked("report", "report", _room("report", list(given)))
    return _asked("report", "report", copied("report", given))


def _asked(told: str, call: str, *lists: Any) -> Report:
    room = words(REPORT)
    status = ask(call, *lists, room)
    if status:
        raise Refused(status, told)
    return Report(*(_column(room[k:k + REPORT_COLUMN]) for k in range(0, REPORT, REPORT_COLUMN)))


def _column(entries: list[int]) -> Column:
    count, least, greatest, total, outside, not_finite = entries
    return Column(count, _signed(least), _signed(greatest), _signed(total), outside, not_finite)


def _signed(word: int) -> int:
    """A whole number from its bits in two's complement."""
    return word - (1 << 64) if word >> 63 else word


def _words(given: Report) -> ctypes.Array[ctypes.c_uint64]:
    """Its entries: a whole number as its bits, in two's complement where it may be below 0."""
    entries = []
    for column, held in vars(given).items():
        for entry, value in vars(held).items():
            entries.append(whole("Report.joined", "%s.%s" % (column, entry), value, signed=entry in SIGNED))
    return (ctypes.c_uint64 * REPORT)(*entries)
