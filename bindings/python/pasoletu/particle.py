"""A particle: the 37 floats of a record (docs/RULES.md, section 7)."""
from __future__ import annotations

from typing import Any, Iterable, Optional

from ._arguments import Matrix, Rows, Vector, doubles, entries, first_not_finite, number, numbers, rows
from ._library import ask
from ._table import FLOATS, RECORD, SHEET_FLOATS
from .refusal import LENGTH, NOT_FINITE, Refused

MATRIX, VECTOR = (3, 3), (3,)


def _names(field: str, shape: tuple[int, ...]) -> list[str]:
    if shape == MATRIX:
        return ["%s[%d][%d]" % (field, row, column) for row in range(3) for column in range(3)]
    return ["%s[%d]" % (field, k) for k in range(3)] if shape == VECTOR else [field]


# The name of each float of a record.
PLACES = tuple(name for part in RECORD for name in _names(part.field, part.shape))


AT_REST: Any = object()  # what is not given


def _given(value: Any, at_rest: Any) -> Any:
    return at_rest if value is AT_REST else value


def identity() -> Rows:
    """The identity, of rows of its own."""
    return [[1.0, 0.0, 0.0], [0.0, 1.0, 0.0], [0.0, 0.0, 1.0]]


class Particle:
    """A particle, at rest unless told otherwise.

    deformation_gradient, u, v_t   three rows of three each, with F = U diag(sigma) V^T: the caller's own decomposition,
                                   or that of factor()
    singular_values                sigma, three floats
    phase                          1.0 whole, 0.0 failed
    plastic_deformation_gradient_det, plastic_hardening, elastic_hardening, log_vol_gain, nacc_alpha
    determinant                    of F, in every bit; another is refused by 11. Of an F that is set it is worked by the library when it
                                   is asked for. After a change of F's entries one by one, fill_determinant() makes it right
    """

    __slots__ = tuple(part.field for part in RECORD if part.field != "determinant") + ("_determinant",)

    deformation_gradient: Rows
    u: Rows
    singular_values: list[float]
    v_t: Rows
    phase: float
    plastic_deformation_gradient_det: float
    plastic_hardening: float
    elastic_hardening: float
    log_vol_gain: float
    nacc_alpha: float
    _determinant: Optional[float]

    def __init__(
        self,
        *,
        deformation_gradient: Matrix = AT_REST,
        u: Matrix = AT_REST,
        singular_values: Vector = AT_REST,
        v_t: Matrix = AT_REST,
        phase: float = 1.0,
        plastic_deformation_gradient_det: float = 1.0,
        plastic_hardening: float = 1.0,
        elastic_hardening: float = 1.0,
        log_vol_gain: float = 0.0,
        nacc_alpha: float = 0.0,
        determinant: float = AT_REST,
    ) -> None:
        self.deformation_gradient = _given(deformation_gradient, identity())
        self.u, self.v_t = _given(u, identity()), _given(v_t, identity())
        self.singular_values = _given(singular_values, [1.0, 1.0, 1.0])
        self.phase, self.plastic_deformation_gradient_det = phase, plastic_deformation_gradient_det
        self.plastic_hardening, self.elastic_hardening = plastic_hardening, elastic_hardening
        self.log_vol_gain, self.nacc_alpha = log_vol_gain, nacc_alpha
        # the determinant last: F, where it is set, takes back the one that stood there
        self._determinant = _given(determinant, 1.0 if deformation_gradient is AT_REST else None)

    def __setattr__(self, name: str, value: Any) -> None:
        object.__setattr__(self, name, value)
        if name == "deformation_gradient":
            object.__setattr__(self, "_determinant", None)

    @property
    def determinant(self) -> float:
        """That of F, in every bit; worked by the library where F was set."""
        if self._determinant is None:
            self.fill_determinant()
        return self._determinant  # type: ignore[return-value]

    @determinant.setter
    def determinant(self, value: float) -> None:
        self._determinant = value

    def fill_determinant(self) -> None:
        """Makes the determinant that of the F that stands here."""
        told = "Particle.fill_determinant"
        f = entries(told, "deformation_gradient", self.deformation_gradient)
        room = doubles(told, "deformation_gradient", f + [0.0] * (FLOATS - len(f)))
        status = ask("fill_determinants", room)
        if status:
            raise Refused(status, told)
        self._determinant = room[FLOATS - 1]

    def factor(self) -> None:
        """Works u, singular_values and v_t out of F, whatever stood there, and checks them exactly: with m the largest size of an entry of
        F, U diag(sigma) V^T lies within m / 2^40 of F in every entry, U and V times their transposes within 2^-40 of the identity, and no
        singular value is below 0; they are in no order. Nothing else is written.

        Refused, with nothing written, by 1 for one of the 37 floats that is not finite, also of those about to be written, then by 11 for
        a wrong determinant, then by 14 where the factors miss the check."""
        told = "Particle.factor"
        room = doubles(told, "particle", self.floats())
        status = ask("factor", room)
        if status:
            place = first_not_finite(room, PLACES) if status == NOT_FINITE else None
            raise Refused(status, told, place=place)
        self._take(room)

    @classmethod
    def stretched(cls, sigma: Vector) -> Particle:
        """A whole particle stretched along the axes: F is diag(sigma), U and V^T the identity."""
        a, b, c = numbers("Particle.stretched", "sigma", sigma, 3)
        return cls(deformation_gradient=[[a, 0.0, 0.0], [0.0, b, 0.0], [0.0, 0.0, c]], singular_values=[a, b, c])

    @classmethod
    def from_floats(cls, floats: Iterable[float]) -> Particle:
        """The particle of 37 floats in the record's order: F, U, sigma, V^T, the six scalars, the determinant. Of 36 the determinant is
        filled in."""
        particle = cls()
        particle._take(floats)
        return particle

    def _take(self, floats: Iterable[float]) -> None:
        held = [number("Particle.from_floats", "floats", x) for x in floats]
        if len(held) not in (SHEET_FLOATS, FLOATS):
            raise Refused(LENGTH, "Particle.from_floats", place="floats, which has %d entries and not %d" % (len(held), FLOATS))
        for field, at, shape in RECORD:
            if at == len(held):
                return
            if shape == MATRIX:
                setattr(self, field, rows(held[at:at + 9]))
            else:
                setattr(self, field, held[at:at + 3] if shape == VECTOR else held[at])

    def floats(self) -> list[float]:
        """The 37 floats in the record's order."""
        return [x for field, _, shape in RECORD for x in self._part(field, shape)]

    def _part(self, field: str, shape: tuple[int, ...]) -> list[float]:
        value = getattr(self, field)
        if shape == MATRIX:
            return entries("Particle.floats", field, value)
        if shape == VECTOR:
            if len(value) != 3:
                raise Refused(LENGTH, "Particle.floats", place="%s, which has %d entries and not 3" % (field, len(value)))
            return list(value)
        return [value]

    def __eq__(self, other: object) -> bool:
        return isinstance(other, Particle) and self.floats() == other.floats()

    __hash__ = None  # type: ignore[assignment]

    def __repr__(self) -> str:
        shown = {name: getattr(self, name) for name in self.__slots__[:-1]}
        if self._determinant is not None:
            shown["determinant"] = self._determinant
        return "Particle(%s)" % ", ".join("%s=%r" % item for item in shown.items())
