"""Slices of a slope: flat particles, of two axes, by the four plastic laws (docs/RULES.md, section 7)."""
from __future__ import annotations

import itertools
from typing import Any, Iterable, Optional, Union

from ._arguments import Matrix, Vector, doubles, first_not_finite, number, numbers
from ._library import ask, words
from ._table import ANSWERS, FLAT_FLOATS, FLAT_PHASE, SHEET_FLOATS
from .laws import FlatNaccPlasticity, NaccPlasticity, Plasticity
from .outcome import Passed, Stored, Untouched, worked
from .particle import AT_REST, PLACES
from .refusal import LENGTH, NOT_FINITE, UNKNOWN, Refused

FlatLaw = Union[Plasticity, FlatNaccPlasticity]
MATRICES = ("deformation_gradient", "u", "v_t")
SCALARS = PLACES[SHEET_FLOATS - (FLAT_FLOATS - FLAT_PHASE):SHEET_FLOATS]


def _matrix(name: str) -> list[str]:
    return ["%s[%d][%d]" % (name, row, column) for row in range(2) for column in range(2)]


# The name of each float of a flat record.
FLAT_PLACES = (
    *_matrix("deformation_gradient"),
    *_matrix("u"),
    "singular_values[0]",
    "singular_values[1]",
    *_matrix("v_t"),
    *SCALARS,
)


class FlatParticle:
    """A particle of a flat section, at rest unless told otherwise: 20 floats, with the names of a Particle and no determinant.

    deformation_gradient, u, v_t   two rows of two each, with F = U diag(sigma) V^T: the caller's own decomposition
    singular_values                sigma, two floats
    phase, plastic_deformation_gradient_det, plastic_hardening, elastic_hardening, log_vol_gain, nacc_alpha   as a Particle's"""

    __slots__ = ("deformation_gradient", "u", "singular_values", "v_t") + SCALARS

    deformation_gradient: Any
    u: Any
    singular_values: Any
    v_t: Any
    phase: float
    plastic_deformation_gradient_det: float
    plastic_hardening: float
    elastic_hardening: float
    log_vol_gain: float
    nacc_alpha: float

    def __init__(
        self,
        *,
        deformation_gradient: Matrix = AT_REST,
        u: Matrix = AT_REST,
        singular_values: Vector = AT_REST,
        v_t: Matrix = AT_REST,
        phase: float = 1.0,
        plastic_deformation_gradient_det: float = 1.0,
        plastic_hardening: float = 1.0,
        elastic_hardening: float = 1.0,
        log_vol_gain: float = 0.0,
        nacc_alpha: float = 0.0,
    ) -> None:
        for name, value in zip(MATRICES, (deformation_gradient, u, v_t)):
            setattr(self, name, [[1.0, 0.0], [0.0, 1.0]] if value is AT_REST else value)
        self.singular_values = [1.0, 1.0] if singular_values is AT_REST else singular_values
        self.phase, self.plastic_deformation_gradient_det = phase, plastic_deformation_gradient_det
        self.plastic_hardening, self.elastic_hardening = plastic_hardening, elastic_hardening
        self.log_vol_gain, self.nacc_alpha = log_vol_gain, nacc_alpha

    @classmethod
    def stretched(cls, sigma: Iterable[float]) -> FlatParticle:
        """A whole particle stretched along the axes: F is diag(sigma), U and V^T the identity."""
        a, b = numbers("FlatParticle.stretched", "sigma", sigma, 2)
        return cls(deformation_gradient=[[a, 0.0], [0.0, b]], singular_values=[a, b])

    @classmethod
    def from_floats(cls, floats: Iterable[float]) -> FlatParticle:
        """The particle of 20 floats in the record's order: F, U, sigma, V^T, the six scalars."""
        particle = cls()
        particle._take([number("FlatParticle.from_floats", "floats", x) for x in floats])
        return particle

    def _take(self, held: list[float]) -> None:
        if len(held) != FLAT_FLOATS:
            raise Refused(LENGTH, "FlatParticle.from_floats", place="floats, which has %d entries and not %d" % (len(held), FLAT_FLOATS))
        left = iter(held)
        for name in self.__slots__:
            if name in MATRICES:
                setattr(self, name, [list(itertools.islice(left, 2)) for _ in range(2)])
            elif name == "singular_values":
                setattr(self, name, list(itertools.islice(left, 2)))
            else:
                setattr(self, name, next(left))

    def floats(self) -> list[float]:
        """The 20 floats in the record's order."""
        return [x for name in self.__slots__ for x in self._part(name)]

    def _part(self, name: str) -> list[float]:
        """The floats of a part, each part with its own length."""
        told, value = "FlatParticle.floats", getattr(self, name)
        if name in SCALARS:
            return [value]
        if name == "singular_values":
            return numbers(told, name, value, 2)
        try:
            held = [list(row) for row in value]
        except TypeError:
            raise TypeError("%s: %s is %r and must be two rows of two numbers" % (told, name, value)) from None
        if [len(row) for row in held] != [2, 2]:
            raise Refused(LENGTH, told, place="%s, which is not two rows of two" % name)
        return held[0] + held[1]

    def update(self, model: FlatLaw) -> Union[Untouched, Stored]:
        """The law on this particle in two axes, in place. A refused particle keeps every bit. A NaccPlasticity that was made by an angle,
        whose m is that of three axes, is refused by 6: FlatNaccPlasticity has that of two."""
        told = "FlatParticle.update"
        chosen = _law(told, model)
        room, answer = doubles(told, "particle", self.floats()), words(ANSWERS)
        status = ask("flat_update", chosen, doubles(told, "the law", model.parameters()), room, answer)
        if status:
            raise Refused(status, told, place=_place(model, list(room)) if status == NOT_FINITE else None)
        self._take(list(room))
        return worked(answer[0], answer[1])

    def __eq__(self, other: object) -> bool:
        return isinstance(other, FlatParticle) and self.floats() == other.floats()

    __hash__ = None  # type: ignore[assignment]

    def __repr__(self) -> str:
        return "FlatParticle(%s)" % ", ".join("%s=%r" % (name, getattr(self, name)) for name in self.__slots__)


def _law(told: str, model: Any) -> int:
    """The number of a law that may be asked in two axes."""
    if isinstance(model, FlatNaccPlasticity):
        return model.flat_model
    if not isinstance(model, Plasticity):
        raise TypeError("%s: model is a %s and must be a Plasticity" % (told, type(model).__name__))
    if isinstance(model, NaccPlasticity) and model.angled:
        raise Refused(UNKNOWN, told, place="the law's m, which is that of an angle in three axes")
    return model.model


def _place(model: FlatLaw, floats: list[float]) -> Optional[str]:
    """Where the first float is that is not finite: in the parameters, then in the record."""
    names = itertools.chain(("the law's " + name for name in model.names()), FLAT_PLACES)
    return first_not_finite(itertools.chain(model.parameters(), floats), names)


def flat_pass(model: FlatLaw, particles: Iterable[FlatParticle]) -> Passed:
    """The plastic law on every flat particle, in place. The pass goes on after a refused one, which keeps every bit. The law as
    FlatParticle.update takes it."""
    told, held = "flat_pass", list(particles)
    chosen = _law(told, model)
    for k, particle in enumerate(held):
        if not isinstance(particle, FlatParticle):
            raise TypeError("%s: particles[%d] is a %s and must be a FlatParticle" % (told, k, type(particle).__name__))
    room = doubles(told, "particles", (x for particle in held for x in particle.floats()))
    answers, counts = words(len(held) * ANSWERS), words(3)
    status = ask("flat_pass", chosen, doubles(told, "the law", model.parameters()), room, answers, counts)
    if status:
        raise Refused(status, told)

    def refusal(k: int, number: int) -> Refused:
        place = _place(model, room[FLAT_FLOATS * k:FLAT_FLOATS * (k + 1)]) if number == NOT_FINITE else None
        return Refused(number, told, k, place)

    passed = Passed(answers, list(counts), refusal)
    for k, (particle, outcome) in enumerate(zip(held, passed.outcomes)):
        if not isinstance(outcome, Refused):
            particle._take(room[FLAT_FLOATS * k:FLAT_FLOATS * (k + 1)])
    return passed
