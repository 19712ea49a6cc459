"""The laws, with the Rust's names. (`lambda` is a word of Python's own: the first Lamé parameter is `lam` here.)"""
from __future__ import annotations

import itertools
import numbers
from dataclasses import dataclass
from typing import Any, Callable, ClassVar, Iterable, NamedTuple, Optional, TypeVar, Union

from . import utils
from ._arguments import Law, Matrix, Rows, Vector, doubles, first_not_finite, number, rows
from ._calls import floats, lists, matrix, one
from ._library import ask, words
from ._table import (
    ANSWERS,
    COROTATED_CFL_COEFF,
    DRUCKER_PRAGER,
    MODELS,
    MONAGHAN_MAX_NEG_PRESSURE,
    NACC,
    NEO_HOOKEAN_CFL_COEFF,
    RANKINE,
    REASON,
    SNOW,
)
from .outcome import Stored, Untouched, worked
from .particle import PLACES, Particle
from .reasons import Reason
from .reasons import told as told_by
from .refusal import NOT_FINITE, Refused

# What the package exports of this file.
__all__ = [
    "CorotatedLinearElasticity",
    "DruckerPragerPlasticity",
    "FlatNaccPlasticity",
    "MaximumStressFailure",
    "MonaghanSphEos",
    "NaccPlasticity",
    "NeoHookeanElasticity",
    "Plasticity",
    "RankinePlasticity",
    "SnowPlasticity",
    "StressVerdict",
]

_Answer = TypeVar("_Answer")
_SNOW = MODELS[SNOW].defaults
_DRUCKER_PRAGER = MODELS[DRUCKER_PRAGER].defaults


def _given(told: str, **arguments: float) -> None:
    """Refused by 1 unless all are finite."""
    values = [number(told, name, value) for name, value in arguments.items()]
    place = first_not_finite(values, arguments)
    if place:
        raise Refused(NOT_FINITE, told, place=place)


def _moduli(told: str, call: Callable[..., _Answer], *arguments: Any) -> _Answer:
    """What a call answers, its refusal told of another."""
    try:
        return call(*arguments)
    except Refused as refused:
        raise Refused(refused.number, told, place=refused.place) from None


def _particle(told: str, given: Any) -> Particle:
    if not isinstance(given, Particle):
        raise TypeError("%s: particle is a %s and must be a Particle" % (told, type(given).__name__))
    return given


def _matrix_of(call: str, name: str, law: Law, particle: Particle) -> Rows:
    """A solid law's stress of a particle."""
    told = "%s.%s" % (type(law).__name__, name)
    return matrix(call, told, law=law, particle=_particle(told, particle))


def _judged(call: str, law: Law, limits: MaximumStressFailure, particle: Particle) -> StressVerdict:
    """A solid law's stress of a particle, with its verdict."""
    told = "%s.stress_and_verdict" % type(law).__name__
    if not isinstance(limits, MaximumStressFailure):
        raise TypeError("%s: limits is a %s and must be a MaximumStressFailure" % (told, type(limits).__name__))
    stress, verdict = lists(call, told, law=law, limits=limits, particle=_particle(told, particle))
    return StressVerdict(rows(stress), verdict[0] != 0)


def _one_of(call: str, name: str, law: Law, particle: Particle) -> float:
    """A solid law's energy of a particle."""
    told = "%s.%s" % (type(law).__name__, name)
    return one(call, told, law=law, particle=_particle(told, particle))


class Plasticity(Law):
    """One of the four plastic laws. `model` is its number."""

    model: ClassVar[int]

    def first_not_finite(self, floats: Iterable[float]) -> Optional[str]:
        """Where the first float is that is not finite: in the parameters, then in a record's floats."""
        names = itertools.chain(("the law's " + name for name in self.names()), PLACES)
        return first_not_finite(itertools.chain(self.parameters(), floats), names)

    def update_particle(self, particle: Particle) -> Union[Untouched, Stored]:
        """The law on one particle, in place. A refused particle keeps every bit."""
        told = "update_particle"
        given, record = doubles(told, "the law", self.parameters()), doubles(told, "particle", particle.floats())
        answer = words(ANSWERS)
        status = ask("update", self.model, given, record, answer)
        if status:
            raise Refused(status, told, place=self.first_not_finite(list(record)) if status == NOT_FINITE else None)
        particle._take(record)
        return worked(answer[0], answer[1])

    def reason(self, particle: Particle) -> Reason:
        """Why the law moves this particle, leaves it or refuses it."""
        asked = "reason"
        given, record = doubles(asked, "the law", self.parameters()), doubles(asked, "particle", particle.floats())
        entries = words(REASON)
        status = ask("why", self.model, given, record, entries)
        if status:
            raise Refused(status, asked)
        return told_by(list(entries))


@dataclass(frozen=True)
class SnowPlasticity(Plasticity):
    """Each singular value is clamped. Stores F with its determinant, sigma, the plastic determinant and the elastic hardening."""

    min_epsilon: float = _SNOW["min_epsilon"]
    max_epsilon: float = _SNOW["max_epsilon"]
    hardening_coeff: float = _SNOW["hardening_coeff"]

    model = SNOW

    @classmethod
    def new(cls) -> SnowPlasticity:
        """The law with the Rust's defaults."""
        return cls()

    def project_deformation_gradient(self, singular_values: Vector) -> list[float]:
        """The bare clamp, with no refusal of a value: of a NaN it is the lower bound, as in the Rust."""
        told = "SnowPlasticity.project_deformation_gradient"
        return floats("snow_clamp", told, **vars(self), singular_values=singular_values)


@dataclass(frozen=True)
class RankinePlasticity(Plasticity):
    """Log strains are returned to the tensile surface. Stores F, sigma and the plastic hardening."""

    young_modulus: float
    poisson_ratio: float
    tensile_strength: float
    softening_rate: float

    model = RANKINE

    @classmethod
    def new(
        cls, young_modulus: float, poisson_ratio: float, tensile_strength: float, softening_rate: float
    ) -> RankinePlasticity:
        """Refused by 1 for an argument and by 3 for a modulus that is not finite."""
        told, made = "RankinePlasticity.new", cls(young_modulus, poisson_ratio, tensile_strength, softening_rate)
        _given(told, **vars(made))
        _moduli(told, utils.lame_lambda_mu, young_modulus, poisson_ratio)
        return made

    def project(self, strains: Vector, s: float) -> list[float]:
        """The projection of log strains by itself, at the softened strength s; the strains keep their order."""
        return floats("rankine_project", "RankinePlasticity.project", law=self, s=s, strains=strains)


@dataclass(frozen=True)
class DruckerPragerPlasticity(Plasticity):
    """Log strains are returned to a cone. Stores F, sigma, the plastic determinant, the plastic hardening, the log gain."""

    h0: float
    h1: float
    h2: float
    h3: float
    lam: float
    mu: float
    only_active_when_failed: bool = False
    volume_correction: float = _DRUCKER_PRAGER["volume_correction"]

    model = DRUCKER_PRAGER

    @classmethod
    def new(cls, young_modulus: float, poisson_ratio: float) -> DruckerPragerPlasticity:
        """The defaults (35, 9 and 10 degrees, and 0.2) with these moduli. Refused by 1 for an argument and by 3 for a
        modulus that is not finite."""
        lam, mu = _moduli("DruckerPragerPlasticity.new", utils.lame_lambda_mu, young_modulus, poisson_ratio)
        h0, h1, h2, h3 = (_DRUCKER_PRAGER[name] for name in ("h0", "h1", "h2", "h3"))
        return cls(h0, h1, h2, h3, lam, mu)

    def alpha(self, q: float) -> float:
        """The slope of the cone at the plastic hardening q."""
        return one("drucker_prager_alpha", "DruckerPragerPlasticity.alpha", law=self, q=q)


@dataclass(frozen=True)
class NaccPlasticity(Plasticity):
    """Non-associated Cam-Clay. Stores F, sigma and alpha."""

    young_modulus: float
    poisson_ratio: float
    cohesion: float
    hardening_enabled: bool
    hardening_factor: float
    m: float

    model = NACC
    # Whether m is that of an angle, in three axes.
    angled: ClassVar[bool] = False

    @classmethod
    def with_m(
        cls,
        young_modulus: float,
        poisson_ratio: float,
        cohesion: float,
        hardening_enabled: bool,
        hardening_factor: float,
        m: float,
    ) -> NaccPlasticity:
        """Refused by 1 for an argument and by 3 for a modulus that is not finite."""
        told = "NaccPlasticity.with_m"
        made = cls(young_modulus, poisson_ratio, cohesion, hardening_enabled, hardening_factor, m)
        _given(told, **vars(made))
        _moduli(told, utils.shear_modulus, young_modulus, poisson_ratio)
        _moduli(told, utils.bulk_modulus, young_modulus, poisson_ratio)
        return made

    @classmethod
    def new(
        cls,
        young_modulus: float,
        poisson_ratio: float,
        cohesion: float,
        hardening_enabled: bool,
        hardening_factor: float,
        friction_angle: float,
    ) -> NaccPlasticity:
        """The friction from an angle in radians, for particles of three axes: a flat call refuses this law by 6, since in two axes the
        same angle has another m (FlatNaccPlasticity). Also refused by 2 below the sine's range, -8 to 8, and by 10 above it."""
        given = (young_modulus, poisson_ratio, cohesion, hardening_enabled, hardening_factor)
        made = cls(*given, _m_of("NaccPlasticity.new", 3, *given, friction_angle))
        object.__setattr__(made, "angled", True)
        return made


@dataclass(frozen=True)
class FlatNaccPlasticity(Law):
    """Non-associated Cam-Clay made by a friction angle in two axes: FlatParticle.update and flat_pass take it, and no call on particles of
    three axes does. By m the law is one, NaccPlasticity.with_m, for either."""

    young_modulus: float
    poisson_ratio: float
    cohesion: float
    hardening_enabled: bool
    hardening_factor: float
    m: float

    flat_model = NACC

    @classmethod
    def new(
        cls,
        young_modulus: float,
        poisson_ratio: float,
        cohesion: float,
        hardening_enabled: bool,
        hardening_factor: float,
        friction_angle: float,
    ) -> FlatNaccPlasticity:
        """The friction from an angle in radians; refused as NaccPlasticity.new."""
        given = (young_modulus, poisson_ratio, cohesion, hardening_enabled, hardening_factor)
        return cls(*given, _m_of("FlatNaccPlasticity.new", 2, *given, friction_angle))


def _m_of(
    told: str,
    axes: int,
    young_modulus: float,
    poisson_ratio: float,
    cohesion: float,
    hardening_enabled: bool,
    hardening_factor: float,
    friction_angle: float,
) -> float:
    """The friction of an angle in two axes or three, once the other arguments make a law."""
    _given(told, friction_angle=friction_angle)
    given = (young_modulus, poisson_ratio, cohesion, hardening_enabled, hardening_factor)
    _moduli(told, NaccPlasticity.with_m, *given, friction_angle)
    return one("nacc_friction", told, axes=axes, friction_angle=friction_angle)


PLASTICITIES: tuple[type[Plasticity], ...] = (
    SnowPlasticity,
    RankinePlasticity,
    DruckerPragerPlasticity,
    NaccPlasticity,
)


class StressVerdict(NamedTuple):
    """A stress and the verdict on it, which is always of this very stress."""

    stress: Rows
    failed: bool


@dataclass(frozen=True)
class NeoHookeanElasticity(Law):
    """Neo-Hookean stress and energy. Each call is refused by 1 for an input that is not finite, by 2 where F's determinant
    lies below the range of the powers and the logarithm, by 10 where above it, by 3 for a NaN or a result that is not finite. The
    calls that end in _of take a particle with its determinant: they answer what the others answer of its F, phase and hardening, and,
    as `stress_and_verdict`, are refused by 1 for any of its floats, then by 11 for a determinant that isn't F's."""

    cfl_coeff: float
    lam: float
    mu: float

    @classmethod
    def new(cls, young_modulus: float, poisson_ratio: float) -> NeoHookeanElasticity:
        """The law of these moduli. Refused by 1 for an argument and by 3 for a modulus that is not finite."""
        lam, mu = _moduli("NeoHookeanElasticity.new", utils.lame_lambda_mu, young_modulus, poisson_ratio)
        return cls(NEO_HOOKEAN_CFL_COEFF, lam, mu)

    def fpk_stress(self, deformation_gradient: Matrix, hardening: float) -> Rows:
        """The first Piola-Kirchhoff stress; no split and no phase."""
        told = "NeoHookeanElasticity.fpk_stress"
        return matrix(
            "neo_hookean_fpk_stress", told, law=self, hardening=hardening, deformation_gradient=deformation_gradient
        )

    def elastic_energy_density(
        self, phase: float, hardening: float, deformation_gradient: Matrix, *, one_split: bool = False
    ) -> float:
        """Below determinant 1 the volumetric part is the tensile one, as the Rust has it; with `one_split` the deviatoric part,
        as in the stress. From determinant 1 up the two are the same."""
        told = "NeoHookeanElasticity.elastic_energy_density"
        given = self._arguments(phase, hardening, deformation_gradient)
        if one_split is False:
            return one("neo_hookean_elastic_energy_density", told, **given)
        # The flag stands after the law.
        given = {"law": given.pop("law"), "one_split": one_split, **given}
        return one("neo_hookean_elastic_energy_density_in", told, **given)

    def pos_energy(self, phase: float, hardening: float, deformation_gradient: Matrix) -> float:
        """The positive part of the energy."""
        given = self._arguments(phase, hardening, deformation_gradient)
        return one("neo_hookean_pos_energy", "NeoHookeanElasticity.pos_energy", **given)

    def fpk_stress_of(self, particle: Particle) -> Rows:
        """`fpk_stress` of a particle."""
        return _matrix_of("record_neo_hookean_fpk_stress", "fpk_stress_of", self, particle)

    def stress_and_verdict(self, limits: MaximumStressFailure, particle: Particle) -> StressVerdict:
        """The Kirchhoff stress of a particle, its tensile part times phase_coeff (from determinant 1 up all of it, below 1 the
        deviatoric part), and the verdict on the principal values of that very stress. The library works these out itself; refused by 14,
        after all else, where they miss their check."""
        return _judged("neo_hookean_stress_and_verdict", self, limits, particle)

    def elastic_energy_density_of(self, particle: Particle, *, one_split: bool = False) -> float:
        """`elastic_energy_density` of a particle."""
        if one_split is False:
            return _one_of("record_neo_hookean_elastic_energy_density", "elastic_energy_density_of", self, particle)
        told = "NeoHookeanElasticity.elastic_energy_density_of"
        call = "record_neo_hookean_elastic_energy_density_in"
        return one(call, told, law=self, one_split=one_split, particle=_particle(told, particle))

    def pos_energy_of(self, particle: Particle) -> float:
        """`pos_energy` of a particle."""
        return _one_of("record_neo_hookean_pos_energy", "pos_energy_of", self, particle)

    def _arguments(self, phase: float, hardening: float, deformation_gradient: Matrix) -> dict[str, Any]:
        return {"law": self, "phase": phase, "hardening": hardening, "deformation_gradient": deformation_gradient}

    @staticmethod
    def phase_coeff(phase: float) -> float:
        """What the tensile part of a stress or an energy is multiplied by."""
        return one("phase_coeff", "NeoHookeanElasticity.phase_coeff", phase=phase)


@dataclass(frozen=True)
class CorotatedLinearElasticity(Law):
    """Corotated linear stress and energy; the factors of F are given. Each call is refused by 1 for an input that is not
    finite and by 3 for a NaN or a result that is not finite. `stress_and_verdict` and the calls that end in _of take a particle
    with its factors and its determinant, and are refused by 11, after 1, for a determinant that isn't F's."""

    split_stress_on_failure: bool
    cfl_coeff: float
    lam: float
    mu: float

    @classmethod
    def new(cls, young_modulus: float, poisson_ratio: float) -> CorotatedLinearElasticity:
        """The law of these moduli. Refused by 1 for an argument and by 3 for a modulus that is not finite."""
        lam, mu = _moduli("CorotatedLinearElasticity.new", utils.lame_lambda_mu, young_modulus, poisson_ratio)
        return cls(True, COROTATED_CFL_COEFF, lam, mu)

    def elastic_energy_density(self, singular_values: Vector, hardening: float) -> float:
        """Takes the product of the singular values for the determinant."""
        told = "CorotatedLinearElasticity.elastic_energy_density"
        return one(
            "corotated_elastic_energy_density", told, law=self, hardening=hardening, singular_values=singular_values
        )

    def stress_and_verdict(self, limits: MaximumStressFailure, particle: Particle) -> StressVerdict:
        """The Kirchhoff stress of a particle, by the factors that stand in it, and the verdict on the principal values of that very
        stress. At phase exactly 1.0 the stress is whole; its tensile part is dropped only at phase 0.0 with split_stress_on_failure.
        Refused by 14, after all else, where the principal values, which the library works out itself, miss their check."""
        return _judged("corotated_stress_and_verdict", self, limits, particle)

    def elastic_energy_density_of(self, particle: Particle) -> float:
        """`elastic_energy_density` of a particle."""
        return _one_of("record_corotated_elastic_energy_density", "elastic_energy_density_of", self, particle)

    def pos_energy_of(self, particle: Particle) -> float:
        """`pos_energy` of a particle."""
        return _one_of("record_corotated_pos_energy", "pos_energy_of", self, particle)

    def pos_energy(self, deformation_gradient: Matrix, singular_values: Vector, hardening: float) -> float:
        """The positive part of the energy. Takes the determinant of F."""
        return one(
            "corotated_pos_energy",
            "CorotatedLinearElasticity.pos_energy",
            law=self,
            hardening=hardening,
            deformation_gradient=deformation_gradient,
            singular_values=singular_values,
        )


@dataclass(frozen=True)
class MonaghanSphEos:
    """Monaghan's equation of state. gamma is 0 to 4294967295 and read as a signed number: 4294967295 means -1. Each call is
    refused by 1 for an input that is not finite and by 3 for a NaN or a result that is not finite."""

    pressure0: float
    gamma: int
    viscosity: float
    max_neg_pressure: float = MONAGHAN_MAX_NEG_PRESSURE

    def __post_init__(self) -> None:
        if not isinstance(self.gamma, numbers.Integral):
            raise TypeError("MonaghanSphEos: gamma is %r and must be a whole number" % (self.gamma,))
        if not 0 <= self.gamma < 2**32:
            raise ValueError("MonaghanSphEos: gamma is %r and must lie between 0 and 4294967295" % self.gamma)

    @classmethod
    def new(cls, pressure0: float, gamma: int, viscosity: float) -> MonaghanSphEos:
        """The equation with the Rust's default for the lowest pressure. Refused by 1 for an argument that is not finite."""
        _given("MonaghanSphEos.new", pressure0=pressure0, viscosity=viscosity)
        return cls(pressure0, gamma, viscosity)

    def pressure(self, mass: float, volume0: float, density: float) -> float:
        """The pressure at a density."""
        given = {"mass": mass, "volume0": volume0, "density": density}
        return one("monaghan_pressure", "MonaghanSphEos.pressure", **vars(self), **given)

    def kirchhoff_stress(
        self, mass: float, volume0: float, density: float, deformation_gradient_det: float, velocity_gradient: Matrix
    ) -> Rows:
        """The Kirchhoff stress: the pressure's and the viscous part."""
        return matrix(
            "monaghan_kirchhoff_stress",
            "MonaghanSphEos.kirchhoff_stress",
            **vars(self),
            mass=mass,
            volume0=volume0,
            density=density,
            deformation_gradient_det=deformation_gradient_det,
            velocity_gradient=velocity_gradient,
        )

    def timestep_bound(
        self,
        deformation_gradient_det: float,
        mass: float,
        volume0: float,
        density: float,
        velocity: Vector,
        cell_width: float,
    ) -> float:
        """Also refused by 10, where a root's argument is infinite."""
        return one(
            "monaghan_timestep_bound",
            "MonaghanSphEos.timestep_bound",
            **vars(self),
            deformation_gradient_det=deformation_gradient_det,
            mass=mass,
            volume0=volume0,
            density=density,
            velocity=velocity,
            cell_width=cell_width,
        )


@dataclass(frozen=True)
class MaximumStressFailure(Law):
    """The limits of the failure rule, by which `stress_and_verdict` of the two solid laws and the passes with failure judge. No call
    judges a stress that is handed in."""

    max_principal_stress: float
    max_shear_stress: float

    @classmethod
    def new(cls, max_principal_stress: float, max_shear_stress: float) -> MaximumStressFailure:
        """The limits. Refused by 1 for one that is not finite."""
        made = cls(max_principal_stress, max_shear_stress)
        _given("MaximumStressFailure.new", **vars(made))
        return made
