"""Physics helpers (the Rust's utils/physics.rs). Each is refused by 1 for an input and by 3 for a result that is not finite.
Matrices are three rows of three."""
from __future__ import annotations

from ._arguments import Matrix, Rows, Vector
from ._calls import floats, matrix, one


def inv_exact(e: float) -> float:
    """0 at 0, else 1/e."""
    return one("inv_exact", "utils.inv_exact", e=e)


def lame_lambda_mu(young_modulus: float, poisson_ratio: float) -> tuple[float, float]:
    """The Lamé parameters (lambda, mu)."""
    lam, mu = floats("lame_lambda_mu", "utils.lame_lambda_mu", young_modulus=young_modulus, poisson_ratio=poisson_ratio)
    return lam, mu


def shear_modulus(young_modulus: float, poisson_ratio: float) -> float:
    """mu of Young's modulus and Poisson's ratio."""
    return one("shear_modulus", "utils.shear_modulus", young_modulus=young_modulus, poisson_ratio=poisson_ratio)


def bulk_modulus(young_modulus: float, poisson_ratio: float) -> float:
    """kappa of Young's modulus and Poisson's ratio."""
    return one("bulk_modulus", "utils.bulk_modulus", young_modulus=young_modulus, poisson_ratio=poisson_ratio)


def shear_modulus_from_lame(lam: float, mu: float) -> float:
    """mu of the Lamé parameters."""
    return one("shear_modulus_from_lame", "utils.shear_modulus_from_lame", lam=lam, mu=mu)


def bulk_modulus_from_lame(lam: float, mu: float) -> float:
    """kappa of the Lamé parameters."""
    return one("bulk_modulus_from_lame", "utils.bulk_modulus_from_lame", lam=lam, mu=mu)


def solve_quadratic(a: float, b: float, c: float) -> tuple[float, float]:
    """The roots of a x^2 + b x + c, that with +root first. A negative discriminant is refused by 2,
    an infinite one by 10."""
    first, second = floats("solve_quadratic", "utils.solve_quadratic", a=a, b=b, c=c)
    return first, second


def spin_tensor(velocity_gradient: Matrix) -> Rows:
    """The antisymmetric part of a velocity gradient."""
    return matrix("spin_tensor", "utils.spin_tensor", velocity_gradient=velocity_gradient)


def strain_rate(velocity_gradient: Matrix) -> Rows:
    """The symmetric part of a velocity gradient."""
    return matrix("strain_rate", "utils.strain_rate", velocity_gradient=velocity_gradient)


def deviatoric_part(tensor: Matrix) -> Rows:
    """A tensor less its spherical part."""
    return matrix("deviatoric_part", "utils.deviatoric_part", tensor=tensor)


def spherical_part(tensor: Matrix) -> float:
    """A third of a tensor's trace."""
    return one("spherical_part", "utils.spherical_part", tensor=tensor)


def decomposed_times(spherical_part: float, deviatoric_part: Matrix, v: Vector) -> list[float]:
    """A decomposed tensor times a vector."""
    given = {"spherical_part": spherical_part, "deviatoric_part": deviatoric_part, "v": v}
    return floats("decomposed_times", "utils.decomposed_times", **given)
