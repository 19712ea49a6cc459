//! The Rust's `utils` (physics.rs). Each call is refused by 1 for an input and by 3 for a result that is not finite.
use crate::calls::*;
use crate::math::{Matrix, Real};
use crate::table::*;
use crate::Refusal;

/// 0 at 0, else 1/e.
pub fn inv_exact(e: Real) -> Result<Real, Refusal> {
    number("utils::inv_exact", |out, n| unsafe { pasoletu_inv_exact(e, out, n) })
}

/// The Lamé parameters (lambda, mu).
pub fn lame_lambda_mu(young_modulus: Real, poisson_ratio: Real) -> Result<(Real, Real), Refusal> {
    let [lambda, mu] =
        floats("utils::lame_lambda_mu", |out, n| unsafe { pasoletu_lame_lambda_mu(young_modulus, poisson_ratio, out, n) })?;
    Ok((lambda, mu))
}

/// young_modulus / (2 (1 + poisson_ratio)).
pub fn shear_modulus(young_modulus: Real, poisson_ratio: Real) -> Result<Real, Refusal> {
    number("utils::shear_modulus", |out, n| unsafe { pasoletu_shear_modulus(young_modulus, poisson_ratio, out, n) })
}

/// young_modulus / (3 (1 - 2 poisson_ratio)).
pub fn bulk_modulus(young_modulus: Real, poisson_ratio: Real) -> Result<Real, Refusal> {
    number("utils::bulk_modulus", |out, n| unsafe { pasoletu_bulk_modulus(young_modulus, poisson_ratio, out, n) })
}

/// mu.
pub fn shear_modulus_from_lame(lambda: Real, mu: Real) -> Result<Real, Refusal> {
    number("utils::shear_modulus_from_lame", |out, n| unsafe { pasoletu_shear_modulus_from_lame(lambda, mu, out, n) })
}

/// lambda + 2 mu / 3.
pub fn bulk_modulus_from_lame(lambda: Real, mu: Real) -> Result<Real, Refusal> {
    number("utils::bulk_modulus_from_lame", |out, n| unsafe { pasoletu_bulk_modulus_from_lame(lambda, mu, out, n) })
}

/// The roots of a x^2 + b x + c, that with +root first. A negative discriminant is refused by 2, an infinite one by 10.
pub fn solve_quadratic(a: Real, b: Real, c: Real) -> Result<(Real, Real), Refusal> {
    let [x, y] = floats("utils::solve_quadratic", |out, n| unsafe { pasoletu_solve_quadratic(a, b, c, out, n) })?;
    Ok((x, y))
}

/// The antisymmetric part: half of the gradient less its transpose.
pub fn spin_tensor(velocity_gradient: &Matrix<Real>) -> Result<Matrix<Real>, Refusal> {
    matrix("utils::spin_tensor", |out, n| unsafe { pasoletu_spin_tensor(entries(velocity_gradient), 9, out, n) })
}

/// The symmetric part: half of the gradient and its transpose.
pub fn strain_rate(velocity_gradient: &Matrix<Real>) -> Result<Matrix<Real>, Refusal> {
    matrix("utils::strain_rate", |out, n| unsafe { pasoletu_strain_rate(entries(velocity_gradient), 9, out, n) })
}

/// The tensor less its spherical part on the diagonal.
pub fn deviatoric_part(tensor: &Matrix<Real>) -> Result<Matrix<Real>, Refusal> {
    matrix("utils::deviatoric_part", |out, n| unsafe { pasoletu_deviatoric_part(entries(tensor), 9, out, n) })
}

/// A third of the trace.
pub fn spherical_part(tensor: &Matrix<Real>) -> Result<Real, Refusal> {
    number("utils::spherical_part", |out, n| unsafe { pasoletu_spherical_part(entries(tensor), 9, out, n) })
}
