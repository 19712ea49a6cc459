//! How the C calls' answers become results. The calls themselves stand in `table`.
use crate::math::Matrix;
use crate::Refusal;

type In = *const f64;
type Out = *mut f64;

/// A call that writes N floats, or its refusal.
pub fn floats<const N: usize>(name: &'static str, call: impl FnOnce(Out, usize) -> u8) -> Result<[f64; N], Refusal> {
    let mut out = [0.0; N];
    match call(out.as_mut_ptr(), N) {
        0 => Ok(out),
        number => Err(Refusal::new(number, name)),
    }
}

pub fn number(name: &'static str, call: impl FnOnce(Out, usize) -> u8) -> Result<f64, Refusal> {
    floats::<1>(name, call).map(|x| x[0])
}

pub fn matrix(name: &'static str, call: impl FnOnce(Out, usize) -> u8) -> Result<Matrix<f64>, Refusal> {
    let [a, b, c, d, e, f, g, h, i] = floats(name, call)?;
    Ok([[a, b, c], [d, e, f], [g, h, i]])
}

/// The nine entries of a matrix, row by row.
pub fn entries(m: &Matrix<f64>) -> In {
    m.as_ptr().cast()
}

pub fn all_finite(x: &[f64]) -> bool {
    x.iter().all(|x| x.is_finite())
}

/// A flag as a float.
pub fn flag(set: bool) -> f64 {
    if set {
        1.0
    } else {
        0.0
    }
}
