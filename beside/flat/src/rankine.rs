//! RULES' flat Rankine ("Slices of a slope"), written out a second time: the Rust's is another (docs/DIFFERENCES.md, row 27).
use crate::build2::{before, elementary, Outcome};
use crate::law::{self, *};
use nalgebra::hooks::Function::{Exp, Ln, Sqrt};

/// A NaN on the way is 3.
fn number(x: f64) -> Result<f64, u8> {
    if x.is_nan() {
        Err(3)
    } else {
        Ok(x)
    }
}

/// The outcome, and the branch where it isn't refused.
pub fn expected(p: &[f64], r: &Record) -> Result<((Record, [u64; 2]), &'static str), u8> {
    before(1, p, r)?;
    let [lambda, mu, _] = law::moduli(p);
    let was = [elementary(Ln, r[SIGMA])?, elementary(Ln, r[SIGMA + 1])?];
    let s = p[2] - (r[PLASTIC] - 1.0);
    let (a, b) = if was[0] <= was[1] { (1, 0) } else { (0, 1) };
    let sum = was[0] + was[1];
    let mut e = was;
    if number(lambda * sum + 2.0 * mu * e[a])? <= s {
        return Ok(((*r, [0, 0]), "untouched"));
    }
    let branch = if number((2.0 * mu + lambda) * e[b] + lambda * (sum - e[a]))? <= s {
        e[a] = number((s - lambda * (sum - e[a])) / (2.0 * mu + lambda))?;
        ["one strain, the first", "one strain, the second"][a]
    } else {
        e = [number(s / (2.0 * mu + 2.0 * lambda))?; 2];
        "both strains"
    };
    let d = [was[0] - e[0], was[1] - e[1]];
    let hardening = number(r[PLASTIC] + p[3] * elementary(Sqrt, number(d[0] * d[0] + d[1] * d[1])?)?)?;
    let mut o = *r;
    o[PLASTIC] = if hardening < p[2] { hardening } else { p[2] };
    o[SIGMA] = elementary(Exp, e[0])?;
    o[SIGMA + 1] = elementary(Exp, e[1])?;
    for i in 0..2 {
        for j in 0..2 {
            let (u, v) = (|k: usize| o[U + 2 * i + k], |k: usize| o[SIGMA + 2 + 2 * k + j]);
            o[2 * i + j] = u(0) * o[SIGMA] * v(0) + u(1) * o[SIGMA + 1] * v(1);
        }
    }
    let amount = o[PLASTIC].to_bits();
    o.iter().all(|x| x.is_finite()).then_some(((o, [1, amount]), branch)).ok_or(3)
}

/// Whether the Rust's may be another where ours stores: its middle strain is the second of equal or rising ones; it divides by 3 lambda.
pub fn may_part(p: &[f64], r: &Record) -> bool {
    elementary(Ln, r[SIGMA]) <= elementary(Ln, r[SIGMA + 1]) || law::moduli(p)[0] != 0.0
}

/// The same outcome in every bit.
pub fn outcome(x: &Result<((Record, [u64; 2]), &'static str), u8>) -> Outcome {
    x.map(|y| y.0)
}
