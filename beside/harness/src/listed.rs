//! The differences that docs/DIFFERENCES.md lists. Where one may show, what RULES has ours answer instead of the Rust.
use crate::calls::*;
use crate::inside::{self, Answer};

pub const ZEROS: &str = "minimum or maximum of two zeros: ours takes the second, the Rust as built here the first";

pub const NOT_ACCEPTED: &str = "principal values at the ends of the doubles miss our check: 14, where the Rust gives a verdict";

/// Ours refuses by 14 a stress that build 2 judges, and a size in it is near an end of the doubles.
pub fn not_accepted(n: usize, ours: &Answer, rust: &Answer) -> bool {
    let far = |x: &u64| f64::from_bits(*x) != 0.0 && !(1e-280..1e300).contains(&f64::from_bits(*x).abs());
    is_judged(n) && ours.status == 14 && rust.status == 0 && rust.out[..9].iter().any(far)
}

fn f(i: &[u64], k: usize) -> f64 {
    f64::from_bits(i[k])
}

/// Two zeros of unlike sign.
fn zeros(a: f64, b: f64) -> bool {
    a == 0.0 && b == 0.0 && a.is_sign_negative() != b.is_sign_negative()
}

fn second_max(a: f64, b: f64) -> f64 {
    if a > b || b.is_nan() {
        a
    } else {
        b
    }
}

fn second_min(a: f64, b: f64) -> f64 {
    if a < b || b.is_nan() {
        a
    } else {
        b
    }
}

/// The same inputs with a pressure0 of 0 that makes the bare pressure the very zero that the largest negative is, where the two are zeros
/// of unlike sign. `at` are the places of mass, volume and density.
fn one_zero(i: &[u64], at: usize) -> Option<Vec<u64>> {
    let bare = |pressure0: u64| {
        let largest = f64::MAX.to_bits();
        let mut o = [0];
        inside::run(
            MONAGHAN_PRESSURE,
            &[pressure0, i[1], i[2], largest, i[at], i[at + 1], i[at + 2]],
            &mut o,
            inside::Mode::Ours,
        );
        f64::from_bits(o[0])
    };
    let second = -f(i, 3);
    if !zeros(bare(i[0]), second) {
        return None;
    }
    let same = [0.0f64, -0.0].into_iter().find(|z| bare(z.to_bits()).to_bits() == second.to_bits())?;
    let mut w = i.to_vec();
    w[0] = same.to_bits();
    Some(w)
}

/// What RULES has ours answer where the Rust's zeros differ; nothing where they can't.
pub fn by_document(n: usize, i: &[u64], rust: &Answer) -> Option<Answer> {
    let mut a = rust.clone();
    match n {
        SNOW_CLAMP => {
            for k in 0..3 {
                a.out[k] = second_min(second_max(f(i, 3 + k), 1.0 - f(i, 0)), 1.0 + f(i, 1)).to_bits();
            }
        }
        21 if a.status == 0 && a.out[FLOATS] == 1 && zeros(f(&a.out, 32), f(i, 2)) => {
            a.out[32] = i[2];
            a.out[FLOATS + 1] = i[2];
        }
        MONAGHAN_PRESSURE | MONAGHAN_KIRCHHOFF_STRESS => a = inside::expected(n, &one_zero(i, 4)?),
        MONAGHAN_TIMESTEP_BOUND => {
            if let Some(w) = one_zero(i, 5) {
                a = inside::expected(n, &w);
            }
            // The other step is the minimum's second operand.
            inside::expected(n, i);
            let root = inside::watch().asked.last().map_or(f64::NAN, |x| x.result);
            let other = f(i, 11) / root;
            if a.status == 0 && zeros(f(&a.out, 0), other) {
                a.out[0] = other.to_bits();
            }
        }
        _ => return None,
    }
    (a != *rust).then_some(a)
}
