//! The elementary functions against section 3: ranges, refusals, exact cases, and the distance from the machine's own
//! (whose error, below 2^-51, is allowed for). The square root is equal in every bit.
use crate::calls::*;
use crate::inside::Answer;

const LOW: f64 = 1.0 / (1u64 << 60) as f64;
const HIGH: f64 = (1u64 << 60) as f64;
const D: f64 = 1.0 / (1u64 << 45) as f64 + 1.0 / (1u64 << 51) as f64;

fn range(n: usize) -> (f64, f64) {
    match n {
        EXP | SINH => (-700.0, 700.0),
        SIN => (-8.0, 8.0),
        SQRT => (0.0, f64::MAX),
        _ => (LOW, HIGH),
    }
}

/// The machine's value, and how far ours may be from it.
fn value(n: usize, x: f64) -> (f64, f64) {
    let third = |x: f64| x.cbrt();
    match n {
        EXP => (x.exp(), D * x.exp()),
        LN => (x.ln(), if x == 1.0 { 0.0 } else { D }),
        SINH => (x.sinh(), if x == 0.0 { 0.0 } else { D * (1.0 + x.sinh().abs()) }),
        SIN => (x.sin(), D),
        SQRT => (x.sqrt(), 0.0),
        CBRT => (third(x), D * third(x)),
        INV_CBRT => (1.0 / third(x), D / third(x)),
        CBRT_SQUARED => (third(x) * third(x), D * third(x) * third(x)),
        _ => (1.0 / (third(x) * third(x)), D / (third(x) * third(x))),
    }
}

fn exact(n: usize, x: f64) -> Option<f64> {
    match (n, x) {
        (0, 0.0) => Some(1.0),
        (1, 1.0) => Some(0.0),
        (2, 0.0) => Some(0.0),
        (5..=8, 1.0) => Some(1.0),
        (4, _) => Some(x.sqrt()),
        _ => None,
    }
}

/// Nothing where ours is right, else what was to come.
pub fn judge(n: usize, x: f64, got: &Answer) -> Option<Answer> {
    let (low, high) = range(n);
    let refused = |status| Some(Answer { status, out: vec![0] });
    let want = if !x.is_finite() {
        1
    } else if low <= x && x <= high {
        0
    } else if x < low {
        2
    } else {
        10
    };
    if want != got.status {
        return refused(want);
    }
    if want != 0 {
        return None;
    }
    let r = f64::from_bits(got.out[0]);
    let (v, d) = value(n, x);
    let right = match exact(n, x) {
        Some(e) => r == e && (n != 4 || r.to_bits() == e.to_bits()),
        None => (r - v).abs() <= d,
    };
    (!right).then(|| Answer { status: 0, out: vec![v.to_bits()] })
}
