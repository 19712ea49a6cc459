//! Inputs made simpler, and how inputs, answers and progress are shown.
use crate::inside::{self, Answer};
use std::io::Write;

/// Each word replaced by 0, by 1 or by a number of few digits where that keeps what is asked.
pub fn simpler(i: &[u64], keeps: impl Fn(&[u64]) -> bool) -> Vec<u64> {
    let mut w = i.to_vec();
    for _ in 0..2 {
        for k in 0..w.len() {
            let was = w[k];
            let few = |digits: usize| format!("{:.digits$e}", f64::from_bits(was)).parse().unwrap_or(f64::NAN);
            for simple in [0.0f64, 1.0, few(0), few(1), few(3)] {
                if was == 0 || was == simple.to_bits() || (simple != 0.0 && was < 1 << 32) {
                    break;
                }
                w[k] = simple.to_bits();
                if keeps(&w) {
                    break;
                }
                w[k] = was;
            }
        }
    }
    w
}

fn shown_word(n: usize, k: usize, x: u64) -> String {
    let f = f64::from_bits(x);
    if !inside::float_at(n, k) && crate::calls::is_monaghan(n) {
        format!("{x}")
    } else if x == 0 || f == 1.0 {
        format!("{f}")
    } else {
        format!("{f:e}={x:016x}")
    }
}

pub fn shown(n: usize, i: &[u64]) -> String {
    i.iter().enumerate().map(|(k, x)| shown_word(n, k, *x)).collect::<Vec<_>>().join(" ")
}

pub fn not_zero(n: usize, i: &[u64]) -> String {
    let some = i.iter().enumerate().filter(|(_, x)| **x != 0);
    some.map(|(k, x)| format!("{k}: {}", shown_word(n, k, *x))).collect::<Vec<_>>().join(", ")
}

pub fn short(a: &Answer) -> String {
    if a.status != 0 {
        return format!("refused {}", a.status);
    }
    a.out.iter().map(|x| format!("{:e}", f64::from_bits(*x))).collect::<Vec<_>>().join(" ")
}

pub fn progress(text: &str) {
    eprint!("\r\x1b[K{text}");
    let _ = std::io::stderr().flush();
}
