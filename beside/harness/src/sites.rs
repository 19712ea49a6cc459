//! Section 4's sites: each place of the text where nalgebra's own sum, product, norm, determinant, inverse or recompose stands,
//! run beside nalgebra's on the very numbers met there.
use crate::inside::{self, Met};
use crate::untouched::Untouched;
use nalgebra::hooks::Op;
use std::collections::BTreeMap;

/// What was seen at one site.
#[derive(Default)]
pub struct Seen {
    pub times: u64,
    pub beside: u64,
    pub other_bits: u64,
    /// Differences over the summed sizes of the terms (of the inverse and of norms: over the largest entry).
    pub ratios: Vec<f64>,
    /// Of the inverse: the worst difference over the largest entry and the determinant's condition.
    pub over_condition: f64,
}

pub type Sites = BTreeMap<(String, u32, Op), Seen>;

fn name(file: &str) -> String {
    file.rsplit('/').next().unwrap_or(file).to_string()
}

fn determinant_terms(m: &[f64]) -> f64 {
    let t = |a: usize, b: usize, c: usize| (m[a] * m[b] * m[c]).abs();
    t(0, 4, 8) + t(0, 7, 5) + t(1, 3, 8) + t(1, 6, 5) + t(2, 3, 7) + t(2, 6, 4)
}

/// The summed sizes of the terms behind each output.
fn sizes(m: &Met) -> Vec<f64> {
    let x = |k: usize| m.input[k].abs();
    let largest = m.output.iter().fold(0.0f64, |a, b| a.max(b.abs()));
    match m.op {
        Op::Sum | Op::Trace => vec![m.input.iter().map(|a| a.abs()).sum()],
        Op::NormSquared => vec![m.input.iter().map(|a| a * a).sum()],
        Op::Determinant => vec![determinant_terms(&m.input)],
        Op::MatrixProduct | Op::Recompose => {
            let right = if m.op == Op::Recompose { 12 } else { 9 };
            let scale = |k: usize| if m.op == Op::Recompose { x(9 + k) } else { 1.0 };
            (0..m.output.len()).map(|e| (0..3).map(|k| x(3 * k + e % 3) * scale(k) * x(right + 3 * (e / 3) + k)).sum()).collect()
        }
        _ => vec![largest; m.output.len()],
    }
}

fn has_sum(op: Op) -> bool {
    !matches!(op, Op::Repeat | Op::Fill)
}

/// Runs what a call met beside nalgebra's.
pub fn beside(u: Option<&Untouched>, sites: &mut Sites) {
    for m in inside::watch().met.iter().filter(|m| has_sum(m.op)) {
        let s = sites.entry((name(m.at.file()), m.at.line(), m.op)).or_default();
        s.times += 1;
        let Some(u) = u else { continue };
        // Every fourth, and only where no number is lost at the ends of the format.
        let tame = |x: &f64| x.is_finite() && (*x == 0.0 || (x.abs() > 1e-90 && x.abs() < 1e90));
        if s.times % 4 != 1 || !m.input.iter().all(tame) || !m.output.iter().all(|x| x.is_finite()) {
            continue;
        }
        let Some(o) = u.operation(m) else { continue };
        s.beside += 1;
        if o.iter().zip(&m.output).any(|(a, b)| a.to_bits() != b.to_bits()) {
            s.other_bits += 1;
        }
        let sizes = sizes(m);
        let worst = o.iter().zip(&m.output).zip(&sizes).map(|((a, b), t)| if a == b { 0.0 } else { (a - b).abs() / t });
        let worst = worst.fold(0.0, f64::max);
        s.ratios.push(worst);
        if m.op == Op::Inverse {
            let m = &m.input;
            let cofactor = |a: usize, b: usize, c: usize, d: usize| m[a] * m[b] - m[c] * m[d];
            let det = m[0] * cofactor(4, 8, 7, 5) - m[3] * cofactor(1, 8, 7, 2) + m[6] * cofactor(1, 5, 4, 2);
            s.over_condition = s.over_condition.max(worst * det.abs() / determinant_terms(m));
        }
    }
}

pub const SUM_BOUND: f64 = 1.0 / (1u64 << 45) as f64;

/// The median of what is left in order.
pub fn worst_and_median(v: &mut [f64]) -> (f64, f64) {
    v.sort_by(f64::total_cmp);
    match v.len() {
        0 => (0.0, 0.0),
        n => (v[n - 1], v[n / 2]),
    }
}

/// The sites met, as docs/SITES.md lists them.
pub fn listed(sites: &Sites) -> Vec<String> {
    let head = ["| file | line | operation |".to_string(), "|---|---|---|".to_string()];
    head.into_iter().chain(sites.keys().map(|(file, line, op)| format!("| {file} | {line} | {op:?} |"))).collect()
}

pub fn table(sites: &mut Sites, with_nalgebra: bool, failed: &mut bool) {
    println!("\nSection 4's sites (sums: worst difference over the terms' summed sizes, in units of 2^-45; others over the largest entry)");
    println!(
        "{:<34} {:>4} {:<14} {:>9} {:>8} {:>9} {:>10} {:>10}",
        "file", "line", "operation", "met", "beside", "in bits", "worst", "median"
    );
    for ((file, line, op), s) in sites.iter_mut() {
        let (w, m) = worst_and_median(&mut s.ratios);
        let b = SUM_BOUND;
        let over = with_nalgebra && *op != Op::Inverse && w > b;
        *failed |= over;
        println!(
            "{file:<34} {line:>4} {:<14} {:>9} {:>8} {:>9} {:>10.3e} {:>10.3e}{}",
            format!("{op:?}"),
            s.times,
            s.beside,
            s.other_bits,
            w / b,
            m / b,
            if over { "  OVER 2^-45" } else { "" }
        );
    }
    let inverse = sites.iter().filter(|(k, _)| k.2 == Op::Inverse).map(|(_, s)| s.over_condition).fold(0.0, f64::max);
    println!(
        "The inverse over its determinant's condition (its terms' summed sizes over itself): worst {:.3e}",
        inverse / SUM_BOUND
    );
}
