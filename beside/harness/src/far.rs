//! The untouched Rust's distance from ours for each call, and where the two took other branches.
use crate::branches;
use crate::calls::{self, *};
use crate::draw::Draw;
use crate::inside::{self, finite, Answer};
use crate::listed;
use crate::ours;
use crate::show::{not_zero, progress, simpler};
use crate::sites::{worst_and_median, SUM_BOUND};
use crate::untouched::Untouched;
use nalgebra::hooks::Op;
use std::collections::BTreeMap;
use std::ops::Range;

/// From here on a distance from the untouched Rust is shown with its inputs.
const FAR: f64 = 1e-12;

/// The part of a stress's size within which a limit is too near to compare verdicts: the text asks nalgebra for its values to 1e-6.
const NEAR: f64 = 1e-5;

/// The untouched Rust beside ours, and beside build 2 with the machine's elementary functions: what is left of a distance there comes
/// from nalgebra, the rest from the elementary functions. Where the two took other branches there is no distance.
#[derive(Default)]
struct Far {
    distances: Vec<f64>,
    worst: Option<(f64, Vec<u64>)>,
    parted: BTreeMap<(String, String), (u64, Vec<u64>)>,
    refused: u64,
    /// Build 1 beside build 2 with the machine's functions: the worst distance, and how often a bit differs (a zero's sign too).
    nalgebra: f64,
    other_bits: u64,
    /// Of Drucker-Prager: the worst distance over what its steps make of a logarithm's.
    over_condition: f64,
}

/// The summed sizes of an energy's terms, which cancel near rest, so that the result alone is no measure.
fn terms(n: usize, i: &[u64]) -> f64 {
    let f = |k: usize| f64::from_bits(i[k]).abs();
    let product = |k: usize| f64::from_bits(i[k]) * f64::from_bits(i[k + 1]) * f64::from_bits(i[k + 2]);
    match n {
        NEO_HOOKEAN_ELASTIC_ENERGY_DENSITY | NEO_HOOKEAN_POS_ENERGY => {
            let g: Vec<f64> = i[5..14].iter().map(|x| f64::from_bits(*x)).collect();
            let j = nalgebra::Matrix3::new(g[0], g[1], g[2], g[3], g[4], g[5], g[6], g[7], g[8]).determinant();
            let strain = g.iter().map(|x| x * x).sum::<f64>() / (j * j).cbrt() + 3.0;
            let volume = (j * j + 1.0) / 2.0 + j.ln().abs();
            let phase = f(3).max(f(3) * f(3)).max(1.0);
            (f(2) / 2.0 * strain + (2.0 / 3.0 * f(2) + f(1)) / 2.0 * volume) * f(4) * phase
        }
        COROTATED_ELASTIC_ENERGY_DENSITY => {
            (f(3) * (3.0 + f(5) * f(5) + f(6) * f(6) + f(7) * f(7)) + f(2) / 2.0 * (1.0 + product(5).powi(2))) * f(4)
        }
        _ => 0.0,
    }
}

/// The same bits, or no number both.
fn same_number(x: u64, y: u64) -> bool {
    x == y || (f64::from_bits(x).is_nan() && f64::from_bits(y).is_nan())
}

fn distance(a: &[u64], b: &[u64], beside: f64) -> f64 {
    let f = |x: &u64| f64::from_bits(*x);
    let largest = b.iter().map(|x| f(x).abs()).fold(0.0, f64::max) + beside;
    let off = |(x, y): (&u64, &u64)| match f(x) - f(y) {
        _ if same_number(*x, *y) => 0.0,
        d if d.is_nan() => f64::INFINITY,
        d => d.abs(),
    };
    match a.iter().zip(b).map(off).fold(0.0, f64::max) {
        off if off == 0.0 || off.is_infinite() => off,
        off => off / largest,
    }
}

/// Where F stands in a call's inputs, where its factors go, and which of the 21.
fn factors_at(n: usize) -> Option<(usize, usize, Range<usize>)> {
    match n {
        UPDATE_SNOW..=UPDATE_NACC => Some((calls::parameters(n - UPDATE), calls::parameters(n - UPDATE) + 9, 0..21)),
        COROTATED_STRESS_AND_VERDICT => Some((6, 15, 0..21)),
        COROTATED_POS_ENERGY => Some((5, 14, 9..12)),
        _ => None,
    }
}

/// The inputs with the factors that nalgebra gives for F, and a record's determinant right.
fn factored(u: &Untouched, n: usize, i: &[u64]) -> Vec<u64> {
    let mut w = i.to_vec();
    if let Some(at) = calls::record_at(n) {
        inside::complete(&mut w[at..]);
    }
    let f = |k: usize| f64::from_bits(i[k]);
    if let Some((at, to, which)) = factors_at(n) {
        let m = std::array::from_fn(|k| f(at + k));
        for (k, x) in u.factors_of(m)[which].iter().enumerate() {
            w[to + k] = x.to_bits();
        }
    }
    if n == COROTATED_ELASTIC_ENERGY_DENSITY {
        // The Rust takes a diagonal matrix here: of one whose singular values nalgebra changes, its values' values.
        let mut s = [f(5), f(6), f(7)];
        for _ in 0..8 {
            let o = u.factors_of([s[0], 0.0, 0.0, 0.0, s[1], 0.0, 0.0, 0.0, s[2]]);
            s.copy_from_slice(&o[9..12]);
        }
        (0..3).for_each(|k| w[5 + k] = s[k].to_bits());
    }
    w
}

/// F as the diagonal matrix of its own singular values.
fn straightened(u: &Untouched, n: usize, i: &[u64]) -> Vec<u64> {
    let mut w = factored(u, n, i);
    if let Some((f, at, Range { start: 0, .. })) = factors_at(n) {
        w[f..f + 9].fill(0);
        (0..3).for_each(|k| w[f + 4 * k] = w[at + 9 + k]);
    }
    w
}

/// How far an answer is from build 1's.
fn apart(n: usize, i: &[u64], a: &[u64], o: &[u64]) -> f64 {
    if calls::is_judged(n) {
        let verdict = a[9] == o[9] || inside::near_a_limit(n, i, NEAR);
        return if verdict { distance(&a[..9], &o[..9], 0.0) } else { f64::INFINITY };
    }
    if !calls::is_update(n) {
        return distance(a, o, terms(n, i));
    }
    let scalar = |s: usize| distance(&a[s..=s], &o[s..=s], 1.0);
    (30..36).map(scalar).fold(distance(&a[..9], &o[..9], 0.0), f64::max)
}

fn branches(n: usize, i: &[u64], a: &Answer) -> String {
    let mut names = Vec::new();
    branches::taken(n, i, a, &mut names);
    names.join(", ")
}

/// One input with nalgebra's factors: nothing where ours refuses, else how far ours and build 2 with the machine's functions are from
/// build 1, whether the latter's bits are build 1's, and the branches of these two.
fn one(u: &Untouched, n: usize, i: &[u64]) -> Option<([f64; 2], bool, [String; 2])> {
    let a = ours::call(n, i);
    if a.status != 0 {
        return None;
    }
    // Only the plastic laws branch on what an elementary function gave.
    let names = |a: &Answer| if calls::is_update(n) { branches(n, i, a) } else { String::new() };
    let e = inside::expected(n, i);
    let mut ours = names(&e);
    let m = inside::with_machine(n, i);
    let mut machine = names(&m);
    if listed::by_document(n, i, &e).is_some() {
        ours += "the second of two zeros";
        machine += "the first of two zeros";
    }
    let o = u.run(n, i);
    let words: Vec<usize> = if calls::is_update(n) { (0..9).chain(30..36).collect() } else { (0..o.len()).collect() };
    let same_bits = words.iter().all(|k| same_number(m.out[*k], o[*k]));
    Some(([apart(n, i, &a.out, &o), apart(n, i, &m.out, &o)], same_bits, [ours, machine]))
}

/// How much Drucker-Prager's return makes of the logarithms' distance: gamma over the deviatoric norm, by which its direction is off,
/// and the factor of the trace; and the volume correction, which multiplies what is left of the determinants. 1 away from the surface.
fn drucker_prager_condition(i: &[u64]) -> f64 {
    let f = |k: usize| f64::from_bits(i[k]);
    let a = inside::expected(22, i);
    let (norm, trace) = (branches::result(51, Op::Norm), branches::result(44, Op::Sum));
    if norm.is_nan() {
        return 1.0;
    }
    let factor = ((3.0 * f(4) + 2.0 * f(5)) / (2.0 * f(5))).abs();
    (1.0 + f64::from_bits(a.out[FLOATS + 1]) / norm + 2.0 * factor * (1.0 + trace.abs())) * (1.0 + f(7).abs())
}

/// Ours beside build 1, on factors that nalgebra gives for F.
fn far(u: &Untouched, n: usize, d: &mut Draw, count: u64) -> Far {
    let mut far = Far::default();
    for _ in 0..count {
        let i = d.inputs(n);
        if !(0..i.len()).all(|k| finite(i[k])) {
            continue;
        }
        let i = factored(u, n, &i);
        let Some(([ours, machine], same_bits, [a, b])) = one(u, n, &i) else {
            far.refused += 1;
            continue;
        };
        far.nalgebra = far.nalgebra.max(machine);
        far.other_bits += !same_bits as u64;
        if a != b {
            far.parted.entry((a, b)).or_insert((0, i)).0 += 1;
            continue;
        }
        if n == UPDATE_DRUCKER_PRAGER {
            far.over_condition = far.over_condition.max(ours / drucker_prager_condition(&i));
        }
        far.distances.push(ours);
        if ours > far.worst.as_ref().map_or(0.0, |w| w.0) {
            far.worst = Some((ours, i));
        }
    }
    far
}

/// A simpler input of the same kind, on nalgebra's factors.
fn simpler_far(u: &Untouched, n: usize, i: &[u64], same_kind: impl Fn(&[f64; 2], &str, &str) -> bool) -> Vec<u64> {
    let keeps = |w: &[u64]| one(u, n, &factored(u, n, w)).is_some_and(|(d, _, [a, b])| same_kind(&d, &a, &b));
    let straight = straightened(u, n, i);
    let w = simpler(if keeps(&straight) { &straight } else { i }, keeps);
    // The factors are nalgebra's, so they are not shown.
    let factors = factors_at(n).map_or(0..0, |(_, at, which)| at..at + which.len());
    let w = factored(u, n, &w);
    (0..w.len()).map(|k| if factors.contains(&k) { 0 } else { w[k] }).collect()
}

pub fn table(seed: u64, count: u64, u: &Untouched) {
    println!("\nThe untouched Rust (build 1) from ours, on nalgebra's factors: distance over the largest entry (of energies: plus their terms' sizes);");
    println!("parted: the two took other branches. Last two: build 1 from build 2 with the machine's elementary functions, worst and how often in bits, which nalgebra alone makes");
    println!(
        "{:<36} {:>8} {:>8} {:>8} {:>10} {:>10} {:>10} {:>10} {:>8}",
        "call", "beside", "refused", "parted", "worst", "99 of 100", "median", "nalgebra", "in bits"
    );
    let mut examples = Vec::new();
    for n in (INV_EXACT..CALLS.len()).filter(|n| !matches!(*n, RANKINE_PROJECT | DRUCKER_PRAGER_ALPHA) && ours::has(*n)) {
        progress(&format!("build 1: {}", CALLS[n].name));
        let mut d = Draw(seed.wrapping_mul(0x2000).wrapping_add(n as u64));
        let mut f = far(u, n, &mut d, count.div_ceil(4));
        let beside = f.distances.len();
        let (w, m) = worst_and_median(&mut f.distances);
        let most = f.distances.get(beside * 99 / 100).copied().unwrap_or(0.0);
        let parted: u64 = f.parted.values().map(|x| x.0).sum();
        progress("");
        println!(
            "{:<36} {:>8} {:>8} {:>8} {:>10.3e} {:>10.3e} {:>10.3e} {:>10.3e} {:>8}",
            CALLS[n].name, beside, f.refused, parted, w, most, m, f.nalgebra, f.other_bits
        );
        if f.over_condition > 0.0 {
            println!("    over its steps' condition: worst {:.3e} in units of 2^-45", f.over_condition / SUM_BOUND);
        }
        for ((x, y), (times, i)) in f.parted {
            let i = simpler_far(u, n, &i, |_, p, q| p == x && q == y);
            examples.push((n, format!("{times} times ours: {x}; the Rust: {y}"), i));
        }
        if let Some((w, i)) = f.worst.filter(|w| w.0 > FAR) {
            let i = simpler_far(u, n, &i, |d, p, q| p == q && d[0] >= w / 8.0);
            examples.push((n, format!("worst {w:.3e}"), i));
        }
    }
    println!("\nOf these, where the two parted, and the worst beyond {FAR:e}, for instance (words that are not 0, by place)");
    for (n, what, i) in examples {
        println!("{}, {what}", CALLS[n].name);
        println!("    {}", not_zero(n, &i));
    }
}
