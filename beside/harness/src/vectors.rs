//! What the list for `replay` has of calls without a number of this folder's own: the pass with failure over one record, the energy in the Rust's
//! mode, stresses and energies of a record. Each answer is put together from build 2's: the law's update; the corotated stress of diag(sigma)
//! between factors of ones, whose diagonal is the principal stresses, with the failure rule on it; the plain call on what stands in the record.
use crate::calls::{self, *};
use crate::draw::Draw;
use crate::inside::{self, finite, Answer};
use crate::listed;
use crate::ours;
use crate::replay::List;
use std::cmp::Ordering;

const ONE: u64 = 0x3ff0_0000_0000_0000;
const SIGMA: usize = 18;
const PHASE: usize = 30;
const HARDENING: usize = 33;
const PHASES: [f64; 4] = [0.0, -0.0, 0.5, 1.0];
const SIDES: [Ordering; 3] = [Ordering::Less, Ordering::Equal, Ordering::Greater];

fn f(x: u64) -> f64 {
    f64::from_bits(x)
}

fn is_flag(x: u64) -> bool {
    x == 0 || x == ONE
}

fn refused(status: u8) -> Answer {
    Answer { status, out: vec![] }
}

/// What a law makes of a record, of two zeros as RULES has it.
fn updated(model: usize, p: &[u64], r: &[u64]) -> Answer {
    let (n, i) = (UPDATE + model % LAWS, [p, r].concat());
    let a = inside::expected(n, &i);
    listed::by_document(n, &i, &a).unwrap_or(a)
}

/// The Rust's corotated stress of a record's sigma, phase and hardening, F being diag(sigma) and U and V ones, and its verdict; the greatest
/// principal stress and the shear stay in `watch()`. Nothing where it is refused.
fn judged(law: &[u64], limits: &[u64], r: &[u64]) -> Option<bool> {
    let mut x = r.to_vec();
    for k in 0..9 {
        let one = if k % 4 == 0 { ONE } else { 0 };
        x[k] = if k % 4 == 0 { r[SIGMA + k / 4] } else { 0 };
        (x[9 + k], x[21 + k]) = (one, one);
    }
    inside::complete(&mut x);
    let a = inside::expected(COROTATED_STRESS_AND_VERDICT, &[law, limits, &x].concat());
    (a.status == 0).then(|| a.out[9] == 1)
}

/// The greatest principal stress and the shear that were judged last.
fn extremes() -> (f64, f64) {
    let s = inside::watch().principal;
    let greatest = s[0].max(s[1]).max(s[2]);
    (greatest, (greatest - s[0].min(s[1]).min(s[2])) / 2.0)
}

/// The pass with failure over one record: it, its answer and the four counts, or the refusal of the call.
fn passed(model: u64, p: &[u64], limits: &[u64], law: &[u64], r: &[u64]) -> Answer {
    let flag = CALLS[UPDATE + model as usize % LAWS].flag;
    if model >= 2 * LAWS as u64 || !is_flag(law[0]) || flag.is_some_and(|k| !is_flag(p[k])) {
        return refused(6);
    }
    let end = |r: &[u64], answer: [u64; 2], failed: bool| {
        let mut counts = [0, 0, 0, failed as u64];
        counts[answer[0] as usize] = 1;
        Answer { status: 0, out: [r, &answer, &counts].concat() }
    };
    if !limits.iter().chain(law).all(|x| finite(*x)) {
        return end(r, [2, 1], false);
    }
    let a = updated(model as usize, p, r);
    if a.status != 0 {
        return end(r, [2, a.status as u64], false);
    }
    let mut new = a.out[..FLOATS].to_vec();
    match judged(law, limits, &new) {
        None => end(r, [2, 3], false),
        Some(failed) => {
            if failed {
                new[PHASE] = 0;
            }
            end(&new, [a.out[FLOATS], a.out[FLOATS + 1]], failed)
        }
    }
}

/// Parameters and a record of a law; at times with sigma whose product is exactly 1 and parameters that leave them.
fn drawn(d: &mut Draw, model: usize) -> (Vec<u64>, Vec<u64>) {
    let k = calls::parameters(model);
    let i = d.inputs(UPDATE + model);
    let (mut p, mut r) = (i[..k].to_vec(), i[k..].to_vec());
    if d.one_in(2) {
        let whole = [[2.0, 0.5, 1.0], [0.25, 1.0, 4.0], [1.0, 0.5, 2.0], [0.5, 4.0, 0.5]][d.below(4) as usize];
        r[SIGMA..SIGMA + 3].copy_from_slice(&whole.map(f64::to_bits));
        let wide: [Vec<f64>; 4] = [vec![0.9, 9.0, 1.0], vec![1e5, 0.25, 1e12, 1.0], vec![], vec![]];
        if !wide[model].is_empty() {
            p = wide[model].iter().map(|x| x.to_bits()).collect();
        }
    }
    (p, r)
}

fn corotated(d: &mut Draw) -> Vec<u64> {
    d.inputs(COROTATED_POS_ENERGY)[..4].to_vec()
}

/// J of sigma as it is worked from the left, where the Rust's determinant of diag(sigma) is the same.
fn product(r: &[u64]) -> Option<f64> {
    let [a, b, c] = [f(r[SIGMA]), f(r[SIGMA + 1]), f(r[SIGMA + 2])];
    (a * b * c == a * (b * c)).then_some(a * b * c)
}

/// An accepted record with this phase, flag and side of J = 1, stored or not, and limits that a yes passes by one double and a no just meets.
fn judged_case(d: &mut Draw, phase: f64, flag: f64, side: Ordering, stored: bool, yes: bool) -> (usize, Vec<u64>) {
    loop {
        let model = d.below(LAWS as u64) as usize;
        let (p, mut r) = drawn(d, model);
        let mut law = corotated(d);
        r[PHASE] = phase.to_bits();
        law[0] = flag.to_bits();
        let a = updated(model, &p, &r);
        if a.status != 0 || a.out[FLOATS] != stored as u64 || product(&a.out).and_then(|j| j.partial_cmp(&1.0)) != Some(side) {
            continue;
        }
        let most = [f64::MAX.to_bits(); 2];
        if judged(&law, &most, &a.out[..FLOATS]) != Some(false) {
            continue;
        }
        let (greatest, shear) = extremes();
        let by_shear = d.one_in(2);
        let limits = match (yes, by_shear) {
            (false, _) => [greatest, shear],
            (_, true) => [greatest, shear.next_down()],
            _ => [greatest.next_down(), shear],
        };
        let sizes = [greatest.abs(), shear].iter().all(|x| (1e-9..1e15).contains(x));
        let limits = limits.map(f64::to_bits);
        if sizes && judged(&law, &limits, &a.out[..FLOATS]) == Some(yes) {
            let number = (model + LAWS * d.below(2) as usize) as u64;
            return (model, [&[number][..], &p, &limits, &law, &r].concat());
        }
    }
}

fn failure(list: &mut List, d: &mut Draw) {
    let of = |i: &[u64], model: usize| {
        let k = 1 + calls::parameters(model);
        passed(i[0], &i[1..k], &i[k..k + 2], &i[k + 2..k + 6], &i[k + 6..])
    };
    let mut add = |model: usize, i: &[u64]| list.entry(REPLAYED_PASS_WITH_FAILURE + model, i, &of(i, model));
    for phase in PHASES {
        for flag in [0.0, 1.0] {
            for side in SIDES {
                for yes in [false, true] {
                    let stored = d.one_in(2);
                    let (model, i) = judged_case(d, phase, flag, side, stored, yes);
                    add(model, &i);
                }
            }
        }
    }
    // Refused: by the law's own numbers, by 11, by a limit and a corotated law before them, by the stress over a record that is stored; and whole calls by 6.
    for model in 0..LAWS {
        let (_, good) = loop {
            let (m, i) = judged_case(d, 1.0, 0.0, SIDES[0], true, false);
            if m == model {
                break (m, i);
            }
        };
        let (k, at) = (1 + calls::parameters(model), good.len() - FLOATS);
        for status in [2, 3, 10] {
            loop {
                let (p, r) = drawn(d, model);
                if updated(model, &p, &r).status == status {
                    add(model, &[&[model as u64][..], &p, &good[k..k + 6], &r].concat());
                    break;
                }
            }
        }
        let mut one = |changes: &[(usize, u64)]| {
            let mut i = good.clone();
            changes.iter().for_each(|(place, x)| i[*place] = *x);
            add(model, &i);
        };
        let wrong = (at + BARE, good[at + BARE] ^ 1);
        one(&[wrong]);
        one(&[wrong, (k + model % 2, f64::NAN.to_bits())]);
        one(&[wrong, (k + 3 + model % 3, f64::INFINITY.to_bits())]);
        one(&[(k + 5, f64::MAX.to_bits()), (k + 4, f64::MAX.to_bits()), (at + SIGMA, 1.5f64.to_bits())]);
        one(&[(k + 2, [0.5, -0.0, f64::NAN, 2.0][model].to_bits())]);
        one(&[(0, [NO_MODEL, NO_MODEL + 1, 255, u64::MAX][model])]);
        if let Some(flag) = CALLS[UPDATE + model].flag {
            one(&[(1 + flag, (-0.0f64).to_bits())]);
        }
    }
}

/// Our logarithm and power -1/3 of a determinant, where they are not refused.
fn functions(list: &mut List, j: u64) {
    for n in [LN, INV_CBRT] {
        let a = ours::call(n, &[j]);
        if a.status == 0 {
            list.entry(n, &[j], &a);
        }
    }
}

/// The energy in the Rust's mode, with our logarithm and power -1/3 of its determinant: tools/vectors.py reads the other mode off these. Then each refusal.
fn energies(list: &mut List, d: &mut Draw) {
    let n = NEO_HOOKEAN_ELASTIC_ENERGY_DENSITY;
    let with = |i: &[u64], flag: u64| [&i[..3], &[flag], &i[3..]].concat();
    for side in SIDES {
        for phase in [0.0, 0.5, 1.0] {
            loop {
                let mut i = d.inputs(n);
                i[3] = f64::to_bits(phase);
                if side == Ordering::Equal {
                    for k in 0..3 {
                        i[5 + 4 * k] = ONE;
                        i[5 + 3 * k..5 + 4 * k].fill(0);
                    }
                }
                let a = inside::expected(n, &i);
                let j = inside::determinant(&i[5..]);
                if a.status == 0 && a.out[0] != 0 && f(i[4]) != 0.0 && f(j).partial_cmp(&1.0) == Some(side) {
                    list.entry(REPLAYED_NEO_HOOKEAN_ELASTIC_ENERGY_DENSITY_IN, &with(&i, 0), &a);
                    functions(list, j);
                    break;
                }
            }
        }
    }
    for status in [1, 2, 3, 10] {
        for _ in 0..2 {
            loop {
                let i = d.inputs(n);
                if inside::expected(n, &i).status == status {
                    list.entry(REPLAYED_NEO_HOOKEAN_ELASTIC_ENERGY_DENSITY_IN, &with(&i, 0), &refused(status));
                    functions(list, inside::determinant(&i[5..]));
                    // 6 comes before each of them.
                    let flag = [0.5, -0.0, f64::NAN, 2.0][status as usize % 4].to_bits();
                    list.entry(REPLAYED_NEO_HOOKEAN_ELASTIC_ENERGY_DENSITY_IN, &with(&i, flag), &refused(6));
                    break;
                }
            }
        }
    }
}

/// The plain call on what stands in a record, after 1 and 11 over the law and all of it.
fn of_record(plain: usize, law: &[u64], r: &[u64]) -> Answer {
    let words = CALLS[plain].outputs;
    if CALLS[plain].flag.is_some() && !is_flag(law[0]) {
        return refused(6);
    }
    if !law.iter().chain(r).all(|x| finite(*x)) {
        return refused(1);
    }
    if r[BARE] != inside::determinant(r) {
        return refused(11);
    }
    let (h, phase, m, sigma) = (&[r[HARDENING]][..], &[r[PHASE]][..], &r[..9], &r[SIGMA..SIGMA + 3]);
    let given: &[&[u64]] = match plain {
        NEO_HOOKEAN_FPK_STRESS => &[law, h, m],
        COROTATED_ELASTIC_ENERGY_DENSITY => &[law, h, sigma],
        COROTATED_POS_ENERGY => &[law, h, m, sigma],
        _ => &[law, phase, h, m],
    };
    let a = inside::expected(plain, &given.concat());
    assert_eq!(a.out.len(), words);
    a
}

fn records(list: &mut List, d: &mut Draw) {
    let all = [
        (REPLAYED_RECORD_NEO_HOOKEAN_FPK_STRESS, NEO_HOOKEAN_FPK_STRESS),
        (REPLAYED_RECORD_NEO_HOOKEAN_ELASTIC_ENERGY_DENSITY, NEO_HOOKEAN_ELASTIC_ENERGY_DENSITY),
        (REPLAYED_RECORD_NEO_HOOKEAN_ELASTIC_ENERGY_DENSITY_IN, NEO_HOOKEAN_ELASTIC_ENERGY_DENSITY),
        (REPLAYED_RECORD_NEO_HOOKEAN_POS_ENERGY, NEO_HOOKEAN_POS_ENERGY),
        (REPLAYED_RECORD_COROTATED_ELASTIC_ENERGY_DENSITY, COROTATED_ELASTIC_ENERGY_DENSITY),
        (REPLAYED_RECORD_COROTATED_POS_ENERGY, COROTATED_POS_ENERGY),
    ];
    for (n, plain) in all {
        let corotated = CALLS[plain].flag.is_some();
        let (source, words) = if corotated { (COROTATED_STRESS_AND_VERDICT, 4) } else { (NEO_HOOKEAN_STRESS_AND_VERDICT, 3) };
        let moded = n == REPLAYED_RECORD_NEO_HOOKEAN_ELASTIC_ENERGY_DENSITY_IN;
        let mut kinds = std::collections::BTreeMap::<(u8, bool), u64>::new();
        for _ in 0..20_000 {
            let i = d.inputs(source);
            let (law, r) = (&i[..words], &i[words + 2..]);
            let a = of_record(plain, law, r);
            // Phase and hardening show in the answer.
            let plainly = f(r[PHASE]) == 0.0 || f(r[PHASE]) == 1.0 || f(r[HARDENING]) == 0.0;
            if a.status == 0 && (a.out[0] == 0 || plainly) {
                continue;
            }
            let kind = kinds.entry((a.status, a.status == 0 && f(r[BARE]) < 1.0)).or_default();
            if *kind == if a.status == 0 { 2 } else { 1 } {
                continue;
            }
            *kind += 1;
            let mode: &[u64] = if moded { &[0] } else { &[] };
            list.entry(n, &[law, mode, r].concat(), &a);
            if moded {
                functions(list, r[BARE]);
            }
            if moded && a.status != 0 {
                list.entry(n, &[law, &[2f64.to_bits()], r].concat(), &refused(6));
            }
        }
    }
}

pub fn write(list: &mut List, seed: u64) {
    let mut d = Draw(seed.wrapping_mul(0x6000));
    failure(list, &mut d);
    energies(list, &mut d);
    records(list, &mut d);
}
