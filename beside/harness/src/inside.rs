//! Build 2 run and watched: the hooks that the crate nalgebra of this folder asks, what each call of the text did on its way,
//! and the outcome that RULES section 6 gives for it.
use crate::flags::{flags, set_flags, ALL, NAN_AROSE};
use crate::calls::{self, *};
use crate::ours;
use crate::principal;
use nalgebra::hooks::{Function, Op};
use std::cell::UnsafeCell;
use std::panic::Location;

/// Where the elementary functions come from.
#[derive(Copy, Clone, PartialEq)]
pub enum Mode {
    Ours,
    /// The machine's own, as the untouched Rust would call them: for what the Rust does where ours refuses.
    Machine,
    /// Logarithms are the strains given, exponentials are only noted: Rankine's projection by itself.
    Strains,
}

/// One of nalgebra's own operations, met on the way.
#[derive(Clone)]
pub struct Met {
    pub op: Op,
    pub at: &'static Location<'static>,
    pub input: Vec<f64>,
    pub output: Vec<f64>,
}

/// An elementary function, met on the way.
#[derive(Copy, Clone)]
pub struct Asked {
    pub which: Function,
    pub x: f64,
    pub result: f64,
    pub line: u32,
}

pub struct Watch {
    pub mode: Mode,
    pub factors: [f64; 21],
    /// The principal values that the verdict was on, and the largest size in the stress's lower triangle.
    pub principal: [f64; 3],
    pub largest: f64,
    pub strains: Vec<f64>,
    /// The first refusal met: 0, an elementary function's, or 3 for a NaN that had arisen.
    pub event: u8,
    /// Monaghan's single-particle root: its negative or NaN argument is let through.
    pub lenient: bool,
    pub let_through: bool,
    /// The projection has ended: what comes after it is the update's.
    pub ended: bool,
    pub met: Vec<Met>,
    pub asked: Vec<Asked>,
}

struct Cell(UnsafeCell<Option<Watch>>);
unsafe impl Sync for Cell {}
static WATCH: Cell = Cell(UnsafeCell::new(None));

/// The harness has one thread.
#[allow(clippy::mut_from_ref)]
pub fn watch() -> &'static mut Watch {
    let w = unsafe { &mut *WATCH.0.get() };
    w.get_or_insert_with(|| Watch {
        mode: Mode::Ours,
        factors: [0.0; 21],
        principal: [0.0; 3],
        largest: 0.0,
        strains: Vec::new(),
        event: 0,
        lenient: false,
        let_through: false,
        ended: false,
        met: Vec::new(),
        asked: Vec::new(),
    })
}

/// What an elementary function says of an argument inside a law: a NaN is the law's 3, an infinity lies on its side of the range.
fn on_path(status: u8, x: f64) -> u8 {
    if x.is_nan() {
        3
    } else if x.is_infinite() {
        if x > 0.0 {
            10
        } else {
            2
        }
    } else {
        status
    }
}

/// One of the first nine calls as the machine has it; powers are of a rounded third, as in the text.
pub fn machine_number(n: usize, x: f64) -> f64 {
    match n {
        EXP => x.exp(),
        LN => x.ln(),
        SINH => x.sinh(),
        SIN => x.sin(),
        SQRT => x.sqrt(),
        CBRT => x.powf(1.0 / 3.0),
        INV_CBRT => x.powf(-1.0 / 3.0),
        CBRT_SQUARED => x.powf(2.0 / 3.0),
        _ => x.powf(-2.0 / 3.0),
    }
}

fn elementary(w: &mut Watch, which: Function, x: f64) -> f64 {
    if w.mode == Mode::Machine {
        return machine_number(which as usize, x);
    }
    if w.mode == Mode::Strains && which == Function::Ln {
        return w.strains[w.asked.iter().filter(|a| a.which == Function::Ln).count()];
    }
    if w.mode == Mode::Strains {
        w.ended |= which == Function::Sqrt;
        return 1.0;
    }
    if w.lenient && which == Function::Sqrt && w.asked.iter().all(|a| a.which != Function::Sqrt) && (x.is_nan() || x < 0.0) {
        w.let_through = true;
        return f64::NAN;
    }
    let mut out = [0u64];
    let status = ours::elementary(which as usize, x, &mut out);
    if status != 0 {
        if w.event == 0 {
            w.event = on_path(status, x);
        }
        return f64::NAN;
    }
    f64::from_bits(out[0])
}

#[no_mangle]
pub fn beside_elementary(which: Function, x: f64, at: &'static Location<'static>) -> f64 {
    let was = flags();
    let w = watch();
    let first_root = w.lenient && which == Function::Sqrt && w.asked.iter().all(|a| a.which != Function::Sqrt);
    if w.event == 0 && was & NAN_AROSE != 0 && !first_root && !w.let_through && !w.ended {
        w.event = 3;
    }
    let result = elementary(w, which, x);
    w.asked.push(Asked { which, x, result, line: at.line() });
    set_flags(if first_root { was & !NAN_AROSE } else { was });
    result
}

#[no_mangle]
pub fn beside_site(op: Op, at: &'static Location<'static>, input: &[f64], output: &[f64]) {
    let was = flags();
    watch().met.push(Met { op, at, input: input.to_vec(), output: output.to_vec() });
    set_flags(was);
}

#[no_mangle]
pub fn beside_factors() -> &'static [f64; 21] {
    &watch().factors
}

#[no_mangle]
pub fn beside_principal(lower: [f64; 6]) -> [f64; 3] {
    let was = flags();
    let w = watch();
    if w.event == 0 && was & NAN_AROSE != 0 {
        w.event = 3;
    }
    // What follows is the verdict's.
    w.ended = true;
    (w.principal, w.largest) = principal::values(lower);
    set_flags(was);
    w.principal
}

/// Whether a judged call's greatest value or shear lies so near a limit that values within a part of the stress's size may tell otherwise.
pub fn near_a_limit(n: usize, i: &[u64], part: f64) -> bool {
    let at = CALLS[n].inputs - FLOATS - 2;
    let w = watch();
    let (least, greatest) = w.principal.iter().fold((f64::MAX, f64::MIN), |(a, b), x| (a.min(*x), b.max(*x)));
    let near = |x: f64, limit: u64| (x - f64::from_bits(limit)).abs() <= part * w.largest;
    near(greatest, i[at]) || near(greatest / 2.0 - least / 2.0, i[at + 1])
}

fn floats(i: &[u64]) -> Vec<f64> {
    i.iter().map(|x| f64::from_bits(*x)).collect()
}

/// Where a call's inputs have the factors.
fn place_factors(n: usize, i: &[u64]) {
    let w = watch();
    let f = floats(i);
    match n {
        UPDATE_SNOW..=UPDATE_NACC => {
            let k = calls::parameters(n - UPDATE);
            w.factors.copy_from_slice(&f[k + 9..k + 30]);
        }
        COROTATED_STRESS_AND_VERDICT => w.factors.copy_from_slice(&f[15..36]),
        COROTATED_ELASTIC_ENERGY_DENSITY => w.factors[9..12].copy_from_slice(&f[5..8]),
        COROTATED_POS_ENERGY => w.factors[9..12].copy_from_slice(&f[14..17]),
        _ => {}
    }
}

/// Runs a call of the text in build 2; what it met stays in `watch()`.
pub fn run(n: usize, i: &[u64], o: &mut [u64], mode: Mode) {
    place_factors(n, i);
    let w = watch();
    w.mode = mode;
    w.event = 0;
    w.lenient = n == MONAGHAN_TIMESTEP_BOUND;
    w.let_through = false;
    w.ended = false;
    w.met.clear();
    w.asked.clear();
    let was = flags();
    set_flags(was & !ALL);
    calls::call(n, i, o);
    let after = flags();
    set_flags(was);
    let w = watch();
    if w.event == 0 && after & NAN_AROSE != 0 && !w.let_through && !w.ended {
        w.event = 3;
    }
}

/// What RULES has a call answer: 0 and the words, or a refusal's number and the words as they came.
#[derive(Clone, PartialEq, Debug)]
pub struct Answer {
    pub status: u8,
    pub out: Vec<u64>,
}

pub fn finite(x: u64) -> bool {
    f64::from_bits(x).is_finite()
}

/// Section 4's determinant of the nine floats of F by rows, as bits: along the first row. Any NaN is 7ff8000000000000.
pub fn determinant(f: &[u64]) -> u64 {
    let [a, b, c, d, e, f, g, h, i]: [f64; 9] = std::array::from_fn(|k| f64::from_bits(f[k]));
    let x = a * (e * i - f * h) - b * (d * i - f * g) + c * (d * h - e * g);
    if x.is_nan() {
        0x7ff8_0000_0000_0000
    } else {
        x.to_bits()
    }
}

/// A record with the determinant of the F that stands in it.
pub fn complete(record: &mut [u64]) {
    record[BARE] = determinant(record);
}

fn is_flag(x: u64) -> bool {
    x == 0 || x == 1f64.to_bits()
}

/// The words that are floats.
pub fn float_at(n: usize, k: usize) -> bool {
    !(calls::is_monaghan(n) && k == 1) && CALLS[n].flag != Some(k)
}

/// 6 for a flag, then 1 for an input, then 11 for a record's determinant, then 3 for a modulus: before any step.
fn before(n: usize, i: &[u64]) -> u8 {
    if let Some(k) = CALLS[n].flag {
        if !is_flag(i[k]) {
            return 6;
        }
    }
    if n == SNOW_CLAMP {
        return 0;
    }
    if (0..i.len()).any(|k| float_at(n, k) && !finite(i[k])) {
        return 1;
    }
    if let Some(k) = calls::record_at(n) {
        let r = &i[k..];
        if r[BARE] != determinant(r) {
            return 11;
        }
    }
    let mut moduli = [0u64; 2];
    if n == UPDATE_RANKINE || n == RANKINE_PROJECT {
        calls::call(LAME_LAMBDA_MU, &i[..2], &mut moduli);
    }
    if n == UPDATE_NACC {
        calls::call(SHEAR_MODULUS, &i[..2], &mut moduli[..1]);
        calls::call(BULK_MODULUS, &i[..2], &mut moduli[1..]);
    }
    if moduli.iter().all(|x| finite(*x)) {
        0
    } else {
        3
    }
}

/// A NaN before Monaghan's single-particle root: in the pressure, or in cell width over determinant.
fn nan_before_root(i: &[u64]) -> bool {
    let p = [i[0], i[1], i[2], i[3], i[5], i[6], i[7]];
    let mut o = [0];
    run(MONAGHAN_PRESSURE, &p, &mut o, Mode::Ours);
    watch().event == 3 || (f64::from_bits(i[11]) / f64::from_bits(i[4])).is_nan()
}

/// Rankine's projection by itself: the update with strength s and hardening 1, its logarithms the strains, its exponentials noted.
fn project(i: &[u64]) -> Answer {
    let w = watch();
    w.strains = floats(&i[5..8]);
    let mut p = vec![i[0], i[1], i[4], 0];
    let mut record = vec![0u64; FLOATS];
    record[32] = 1f64.to_bits();
    p.extend(record);
    let mut o = [0u64; FLOATS + 2];
    run(21, &p, &mut o, Mode::Strains);
    let w = watch();
    let new: Vec<u64> = w.asked.iter().filter(|a| a.which == Function::Exp).map(|a| a.x.to_bits()).collect();
    let out = if new.len() == 3 { new } else { i[5..8].to_vec() };
    Answer { status: w.event, out }
}

/// Drucker-Prager's alpha: its sine as the update asks for it, then the last line of the text.
fn alpha(i: &[u64]) -> Answer {
    let mut p = i[..8].to_vec();
    p[6] = 0;
    let mut record = vec![0u64; FLOATS];
    for k in [18, 19, 20, 30] {
        record[k] = 1f64.to_bits();
    }
    record[32] = i[8];
    p.extend(record);
    let mut o = [0u64; FLOATS + 2];
    run(22, &p, &mut o, Mode::Ours);
    let w = watch();
    let after_sine = w.asked.iter().position(|a| a.which == Function::Sin);
    let Some(k) = after_sine else { return Answer { status: w.event, out: vec![0] } };
    if w.asked[k].result.is_nan() {
        return Answer { status: w.event, out: vec![0] };
    }
    Answer { status: 0, out: vec![alpha_asked().to_bits()] }
}

/// The text's last line of alpha, over the sine and the root that the update has asked for.
fn alpha_asked() -> f64 {
    let w = watch();
    let k = w.asked.iter().position(|a| a.which == Function::Sin).unwrap();
    let (s, root) = (w.asked[k].result, w.asked[k + 1].result);
    root * (2.0 * s) / (3.0 - s)
}

/// dq, which the text's projection hands back beside the new values.
fn drucker_prager_dq(i: &[u64]) -> f64 {
    let a = alpha_asked();
    let (met, asked) = (std::mem::take(&mut watch().met), std::mem::take(&mut watch().asked));
    let dq = calls::drucker_prager_projected(i, 26, i[42], a).unwrap();
    let w = watch();
    w.met = met;
    w.asked = asked;
    dq
}

/// The answer that RULES and build 2 give.
pub fn expected(n: usize, i: &[u64]) -> Answer {
    let words = CALLS[n].outputs;
    let refused = |status| Answer { status, out: vec![0; words] };
    let early = before(n, i);
    if early != 0 {
        watch().met.clear();
        watch().asked.clear();
        return refused(early);
    }
    if n == MONAGHAN_TIMESTEP_BOUND && nan_before_root(i) {
        return refused(3);
    }
    if n == RANKINE_PROJECT || n == DRUCKER_PRAGER_ALPHA {
        let a = if n == RANKINE_PROJECT { project(i) } else { alpha(i) };
        let bad = a.status == 0 && !a.out.iter().all(|x| finite(*x));
        return match (a.status, bad) {
            (0, false) => a,
            (0, true) => refused(3),
            (s, _) => refused(s),
        };
    }
    let mut o = vec![0; words];
    run(n, i, &mut o, Mode::Ours);
    let w = watch();
    if n == SNOW_CLAMP {
        return Answer { status: 0, out: o };
    }
    if w.event != 0 {
        return refused(w.event);
    }
    if calls::is_update(n) {
        return updated(n, i, o);
    }
    if !o.iter().all(|x| finite(*x)) {
        return refused(3);
    }
    Answer { status: 0, out: o }
}

/// The record after an update, with its two places of answer.
fn updated(n: usize, i: &[u64], mut o: Vec<u64>) -> Answer {
    let w = watch();
    let model = n - UPDATE;
    let k = calls::parameters(model);
    match w.met.iter().rfind(|m| m.op == Op::Recompose) {
        None => {
            o[..FLOATS].copy_from_slice(&i[k..]);
            o[FLOATS] = 0;
            o[FLOATS + 1] = 0;
        }
        Some(m) => {
            for j in 0..3 {
                o[18 + j] = m.input[9 + j].to_bits();
            }
            let amount = match model {
                0 => o[33],
                1 => o[32],
                // dq is what the text hands back beside the new values: the norm of the strain, or gamma.
                2 => drucker_prager_dq(i).to_bits(),
                _ => o[35],
            };
            complete(&mut o);
            if !o[..FLOATS].iter().all(|x| finite(*x)) || !finite(amount) {
                return Answer { status: 3, out: vec![0; FLOATS + 2] };
            }
            o[FLOATS] = 1;
            o[FLOATS + 1] = amount;
        }
    }
    Answer { status: 0, out: o }
}

/// What build 2 gives with the machine's own elementary functions, also where a result is not finite.
pub fn with_machine(n: usize, i: &[u64]) -> Answer {
    let mut o = vec![0; CALLS[n].outputs];
    run(n, i, &mut o, Mode::Machine);
    if calls::is_update(n) {
        let a = updated(n, i, o.clone());
        if a.status == 0 {
            return a;
        }
    }
    Answer { status: 0, out: o }
}

pub const FINITE: &str = "gave finite numbers";
pub const UNTOUCHED: &str = "left untouched";

/// What the Rust did with inputs that ours refuses, with the machine's own elementary functions.
pub fn instead(n: usize, i: &[u64]) -> &'static str {
    if calls::is_elementary(n) || n == RANKINE_PROJECT || n == DRUCKER_PRAGER_ALPHA {
        return "no public call of the text";
    }
    let mut o = vec![0; CALLS[n].outputs];
    run(n, i, &mut o, Mode::Machine);
    let update = calls::is_update(n);
    if update && !watch().met.iter().any(|m| m.op == Op::Recompose) {
        return UNTOUCHED;
    }
    let words = if update {
        let mut w = o[..9].to_vec();
        w.extend(&o[30..36]);
        w
    } else {
        o
    };
    let f = floats(&words);
    if f.iter().any(|x| x.is_nan()) {
        "gave a NaN"
    } else if f.iter().any(|x| x.is_infinite()) {
        "gave an infinity"
    } else {
        FINITE
    }
}
