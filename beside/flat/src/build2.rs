//! Build 2 run and watched in two dimensions: the hooks that the crate nalgebra beside here asks, and the outcome that RULES section 6 gives.
use crate::flags::{flags, set_flags, ALL, NAN_AROSE};
use crate::law::{self, *};
use crate::ours;
use nalgebra::hooks::{Function, Op};
use std::cell::UnsafeCell;
use std::panic::Location;

/// The record after a call with its two places of answer, or a refusal's number.
pub type Outcome = Result<(Record, [u64; 2]), u8>;

pub struct Met {
    pub op: Op,
    pub line: u32,
    pub input: Vec<f64>,
    pub output: Vec<f64>,
}

pub struct Asked {
    pub which: Function,
    pub result: f64,
    pub line: u32,
}

/// What the call in hand met on its way. With `machine` the elementary functions are the machine's own.
#[derive(Default)]
pub struct Watch {
    machine: bool,
    factors: [f64; 21],
    event: u8,
    pub met: Vec<Met>,
    pub asked: Vec<Asked>,
}

struct Cell(UnsafeCell<Option<Watch>>);
unsafe impl Sync for Cell {}
static WATCH: Cell = Cell(UnsafeCell::new(None));

/// The harness has one thread.
#[allow(clippy::mut_from_ref)]
pub fn watch() -> &'static mut Watch {
    unsafe { &mut *WATCH.0.get() }.get_or_insert_with(Watch::default)
}

fn machine(which: Function, x: f64) -> f64 {
    match which {
        Function::Exp => x.exp(),
        Function::Ln => x.ln(),
        Function::Sinh => x.sinh(),
        Function::Sin => x.sin(),
        Function::Sqrt => x.sqrt(),
        Function::PowerMinusOne => x.powf(-1.0),
        Function::PowerHalf => x.powf(0.5),
        Function::PowerOne => x.powf(1.0),
        _ => panic!("no power of two axes"),
    }
}

/// Ours on a path: a NaN is 3, an infinity lies on its side of the range. The powers of two axes have section 3's range for powers.
pub fn elementary(which: Function, x: f64) -> Result<f64, u8> {
    let (least, greatest) = (2f64.powi(-60), 2f64.powi(60));
    match which {
        _ if x.is_nan() => Err(3),
        _ if x.is_infinite() => Err(if x > 0.0 { 10 } else { 2 }),
        Function::PowerMinusOne | Function::PowerHalf | Function::PowerOne if x < least => Err(2),
        Function::PowerMinusOne | Function::PowerHalf | Function::PowerOne if x > greatest => Err(10),
        Function::PowerMinusOne => Ok(1.0 / x),
        Function::PowerHalf => ours::elementary(Function::Sqrt, x),
        Function::PowerOne => Ok(x),
        _ => ours::elementary(which, x),
    }
}

#[no_mangle]
pub fn beside_elementary(which: Function, x: f64, at: &'static Location<'static>) -> f64 {
    let was = flags();
    let w = watch();
    if w.event == 0 && was & NAN_AROSE != 0 {
        w.event = 3;
    }
    let answer = if w.machine { Ok(machine(which, x)) } else { elementary(which, x) };
    if let (0, Err(e)) = (w.event, answer) {
        w.event = e;
    }
    let result = answer.unwrap_or(f64::NAN);
    w.asked.push(Asked { which, result, line: at.line() });
    set_flags(was);
    result
}

#[no_mangle]
pub fn beside_site(op: Op, at: &'static Location<'static>, input: &[f64], output: &[f64]) {
    let was = flags();
    watch().met.push(Met { op, line: at.line(), input: input.to_vec(), output: output.to_vec() });
    set_flags(was);
}

#[no_mangle]
pub fn beside_factors() -> &'static [f64; 21] {
    &watch().factors
}

#[no_mangle]
pub fn beside_principal(_: [f64; 6]) -> [f64; 3] {
    unreachable!("no principal values in two axes")
}

/// The text's update in build 2, on the record's own factors.
pub fn run(model: usize, p: &[f64], r: &Record, machine: bool) -> Record {
    let w = watch();
    *w = Watch { machine, ..Watch::default() };
    w.factors[..10].copy_from_slice(&r[U..PHASE]);
    let mut o = *r;
    let was = flags();
    set_flags(was & !ALL);
    law::update(model, p, &mut o);
    let after = flags();
    set_flags(was);
    if w.event == 0 && after & NAN_AROSE != 0 {
        w.event = 3;
    }
    o
}

/// The text's `new` of NACC in build 2, every field told; or the refusal of its angle: 1, then that of its steps.
pub fn made(p: &[f64]) -> Result<String, u8> {
    if !p[5].is_finite() {
        return Err(1);
    }
    let w = watch();
    *w = Watch::default();
    let was = flags();
    set_flags(was & !ALL);
    let law = law::by_angle(p);
    let after = flags();
    set_flags(was);
    match w.event {
        0 if after & NAN_AROSE != 0 => Err(3),
        0 => Ok(format!("{law:?}")),
        e => Err(e),
    }
}

/// 6 for a flag, then 1 for an input, then 3 for a modulus: before any step.
pub fn before(model: usize, p: &[f64], r: &Record) -> Result<(), u8> {
    let flag = [None, None, Some(6), Some(3)][model];
    if flag.is_some_and(|k: usize| ![0, 1f64.to_bits()].contains(&p[k].to_bits())) {
        return Err(6);
    }
    if !p.iter().chain(r).all(|x| x.is_finite()) {
        return Err(1);
    }
    let [lambda, mu, kappa] = law::moduli(p);
    let fine = match model {
        1 => lambda.is_finite() && mu.is_finite(),
        3 => mu.is_finite() && kappa.is_finite(),
        _ => true,
    };
    fine.then_some(()).ok_or(3)
}

/// dq, which the text's projection hands back beside the new values: alpha is the text's last line, over the sine and the root it asked for.
fn dq(p: &[f64], r: &Record) -> f64 {
    let w = watch();
    let k = w.asked.iter().position(|a| a.which == Function::Sin).unwrap();
    let (s, root) = (w.asked[k].result, w.asked[k + 1].result);
    let kept = std::mem::take(w);
    w.factors = kept.factors;
    let dq = law::drucker_prager_dq(p, r, root * (2.0 * s) / (3.0 - s));
    *w = kept;
    dq
}

/// The answer that RULES and build 2 give.
pub fn expected(model: usize, p: &[f64], r: &Record) -> Outcome {
    *watch() = Watch::default();
    before(model, p, r)?;
    let mut o = run(model, p, r, false);
    let w = watch();
    if w.event != 0 {
        return Err(w.event);
    }
    let Some(m) = w.met.iter().rfind(|m| m.op == Op::Recompose) else { return Ok((*r, [0, 0])) };
    o[SIGMA..SIGMA + 2].copy_from_slice(&m.input[4..6]);
    let amount = match model {
        0 => o[ELASTIC],
        1 => o[PLASTIC],
        2 => dq(p, r),
        _ => o[ALPHA],
    };
    if !o.iter().chain(&[amount]).all(|x| x.is_finite()) {
        return Err(3);
    }
    Ok((o, [1, amount.to_bits()]))
}
