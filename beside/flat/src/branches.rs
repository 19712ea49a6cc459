//! Which branches a call took that was not refused, told by the lines of the text that it came through.
use crate::build2::watch;
use crate::law::{self, *};
use nalgebra::hooks::{Function, Op};

/// Each branch of each law. NACC's p_x = p1 is not among them: ../README.md, "Two branches that no accepted call takes".
pub const ALL: [&[&str]; 4] = [
    &["raised to the lower bound", "cut to the upper bound", "neither"],
    &["untouched", "one strain, the first", "one strain, the second", "both strains", "hardening capped", "hardening not capped"],
    &[
        "not active",
        "tip: no deviatoric part",
        "tip: trace above 0",
        "inside",
        "surface",
        "new determinant stands",
        "previous plus correction",
    ],
    &[
        "upper tip, alpha stepped",
        "upper tip, alpha kept",
        "lower tip, alpha stepped",
        "lower tip, alpha kept",
        "inside",
        "surface, hardening off",
        "surface, p0 at most 1e-4",
        "surface, p_tr near p0",
        "surface, p_tr near -beta p0",
        "surface, j_e_x at most 1e-4",
        "surface, alpha stepped",
    ],
];

fn met(line: u32, op: Op) -> bool {
    watch().met.iter().any(|m| m.line == line && m.op == op)
}

fn result(line: u32, op: Op) -> f64 {
    watch().met.iter().find(|m| m.line == line && m.op == op).map_or(f64::NAN, |m| m.output[0])
}

fn clamped(was: f64, now: f64) -> &'static str {
    if now > was {
        "raised to the lower bound"
    } else if now < was {
        "cut to the upper bound"
    } else {
        "neither"
    }
}

fn drucker_prager(stored: bool) -> Vec<&'static str> {
    let place = match (watch().asked.is_empty(), met(48, Op::Repeat), met(57, Op::Normalize)) {
        (true, _, _) => "not active",
        (_, true, _) if result(44, Op::Sum) > 0.0 => "tip: trace above 0",
        (_, true, _) => "tip: no deviatoric part",
        (_, _, true) => "surface",
        _ => "inside",
    };
    let stands = result(89, Op::Product) - result(87, Op::Product) > 0.0;
    let kept = if stands { "new determinant stands" } else { "previous plus correction" };
    [place].into_iter().chain(stored.then_some(kept)).collect()
}

fn nacc(p: &[f64], r: &Record, stored: bool) -> &'static str {
    let on = p[3] == 1.0;
    let asked = |line: u32, which: Function| watch().asked.iter().find(|a| a.line == line && a.which == which).map(|a| a.result);
    let kappa = law::moduli(p)[2];
    let p0 = kappa * (1.0e-5 + asked(76, Function::Sinh).unwrap());
    let j = r[SIGMA] * r[SIGMA + 1];
    let p_tr = -(kappa / 2.0 * (j - 1.0 / j)) * j;
    match () {
        _ if met(89, Op::Fill) => ["upper tip, alpha kept", "upper tip, alpha stepped"][on as usize],
        _ if met(101, Op::Fill) => ["lower tip, alpha kept", "lower tip, alpha stepped"][on as usize],
        _ if !stored => "inside",
        _ if met(125, Op::Normalize) && asked(143, Function::Ln).is_some() => "surface, alpha stepped",
        _ if met(125, Op::Normalize) => "surface, j_e_x at most 1e-4",
        _ if !on => "surface, hardening off",
        _ if p0 <= 1.0e-4 => "surface, p0 at most 1e-4",
        _ if p_tr >= p0 - 1.0e-4 => "surface, p_tr near p0",
        _ => "surface, p_tr near -beta p0",
    }
}

/// Of Snow, Drucker-Prager and NACC, after build 2's run; Rankine's are RULES' own.
pub fn taken(model: usize, p: &[f64], r: &Record, after: &Record, stored: bool) -> Vec<&'static str> {
    match model {
        0 => (SIGMA..SIGMA + 2).map(|k| clamped(r[k], after[k])).collect(),
        2 => drucker_prager(stored),
        _ => vec![nacc(p, r, stored)],
    }
}
