//! Which branches of section 5 a call took, told by the lines of the text that it came through and by the numbers it compared there.
use crate::calls::{self, *};
use crate::inside::{watch, Answer};
use nalgebra::hooks::{Function, Op};

/// Every branch of every call that has some, in the order of the table. The last word is why one cannot be reached, if so.
pub const ALL: &[(usize, &str, &str)] = &[
    (INV_EXACT, "zero", ""),
    (INV_EXACT, "other", ""),
    (UPDATE_SNOW, "raised to the lower bound", ""),
    (UPDATE_SNOW, "cut to the upper bound", ""),
    (UPDATE_SNOW, "neither", ""),
    (SNOW_CLAMP, "NaN to the lower bound", ""),
    (SNOW_CLAMP, "raised to the lower bound", ""),
    (SNOW_CLAMP, "cut to the upper bound", ""),
    (SNOW_CLAMP, "neither", ""),
    (UPDATE_RANKINE, "untouched", ""),
    (UPDATE_RANKINE, "one strain", ""),
    (UPDATE_RANKINE, "two strains", ""),
    (UPDATE_RANKINE, "all strains", ""),
    (UPDATE_RANKINE, "hardening capped", ""),
    (UPDATE_RANKINE, "hardening not capped", ""),
    (RANKINE_PROJECT, "untouched", ""),
    (RANKINE_PROJECT, "one strain", ""),
    (RANKINE_PROJECT, "two strains", ""),
    (RANKINE_PROJECT, "all strains", ""),
    (UPDATE_DRUCKER_PRAGER, "not active", ""),
    (UPDATE_DRUCKER_PRAGER, "tip: no deviatoric part", ""),
    (UPDATE_DRUCKER_PRAGER, "tip: trace above 0", ""),
    (UPDATE_DRUCKER_PRAGER, "inside", ""),
    (UPDATE_DRUCKER_PRAGER, "surface", ""),
    (UPDATE_DRUCKER_PRAGER, "new determinant stands", ""),
    (UPDATE_DRUCKER_PRAGER, "previous plus correction", ""),
    (UPDATE_NACC, "upper tip, alpha stepped", ""),
    (UPDATE_NACC, "upper tip, alpha kept", ""),
    (UPDATE_NACC, "lower tip, alpha stepped", ""),
    (UPDATE_NACC, "lower tip, alpha kept", ""),
    (UPDATE_NACC, "inside", ""),
    (UPDATE_NACC, "surface, hardening off", ""),
    (UPDATE_NACC, "surface, p0 at most 1e-4", ""),
    (UPDATE_NACC, "surface, p_tr near p0", ""),
    (UPDATE_NACC, "surface, p_tr near -beta p0", ""),
    (UPDATE_NACC, "surface, p_x = p1", "p1 lies on the other side: beside/README.md"),
    (UPDATE_NACC, "surface, p_x = p2", ""),
    (UPDATE_NACC, "surface, j_e_x at most 1e-4", ""),
    (UPDATE_NACC, "surface, alpha stepped", ""),
    (NEO_HOOKEAN_FPK_STRESS, "determinant 0", "its power is refused by 2: refused calls reach it"),
    (NEO_HOOKEAN_FPK_STRESS, "inverse", ""),
    (NEO_HOOKEAN_ELASTIC_ENERGY_DENSITY, "j at least 1", ""),
    (NEO_HOOKEAN_ELASTIC_ENERGY_DENSITY, "j below 1", ""),
    (NEO_HOOKEAN_POS_ENERGY, "j at least 1", ""),
    (NEO_HOOKEAN_POS_ENERGY, "j below 1", ""),
    (COROTATED_POS_ENERGY, "j below 1", ""),
    (COROTATED_POS_ENERGY, "j at least 1", ""),
    (MONAGHAN_PRESSURE, "from the density", ""),
    (MONAGHAN_PRESSURE, "largest negative", ""),
    (MONAGHAN_KIRCHHOFF_STRESS, "no viscosity", ""),
    (MONAGHAN_KIRCHHOFF_STRESS, "viscosity", ""),
    (MONAGHAN_TIMESTEP_BOUND, "single-particle step", ""),
    (MONAGHAN_TIMESTEP_BOUND, "the other step", ""),
    (MONAGHAN_TIMESTEP_BOUND, "root let through", ""),
    (NEO_HOOKEAN_STRESS_AND_VERDICT, "j at least 1", ""),
    (NEO_HOOKEAN_STRESS_AND_VERDICT, "j below 1", ""),
    (NEO_HOOKEAN_STRESS_AND_VERDICT, "principal limit", ""),
    (NEO_HOOKEAN_STRESS_AND_VERDICT, "shear limit only", ""),
    (NEO_HOOKEAN_STRESS_AND_VERDICT, "not failed", ""),
    (COROTATED_STRESS_AND_VERDICT, "phase 1", ""),
    (COROTATED_STRESS_AND_VERDICT, "split, j below 1", ""),
    (COROTATED_STRESS_AND_VERDICT, "split, j at least 1", ""),
    (COROTATED_STRESS_AND_VERDICT, "tensile part dropped", ""),
    (COROTATED_STRESS_AND_VERDICT, "tensile part kept", ""),
    (COROTATED_STRESS_AND_VERDICT, "principal limit", ""),
    (COROTATED_STRESS_AND_VERDICT, "shear limit only", ""),
    (COROTATED_STRESS_AND_VERDICT, "not failed", ""),
];

fn f(i: &[u64], k: usize) -> f64 {
    f64::from_bits(i[k])
}

fn met(line: u32, op: Op) -> bool {
    watch().met.iter().any(|m| m.at.line() == line && m.op == op)
}

/// The first number of an operation that was met, or NaN.
pub fn result(line: u32, op: Op) -> f64 {
    watch().met.iter().find(|m| m.at.line() == line && m.op == op).map_or(f64::NAN, |m| m.output[0])
}

fn asked(line: u32, which: Function) -> Option<f64> {
    watch().asked.iter().find(|a| a.line == line && a.which == which).map(|a| a.result)
}

/// The branches of a call that was not refused, or of Snow's clamp.
pub fn taken(n: usize, i: &[u64], a: &Answer, out: &mut Vec<&'static str>) {
    let o = |k: usize| f64::from_bits(a.out[k]);
    match n {
        INV_EXACT => out.push(if f(i, 0) == 0.0 { "zero" } else { "other" }),
        UPDATE_SNOW => (0..3).for_each(|k| clamped(f(i, 3 + 18 + k), o(18 + k), out)),
        SNOW_CLAMP => (0..3).for_each(|k| clamped(f(i, 3 + k), o(k), out)),
        UPDATE_RANKINE | RANKINE_PROJECT => rankine(n, i, a, out),
        UPDATE_DRUCKER_PRAGER => drucker_prager(a, out),
        UPDATE_NACC => nacc(i, a, out),
        NEO_HOOKEAN_FPK_STRESS => out.push("inverse"),
        NEO_HOOKEAN_ELASTIC_ENERGY_DENSITY..=NEO_HOOKEAN_POS_ENERGY => split_at_one(out),
        NEO_HOOKEAN_STRESS_AND_VERDICT => {
            split_at_one(out);
            verdict(n, i, a, out);
        }
        COROTATED_STRESS_AND_VERDICT => {
            corotated(i, out);
            verdict(n, i, a, out);
        }
        COROTATED_POS_ENERGY => out.push(if determinant() < 1.0 { "j below 1" } else { "j at least 1" }),
        MONAGHAN_PRESSURE => out.push(if o(0) == -f(i, 3) { "largest negative" } else { "from the density" }),
        MONAGHAN_KIRCHHOFF_STRESS => out.push(if f(i, 2) != 0.0 { "viscosity" } else { "no viscosity" }),
        MONAGHAN_TIMESTEP_BOUND => {
            let root = watch().asked.iter().rfind(|x| x.which == Function::Sqrt).unwrap().result;
            let through = watch().let_through;
            out.push(match (through, o(0) == f(i, 11) / root) {
                (true, _) => "root let through",
                (_, true) => "the other step",
                _ => "single-particle step",
            });
        }
        _ => {}
    }
}

fn split_at_one(out: &mut Vec<&'static str>) {
    out.push(if determinant() >= 1.0 { "j at least 1" } else { "j below 1" })
}

/// By the limit, which stands before the record.
fn verdict(n: usize, i: &[u64], a: &Answer, out: &mut Vec<&'static str>) {
    let greatest = watch().principal.iter().copied().fold(f64::MIN, f64::max);
    out.push(match (a.out[9], greatest > f(i, CALLS[n].inputs - FLOATS - 2)) {
        (0, _) => "not failed",
        (_, true) => "principal limit",
        _ => "shear limit only",
    });
}

fn determinant() -> f64 {
    watch().met.iter().find(|m| m.op == Op::Determinant).unwrap().output[0]
}

fn clamped(old: f64, new: f64, out: &mut Vec<&'static str>) {
    out.push(if old.is_nan() {
        "NaN to the lower bound"
    } else if new > old {
        "raised to the lower bound"
    } else if new < old {
        "cut to the upper bound"
    } else {
        "neither"
    });
}

fn rankine(n: usize, i: &[u64], a: &Answer, out: &mut Vec<&'static str>) {
    if met(62, Op::Sum) {
        out.push("one strain");
    } else if met(65, Op::Sum) {
        out.push("two strains");
    } else if met(71, Op::Fill) {
        out.push("all strains");
    } else {
        out.push("untouched");
        return;
    }
    if n == UPDATE_RANKINE {
        let capped = a.out[32] == i[2] && f(i, 3) * result(74, Op::Norm) + f(i, 4 + 32) > f(i, 2);
        out.push(if capped { "hardening capped" } else { "hardening not capped" });
    }
}

fn drucker_prager(a: &Answer, out: &mut Vec<&'static str>) {
    if watch().asked.is_empty() {
        out.push("not active");
        return;
    }
    if met(48, Op::Repeat) {
        let above = result(44, Op::Sum) > 0.0;
        out.push(if above { "tip: trace above 0" } else { "tip: no deviatoric part" });
    } else if met(57, Op::Normalize) {
        out.push("surface");
    } else {
        out.push("inside");
    }
    if a.out[FLOATS] == 1 {
        let diff = result(89, Op::Product) - result(87, Op::Product);
        out.push(if diff > 0.0 { "new determinant stands" } else { "previous plus correction" });
    }
}

fn nacc(i: &[u64], a: &Answer, out: &mut Vec<&'static str>) {
    if met(89, Op::Fill) {
        out.push(if f(i, 3) == 1.0 { "upper tip, alpha stepped" } else { "upper tip, alpha kept" });
        return;
    }
    if met(101, Op::Fill) {
        out.push(if f(i, 3) == 1.0 { "lower tip, alpha stepped" } else { "lower tip, alpha kept" });
        return;
    }
    if a.out[FLOATS] == 0 {
        out.push("inside");
        return;
    }
    let mut kappa = [0];
    calls_quietly(|| calls::call(BULK_MODULUS, &i[..2], &mut kappa));
    let kappa = f(&kappa, 0);
    let beta = f(i, 2);
    let p0 = kappa * (1.0e-5 + asked(76, Function::Sinh).unwrap());
    let s: Vec<f64> = (0..3).map(|k| f(i, 6 + 18 + k)).collect();
    let j = s[0] * s[1] * s[2];
    let p_tr = -(kappa / 2.0 * (j - 1.0 / j)) * j;
    if !met(125, Op::Normalize) {
        out.push(if f(i, 3) != 1.0 {
            "surface, hardening off"
        } else if p0 <= 1.0e-4 {
            "surface, p0 at most 1e-4"
        } else if p_tr >= p0 - 1.0e-4 {
            "surface, p_tr near p0"
        } else {
            "surface, p_tr near -beta p0"
        });
        return;
    }
    let stepped = asked(143, Function::Ln).is_some();
    out.push(if stepped { "surface, alpha stepped" } else { "surface, j_e_x at most 1e-4" });
    let m = f(i, 5);
    let d = &watch().met.iter().find(|x| x.at.line() == 125 && x.op == Op::Normalize).unwrap().output;
    let p_c = (1.0 - beta) * p0 / 2.0;
    let b = m * m * d[0] * (2.0 * p_c - p0 + beta * p0);
    let a = m * m * d[0] * d[0] + (1.0 + 2.0 * beta) * d[1] * d[1];
    let discr = asked(130, Function::Sqrt).unwrap();
    let p1 = p_c + (-b + discr) / (2.0 * a) * d[0];
    out.push(if (p_tr - p_c) * (p1 - p_c) > 0.0 { "surface, p_x = p1" } else { "surface, p_x = p2" });
}

/// A call of the text that leaves what was watched as it is.
fn calls_quietly(run: impl FnOnce()) {
    let (met, asked) = (std::mem::take(&mut watch().met), std::mem::take(&mut watch().asked));
    run();
    let w = watch();
    w.met = met;
    w.asked = asked;
}

fn corotated(i: &[u64], out: &mut Vec<&'static str>) {
    let phase = f(i, 6 + 30);
    if phase == 1.0 {
        out.push("phase 1");
        return;
    }
    out.push(if determinant() < 1.0 { "split, j below 1" } else { "split, j at least 1" });
    let dropped = f(i, 0) == 1.0 && phase == 0.0;
    out.push(if dropped { "tensile part dropped" } else { "tensile part kept" });
}
