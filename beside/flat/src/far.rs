//! The untouched Rust's distance from ours, on nalgebra's factors of each record's F.
use crate::draw::{compose, Draw};
use crate::law::{moduli, Record, ALPHA, LAWS, PHASE, SIGMA};
use crate::library::Library;
use crate::{bits, build2, ours, rankine};

type Update = extern "C" fn(usize, *const f64, *mut Record);
type Factors = extern "C" fn(*mut Record);

pub struct Untouched {
    update: Update,
    factors: Factors,
}

impl Untouched {
    pub fn open(path: &str) -> Option<Untouched> {
        let lib = Library::open(path)?;
        let update = unsafe { std::mem::transmute::<usize, Update>(lib.find("untouched_update")?) };
        let factors = unsafe { std::mem::transmute::<usize, Factors>(lib.find("untouched_factors")?) };
        Some(Untouched { update, factors })
    }

    /// F and the six scalars after the Rust's update, by its own factors.
    pub fn update(&self, model: usize, p: &[f64], r: &Record) -> Record {
        let mut o = *r;
        (self.update)(model, p.as_ptr(), &mut o);
        o
    }
}

/// The greatest distance of F and the six scalars, each over the larger of 1 and its size.
fn distance(x: &Record, y: &Record) -> f64 {
    let places = (0..4).chain(PHASE..x.len());
    places.map(|k| if x[k] == y[k] { 0.0 } else { (x[k] - y[k]).abs() / y[k].abs().max(1.0) }).fold(0.0, f64::max)
}

fn moved(was: &Record, now: &Record) -> bool {
    (0..4).chain(PHASE..was.len()).any(|k| bits(was)[k] != bits(now)[k])
}

/// Where a last bit of an elementary function grows: nearly even strains of Drucker-Prager (rows 21 and 22), whose direction is that of rounding errors;
/// of NACC p_tr within 2^-20 of p0 of a tip, whose difference is under the surface's root.
fn at_corner(model: usize, p: &[f64], r: &Record) -> bool {
    let near = 2f64.powi(-20);
    match model {
        2 => (r[SIGMA] / r[SIGMA + 1] - 1.0).abs() <= near,
        3 => {
            let kappa = moduli(p)[2];
            let p0 = kappa * (1.0e-5 + (p[4] * (-r[ALPHA]).max(0.0)).sinh());
            let j = r[SIGMA] * r[SIGMA + 1];
            let p_tr = -(kappa / 2.0 * (j - 1.0 / j)) * j;
            (p_tr - p0).abs() <= near * p0 || (p_tr + p[2] * p0).abs() <= near * p0
        }
        _ => false,
    }
}

/// Of each law: worst and median distance, how often one side moved and the other not, and build 2 with the machine's functions beside it.
pub fn table(u: &Untouched, draw: &mut Draw, count: u64) {
    println!("\nThe untouched Rust's distance from ours, on nalgebra's factors (of Rankine without row 27's records)");
    for (model, (name, _)) in LAWS.iter().enumerate() {
        let (mut near, mut corner) = (Vec::new(), Vec::new());
        let (mut refused, mut parted, mut row, mut unsorted, mut same) = (0, 0, 0, 0, 0);
        for _ in 0..count {
            let (p, mut r) = draw.plain(model);
            compose(&mut r);
            (u.factors)(&mut r);
            unsorted += (r[8] < r[9]) as u64;
            let Some(Ok((o, _))) = ours::update(model as u64, &p, &r) else {
                refused += 1;
                continue;
            };
            let rust = u.update(model, &p, &r);
            let two = build2::run(model, &p, &r, true);
            same += (bits(&two) == bits(&rust)) as u64;
            if model == 1 && matches!(rankine::expected(&p, &r), Ok((_, "both strains"))) && rankine::may_part(&p, &r) {
                row += 1;
            } else if moved(&r, &o) != moved(&r, &rust) {
                parted += 1;
            } else {
                let d = distance(&o, &rust);
                match at_corner(model, &p, &r) {
                    true => corner.push(d),
                    false => near.push(d),
                }
            }
        }
        println!(
            "  {name}: {}; at a corner {}; one moved and the other not {parted}, row 27 {row}, refused here {refused}",
            worst_and_median(&mut near),
            worst_and_median(&mut corner)
        );
        println!(
            "    build 2 with the machine's functions beside the untouched Rust: {same} of {} the same in every bit; second sigma the larger {unsorted}",
            count - refused
        );
    }
}

fn worst_and_median(d: &mut [f64]) -> String {
    d.sort_by(f64::total_cmp);
    match d.last() {
        Some(worst) => format!("{} compared, worst {worst:.2e}, median {:.2e}", d.len(), d[d.len() / 2]),
        None => "none".to_string(),
    }
}
