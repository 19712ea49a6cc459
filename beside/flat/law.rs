// One way into the four plastic laws in two dimensions, for both builds: each includes this file.
use sparkl::dynamics::models::*;
use sparkl::math::{Matrix, Vector};

/// A flat record's floats and places, and how many parameters each law has.
pub const FLOATS: usize = 20;
pub const U: usize = 4;
pub const SIGMA: usize = 8;
pub const PHASE: usize = 14;
pub const DET: usize = 15;
pub const PLASTIC: usize = 16;
pub const ELASTIC: usize = 17;
pub const GAIN: usize = 18;
pub const ALPHA: usize = 19;
pub const LAWS: [(&str, usize); 4] = [("snow", 3), ("rankine", 4), ("drucker_prager", 8), ("nacc", 6)];

pub type Record = [f64; FLOATS];

fn drucker_prager(p: &[f64]) -> DruckerPragerPlasticity {
    DruckerPragerPlasticity {
        h0: p[0],
        h1: p[1],
        h2: p[2],
        h3: p[3],
        lambda: p[4],
        mu: p[5],
        only_active_when_failed: p[6] == 1.0,
        volume_correction: p[7],
    }
}

/// dq of Drucker-Prager's projection.
pub fn drucker_prager_dq(p: &[f64], r: &Record, alpha: f64) -> f64 {
    let sigma = Vector::new(r[SIGMA], r[SIGMA + 1]);
    drucker_prager(p).project_deformation_gradient(sigma, r[GAIN], alpha).unwrap().1
}

/// NACC by m, and by a friction angle in m's place.
pub fn by_m(p: &[f64]) -> NaccPlasticity {
    NaccPlasticity::with_m(p[0], p[1], p[2], p[3] == 1.0, p[4], p[5])
}

pub fn by_angle(p: &[f64]) -> NaccPlasticity {
    NaccPlasticity::new(p[0], p[1], p[2], p[3] == 1.0, p[4], p[5])
}

/// The text's update: F and the six scalars come back, U, sigma and V^T stay.
#[inline(never)]
pub fn update(model: usize, p: &[f64], r: &mut Record) {
    let mut f = Matrix::new(r[0], r[1], r[2], r[3]);
    let [phase, mut det, mut plastic, mut elastic, mut gain, mut alpha] = [r[14], r[15], r[16], r[17], r[18], r[19]];
    match model {
        0 => SnowPlasticity { min_epsilon: p[0], max_epsilon: p[1], hardening_coeff: p[2] }.update_particle(
            &mut f,
            &mut elastic,
            &mut det,
        ),
        1 => RankinePlasticity::new(p[0], p[1], p[2], p[3]).update_particle(&mut f, &mut plastic),
        2 => drucker_prager(p).update_particle(phase, &mut f, &mut det, &mut plastic, &mut gain),
        _ => by_m(p).update_particle(&mut f, &mut alpha),
    }
    r[..4].copy_from_slice(&[f[(0, 0)], f[(0, 1)], f[(1, 0)], f[(1, 1)]]);
    r[PHASE..].copy_from_slice(&[phase, det, plastic, elastic, gain, alpha]);
}

/// lambda and mu, and the bulk modulus.
pub fn moduli(p: &[f64]) -> [f64; 3] {
    let (lambda, mu) = sparkl::utils::lame_lambda_mu(p[0], p[1]);
    [lambda, mu, sparkl::utils::bulk_modulus(p[0], p[1])]
}
