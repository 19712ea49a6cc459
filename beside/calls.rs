// One way into the ten files for both builds: a call's number, its floats as bits, its answers as bits. Each build includes this file.
use sparkl::dynamics::models::*;
use sparkl::math::{DecomposedTensor, Matrix, Vector};
use sparkl::utils;

#[path = "table.rs"]
#[allow(dead_code)]
#[rustfmt::skip]
mod table;

pub use table::*;

/// A call of the C library: its name there, its arguments in order, how many words go in and come out, the place of a flag among
/// those that go in. Of an update the inputs are the law's parameters and the 37 floats; the outputs the 37 floats and the two places
/// of the answer. The Rust knows no determinant in a record: it is handed the 36 before it.
pub struct Call {
    pub name: &'static str,
    pub arguments: &'static [usize],
    pub inputs: usize,
    /// The lengths of the lists that come out, and their words in all.
    pub lists: &'static [usize],
    pub outputs: usize,
    pub flag: Option<usize>,
}

/// An argument is the length of a list, or one of these. A call's inputs are their words in order.
pub const NUMBER: usize = 0;
pub const GAMMA: usize = usize::MAX;

/// How many words an argument has.
pub const fn words(argument: usize) -> usize {
    if argument == NUMBER || argument == GAMMA {
        1
    } else {
        argument
    }
}

const fn c(name: &'static str, arguments: &'static [usize], lists: &'static [usize], flag: Option<usize>) -> Call {
    let (mut inputs, mut k) = (0, 0);
    while k < arguments.len() {
        inputs += words(arguments[k]);
        k += 1;
    }
    let (mut outputs, mut k) = (0, 0);
    while k < lists.len() {
        outputs += lists[k];
        k += 1;
    }
    Call { name, arguments, inputs, lists, outputs, flag }
}

/// Whether a number's call has left the library.
pub fn is_retired(n: usize) -> bool {
    CALLS[n].name.is_empty()
}

/// The first of the updates: the others follow in the order of the models.
pub const UPDATE: usize = UPDATE_SNOW;

pub fn is_update(n: usize) -> bool {
    (UPDATE..UPDATE + PARAMETERS.len()).contains(&n)
}

/// Whether a call gives a record's stress with its verdict.
pub fn is_judged(n: usize) -> bool {
    n == NEO_HOOKEAN_STRESS_AND_VERDICT || n == COROTATED_STRESS_AND_VERDICT
}

/// Where a record stands in a call's inputs: after an update's parameters, after a law and its limits.
pub fn record_at(n: usize) -> Option<usize> {
    if is_update(n) || is_judged(n) {
        Some(CALLS[n].inputs - FLOATS)
    } else {
        None
    }
}

/// Whether a call is one of the elementary functions, which no text of the Rust has.
pub fn is_elementary(n: usize) -> bool {
    n <= INV_CBRT_SQUARED
}

/// Whether a call is one of Monaghan's, whose second input is no float.
pub fn is_monaghan(n: usize) -> bool {
    (MONAGHAN_PRESSURE..=MONAGHAN_TIMESTEP_BOUND).contains(&n)
}

fn f(i: &[u64], k: usize) -> f64 {
    f64::from_bits(i[k])
}

fn matrix(i: &[u64], k: usize) -> Matrix<f64> {
    let x = |n| f(i, k + n);
    Matrix::new(x(0), x(1), x(2), x(3), x(4), x(5), x(6), x(7), x(8))
}

fn vector(i: &[u64], k: usize) -> Vector<f64> {
    Vector::new(f(i, k), f(i, k + 1), f(i, k + 2))
}

fn diagonal(i: &[u64], k: usize) -> Matrix<f64> {
    Matrix::new(f(i, k), 0.0, 0.0, 0.0, f(i, k + 1), 0.0, 0.0, 0.0, f(i, k + 2))
}

fn put(o: &mut [u64], x: f64) {
    o[0] = x.to_bits();
}

fn put_vector(o: &mut [u64], v: Vector<f64>) {
    for k in 0..3 {
        o[k] = v[k].to_bits();
    }
}

fn put_matrix(o: &mut [u64], m: Matrix<f64>) {
    for r in 0..3 {
        for k in 0..3 {
            o[3 * r + k] = m[(r, k)].to_bits();
        }
    }
}

/// A stress in the first nine places and the verdict on it in the next.
fn put_judged(o: &mut [u64], max_principal_stress: f64, max_shear_stress: f64, stress: Matrix<f64>) {
    put_matrix(o, stress);
    o[9] = MaximumStressFailure::new(max_principal_stress, max_shear_stress).particle_failed(&stress) as u64;
}

pub fn parameters(model: usize) -> usize {
    PARAMETERS[model]
}

/// A record as the Rust would hold it, in the record's order; F in its matrix's own.
#[repr(C)]
#[derive(Copy, Clone)]
pub struct Particle {
    f: Matrix<f64>,
    pub factors: [f64; 21],
    phase: f64,
    det: f64,
    plastic: f64,
    elastic: f64,
    gain: f64,
    alpha: f64,
}

/// A list, and what is done with each of its particles beside the law's update.
pub trait Each {
    fn each(self, update: impl Fn(&mut Particle));
}

/// What the second does with a particle comes ahead of the update.
pub struct After<'a, B: Fn(&Particle)>(pub &'a mut [Particle], pub B);

impl<B: Fn(&Particle)> Each for After<'_, B> {
    fn each(self, update: impl Fn(&mut Particle)) {
        for x in self.0 {
            (self.1)(x);
            update(x);
        }
    }
}

/// A law's update of each particle of a list. The law is made once.
pub fn pass(model: usize, p: &[u64], list: impl Each) {
    match model {
        0 => {
            let law = SnowPlasticity { min_epsilon: f(p, 0), max_epsilon: f(p, 1), hardening_coeff: f(p, 2) };
            list.each(|x| law.update_particle(&mut x.f, &mut x.elastic, &mut x.det))
        }
        1 => {
            let law = RankinePlasticity::new(f(p, 0), f(p, 1), f(p, 2), f(p, 3));
            list.each(|x| law.update_particle(&mut x.f, &mut x.plastic))
        }
        2 => {
            let law = drucker_prager(p);
            list.each(|x| law.update_particle(x.phase, &mut x.f, &mut x.det, &mut x.plastic, &mut x.gain))
        }
        _ => {
            let law = NaccPlasticity::with_m(f(p, 0), f(p, 1), f(p, 2), f(p, 3) == 1.0, f(p, 4), f(p, 5));
            list.each(|x| law.update_particle(&mut x.f, &mut x.alpha))
        }
    }
}

/// The update of a record: F and the six scalars come back, U, sigma and V^T as they came.
fn update(model: usize, p: &[u64], o: &mut [u64]) {
    let s = |k| f(o, k);
    let (f, factors) = (matrix(o, 0), [0.0; 21]);
    let mut x = Particle { f, factors, phase: s(30), det: s(31), plastic: s(32), elastic: s(33), gain: s(34), alpha: s(35) };
    pass(model, p, After(std::slice::from_mut(&mut x), |_| ()));
    put_matrix(o, x.f);
    for (k, s) in [x.phase, x.det, x.plastic, x.elastic, x.gain, x.alpha].iter().enumerate() {
        o[30 + k] = s.to_bits();
    }
}

fn drucker_prager(p: &[u64]) -> DruckerPragerPlasticity {
    DruckerPragerPlasticity {
        h0: f(p, 0),
        h1: f(p, 1),
        h2: f(p, 2),
        h3: f(p, 3),
        lambda: f(p, 4),
        mu: f(p, 5),
        only_active_when_failed: f(p, 6) == 1.0,
        volume_correction: f(p, 7),
    }
}

/// dq of Drucker-Prager's projection, the parameters first in i and sigma at k; nothing where it is untouched.
pub fn drucker_prager_projected(i: &[u64], k: usize, gain: u64, alpha: f64) -> Option<f64> {
    let r = drucker_prager(i).project_deformation_gradient(vector(i, k), f64::from_bits(gain), alpha);
    r.map(|(_, dq)| dq)
}

fn monaghan(i: &[u64]) -> MonaghanSphEos {
    MonaghanSphEos { pressure0: f(i, 0), gamma: i[1] as u32, viscosity: f(i, 2), max_neg_pressure: f(i, 3) }
}

/// Runs the Rust. Elementary functions, Rankine's projection and Drucker-Prager's alpha are no public calls of the text.
#[inline(never)]
pub fn call(n: usize, i: &[u64], o: &mut [u64]) {
    let neo = || NeoHookeanElasticity { cfl_coeff: f(i, 0), lambda: f(i, 1), mu: f(i, 2) };
    let corotated = || CorotatedLinearElasticity {
        split_stress_on_failure: f(i, 0) == 1.0,
        cfl_coeff: f(i, 1),
        lambda: f(i, 2),
        mu: f(i, 3),
    };
    match n {
        INV_EXACT => put(o, utils::inv_exact(f(i, 0))),
        SHEAR_MODULUS => put(o, utils::shear_modulus(f(i, 0), f(i, 1))),
        BULK_MODULUS => put(o, utils::bulk_modulus(f(i, 0), f(i, 1))),
        SHEAR_MODULUS_FROM_LAME => put(o, utils::shear_modulus_from_lame(f(i, 0), f(i, 1))),
        BULK_MODULUS_FROM_LAME => put(o, utils::bulk_modulus_from_lame(f(i, 0), f(i, 1))),
        LAME_LAMBDA_MU => {
            let (l, m) = utils::lame_lambda_mu(f(i, 0), f(i, 1));
            o.copy_from_slice(&[l.to_bits(), m.to_bits()]);
        }
        SOLVE_QUADRATIC => {
            let (a, b) = utils::solve_quadratic(f(i, 0), f(i, 1), f(i, 2));
            o.copy_from_slice(&[a.to_bits(), b.to_bits()]);
        }
        SPIN_TENSOR => put_matrix(o, utils::spin_tensor(&matrix(i, 0))),
        STRAIN_RATE => put_matrix(o, utils::strain_rate(&matrix(i, 0))),
        DEVIATORIC_PART => put_matrix(o, utils::deviatoric_part(&matrix(i, 0))),
        SPHERICAL_PART => put(o, utils::spherical_part(&matrix(i, 0))),
        n if is_update(n) => {
            let k = parameters(n - UPDATE);
            o[..FLOATS].copy_from_slice(&i[k..]);
            update(n - UPDATE, i, o);
        }
        NEO_HOOKEAN_FPK_STRESS => put_matrix(o, neo().fpk_stress(&matrix(i, 4), f(i, 3))),
        NEO_HOOKEAN_ELASTIC_ENERGY_DENSITY => put(o, neo().elastic_energy_density(f(i, 3), f(i, 4), &matrix(i, 5))),
        NEO_HOOKEAN_POS_ENERGY => put(o, neo().pos_energy(f(i, 3), f(i, 4), &matrix(i, 5))),
        PHASE_COEFF => put(o, NeoHookeanElasticity::phase_coeff(f(i, 0))),
        // The energy takes F only for its factors.
        COROTATED_ELASTIC_ENERGY_DENSITY => put(o, corotated().elastic_energy_density(diagonal(i, 5), f(i, 4))),
        COROTATED_POS_ENERGY => put(o, corotated().pos_energy(matrix(i, 5), f(i, 4))),
        MONAGHAN_PRESSURE => put(o, monaghan(i).pressure(f(i, 4), f(i, 5), f(i, 6))),
        MONAGHAN_KIRCHHOFF_STRESS => {
            put_matrix(o, monaghan(i).kirchhoff_stress(f(i, 4), f(i, 5), f(i, 6), f(i, 7), &matrix(i, 8)))
        }
        MONAGHAN_TIMESTEP_BOUND => {
            put(o, monaghan(i).timestep_bound(f(i, 4), f(i, 5), f(i, 6), f(i, 7), &vector(i, 8), f(i, 11)))
        }
        // The stress, and then the verdict on it: two calls of the text.
        NEO_HOOKEAN_STRESS_AND_VERDICT => {
            put_judged(o, f(i, 3), f(i, 4), neo().kirchhoff_stress(f(i, 5 + 30), f(i, 5 + 33), &matrix(i, 5)))
        }
        COROTATED_STRESS_AND_VERDICT => {
            put_judged(o, f(i, 4), f(i, 5), corotated().kirchhoff_stress(f(i, 6 + 30), f(i, 6 + 33), &matrix(i, 6)))
        }
        SNOW_CLAMP => {
            let law = SnowPlasticity { min_epsilon: f(i, 0), max_epsilon: f(i, 1), hardening_coeff: f(i, 2) };
            put_vector(o, law.project_deformation_gradient(vector(i, 3)));
        }
        DECOMPOSED_TIMES => {
            put_vector(o, DecomposedTensor { spherical_part: f(i, 0), deviatoric_part: matrix(i, 1) } * vector(i, 10))
        }
        _ => panic!("not a call of the text"),
    }
}
