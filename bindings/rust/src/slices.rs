//! Slices of a slope (docs/RULES.md, section 7): flat records, of two axes, by the four plastic laws. Nothing is allocated.
use crate::lists::{counted, Answer};
use crate::mode::held;
use crate::table::{
    pasoletu_flat_pass, pasoletu_flat_update, ANSWERS, FLAT_FLOATS, FLAT_PHASE, FLAT_SIGMA, FLAT_U, FLAT_VT, PLACES,
    SHEET_FLOATS,
};
use crate::{Counts, FlatModel, Outcome, Refusal};

/// A particle of a flat section: 20 floats, with the names of a [`Particle`](crate::Particle) and no determinant.
///
/// The laws take the factors F = U diag(sigma) V^T as they stand here. An update that stores writes `deformation_gradient`,
/// `singular_values` and the scalars that its law names; `u` and `v_t` stay.
///
/// ```
/// use pasoletu::{FlatParticle, Outcome, SnowPlasticity};
///
/// let mut particle = FlatParticle::stretched([0.9, 1.0]);
/// let outcome = particle.update(SnowPlasticity::new())?;
/// assert_eq!(particle.singular_values, [0.975, 1.0]);
/// assert_eq!(outcome, Outcome::Stored(particle.elastic_hardening));
/// # Ok::<(), pasoletu::Refusal>(())
/// ```
#[derive(Copy, Clone, Debug, PartialEq)]
#[repr(C)]
pub struct FlatParticle {
    /// F, row by row.
    pub deformation_gradient: [[f64; 2]; 2],
    /// U, row by row.
    pub u: [[f64; 2]; 2],
    /// sigma, in the order of U's columns.
    pub singular_values: [f64; 2],
    /// V^T, row by row.
    pub v_t: [[f64; 2]; 2],
    /// 1.0 whole, 0.0 failed.
    pub phase: f64,
    /// The determinant of the plastic deformation gradient.
    pub plastic_deformation_gradient_det: f64,
    /// The plastic hardening: Rankine's and Drucker-Prager's.
    pub plastic_hardening: f64,
    /// The elastic hardening: Snow's.
    pub elastic_hardening: f64,
    /// Drucker-Prager's gain of log volume.
    pub log_vol_gain: f64,
    /// NACC's alpha.
    pub nacc_alpha: f64,
}

const IDENTITY: [[f64; 2]; 2] = [[1.0, 0.0], [0.0, 1.0]];

/// Where the six scalars begin in a record of three axes.
const PHASE: usize = SHEET_FLOATS - (FLAT_FLOATS - FLAT_PHASE);

/// The names of the floats before the scalars.
const SHAPE: [&str; FLAT_PHASE] = [
    "deformation_gradient[0][0]",
    "deformation_gradient[0][1]",
    "deformation_gradient[1][0]",
    "deformation_gradient[1][1]",
    "u[0][0]",
    "u[0][1]",
    "u[1][0]",
    "u[1][1]",
    "singular_values[0]",
    "singular_values[1]",
    "v_t[0][0]",
    "v_t[0][1]",
    "v_t[1][0]",
    "v_t[1][1]",
];

impl FlatParticle {
    /// How many floats a flat particle has.
    pub const FLOATS: usize = FLAT_FLOATS;

    /// A whole particle at rest: F, U and V^T the identity, sigma, plastic determinant and hardenings 1, gain and alpha 0.
    pub const REST: FlatParticle = FlatParticle {
        deformation_gradient: IDENTITY,
        u: IDENTITY,
        singular_values: [1.0; 2],
        v_t: IDENTITY,
        phase: 1.0,
        plastic_deformation_gradient_det: 1.0,
        plastic_hardening: 1.0,
        elastic_hardening: 1.0,
        log_vol_gain: 0.0,
        nacc_alpha: 0.0,
    };

    /// A whole particle stretched along the axes: F is diag(sigma), U and V^T the identity.
    pub fn stretched(sigma: [f64; 2]) -> FlatParticle {
        let [a, b] = sigma;
        FlatParticle { deformation_gradient: [[a, 0.0], [0.0, b]], singular_values: sigma, ..FlatParticle::REST }
    }

    /// The plastic law in two axes. A refused particle keeps every bit. A [`NaccPlasticity`](crate::NaccPlasticity) that was made by an
    /// angle, whose m is that of three axes, is refused by 6: [`FlatNaccPlasticity`](crate::FlatNaccPlasticity) has that of two.
    pub fn update(&mut self, model: impl Into<FlatModel>) -> Result<Outcome, Refusal> {
        const CALL: &str = "FlatParticle::update";
        let law = model.into().parameters(CALL)?;
        let mut answer = Answer::default();
        let status = unsafe {
            let (p, record) = (law.values.as_ptr(), self.floats_mut().as_mut_ptr());
            pasoletu_flat_update(law.model, p, law.count, record, FLAT_FLOATS, answer.as_mut_ptr(), ANSWERS)
        };
        match status {
            0 => answer.outcome().map_err(|number| Refusal::new(number, CALL)),
            number => {
                let place = if number == Refusal::NOT_FINITE { self.first_not_finite() } else { None };
                Err(Refusal { number, call: CALL, particle: None, place })
            }
        }
    }

    /// The floats in the record's order: F, U, sigma, V^T and the six scalars.
    pub fn floats(&self) -> &[f64; FlatParticle::FLOATS] {
        // The fields are the 20 floats in order, with no room between them.
        unsafe { &*(self as *const FlatParticle).cast() }
    }

    /// The same floats, to be written.
    pub fn floats_mut(&mut self) -> &mut [f64; FlatParticle::FLOATS] {
        unsafe { &mut *(self as *mut FlatParticle).cast() }
    }

    /// The name of the first float that is NaN or infinite.
    pub fn first_not_finite(&self) -> Option<&'static str> {
        let k = self.floats().iter().position(|x| !x.is_finite())?;
        Some(if k < FLAT_PHASE { SHAPE[k] } else { PLACES[PHASE + k - FLAT_PHASE] })
    }
}

impl Default for FlatParticle {
    fn default() -> FlatParticle {
        FlatParticle::REST
    }
}

impl From<[f64; FlatParticle::FLOATS]> for FlatParticle {
    fn from(floats: [f64; FlatParticle::FLOATS]) -> FlatParticle {
        let mut particle = FlatParticle::REST;
        *particle.floats_mut() = floats;
        particle
    }
}

/// [`pass_into`](crate::pass_into) in two axes: the plastic law on every flat particle, with an answer for each. The pass goes on after a
/// refused particle, which keeps every bit. Refused, with nothing written, by 8 unless there are as many answers as particles, and by 6 for a
/// law that [`FlatParticle::update`] refuses by it.
///
/// ```
/// use pasoletu::{flat_pass_into, Answer, Counts, FlatParticle, Outcome, SnowPlasticity};
///
/// let mut particles = [FlatParticle::REST, FlatParticle::stretched([f64::NAN, 1.0])];
/// let mut answers = [Answer::default(); 2];
/// let counts = flat_pass_into(SnowPlasticity::new(), &mut particles, &mut answers)?;
/// assert_eq!((answers[0].outcome(), answers[1].outcome()), (Ok(Outcome::Stored(1.0)), Err(1)));
/// assert_eq!(counts, Counts { stored: 1, refused: 1, ..Counts::default() });
/// # Ok::<(), pasoletu::Refusal>(())
/// ```
pub fn flat_pass_into(
    model: impl Into<FlatModel>,
    particles: &mut [FlatParticle],
    answers: &mut [Answer],
) -> Result<Counts, Refusal> {
    held("flat_pass_into");
    let law = model.into().parameters("flat_pass_into")?;
    let mut counts = [0u64; 4];
    let status = unsafe {
        let (records, floats) = (particles.as_mut_ptr().cast(), particles.len() * FLAT_FLOATS);
        let (a, words) = (answers.as_mut_ptr().cast(), answers.len() * ANSWERS);
        pasoletu_flat_pass(law.model, law.values.as_ptr(), law.count, records, floats, a, words, counts.as_mut_ptr(), 3)
    };
    counted(status, counts, "flat_pass_into")
}

const _: () = assert!(core::mem::size_of::<FlatParticle>() == FLAT_FLOATS * core::mem::size_of::<f64>());
const _: () = assert!(FLAT_U == 4 && FLAT_SIGMA == 8 && FLAT_VT == 10);
