//! The passes that answer in a `Vec`.
use crate::calls::all_finite;
use crate::lists::{factor_by, Answer, Counts, Judge, Pass};
use crate::{CorotatedLinearElasticity, MaximumStressFailure, Model, Outcome, Particle, Refusal};
use alloc::vec;
use alloc::vec::Vec;

/// What a pass did.
#[derive(Clone, Debug, PartialEq)]
pub struct Passed {
    /// One for each particle, in order. A refused particle keeps every bit; the others were still worked.
    pub outcomes: Vec<Result<Outcome, Refusal>>,
    /// How many are untouched.
    pub untouched: u64,
    /// How many are stored.
    pub stored: u64,
    /// How many are refused.
    pub refused: u64,
    /// How many of the particles not refused have failed in this pass; 0 in a pass without failure.
    pub failed: u64,
}

impl Passed {
    /// The library's answers and counts, each refusal as told.
    fn new(answers: &[Answer], counts: Counts, told: impl Fn(usize, u8) -> Refusal) -> Passed {
        let outcomes = answers.iter().enumerate().map(|(k, a)| a.outcome().map_err(|number| told(k, number))).collect();
        let Counts { untouched, stored, refused, failed } = counts;
        Passed { outcomes, untouched, stored, refused, failed }
    }
}

impl Judge {
    /// Which of the two lists holds a float that is not finite.
    fn not_finite(&self) -> Option<&'static str> {
        match (all_finite(&self.limits), all_finite(&self.corotated)) {
            (false, _) => Some("one of the limits"),
            (_, false) => Some("the corotated law"),
            _ => None,
        }
    }
}

impl Pass {
    /// The particles as they are after the pass, with the library's answers, as `Passed`.
    pub(crate) fn told(&self, particles: &[Particle], answers: &[Answer], counts: Counts) -> Passed {
        let also = self.judge.as_ref().and_then(Judge::not_finite);
        let refused = |k: usize, number: u8| {
            let refusal = self.law.refusal(number, self.call, Some(k), &particles[k]);
            let place = also.filter(|_| number == Refusal::NOT_FINITE).or(refusal.place);
            Refusal { place, ..refusal }
        };
        Passed::new(answers, counts, refused)
    }

    /// The whole pass, worked by `run`.
    pub(crate) fn over(
        &self,
        particles: &mut [Particle],
        run: impl FnOnce(&Pass, &mut [Particle], &mut [Answer]) -> Result<Counts, Refusal>,
    ) -> Passed {
        let mut answers = vec![Answer::default(); particles.len()];
        let counts = belongs(run(self, particles, &mut answers));
        self.told(particles, &answers, counts)
    }
}

/// Lengths and flags come from the types here, so that a list is refused only by a library of another version.
pub(crate) fn belongs<T>(answer: Result<T, Refusal>) -> T {
    let wrong =
        |r: Refusal| panic!("{} answered {}: crate and library are of different versions, build both anew", r.call, r.number);
    answer.unwrap_or_else(wrong)
}

/// The plastic law on every particle. The pass goes on after a refused one.
///
/// ```
/// use pasoletu::{pass, Outcome, Particle, SnowPlasticity};
///
/// let mut particles = [Particle::REST, Particle::stretched([f64::NAN, 1.0, 1.0])];
/// let passed = pass(SnowPlasticity::new(), &mut particles);
/// assert_eq!(passed.outcomes[0], Ok(Outcome::Stored(1.0)));
/// assert_eq!(
///     passed.outcomes[1].unwrap_err().to_string(),
///     "pass refused particle 1 by 1: an input is NaN or infinite, first deformation_gradient[0][0]; find who wrote that value"
/// );
/// ```
pub fn pass(model: impl Into<Model>, particles: &mut [Particle]) -> Passed {
    Pass::plain("pass", model).over(particles, Pass::run)
}

/// The pass with failure: applies the law to each particle, judges the stress of what it leaves by the phase as it came, and sets the
/// phase to 0.0 on a yes. An untouched particle may have a new phase; a refused one keeps every bit.
pub fn pass_with_failure(
    model: impl Into<Model>,
    limits: &MaximumStressFailure,
    elasticity: &CorotatedLinearElasticity,
    particles: &mut [Particle],
) -> Passed {
    Pass::with_failure("pass_with_failure", model, Judge::new(limits, elasticity)).over(particles, Pass::run)
}

/// [`pass`] on the particles with the library's own factors ([`Particle::factor`]): a host gives `deformation_gradient` and
/// `determinant`, and any finite `u`, `singular_values` and `v_t`. An untouched particle has the new factors; a refused one keeps every
/// bit, the factors that it had too.
///
/// ```
/// use pasoletu::{pass_factored, Particle, SnowPlasticity};
///
/// let f = [[0.0, -0.9, 0.0], [1.0, 0.0, 0.0], [0.0, 0.0, 1.0]];
/// let mut particles = [Particle { deformation_gradient: f, ..Particle::REST }.with_determinant()];
/// assert_eq!(pass_factored(SnowPlasticity::new(), &mut particles).stored, 1);
/// assert!(particles[0].singular_values.contains(&0.975));
/// ```
pub fn pass_factored(model: impl Into<Model>, particles: &mut [Particle]) -> Passed {
    Pass::plain("pass_factored", model).factored().over(particles, Pass::run)
}

/// [`pass_with_failure`] on the particles with the library's own factors, as [`pass_factored`].
pub fn pass_factored_with_failure(
    model: impl Into<Model>,
    limits: &MaximumStressFailure,
    elasticity: &CorotatedLinearElasticity,
    particles: &mut [Particle],
) -> Passed {
    Pass::with_failure("pass_factored_with_failure", model, Judge::new(limits, elasticity)).factored().over(particles, Pass::run)
}

/// [`Particle::factor`] on every particle. One whose factors are accepted is stored, with the amount 0.0; a refused one keeps every bit.
pub fn factor_list(particles: &mut [Particle]) -> Passed {
    const NAME: &str = "factor_list";
    let mut answers = vec![Answer::default(); particles.len()];
    let counts = belongs(factor_by(NAME, particles, &mut answers));
    Passed::new(&answers, counts, |k, number| particles[k].refusal(number, NAME, Some(k)))
}
