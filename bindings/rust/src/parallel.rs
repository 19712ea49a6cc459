//! The passes over all cores, by rayon. Each particle is worked by itself, so that every answer and every bit is that of the pass in
//! one thread, whatever the number of threads.
//!
//! The threads are those of the pool in which the call is made: rayon's own, or one that `ThreadPool::install` sets.
use crate::lists::{Answer, Counts, Judge, Pass};
use crate::vectors::belongs;
use crate::{CorotatedLinearElasticity, MaximumStressFailure, Model, Particle, Passed, Refusal};
use rayon::prelude::*;

/// How many particles a thread takes at a time: enough to be worth handing over, few enough to keep all threads busy.
const PART: usize = 512;

fn run(pass: &Pass, particles: &mut [Particle], answers: &mut [Answer]) -> Result<Counts, Refusal> {
    let parts = particles.par_chunks_mut(PART).zip(answers.par_chunks_mut(PART));
    Ok(parts.map(|(p, a)| belongs(pass.run(p, a))).reduce(Counts::default, Counts::and))
}

/// [`pass`](crate::pass) over all cores.
pub fn pass(model: impl Into<Model>, particles: &mut [Particle]) -> Passed {
    Pass::plain("pass", model).over(particles, run)
}

/// [`pass_with_failure`](crate::pass_with_failure) over all cores.
pub fn pass_with_failure(
    model: impl Into<Model>,
    limits: &MaximumStressFailure,
    elasticity: &CorotatedLinearElasticity,
    particles: &mut [Particle],
) -> Passed {
    Pass::with_failure("pass_with_failure", model, Judge::new(limits, elasticity)).over(particles, run)
}

/// [`pass_factored`](crate::pass_factored) over all cores.
pub fn pass_factored(model: impl Into<Model>, particles: &mut [Particle]) -> Passed {
    Pass::plain("pass_factored", model).factored().over(particles, run)
}

/// [`pass_factored_with_failure`](crate::pass_factored_with_failure) over all cores.
pub fn pass_factored_with_failure(
    model: impl Into<Model>,
    limits: &MaximumStressFailure,
    elasticity: &CorotatedLinearElasticity,
    particles: &mut [Particle],
) -> Passed {
    Pass::with_failure("pass_factored_with_failure", model, Judge::new(limits, elasticity)).factored().over(particles, run)
}
