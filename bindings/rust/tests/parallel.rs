//! The passes over all cores beside those in one thread: every bit alike, whatever the number of threads.
use pasoletu::{
    parallel, CorotatedLinearElasticity, DruckerPragerPlasticity, MaximumStressFailure, Model, NaccPlasticity, Particle, Passed,
    RankinePlasticity, SnowPlasticity,
};
use rayon::ThreadPoolBuilder;

/// Over many parts, the last of them not whole.
const MANY: usize = 5 * 512 + 77;

/// Particles stretched, crushed and torn in turn; now and then one with a NaN that has a payload, and one beyond every range.
fn drawn(k: usize) -> Particle {
    let spread = |k: usize| 0.6 + (k * 7919 % 1000) as f64 / 1000.0;
    let mut particle = Particle::stretched([spread(k), spread(k + 1), spread(k + 2)]);
    particle.phase = [1.0, 0.0, 0.5][k % 3];
    particle.nacc_alpha = -0.05;
    match k % 97 {
        13 => particle.floats_mut()[k % Particle::FLOATS] = f64::from_bits(0xfff8_0000_00c0_ffee),
        31 => particle.singular_values = [1e300, 1e300, 0.0],
        _ => (),
    }
    particle
}

fn laws() -> [Model; 4] {
    [
        SnowPlasticity::new().into(),
        RankinePlasticity::new(1e5, 0.3, 500.0, 2.0).unwrap().into(),
        DruckerPragerPlasticity::new(1e5, 0.3).unwrap().into(),
        NaccPlasticity::with_m(1e4, 0.3, 0.05, true, 3.0, 2.36).unwrap().into(),
    ]
}

fn bits(particles: &[Particle]) -> Vec<u64> {
    particles.iter().flat_map(|p| p.floats().map(f64::to_bits)).collect()
}

/// A pass in one thread and over threads, from the same particles: outcomes with their refusals, counts, and all bits.
fn alike(count: usize, one: impl Fn(&mut [Particle]) -> Passed, all: impl Fn(&mut [Particle]) -> Passed + Sync) -> Passed {
    let came: Vec<Particle> = (0..count).map(drawn).collect();
    let mut wanted = came.clone();
    let passed = one(&mut wanted);
    for threads in [1, 2, 5] {
        let pool = ThreadPoolBuilder::new().num_threads(threads).build().unwrap();
        let mut particles = came.clone();
        assert_eq!(pool.install(|| all(&mut particles)), passed, "{threads} threads");
        assert_eq!(bits(&particles), bits(&wanted), "{threads} threads");
    }
    passed
}

#[test]
fn the_pass() {
    for law in laws() {
        let passed = alike(MANY, |p| pasoletu::pass(law, p), |p| parallel::pass(law, p));
        assert!(passed.stored > 0 && passed.refused > 27, "{law:?}");
        assert_eq!(passed.untouched + passed.stored + passed.refused, MANY as u64);
    }
}

#[test]
fn the_pass_with_failure() {
    let limits = MaximumStressFailure::new(3e3, 2e3).unwrap();
    let elasticity = CorotatedLinearElasticity::new(1e5, 0.3).unwrap();
    for law in laws() {
        let one = |p: &mut [Particle]| pasoletu::pass_with_failure(law, &limits, &elasticity, p);
        let passed = alike(MANY, one, |p| parallel::pass_with_failure(law, &limits, &elasticity, p));
        assert!(passed.failed > 0 && passed.failed < MANY as u64, "{law:?}");
    }
}

#[test]
fn the_passes_that_factor_first() {
    let limits = MaximumStressFailure::new(3e3, 2e3).unwrap();
    let elasticity = CorotatedLinearElasticity::new(1e5, 0.3).unwrap();
    for law in laws() {
        let passed = alike(MANY, |p| pasoletu::pass_factored(law, p), |p| parallel::pass_factored(law, p));
        assert!(passed.stored > 0 && passed.refused > 0, "{law:?}");
        let one = |p: &mut [Particle]| pasoletu::pass_factored_with_failure(law, &limits, &elasticity, p);
        let passed = alike(MANY, one, |p| parallel::pass_factored_with_failure(law, &limits, &elasticity, p));
        assert!(passed.failed > 0 && passed.failed < MANY as u64, "{law:?}");
    }
}

#[test]
fn lists_at_the_edge_of_a_part() {
    for count in [0, 1, 511, 512, 513] {
        alike(count, |p| pasoletu::pass(SnowPlasticity::new(), p), |p| parallel::pass(SnowPlasticity::new(), p));
    }
}

#[test]
fn a_refusal_tells_its_place_in_the_whole_list() {
    let mut particles = vec![Particle::REST; MANY];
    particles[MANY - 1].phase = f64::NAN;
    let passed = parallel::pass(SnowPlasticity::new(), &mut particles);
    let refusal = passed.outcomes[MANY - 1].unwrap_err();
    assert_eq!((refusal.number, refusal.particle, refusal.place), (1, Some(MANY - 1), Some("phase")));
}
