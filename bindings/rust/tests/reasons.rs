//! Why a law moved a particle: each kind of reason, and that it refuses where the update does.
use pasoletu::{Bound, DruckerPragerPlasticity, Model, Outcome, Particle, Place, RankinePlasticity, Reason, SnowPlasticity};

fn stretched(sigma: [f64; 3]) -> Particle {
    Particle { singular_values: sigma, ..Particle::REST }
}

fn rankine() -> Model {
    Model::Rankine(RankinePlasticity::new(1000.0, 0.25, 10.0, 1.0).unwrap())
}

#[test]
fn snow_names_the_bound_that_last_changed_it() {
    let crossed = Model::Snow(SnowPlasticity { min_epsilon: -2.0, max_epsilon: -0.5, hardening_coeff: 1.0 });
    assert_eq!(crossed.reason(&Particle::REST).unwrap(), Reason::Clamped([Bound::Upper; 3]));
    let told = Model::Snow(SnowPlasticity::new()).reason(&stretched([1.0, 0.5, 2.0])).unwrap();
    assert_eq!(told, Reason::Clamped([Bound::Neither, Bound::Lower, Bound::Upper]));
    // 0 over 0 in the plastic determinant
    let zero = Model::Snow(SnowPlasticity { min_epsilon: 1.0, max_epsilon: 1.0, hardening_coeff: 1.0 });
    assert_eq!(zero.reason(&stretched([-0.0, 0.0, 1.0])).unwrap(), Reason::Refused { number: 3, step: 3, place: None });
}

#[test]
fn rankine_names_its_last_test() {
    let told = rankine().reason(&Particle::REST).unwrap();
    assert_eq!(told, Reason::Tested { test: 4, held: true, branch: 0, compared: [0.0_f64.to_bits(), 10.0_f64.to_bits()] });
    for (sigma, test, held, branch) in [([1.1, 0.9, 0.9], 5, true, 1), ([1.1, 1.1, 0.8], 6, true, 2), ([1.1, 1.1, 1.1], 6, false, 3)] {
        let mut particle = stretched(sigma);
        match rankine().reason(&particle).unwrap() {
            Reason::Tested { test: t, held: h, branch: b, compared } => {
                assert_eq!((t, h, b), (test, held, branch), "{sigma:?}");
                assert_eq!(f64::from_bits(compared[0]) <= f64::from_bits(compared[1]), held);
            }
            other => panic!("{other:?}"),
        }
        assert!(matches!(rankine().update_particle(&mut particle), Ok(Outcome::Stored(_))));
    }
}

#[test]
fn drucker_prager_names_its_flag_and_its_zeros() {
    let mut law = DruckerPragerPlasticity::new(1000.0, 0.25).unwrap();
    let zero = 0.0_f64.to_bits();
    assert_eq!(Model::DruckerPrager(law).reason(&Particle::REST).unwrap(), Reason::Zeros { test: 8, branch: 1, compared: [zero; 3] });
    law.only_active_when_failed = true;
    assert_eq!(Model::DruckerPrager(law).reason(&Particle::REST).unwrap(), Reason::Flagged { test: 1 });
}

#[test]
fn a_refusal_has_its_step_and_its_place() {
    let at = |particle: &Particle| rankine().reason(particle).unwrap();
    assert_eq!(at(&stretched([1.0, 0.0, 1.0])), Reason::Refused { number: 2, step: 2, place: None });
    let mut particle = Particle::REST;
    particle.singular_values[1] = f64::NAN;
    assert_eq!(at(&particle), Reason::Refused { number: 1, step: 0, place: Some(Place::Record(19)) });
    let law = Model::Snow(SnowPlasticity { max_epsilon: f64::INFINITY, ..SnowPlasticity::new() });
    assert_eq!(law.reason(&particle).unwrap(), Reason::Refused { number: 1, step: 0, place: Some(Place::Parameter(1)) });
}
