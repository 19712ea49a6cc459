//! Flat records: layouts, the four laws, refusals.
use pasoletu::{
    flat_pass_into, Answer, Counts, DruckerPragerPlasticity, FlatNaccPlasticity, FlatParticle, Model, NaccPlasticity, Outcome, RankinePlasticity, Refusal,
    SnowPlasticity,
};

fn laws() -> [Model; 4] {
    [
        SnowPlasticity::new().into(),
        RankinePlasticity::new(1e5, 0.3, 500.0, 2.0).unwrap().into(),
        DruckerPragerPlasticity::new(1e5, 0.3).unwrap().into(),
        NaccPlasticity::with_m(1e4, 0.3, 0.05, true, 3.0, 2.36).unwrap().into(),
    ]
}

#[test]
fn layout() {
    let mut particle = FlatParticle::REST;
    for (k, x) in particle.floats_mut().iter_mut().enumerate() {
        *x = k as f64;
    }
    assert_eq!(particle.deformation_gradient, [[0.0, 1.0], [2.0, 3.0]]);
    assert_eq!(particle.u, [[4.0, 5.0], [6.0, 7.0]]);
    assert_eq!(particle.singular_values, [8.0, 9.0]);
    assert_eq!(particle.v_t, [[10.0, 11.0], [12.0, 13.0]]);
    assert_eq!((particle.phase, particle.nacc_alpha), (14.0, 19.0));
    assert_eq!(FlatParticle::from(*particle.floats()), particle);
    assert_eq!(FlatParticle::FLOATS, 20);
}

#[test]
fn every_law_stores_what_it_names() {
    for model in laws() {
        let mut particle = FlatParticle::stretched([1.5, 0.8]);
        let was = particle;
        assert!(matches!(particle.update(model), Ok(Outcome::Stored(_))), "{model:?}");
        assert_ne!(particle.singular_values, was.singular_values);
        assert_eq!((particle.u, particle.v_t, particle.phase), (was.u, was.v_t, was.phase));
        let [a, b] = particle.singular_values;
        assert_eq!(particle.deformation_gradient, [[a, 0.0], [0.0, b]]);
    }
}

#[test]
fn a_pass_is_the_update_of_each() {
    for model in laws() {
        let mut particles = [FlatParticle::REST, FlatParticle::stretched([1.5, 0.8]), FlatParticle::stretched([0.0, 1.0])];
        particles[0].log_vol_gain = f64::INFINITY;
        let mut alone = particles;
        let mut answers = [Answer::default(); 3];
        let counts = flat_pass_into(model, &mut particles, &mut answers).unwrap();
        for (one, answer) in alone.iter_mut().zip(&answers) {
            assert_eq!(one.update(model).map_err(|refusal| refusal.number), answer.outcome());
        }
        assert_eq!(format!("{particles:?}"), format!("{alone:?}"));
        assert_eq!(counts.untouched + counts.stored + counts.refused, 3);
        assert!(counts.refused > 0 && counts.failed == 0);
    }
}

#[test]
fn refusals() {
    let mut particle = FlatParticle::REST;
    particle.v_t[1][0] = f64::NAN;
    let refusal = particle.update(SnowPlasticity::new()).unwrap_err();
    assert_eq!((refusal.number, refusal.place), (Refusal::NOT_FINITE, Some("v_t[1][0]")));
    particle = FlatParticle { nacc_alpha: f64::INFINITY, ..FlatParticle::REST };
    assert_eq!(particle.update(SnowPlasticity::new()).unwrap_err().place, Some("nacc_alpha"));
    let answers = &mut [Answer::default(); 2];
    assert_eq!(flat_pass_into(SnowPlasticity::new(), &mut [FlatParticle::REST; 3], answers).unwrap_err().number, 8);
    assert_eq!(flat_pass_into(SnowPlasticity::new(), &mut [], &mut []), Ok(Counts::default()));
}

fn friction(d: f64, angle: f64) -> f64 {
    let s = angle.sin();
    (2.0f64 / 3.0).sqrt() * 2.0 * s / (3.0 - s) * d / (2.0 / (6.0 - d)).sqrt()
}

#[test]
fn nacc_by_an_angle_has_the_m_of_its_axes() {
    let angle = 35.0f64.to_radians();
    let made = FlatNaccPlasticity::new(1e4, 0.3, 0.05, true, 3.0, angle).unwrap();
    assert!((made.m() - friction(2.0, angle)).abs() < 1e-12 && (made.m() - 1.0918).abs() < 1e-4);
    let given = NaccPlasticity::with_m(1e4, 0.3, 0.05, true, 3.0, made.m()).unwrap();
    let start = FlatParticle { nacc_alpha: -0.05, ..FlatParticle::stretched([0.8, 1.1]) };
    let (mut one, mut other) = (start, start);
    assert_eq!(one.update(made), other.update(given));
    assert_eq!(one, other);
    assert_ne!(one, start);
}

#[test]
fn nacc_by_an_angle_in_three_axes_is_not_taken() {
    let three = NaccPlasticity::new(1e4, 0.3, 0.05, true, 3.0, 0.6).unwrap();
    let start = FlatParticle::stretched([1.5, 0.8]);
    let mut particle = start;
    let refusal = particle.update(three).unwrap_err();
    assert_eq!((refusal.number, refusal.call), (Refusal::UNKNOWN, "FlatParticle::update"));
    let mut particles = [start; 2];
    let refusal = flat_pass_into(Model::from(three), &mut particles, &mut [Answer::default(); 2]).unwrap_err();
    assert_eq!((refusal.number, refusal.call), (Refusal::UNKNOWN, "flat_pass_into"));
    assert_eq!((particle, particles), (start, [start; 2]));
    let number = |angle: f64| FlatNaccPlasticity::new(1e4, 0.3, 0.05, true, 3.0, angle).unwrap_err().number;
    assert_eq!((number(f64::NAN), number(-9.0), number(9.0)), (1, Refusal::BELOW_RANGE, Refusal::ABOVE_RANGE));
}
