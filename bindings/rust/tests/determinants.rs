//! The determinant in the record: filled in, kept by what stores F, refused where it is another.
use pasoletu::{
    fill_determinants, pass, pass_with_failure, read_sheet, run_sheet, write_sheet, write_sheet_with_determinants,
    CorotatedLinearElasticity, DruckerPragerPlasticity, MaximumStressFailure, Model, NaccPlasticity, Outcome, Particle,
    RankinePlasticity, Refusal, SnowPlasticity,
};

fn bits(particle: &Particle) -> [u64; Particle::FLOATS] {
    particle.floats().map(f64::to_bits)
}

/// Section 4's: along the first row.
fn determinant(particle: &Particle) -> f64 {
    let [[a, b, c], [d, e, f], [g, h, i]] = particle.deformation_gradient;
    a * (e * i - f * h) - b * (d * i - f * g) + c * (d * h - e * g)
}

fn turned(sigma: [f64; 3]) -> Particle {
    let (s, c) = (0.6, 0.8);
    let u = [[c, -s, 0.0], [s, c, 0.0], [0.0, 0.0, 1.0]];
    let f = std::array::from_fn(|r| std::array::from_fn(|k| u[r][k] * sigma[k]));
    Particle { deformation_gradient: f, u, singular_values: sigma, nacc_alpha: -0.05, ..Particle::REST }.with_determinant()
}

fn laws() -> [Model; 4] {
    [
        SnowPlasticity::new().into(),
        RankinePlasticity::new(1e5, 0.3, 500.0, 2.0).unwrap().into(),
        DruckerPragerPlasticity::new(1e5, 0.3).unwrap().into(),
        NaccPlasticity::with_m(1e4, 0.3, 0.05, true, 3.0, 2.36).unwrap().into(),
    ]
}

#[test]
fn what_stores_f_keeps_it() {
    let limits = MaximumStressFailure::new(1.0, 1.0).unwrap();
    let elasticity = CorotatedLinearElasticity::new(1e5, 0.3).unwrap();
    for law in laws() {
        let came = turned([0.8, 1.2, 1.1]);
        let (mut alone, mut listed, mut judged) = (came, [came; 2], [came; 2]);
        assert!(matches!(law.update_particle(&mut alone), Ok(Outcome::Stored(_))), "{law:?}");
        assert_eq!(pass(law, &mut listed).stored, 2);
        assert_eq!(pass_with_failure(law, &limits, &elasticity, &mut judged).stored, 2);
        for after in [alone, listed[1], judged[1]] {
            assert_ne!(after.deformation_gradient, came.deformation_gradient);
            assert_eq!(after.determinant.to_bits(), determinant(&after).to_bits());
        }
        // and so it can be worked again
        assert!(law.update_particle(&mut alone).is_ok());
    }
}

#[test]
fn another_is_refused_by_11_and_keeps_its_bits() {
    let wrong = [f64::from_bits(1f64.to_bits() + 1), -1.0, 0.0, 2.0];
    for law in laws() {
        for determinant in wrong {
            let mut particles = [Particle::REST, Particle { determinant, ..Particle::REST }, Particle::REST];
            let was = bits(&particles[1]);
            let passed = pass(law, &mut particles);
            let refusal = passed.outcomes[1].unwrap_err();
            assert_eq!((refusal.number, refusal.place, passed.refused), (Refusal::WRONG_DETERMINANT, None, 1));
            assert_eq!(bits(&particles[1]), was);
            assert_eq!(passed.outcomes[2], passed.outcomes[0]);
        }
    }
    let text = SnowPlasticity::new().update_particle(&mut Particle { determinant: 2.0, ..Particle::REST }).unwrap_err();
    assert_eq!(
        text.to_string(),
        "update_particle refused by 11: the record's stored determinant is not that of its F; fill it in where you write F (fill_determinants)"
    );
}

/// Of a particle with a wrong determinant: 1 comes before 11, and 11 before the law's own number.
#[test]
fn its_place_in_the_order() {
    let number = |particle: Particle| SnowPlasticity::new().update_particle(&mut particle.clone()).unwrap_err().number;
    assert_eq!(number(Particle { phase: f64::NAN, determinant: 2.0, ..Particle::REST }), 1);
    assert_eq!(number(Particle { determinant: f64::INFINITY, ..Particle::REST }), 1);
    assert_eq!(number(Particle { plastic_deformation_gradient_det: -1e3, determinant: 2.0, ..Particle::REST }), 11);
    let law = SnowPlasticity { max_epsilon: f64::NAN, ..SnowPlasticity::new() };
    assert_eq!(law.update_particle(&mut Particle { determinant: 2.0, ..Particle::REST }).unwrap_err().number, 1);
}

#[test]
fn the_sign_of_a_zero_counts() {
    let flat = Particle { deformation_gradient: [[0.0; 3]; 3], ..Particle::REST }.with_determinant();
    assert_eq!(flat.determinant.to_bits(), 0);
    let other = Particle { deformation_gradient: [[-0.0, 0.0, -0.0], [0.0, 1.0, 0.0], [0.0, 0.0, 1.0]], ..Particle::REST };
    let other = other.with_determinant();
    assert_eq!(other.determinant.to_bits(), 1 << 63);
    for (mut particle, sign) in [(flat, -0.0), (other, 0.0)] {
        let mut wrong = Particle { determinant: sign, ..particle };
        assert_eq!(SnowPlasticity::new().update_particle(&mut wrong).unwrap_err().number, 11);
        assert!(SnowPlasticity::new().update_particle(&mut particle).is_ok());
    }
}

/// The law's F is finite, its determinant is not: 3, and every bit stays. Untouched, it is not asked for.
#[test]
fn a_new_determinant_that_is_not_finite() {
    let u = [[1e150, 0.0, 0.0], [0.0, 1e150, 0.0], [0.0, 0.0, 1e150]];
    let mut far = Particle { u, ..Particle::REST };
    let was = bits(&far);
    assert_eq!(SnowPlasticity::new().update_particle(&mut far).unwrap_err().number, Refusal::NO_NUMBER);
    assert_eq!(bits(&far), was);
    let strong = RankinePlasticity::new(1e5, 0.3, 500.0, 2.0).unwrap();
    assert_eq!(strong.update_particle(&mut far), Ok(Outcome::Untouched));
}

#[test]
fn filling_refuses_nothing_and_writes_nothing_else() {
    let not_finite = [f64::from_bits(0xfff8_0000_00c0_ffee), f64::NEG_INFINITY];
    let mut particles =
        [turned([0.8, 1.2, 1.1]), Particle { determinant: not_finite[0], ..Particle::stretched([2.0, 3.0, 5.0]) }];
    particles[0].u[1][1] = not_finite[1];
    let was = particles;
    fill_determinants(&mut particles);
    for (now, was) in particles.iter().zip(&was) {
        assert_eq!(bits(now)[..36], bits(was)[..36]);
        assert_eq!(now.determinant.to_bits(), determinant(now).to_bits());
    }
    assert_eq!(particles[1].determinant, 30.0);
    let odd = |f: f64| Particle { deformation_gradient: [[f; 3]; 3], ..Particle::REST }.with_determinant().determinant;
    assert_eq!(odd(1e200).to_bits(), 0x7ff8_0000_0000_0000);
    assert_eq!(odd(not_finite[0]).to_bits(), 0x7ff8_0000_0000_0000);
    assert_eq!(Particle::stretched([-1e200, 1e200, 1.0]).determinant, f64::NEG_INFINITY);
    fill_determinants(&mut []);
}

#[test]
fn a_record_of_36_is_completed() {
    let particle = turned([0.8, 1.2, 1.1]);
    let bare: [f64; Particle::BARE] = std::array::from_fn(|k| particle.floats()[k]);
    assert_eq!(bits(&Particle::from(bare)), bits(&particle));
}

/// Its F is finite and its determinant is not: the sheet is read, and that particle is refused by 1.
#[test]
fn a_sheet_of_36_whose_f_overflows() {
    let big = Particle::stretched([1e200, 1e200, 1.0]);
    let given = [Particle::REST, Particle { singular_values: [1.0; 3], ..big }, Particle::REST];
    let bytes = write_sheet(SnowPlasticity::new(), &given).unwrap();
    assert_eq!(read_sheet(&bytes).unwrap().particles[1].determinant, f64::INFINITY);
    let ran = run_sheet(&bytes).unwrap();
    let refusal = ran.passed.outcomes[1].unwrap_err();
    assert_eq!((refusal.number, refusal.place, ran.passed.stored), (1, Some("determinant"), 2));
}

#[test]
fn a_wrong_one_is_told_by_a_sheet_that_keeps_it() {
    let given = [Particle::REST, Particle { determinant: 7.0, ..Particle::REST }];
    let kept = run_sheet(&write_sheet_with_determinants(SnowPlasticity::new(), &given).unwrap()).unwrap();
    assert_eq!((kept.passed.outcomes[1].unwrap_err().number, kept.particles[1].determinant), (11, 7.0));
    let filled = run_sheet(&write_sheet(SnowPlasticity::new(), &given).unwrap()).unwrap();
    assert_eq!((filled.passed.stored, filled.particles[1].determinant), (2, 1.0));
}
