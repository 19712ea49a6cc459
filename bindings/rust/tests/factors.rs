//! The library's own factors: a particle's, a list's, and first in a pass.
use pasoletu::{
    factor_list, factor_list_into, pass, pass_factored, pass_factored_into, pass_factored_with_failure,
    pass_factored_with_failure_into, pass_with_failure, Answer, CorotatedLinearElasticity, DruckerPragerPlasticity,
    MaximumStressFailure, Model, NaccPlasticity, Outcome, Particle, RankinePlasticity, Refusal, SnowPlasticity,
};

fn bits(particle: &Particle) -> [u64; Particle::FLOATS] {
    particle.floats().map(f64::to_bits)
}

fn of(deformation_gradient: [[f64; 3]; 3]) -> Particle {
    Particle { deformation_gradient, nacc_alpha: -0.05, ..Particle::REST }.with_determinant()
}

/// Matrices of many sizes, the same each time.
fn drawn(k: u64) -> Particle {
    let mut s = k.wrapping_mul(0x9e37_79b9_7f4a_7c15) | 1;
    let mut next = || {
        s ^= s << 13;
        s ^= s >> 7;
        s ^= s << 17;
        s
    };
    of(std::array::from_fn(|r| {
        std::array::from_fn(|c| {
            let x = 0.4 * (next() % 2000) as f64 / 1000.0 - 0.4;
            if r == c {
                1.0 + x
            } else {
                x
            }
        })
    }))
}

/// Its largest singular value, 1.7e308 times the root of 2, is no double.
fn too_large() -> Particle {
    of([[1.7e308, 1.7e308, 0.0], [0.0; 3], [0.0; 3]])
}

fn laws() -> [Model; 4] {
    [
        SnowPlasticity::new().into(),
        RankinePlasticity::new(1e5, 0.3, 500.0, 2.0).unwrap().into(),
        DruckerPragerPlasticity::new(1e5, 0.3).unwrap().into(),
        NaccPlasticity::with_m(1e4, 0.3, 0.05, true, 3.0, 2.36).unwrap().into(),
    ]
}

/// The check, in floats: its bounds are 2^-40, and rounding moves what stands here by some 2^-50.
fn near(particle: &Particle) -> bool {
    let (f, u, s, vt) = (&particle.deformation_gradient, &particle.u, &particle.singular_values, &particle.v_t);
    let most = f.iter().flatten().fold(0.0f64, |m, x| m.max(x.abs()));
    let within = |x: f64, of: f64| x.abs() <= of * 2f64.powi(-40);
    let unit = |r: usize, c: usize| if r == c { 1.0 } else { 0.0 };
    (0..9).map(|k| (k / 3, k % 3)).all(|(r, c)| {
        let worked: f64 = (0..3).map(|k| u[r][k] * s[k] * vt[k][c]).sum();
        let rows: f64 = (0..3).map(|k| u[r][k] * u[c][k]).sum();
        let columns: f64 = (0..3).map(|k| vt[k][r] * vt[k][c]).sum();
        within(worked - f[r][c], most) && within(rows - unit(r, c), 1.0) && within(columns - unit(r, c), 1.0) && s[r] >= 0.0
    })
}

/// The same floats with other factors.
fn bared(particle: &Particle) -> Particle {
    Particle { u: [[7.0; 3]; 3], singular_values: [-7.0; 3], v_t: [[0.0; 3]; 3], ..*particle }
}

#[test]
fn the_factors_of_a_particle() {
    for k in 0..500 {
        let came = bared(&drawn(k));
        let mut particle = came;
        assert_eq!(particle.factor(), Ok(()), "{k}");
        assert!(near(&particle) && !near(&came), "{k}");
        // nothing else is written
        let (u, singular_values, v_t) = (came.u, came.singular_values, came.v_t);
        assert_eq!(bits(&Particle { u, singular_values, v_t, ..particle }), bits(&came));
    }
}

#[test]
fn a_diagonal_keeps_its_entries_with_their_bits() {
    for sigma in [[1.0, 2.0, 3.0], [0.0, -0.0, 1e-300], [0.1, 1e300, 0.0], [0.0; 3]] {
        let mut particle = bared(&Particle::stretched(sigma));
        particle.deformation_gradient[0][1] = -0.0;
        particle = particle.with_determinant();
        assert_eq!(particle.factor(), Ok(()));
        assert_eq!(particle.singular_values.map(f64::to_bits), sigma.map(f64::to_bits));
    }
}

#[test]
fn the_refusals_in_their_order() {
    let told = |came: Particle| {
        let mut particle = came;
        let refusal = particle.factor().unwrap_err();
        assert_eq!(bits(&particle), bits(&came));
        (refusal.number, refusal.place)
    };
    assert_eq!(told(too_large()), (14, None));
    assert_eq!(told(Particle { determinant: 1.0, ..too_large() }), (11, None));
    assert_eq!(told(Particle { phase: f64::NAN, determinant: 1.0, ..too_large() }), (1, Some("phase")));
    // also a float that is about to be written
    let mut particle = Particle::REST;
    particle.v_t[2][0] = f64::INFINITY;
    assert_eq!(told(particle), (1, Some("v_t[2][0]")));
    assert_eq!(
        too_large().factor().unwrap_err().to_string(),
        "Particle::factor refused by 14: the factors or the principal values worked out miss their check; look at the sizes of F's or the stress's entries, or give factors of \
         your own"
    );
}

#[test]
fn a_list() {
    let nan = Particle { phase: f64::NAN, ..Particle::REST };
    let came = [drawn(1), too_large(), nan, Particle { determinant: 2.0, ..Particle::REST }, drawn(2)];
    let (mut listed, mut alone) = (came, came);
    let passed = factor_list(&mut listed);
    assert_eq!((passed.untouched, passed.stored, passed.refused, passed.failed), (0, 2, 3, 0));
    for (k, particle) in alone.iter_mut().enumerate() {
        let answer = particle.factor();
        assert_eq!(passed.outcomes[k].map_err(|r| r.number), answer.map(|()| Outcome::Stored(0.0)).map_err(|r| r.number));
        assert_eq!(bits(&listed[k]), bits(particle));
    }
    let refusal = passed.outcomes[2].unwrap_err();
    assert_eq!(refusal, Refusal { number: 1, call: "factor_list", particle: Some(2), place: Some("phase") });

    let mut room = came;
    let mut answers = [Answer::default(); 5];
    let counts = factor_list_into(&mut room, &mut answers).unwrap();
    assert_eq!((counts.stored, counts.refused, answers[1].outcome()), (2, 3, Err(14)));
    assert_eq!(room.map(|p| bits(&p)), listed.map(|p| bits(&p)));
    assert_eq!(factor_list_into(&mut room, &mut answers[..4]).unwrap_err().number, 8);
    assert_eq!(factor_list(&mut []).stored, 0);
}

/// A pass that factors first is the factors, then the pass; but a refused particle has the factors that it had.
#[test]
fn the_passes_that_factor_first() {
    let limits = MaximumStressFailure::new(2e4, 2e4).unwrap();
    let elasticity = CorotatedLinearElasticity::new(1e5, 0.3).unwrap();
    let (mut touched, mut untouched, mut refused, mut failed) = (0, 0, 0, 0);
    for law in laws() {
        let mut came: Vec<Particle> = (0..60).map(|k| bared(&drawn(k))).collect();
        came[3] = bared(&too_large());
        came[4].determinant = 2.0;
        came[5].nacc_alpha = f64::NAN;
        came[6] = bared(&Particle::REST);
        came[7] = bared(&of([[0.0; 3]; 3]));
        for judged in [false, true] {
            let (mut first, mut after) = (came.clone(), came.clone());
            let factored = factor_list(&mut after);
            let (told, then) = if judged {
                (
                    pass_factored_with_failure(law, &limits, &elasticity, &mut first),
                    pass_with_failure(law, &limits, &elasticity, &mut after),
                )
            } else {
                (pass_factored(law, &mut first), pass(law, &mut after))
            };
            for k in 0..came.len() {
                let number = told.outcomes[k].map_err(|r| r.number);
                if let Err(refusal) = factored.outcomes[k] {
                    assert_eq!(number, Err(refusal.number), "{law:?} {k}");
                } else {
                    assert_eq!(number, then.outcomes[k].map_err(|r| r.number), "{law:?} {k}");
                }
                let wanted = if told.outcomes[k].is_err() { &came[k] } else { &after[k] };
                assert_eq!(bits(&first[k]), bits(wanted), "{law:?} {k}");
            }
            touched += told.stored;
            untouched += told.untouched;
            refused += told.refused;
            failed += told.failed;
            let mut room = came.clone();
            let mut answers = vec![Answer::default(); came.len()];
            let counts = if judged {
                pass_factored_with_failure_into(law, &limits, &elasticity, &mut room, &mut answers)
            } else {
                pass_factored_into(law, &mut room, &mut answers)
            };
            assert_eq!(counts.unwrap().stored, told.stored);
            assert!(room.iter().zip(&first).all(|(a, b)| bits(a) == bits(b)));
            assert_eq!(pass_factored_into(law, &mut room, &mut answers[1..]).unwrap_err().number, 8);
        }
    }
    assert!(touched > 100 && untouched > 0 && refused > 24 && failed > 0, "{touched} {untouched} {refused} {failed}");
}

#[test]
fn parameters_and_limits_come_first() {
    let law = SnowPlasticity { max_epsilon: f64::NAN, ..SnowPlasticity::new() };
    let wrong = Particle { determinant: 2.0, ..too_large() };
    let told = pass_factored(law, &mut [wrong]).outcomes[0].unwrap_err();
    assert_eq!((told.number, told.place), (1, Some("the law's max_epsilon")));
    let elasticity = CorotatedLinearElasticity { lambda: f64::INFINITY, ..CorotatedLinearElasticity::new(1e5, 0.3).unwrap() };
    let limits = MaximumStressFailure::new(1.0, 1.0).unwrap();
    let told = pass_factored_with_failure(SnowPlasticity::new(), &limits, &elasticity, &mut [wrong]).outcomes[0].unwrap_err();
    assert_eq!((told.number, told.place), (1, Some("the corotated law")));
}
