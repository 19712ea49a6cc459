//! What is refused, with its number and text, and that it holds its bits.
use pasoletu::{
    elementary, pass, pass_with_failure, read_sheet, run_sheet, utils, CorotatedLinearElasticity, DruckerPragerPlasticity,
    MaximumStressFailure, Model, MonaghanSphEos, NaccPlasticity, NeoHookeanElasticity, Outcome, Particle, RankinePlasticity,
    Refusal, SnowPlasticity,
};

fn number<T: std::fmt::Debug>(r: Result<T, Refusal>) -> u8 {
    r.unwrap_err().number
}

fn bits(p: &Particle) -> Vec<u64> {
    p.floats().iter().map(|x| x.to_bits()).collect()
}

fn name(place: usize) -> String {
    let scalars = [
        "phase",
        "plastic_deformation_gradient_det",
        "plastic_hardening",
        "elastic_hardening",
        "log_vol_gain",
        "nacc_alpha",
        "determinant",
    ];
    let matrix = |name: &str, k: usize| format!("{name}[{}][{}]", k / 3, k % 3);
    match place {
        0..=8 => matrix("deformation_gradient", place),
        9..=17 => matrix("u", place - 9),
        18..=20 => format!("singular_values[{}]", place - 18),
        21..=29 => matrix("v_t", place - 21),
        _ => scalars[place - 30].to_string(),
    }
}

#[test]
fn a_refused_record_keeps_its_bits_and_the_next_are_worked() {
    // At each of the 37 places in turn a NaN with a payload.
    for place in 0..Particle::FLOATS {
        let mut particles = [Particle::stretched([2.0, 1.0, 1.0]); 3];
        particles[1].floats_mut()[place] = f64::from_bits(0xfff8_0000_00c0_ffee);
        let was = bits(&particles[1]);
        let passed = pass(SnowPlasticity::new(), &mut particles);
        let refusal = passed.outcomes[1].unwrap_err();
        assert_eq!((refusal.number, refusal.particle), (Refusal::NOT_FINITE, Some(1)));
        assert_eq!(refusal.place, Some(&*name(place)));
        assert_eq!(bits(&particles[1]), was);
        assert_eq!(particles[2].singular_values, [1.0045, 1.0, 1.0]);
        assert_eq!(passed.outcomes[2], passed.outcomes[0]);
        assert_eq!((passed.untouched, passed.stored, passed.refused), (0, 2, 1));
    }
}

#[test]
fn a_refused_update_keeps_its_bits() {
    let mut particle = Particle { plastic_deformation_gradient_det: -1e3, ..Particle::REST };
    let was = bits(&particle);
    let refusal = SnowPlasticity::new().update_particle(&mut particle).unwrap_err();
    assert_eq!((refusal.number, refusal.place), (Refusal::ABOVE_RANGE, None));
    assert_eq!(bits(&particle), was);
    let mut torn = Particle { plastic_deformation_gradient_det: 1e3, ..Particle::REST };
    assert_eq!(number(SnowPlasticity::new().update_particle(&mut torn)), Refusal::BELOW_RANGE);
    let mut huge = Particle { singular_values: [1e200, 1e200, 0.0], ..Particle::REST };
    let was = bits(&huge);
    assert_eq!(number(SnowPlasticity::new().update_particle(&mut huge)), Refusal::NO_NUMBER);
    assert_eq!(bits(&huge), was);
}

#[test]
fn texts_say_what_where_and_what_to_do() {
    let mut particles = [Particle::REST, Particle { elastic_hardening: f64::INFINITY, ..Particle::REST }];
    let passed = pass(SnowPlasticity::new(), &mut particles);
    assert_eq!(
        passed.outcomes[1].unwrap_err().to_string(),
        "pass refused particle 1 by 1: an input is NaN or infinite, first elastic_hardening; find who wrote that value"
    );
    let law = SnowPlasticity { max_epsilon: f64::NAN, ..SnowPlasticity::new() };
    let text = law.update_particle(&mut particles[0]).unwrap_err().to_string();
    assert!(text.contains("update_particle refused by 1") && text.contains("the law's max_epsilon"), "{text}");
    assert_eq!(
        read_sheet(&[]).unwrap_err().to_string(),
        "read_sheet refused by 4: the sheet ends early; send the sheet again, whole"
    );
}

#[test]
fn a_bad_parameter_refuses_every_record() {
    let law = DruckerPragerPlasticity { h1: f64::INFINITY, ..DruckerPragerPlasticity::new(1e5, 0.3).unwrap() };
    let mut particles = [Particle::REST; 3];
    let passed = pass(law, &mut particles);
    assert_eq!(passed.refused, 3);
    assert!(passed.outcomes.iter().all(|o| o.unwrap_err().place == Some("the law's h1")));
    assert_eq!(particles, [Particle::REST; 3]);
}

#[test]
fn new_refuses() {
    assert_eq!(number(RankinePlasticity::new(1e5, 0.3, f64::NAN, 1.0)), 1);
    assert_eq!(number(RankinePlasticity::new(1e5, 0.5, 1.0, 1.0)), 3);
    assert_eq!(number(DruckerPragerPlasticity::new(f64::INFINITY, 0.3)), 1);
    assert_eq!(number(NaccPlasticity::with_m(1e5, -1.0, 0.0, true, 1.0, 1.0)), 3);
    assert_eq!(number(NaccPlasticity::new(1e5, 0.3, 0.0, true, 1.0, 9.0)), Refusal::ABOVE_RANGE);
    assert_eq!(number(NaccPlasticity::new(1e5, 0.3, 0.0, true, 1.0, -9.0)), Refusal::BELOW_RANGE);
    assert_eq!(number(NeoHookeanElasticity::new(1e5, 0.5)), 3);
    assert_eq!(number(CorotatedLinearElasticity::new(f64::NAN, 0.3)), 1);
    assert_eq!(number(MonaghanSphEos::new(f64::NAN, 2, 0.0)), 1);
    assert_eq!(number(MaximumStressFailure::new(1.0, f64::INFINITY)), 1);
    let text = RankinePlasticity::new(1e5, 0.5, 1.0, 1.0).unwrap_err().to_string();
    assert!(text.starts_with("RankinePlasticity::new refused by 3: "), "{text}");
}

#[test]
fn single_calls_refuse() {
    assert_eq!(number(elementary::exp(700.5)), Refusal::ABOVE_RANGE);
    assert_eq!(number(elementary::exp(-700.5)), Refusal::BELOW_RANGE);
    assert_eq!(number(elementary::ln(0.0)), Refusal::BELOW_RANGE);
    assert_eq!(number(elementary::sin(f64::NAN)), 1);
    assert_eq!(number(utils::solve_quadratic(1.0, 0.0, 1.0)), 2);
    assert_eq!(number(utils::inv_exact(1e-310)), 3);
    let law = NeoHookeanElasticity { cfl_coeff: 0.5, lambda: 1.0, mu: 1.0 };
    let wide = MaximumStressFailure { max_principal_stress: f64::MAX, max_shear_stress: f64::MAX };
    let flat = Particle { deformation_gradient: [[0.0; 3]; 3], determinant: 0.0, ..Particle::REST };
    assert_eq!(number(law.stress_and_verdict(&wide, &flat)), 2);
    assert_eq!(number(law.elastic_energy_density(1.0, f64::NAN, &Particle::REST.u)), 1);
    let fluid = MonaghanSphEos { pressure0: 10.0, gamma: 0, viscosity: 0.0, max_neg_pressure: 1.0 };
    assert_eq!(number(fluid.pressure(0.0, 0.0, 1.0)), 3);
    let limits = MaximumStressFailure { max_principal_stress: f64::NAN, max_shear_stress: 1.0 };
    assert_eq!(number(law.stress_and_verdict(&limits, &Particle::REST)), 1);
}

#[test]
fn the_pass_with_failure_refuses_by_its_limits() {
    let law = CorotatedLinearElasticity::new(1e5, 0.3).unwrap();
    let limits = MaximumStressFailure { max_principal_stress: f64::NAN, max_shear_stress: 1.0 };
    let mut particles = [Particle::stretched([2.0, 1.0, 1.0]); 2];
    let passed = pass_with_failure(SnowPlasticity::new(), &limits, &law, &mut particles);
    assert_eq!((passed.refused, passed.failed), (2, 0));
    assert_eq!(passed.outcomes[1].unwrap_err().place, Some("one of the limits"));
    assert_eq!(particles, [Particle::stretched([2.0, 1.0, 1.0]); 2]);
}

/// A pass with failure by Snow over one particle: its number; no verdict is counted and the particle keeps every bit.
fn refused_with_failure(limits: [f64; 2], law: CorotatedLinearElasticity, particle: Particle) -> u8 {
    let limits = MaximumStressFailure { max_principal_stress: limits[0], max_shear_stress: limits[1] };
    let mut particles = [particle];
    let passed = pass_with_failure(SnowPlasticity::new(), &limits, &law, &mut particles);
    assert_eq!((passed.untouched, passed.stored, passed.refused, passed.failed), (0, 0, 1, 0));
    assert_eq!(particles[0].floats().map(f64::to_bits), particle.floats().map(f64::to_bits));
    passed.outcomes[0].unwrap_err().number
}

/// The stress of the particle as it came would be refused by 3 and its verdict would be yes: the law's number comes.
#[test]
fn a_refused_law_is_not_judged() {
    let law = CorotatedLinearElasticity { split_stress_on_failure: true, cfl_coeff: 0.9, lambda: 3.0, mu: 1.0 };
    let lost = Particle {
        plastic_deformation_gradient_det: -1000.0,
        elastic_hardening: 1.7e308,
        ..Particle::stretched([0.9, 1.0, 1.0])
    };
    assert_eq!(refused_with_failure([-1.0, 100.0], law, lost), 10);
    assert_eq!(refused_with_failure([f64::NAN, 100.0], law, lost), 1);
}

/// Snow hardens it from 1 to 218, with which twice mu is over all numbers.
#[test]
fn a_refused_stress_undoes_the_law() {
    let law = CorotatedLinearElasticity { split_stress_on_failure: true, cfl_coeff: 0.9, lambda: 0.0, mu: 1e307 };
    let crushed = Particle { plastic_deformation_gradient_det: 0.5, ..Particle::stretched([0.9, 1.0, 1.0]) };
    assert_eq!(refused_with_failure([1.0, 1.0], law, crushed), 3);
}

fn sheet(model: u8, parameters: &[f64], particles: &[Particle]) -> Vec<u8> {
    let mut s = vec![model];
    s.extend(parameters.iter().flat_map(|x| x.to_le_bytes()));
    let n = particles.len();
    s.extend(if n < 128 { vec![n as u8] } else { vec![(n % 128) as u8 | 128, (n / 128) as u8] });
    let floats = if model < 4 { Particle::BARE } else { Particle::FLOATS };
    s.extend(particles.iter().flat_map(|p| p.floats()[..floats].iter().flat_map(|x| x.to_le_bytes()).collect::<Vec<u8>>()));
    s
}

#[test]
fn sheets_refuse() {
    let snow = [0.025, 0.0045, 10.0];
    let good = sheet(0, &snow, &[Particle::REST]);
    for end in 0..good.len() {
        assert_eq!(number(run_sheet(&good[..end])), Refusal::ENDS_EARLY);
    }
    assert_eq!(number(run_sheet(&[good.clone(), vec![0]].concat())), Refusal::TOO_MANY);
    assert_eq!(number(run_sheet(&sheet(0, &snow, &[Particle::REST; 201]))), Refusal::TOO_MANY);
    assert_eq!(number(run_sheet(&[&[0x80, 0], &good[1..]].concat())), Refusal::NOT_SHORTEST);
    assert_eq!(number(read_sheet(&sheet(99, &snow, &[]))), Refusal::UNKNOWN);
    assert_eq!(number(read_sheet(&sheet(2, &[0.0, 0.0, 0.0, 0.0, 1.0, 1.0, -0.0, 1.0], &[]))), Refusal::UNKNOWN);
}

#[test]
fn sheets_are_read_as_bits() {
    let mut odd = Particle::REST;
    odd.u[1][2] = f64::from_bits(0x7ff8_0000_dead_beef);
    let drawn = |k: usize| Particle {
        phase: (k % 2) as f64,
        nacc_alpha: -0.05,
        ..Particle::stretched([0.8, 1.1, 0.9 + k as f64 / 500.0])
    };
    let all: Vec<Particle> = (0..200).map(|k| if k == 7 { odd } else { drawn(k) }).collect();
    let same = |a: &[Particle], b: &[Particle]| a.len() == b.len() && a.iter().zip(b).all(|(a, b)| bits(a) == bits(b));
    let cone = DruckerPragerPlasticity { only_active_when_failed: true, ..DruckerPragerPlasticity::new(1e5, 0.3).unwrap() };
    let laws: [(Vec<f64>, Model); 4] = [
        (vec![0.02, 0.03, 9.0], SnowPlasticity { min_epsilon: 0.02, max_epsilon: 0.03, hardening_coeff: 9.0 }.into()),
        (vec![1e5, 0.3, 500.0, 2.0], RankinePlasticity::new(1e5, 0.3, 500.0, 2.0).unwrap().into()),
        (vec![cone.h0, cone.h1, cone.h2, cone.h3, cone.lambda, cone.mu, 1.0, 1.0], cone.into()),
        (vec![1e4, 0.3, 0.05, 1.0, 3.0, 2.36], NaccPlasticity::with_m(1e4, 0.3, 0.05, true, 3.0, 2.36).unwrap().into()),
    ];
    for (number, (parameters, law)) in laws.iter().chain(&laws).enumerate() {
        let bytes = sheet(number as u8, parameters, &all);
        let read = read_sheet(&bytes).unwrap();
        assert_eq!((read.model, read.determinants), (*law, number >= 4));
        assert!(same(&read.particles, &all));
        // Run, the sheet does what a pass does.
        let ran = run_sheet(&bytes).unwrap();
        let mut particles = all.clone();
        let passed = pass(*law, &mut particles);
        assert_eq!(ran.model, *law);
        assert!(same(&ran.particles, &particles));
        assert_eq!((ran.passed.untouched, ran.passed.stored, ran.passed.refused), (passed.untouched, passed.stored, 1));
        assert_eq!(ran.passed.outcomes[7].unwrap_err().place, Some("u[1][2]"));
        let number = |o: &Result<Outcome, Refusal>| o.map_err(|r| r.number);
        assert!(ran.passed.outcomes.iter().map(number).eq(passed.outcomes.iter().map(number)));
    }
}
