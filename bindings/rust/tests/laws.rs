//! Every other call once, at values that are worked by hand.
use pasoletu::math::{DecomposedTensor, Matrix};
use pasoletu::{
    pass, pass_with_failure, utils, CorotatedLinearElasticity, DruckerPragerPlasticity, EnergySplit, MaximumStressFailure, Model,
    MonaghanSphEos, NaccPlasticity, NeoHookeanElasticity, Outcome, Particle, RankinePlasticity, SnowPlasticity, StressVerdict,
};

const I: Matrix<f64> = [[1.0, 0.0, 0.0], [0.0, 1.0, 0.0], [0.0, 0.0, 1.0]];
const WIDE: MaximumStressFailure = MaximumStressFailure { max_principal_stress: f64::MAX, max_shear_stress: f64::MAX };

fn diagonal(a: f64, b: f64, c: f64) -> Matrix<f64> {
    [[a, 0.0, 0.0], [0.0, b, 0.0], [0.0, 0.0, c]]
}

fn in_phase(particle: Particle, phase: f64) -> Particle {
    Particle { phase, ..particle }
}

fn near(x: f64, wanted: f64) -> bool {
    (x - wanted).abs() <= 1e-12 * wanted.abs().max(1.0)
}

#[test]
fn moduli() {
    assert_eq!(utils::shear_modulus(10.0, 0.25), Ok(4.0));
    assert_eq!(utils::bulk_modulus(3.0, 0.25), Ok(2.0));
    assert_eq!(utils::shear_modulus_from_lame(7.0, 3.0), Ok(3.0));
    assert_eq!(utils::bulk_modulus_from_lame(1.0, 3.0), Ok(3.0));
    assert_eq!(utils::lame_lambda_mu(10.0, 0.25), Ok((4.0, 4.0)));
    assert_eq!(utils::solve_quadratic(1.0, -3.0, 2.0), Ok((2.0, 1.0)));
    assert_eq!(utils::inv_exact(4.0), Ok(0.25));
}

#[test]
fn tensors() {
    let gradient = [[0.0, 2.0, 0.0], [0.0; 3], [0.0; 3]];
    assert_eq!(utils::spin_tensor(&gradient), Ok([[0.0, 1.0, 0.0], [-1.0, 0.0, 0.0], [0.0; 3]]));
    assert_eq!(utils::strain_rate(&gradient), Ok([[0.0, 1.0, 0.0], [1.0, 0.0, 0.0], [0.0; 3]]));
    let split = DecomposedTensor::decompose(&diagonal(1.0, 2.0, 3.0)).unwrap();
    assert_eq!(split, DecomposedTensor { deviatoric_part: diagonal(-1.0, 0.0, 1.0), spherical_part: 2.0 });
    assert_eq!(split.times(&[1.0, 2.0, 3.0]), Ok([1.0, 4.0, 9.0]));
    assert_eq!(DecomposedTensor::zero().times(&[1.0, 2.0, 3.0]), Ok([0.0; 3]));
    // Rows are rows: an entry that isn't on the diagonal goes to its transposed place.
    let m = [[0.0, 1.0, 2.0], [3.0, 0.0, 5.0], [6.0, 7.0, 0.0]];
    assert_eq!(utils::spin_tensor(&m).unwrap()[0], [0.0, -1.0, -2.0]);
    assert_eq!(utils::deviatoric_part(&m), Ok(m));
}

/// Phase 0.5 weakens tension by phase_coeff(0.5) = 0.25075; lambda 1, mu 3 and hardening 2 make the bulk modulus 6; F's
/// determinant is 8.
#[test]
fn neo_hookean() {
    let law = NeoHookeanElasticity { cfl_coeff: 0.5, lambda: 1.0, mu: 3.0 };
    let f = diagonal(2.0, 2.0, 2.0);
    let twice = Particle { deformation_gradient: f, phase: 0.5, elastic_hardening: 2.0, ..Particle::REST }.with_determinant();
    let (fpk, kirchhoff) = (law.fpk_stress(&f, 2.0).unwrap(), law.stress_and_verdict(&WIDE, &twice).unwrap().stress);
    for r in 0..3 {
        for c in 0..3 {
            assert!(near(kirchhoff[r][c], 189.0 * 0.25075 * I[r][c]) && near(fpk[r][c], 94.5 * I[r][c]));
        }
    }
    let volumetric = 3.0 * (31.5 - 8f64.ln());
    assert!(near(law.elastic_energy_density(0.5, 2.0, &f).unwrap(), volumetric * 0.25075));
    assert!(near(law.pos_energy(0.5, 2.0, &f).unwrap(), volumetric * 0.5));
    // Below determinant 1 the deviatoric part.
    let deviatoric = 3.0 * (2.25 * 4f64.cbrt() - 3.0);
    assert!(near(law.pos_energy(0.5, 2.0, &diagonal(0.5, 1.0, 1.0)).unwrap(), deviatoric * 0.25075));
    let (half, volumetric_half) = (diagonal(0.5, 1.0, 1.0), 3.0 * (2f64.ln() - 0.375));
    let energy = |split, f| law.elastic_energy_density_in(split, 0.5, 2.0, f).unwrap();
    assert_eq!(energy(EnergySplit::Rust, &half), law.elastic_energy_density(0.5, 2.0, &half).unwrap());
    assert!(near(energy(EnergySplit::default(), &half), volumetric_half * 0.25075 + deviatoric));
    assert!(near(energy(EnergySplit::AsStress, &half), deviatoric * 0.25075 + volumetric_half));
    assert_eq!(energy(EnergySplit::AsStress, &f).to_bits(), energy(EnergySplit::Rust, &f).to_bits());
    let made = NeoHookeanElasticity::new(1.0, 0.0);
    assert_eq!(made, Ok(NeoHookeanElasticity { cfl_coeff: 0.5, lambda: 0.0, mu: 0.5 }));
    assert!(!law.is_fluid());
}

/// F is diag(2, 1, 1) turned: U a quarter turn, V^T the identity.
#[test]
fn corotated() {
    let law = CorotatedLinearElasticity { split_stress_on_failure: true, cfl_coeff: 0.9, lambda: 3.0, mu: 1.0 };
    let u = [[0.0, -1.0, 0.0], [1.0, 0.0, 0.0], [0.0, 0.0, 1.0]];
    let f = [[0.0, -1.0, 0.0], [2.0, 0.0, 0.0], [0.0, 0.0, 1.0]];
    let sigma = [2.0, 1.0, 1.0];
    let p = Particle { deformation_gradient: f, u, singular_values: sigma, elastic_hardening: 2.0, ..Particle::REST }
        .with_determinant();
    let stress =
        |law: CorotatedLinearElasticity, phase| law.stress_and_verdict(&WIDE, &in_phase(p, phase)).map(|told| told.stress);
    assert_eq!(stress(law, 1.0), Ok(diagonal(12.0, 20.0, 12.0)));
    assert_eq!(stress(law, 0.5), Ok(diagonal(12.0, 20.0, 12.0)));
    assert_eq!(stress(law, 0.0), Ok(diagonal(0.0, 0.0, 0.0)));
    let unsplit = CorotatedLinearElasticity { split_stress_on_failure: false, ..law };
    assert_eq!(stress(unsplit, 0.0), Ok(diagonal(12.0, 20.0, 12.0)));
    assert_eq!(law.elastic_energy_density(&sigma, 2.0), Ok(5.0));
    assert_eq!(law.pos_energy(&f, &sigma, 2.0), Ok(5.0));
    assert_eq!(law.pos_energy(&I, &sigma, 2.0), Ok(2.0));
    let made = CorotatedLinearElasticity::new(1.0, 0.0).unwrap();
    assert_eq!((made.split_stress_on_failure, made.cfl_coeff, made.lambda, made.mu), (true, 0.9, 0.0, 0.5));
}

/// Of a particle, with the determinant that it holds: what the calls answer of its parts, in every bit.
#[test]
fn solids_of_a_particle() {
    let neo = NeoHookeanElasticity { cfl_coeff: 0.5, lambda: 1.0, mu: 3.0 };
    let corotated = CorotatedLinearElasticity { split_stress_on_failure: true, cfl_coeff: 0.9, lambda: 3.0, mu: 1.0 };
    let u = [[0.0, -1.0, 0.0], [1.0, 0.0, 0.0], [0.0, 0.0, 1.0]];
    for (phase, long) in [(1.0, 2.0), (0.5, 0.7), (0.0, 1.3)] {
        let f = [[0.0, -1.0, 0.0], [long, 0.0, 0.0], [0.0, 0.0, 1.0]];
        let sigma = [long, 1.0, 1.0];
        let p = Particle { deformation_gradient: f, u, singular_values: sigma, phase, elastic_hardening: 2.0, ..Particle::REST };
        let p = p.with_determinant();
        assert_eq!(neo.fpk_stress_of(&p), neo.fpk_stress(&f, 2.0));
        assert_eq!(neo.elastic_energy_density_of(&p), neo.elastic_energy_density(phase, 2.0, &f));
        for split in [EnergySplit::Rust, EnergySplit::AsStress] {
            assert_eq!(neo.elastic_energy_density_in_of(split, &p), neo.elastic_energy_density_in(split, phase, 2.0, &f));
        }
        assert_eq!(neo.pos_energy_of(&p), neo.pos_energy(phase, 2.0, &f));
        assert_eq!(corotated.elastic_energy_density_of(&p), corotated.elastic_energy_density(&sigma, 2.0));
        assert_eq!(corotated.pos_energy_of(&p), corotated.pos_energy(&f, &sigma, 2.0));
        let wrong = Particle { determinant: 7.0, ..p };
        assert_eq!(neo.fpk_stress_of(&wrong).unwrap_err().number, 11);
        assert_eq!(neo.elastic_energy_density_in_of(EnergySplit::AsStress, &wrong).unwrap_err().number, 11);
        assert_eq!(corotated.elastic_energy_density_of(&wrong).unwrap_err().number, 11);
        let lost = Particle { nacc_alpha: f64::NAN, ..wrong };
        let refusal = corotated.pos_energy_of(&lost).unwrap_err();
        assert_eq!((refusal.number, refusal.place), (1, Some("nacc_alpha")));
        let soft = NeoHookeanElasticity { mu: f64::NAN, ..neo };
        assert_eq!(soft.fpk_stress_of(&wrong).unwrap_err().number, 1);
        assert_eq!(soft.stress_and_verdict(&WIDE, &wrong).unwrap_err().number, 1);
        assert_eq!(neo.stress_and_verdict(&WIDE, &wrong).unwrap_err().number, 11);
        assert_eq!(corotated.stress_and_verdict(&WIDE, &wrong).unwrap_err().number, 11);
    }
}

/// Mass 2 in volume 4: the density at rest is 0.5.
#[test]
fn monaghan() {
    let law = MonaghanSphEos { pressure0: 10.0, gamma: 2, viscosity: 0.5, max_neg_pressure: 7.0 };
    assert_eq!(law.pressure(2.0, 4.0, 1.0), Ok(30.0));
    assert_eq!(law.pressure(2.0, 4.0, 0.0), Ok(-7.0));
    let gradient = [[0.0, 2.0, 0.0], [0.0; 3], [0.0; 3]];
    let stress = law.kirchhoff_stress(2.0, 4.0, 1.0, 3.0, &gradient);
    assert_eq!(stress, Ok([[-90.0, 3.0, 0.0], [3.0, -90.0, 0.0], [0.0, 0.0, -90.0]]));
    let step = |j| law.timestep_bound(j, 2.0, 4.0, 1.0, &[3.0, 4.0, 0.0], 3.0).unwrap();
    assert!(near(step(0.5), 6.0 * (0.25f64 / 540.0).sqrt()));
    assert!(near(step(2.0), 3.0 / 250f64.sqrt()));
    let made = MonaghanSphEos::new(10.0, 2, 0.5);
    assert_eq!(made, Ok(MonaghanSphEos { max_neg_pressure: 1.0, ..law }));
    assert!(law.is_fluid());
}

/// lambda 0 and mu 1.25: the stress of the stretch (2, 1, 1) is diag(5, 0, 0), its shear 2.5.
#[test]
fn verdict() {
    let law = CorotatedLinearElasticity { split_stress_on_failure: true, cfl_coeff: 0.9, lambda: 0.0, mu: 1.25 };
    let stretched = Particle::stretched([2.0, 1.0, 1.0]);
    for ([principal, shear], failed) in [([5.0, 2.5], false), ([4.75, 9.0], true), ([5.0, 2.25], true), ([9.0, 9.0], false)] {
        let limits = MaximumStressFailure::new(principal, shear).unwrap();
        let told = StressVerdict { stress: diagonal(5.0, 0.0, 0.0), failed };
        assert_eq!(law.stress_and_verdict(&limits, &stretched), Ok(told));
    }
    let limits = MaximumStressFailure { max_principal_stress: 1.0, max_shear_stress: f64::NAN };
    let refusal = law.stress_and_verdict(&limits, &stretched).unwrap_err();
    assert_eq!((refusal.number, refusal.place), (1, None));
}

/// A turned stretch: the diagonal alone would say another verdict than the principal values do.
#[test]
fn verdict_on_principal_values() {
    let law = CorotatedLinearElasticity { split_stress_on_failure: true, cfl_coeff: 0.9, lambda: 0.0, mu: 1.25 };
    let (c, s) = (0.8, 0.6);
    let u = [[c, -s, 0.0], [s, c, 0.0], [0.0, 0.0, 1.0]];
    let f = [[2.0 * c, -s, 0.0], [2.0 * s, c, 0.0], [0.0, 0.0, 1.0]];
    let p = Particle { deformation_gradient: f, u, singular_values: [2.0, 1.0, 1.0], ..Particle::REST }.with_determinant();
    let told = |principal, shear| law.stress_and_verdict(&MaximumStressFailure::new(principal, shear).unwrap(), &p).unwrap();
    let stress = told(4.9, 9.0).stress;
    assert!(near(stress[0][0], 3.2) && near(stress[1][0], 2.4) && near(stress[1][1], 1.8));
    assert!(told(4.9, 9.0).failed && told(9.0, 2.4).failed && !told(5.1, 2.6).failed);
}

#[test]
fn rankine() {
    // lambda 0 and 2 mu 1: the stresses are the strains.
    let law = RankinePlasticity::new(1.0, 0.0, 10.0, 0.5).unwrap();
    assert_eq!(law.project([3.0, 1.0, 0.0], 2.0), Ok([2.0, 1.0, 0.0]));
    assert_eq!(law.project([3.0, 1.0, 4.0], 2.0), Ok([2.0, 1.0, 2.0]));
    assert_eq!(law.project([3.0, 5.0, 4.0], 2.0), Ok([2.0, 2.0, 2.0]));
    assert_eq!(law.project([1.0, 2.0, 0.0], 2.0), Ok([1.0, 2.0, 0.0]));
    let mut inside = Particle::stretched([1.5, 1.0, 1.0]);
    assert_eq!(law.update_particle(&mut inside), Ok(Outcome::Untouched));
    assert_eq!(inside, Particle::stretched([1.5, 1.0, 1.0]));
    // The hardening is 1 at first, so s is the strength 10: the strain 12 comes back to 10, and the hardening grows by 0.5 * 2.
    let mut over = Particle::stretched([12f64.exp(), 1.0, 1.0]);
    let Ok(Outcome::Stored(hardening)) = law.update_particle(&mut over) else { panic!() };
    assert!(near(over.singular_values[0], 10f64.exp()) && near(over.deformation_gradient[0][0], 10f64.exp()));
    assert!(near(hardening, 2.0) && over.plastic_hardening == hardening);
}

/// The surface's branch, worked here a second time.
#[test]
fn drucker_prager() {
    let law = DruckerPragerPlasticity {
        h0: 0.6,
        h1: 0.15,
        h2: 0.2,
        h3: 0.17,
        lambda: 3.0,
        mu: 2.0,
        only_active_when_failed: false,
        volume_correction: 0.5,
    };
    let s = (0.6 + (0.15 * 2.0 - 0.17) * (-0.4f64).exp()).sin();
    let alpha = (2f64 / 3.0).sqrt() * 2.0 * s / (3.0 - s);
    assert!(near(law.alpha(2.0).unwrap(), alpha));
    let old = Particle { plastic_hardening: 2.0, log_vol_gain: -0.03, ..Particle::stretched([0.7, 1.3, 0.95]) };
    let strain = old.singular_values.map(|e| e.ln() - 0.01);
    let trace: f64 = strain.iter().sum();
    let deviatoric = strain.map(|e| e - trace / 3.0);
    let norm = deviatoric.iter().map(|e| e * e).sum::<f64>().sqrt();
    let gamma = norm + (3.0 * 3.0 + 2.0 * 2.0) / (2.0 * 2.0) * trace * alpha;
    assert!(gamma > 0.0 && trace < 0.0);
    let mut new = old;
    let Ok(Outcome::Stored(dq)) = law.update_particle(&mut new) else { panic!() };
    assert!(near(dq, gamma) && new.plastic_hardening == 2.0 + dq);
    let wanted: [f64; 3] = std::array::from_fn(|k| (strain[k] - gamma * deviatoric[k] / norm).exp());
    assert!((0..3).all(|k| near(new.singular_values[k], wanted[k]) && near(new.deformation_gradient[k][k], wanted[k])));
    let (before, after) = (0.7 * 1.3 * 0.95, wanted.iter().product::<f64>());
    assert!(after < before);
    let corrected = before + (after - before) * 0.5;
    assert!(near(new.plastic_deformation_gradient_det, before / corrected));
    assert!(near(new.log_vol_gain, -0.03 + (before / corrected).ln()));

    let idle = DruckerPragerPlasticity { only_active_when_failed: true, ..law };
    let mut whole = old;
    assert_eq!(idle.update_particle(&mut whole), Ok(Outcome::Untouched));
    assert_eq!(whole, old);
    assert_eq!(idle.update_particle(&mut Particle { phase: 0.0, ..old }), Ok(Outcome::Stored(dq)));
    let made = DruckerPragerPlasticity::new(1.0, 0.0).unwrap();
    assert_eq!((made.lambda, made.mu, made.only_active_when_failed, made.volume_correction), (0.0, 0.5, false, 1.0));
    assert_eq!((made.h0, made.h1, made.h2, made.h3), (35f64.to_radians(), 9f64.to_radians(), 0.2, 10f64.to_radians()));
}

#[test]
fn nacc() {
    let law = NaccPlasticity::with_m(1e4, 0.3, 0.05, true, 3.0, 2.36).unwrap();
    let mut at_rest = Particle { nacc_alpha: -0.01, ..Particle::REST };
    assert_eq!(law.update_particle(&mut at_rest), Ok(Outcome::Untouched));
    // Crushed: to the upper tip, all singular values alike; torn: to the lower one.
    let sinh = (3.0f64 * 0.01).sinh() + 1e-5;
    for (sigma, j) in [([0.5, 0.4, 0.5], (1.0 - 2.0 * sinh).sqrt()), ([1.5, 1.4, 1.5], (1.0 + 2.0 * 0.05 * sinh).sqrt())] {
        let mut tip = Particle { nacc_alpha: -0.01, ..Particle::stretched(sigma) };
        let Ok(Outcome::Stored(alpha)) = law.update_particle(&mut tip) else { panic!() };
        assert!(tip.singular_values.iter().all(|x| near(*x, j.cbrt())));
        assert!(near(alpha, -0.01 + (sigma.iter().product::<f64>() / j).ln()) && tip.nacc_alpha == alpha);
        let soft = NaccPlasticity::with_m(1e4, 0.3, 0.05, false, 3.0, 2.36).unwrap();
        let mut tip = Particle { nacc_alpha: -0.01, ..Particle::stretched(sigma) };
        assert_eq!(soft.update_particle(&mut tip), Ok(Outcome::Stored(-0.01)));
    }
    // The friction from the angle whose sine is s is 2 s / (3 - s) * 3: of 0.5 it is 1.2.
    let angled = NaccPlasticity::new(1e4, 0.3, 0.05, true, 3.0, 0.5f64.asin()).unwrap();
    let given = NaccPlasticity::with_m(1e4, 0.3, 0.05, true, 3.0, 1.2).unwrap();
    let sheared = Particle { nacc_alpha: -0.05, ..Particle::stretched([0.8, 1.1, 1.1]) };
    let (mut a, mut b, mut other) = (sheared, sheared, sheared);
    angled.update_particle(&mut a).unwrap();
    given.update_particle(&mut b).unwrap();
    law.update_particle(&mut other).unwrap();
    assert!(a.floats().iter().zip(b.floats()).all(|(x, y)| near(*x, *y)));
    assert_ne!(b, other);
}

#[test]
fn a_pass_is_each_update() {
    let laws: [Model; 4] = [
        SnowPlasticity::new().into(),
        RankinePlasticity::new(1e5, 0.3, 500.0, 2.0).unwrap().into(),
        DruckerPragerPlasticity::new(1e5, 0.3).unwrap().into(),
        NaccPlasticity::with_m(1e4, 0.3, 0.05, true, 3.0, 2.36).unwrap().into(),
    ];
    for law in laws {
        let drawn = |k: u32| Particle { nacc_alpha: -0.05, ..Particle::stretched([0.8 + 0.05 * k as f64, 1.1, 0.97]) };
        let mut one_by_one: Vec<Particle> = (0..10).map(drawn).collect();
        let mut at_once = one_by_one.clone();
        let outcomes: Vec<_> = one_by_one.iter_mut().map(|p| law.update_particle(p)).collect();
        let passed = pass(law, &mut at_once);
        assert_eq!(passed.outcomes, outcomes);
        assert_eq!(at_once, one_by_one);
        let count = |o| outcomes.iter().filter(|x| matches!(x, Ok(Outcome::Untouched)) == o).count() as u64;
        assert_eq!((passed.untouched, passed.stored, passed.refused), (count(true), count(false), 0));
    }
    assert_eq!(pass(SnowPlasticity::new(), &mut []).outcomes, []);
}

const SPLIT: CorotatedLinearElasticity =
    CorotatedLinearElasticity { split_stress_on_failure: true, cfl_coeff: 0.9, lambda: 3.0, mu: 1.0 };

/// A pass with failure over one particle: its outcome, whether it failed, and the particle after it.
fn judged(model: impl Into<Model>, limits: [f64; 2], particle: Particle) -> (Outcome, bool, Particle) {
    let limits = MaximumStressFailure::new(limits[0], limits[1]).unwrap();
    let mut particles = [particle];
    let passed = pass_with_failure(model, &limits, &SPLIT, &mut particles);
    (passed.outcomes[0].unwrap(), passed.failed == 1, particles[0])
}

/// The principal stresses are 10, 6, 6, and the law leaves the particle, so that it is judged as it stands.
#[test]
fn failure_sets_the_phase() {
    let law = RankinePlasticity::new(10.0, 0.25, 100.0, 1.0).unwrap();
    let stretched = Particle::stretched([2.0, 1.0, 1.0]);
    for (limits, phase) in [([9.5, 100.0], 0.0), ([10.0, 2.0], 1.0), ([10.0, 1.5], 0.0)] {
        let after = Particle { phase, ..stretched };
        assert_eq!(judged(law, limits, stretched), (Outcome::Untouched, phase == 0.0, after));
    }
    let failed = Particle { phase: 0.0, ..stretched };
    assert_eq!(judged(law, [9.5, 100.0], failed), (Outcome::Untouched, false, failed));
}

/// The same stresses, which the law relaxes before they are judged.
#[test]
fn what_yields_below_the_limits_has_not_failed() {
    let laws: [Model; 2] = [SnowPlasticity::new().into(), RankinePlasticity::new(10.0, 0.25, 1.0, 1.0).unwrap().into()];
    for law in laws {
        let mut alone = Particle::stretched([2.0, 1.0, 1.0]);
        let outcome = law.update_particle(&mut alone).unwrap();
        assert_eq!(judged(law, [9.5, 100.0], Particle::stretched([2.0, 1.0, 1.0])), (outcome, false, alone));
        assert!(matches!(outcome, Outcome::Stored(_)) && alone.phase == 1.0);
    }
}

/// Crushed snow hardens, from 1 to 218: over the shear limit only as the law leaves it.
#[test]
fn what_the_law_hardens_fails_by_what_it_leaves() {
    let crushed = Particle { plastic_deformation_gradient_det: 0.5, ..Particle::stretched([0.9, 1.0, 1.0]) };
    let mut alone = crushed;
    let outcome = SnowPlasticity::new().update_particle(&mut alone).unwrap();
    assert_eq!(judged(SnowPlasticity::new(), [100.0, 1.0], crushed), (outcome, true, Particle { phase: 0.0, ..alone }));
    assert_eq!(alone.singular_values[0], 0.975);
}

/// Drucker-Prager only for failed particles meets the phase as it came, and the new one in the next pass.
#[test]
fn the_law_sees_the_phase_as_it_came() {
    let law = DruckerPragerPlasticity { only_active_when_failed: true, ..DruckerPragerPlasticity::new(1e5, 0.3).unwrap() };
    let stretched = Particle::stretched([2.0, 1.0, 1.0]);
    let failed = Particle { phase: 0.0, ..stretched };
    assert_eq!(judged(law, [9.5, 100.0], stretched), (Outcome::Untouched, true, failed));
    let (outcome, again, after) = judged(law, [9.5, 100.0], failed);
    assert!(matches!(outcome, Outcome::Stored(_)) && !again);
    assert_eq!((after.phase, after.singular_values), (0.0, [1.0; 3]));
}
