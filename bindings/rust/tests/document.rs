//! The values of docs/RULES.md: section 8's twelve cases and section 7's example.
use pasoletu::{
    elementary, pass, read_sheet, run_sheet, utils, CorotatedLinearElasticity, DruckerPragerPlasticity, MaximumStressFailure,
    Model, MonaghanSphEos, NeoHookeanElasticity, Outcome, Particle, SnowPlasticity,
};

fn clamp(sigma: f64) -> f64 {
    SnowPlasticity::new().project_deformation_gradient([sigma, 1.0, 1.0])[0]
}

#[test]
fn p1_to_p3_the_clamp() {
    assert_eq!(clamp(1.0), 1.0);
    assert_eq!(clamp(f64::NAN), 1.0 - 0.025);
    assert_eq!(clamp(2.0), 1.0 + 0.0045);
}

#[test]
fn p4_inv_exact() {
    assert_eq!(utils::inv_exact(0.0).unwrap().to_bits(), 0);
}

#[test]
fn p5_phase_coeff() {
    assert_eq!(NeoHookeanElasticity::phase_coeff(0.0), Ok(0.001));
}

#[test]
fn p6_to_p9_monaghan() {
    let pressure = |gamma, density| MonaghanSphEos::new(10.0, gamma, 0.0).unwrap().pressure(1.0, 1.0, density);
    assert_eq!(pressure(2, 2.0), Ok(30.0));
    assert_eq!(pressure(2, 0.0), Ok(-1.0));
    assert_eq!(pressure(0, 2.0), Ok(0.0));
    assert_eq!(pressure(4_294_967_295, 0.5), Ok(10.0));
}

#[test]
fn p10_p11_failure() {
    // lambda 0: each stress is 2 mu (sigma - 1) sigma, so these are (5, 0, 0) and, near, (4, 0, -1).
    let failed = |principal, shear, mu, sigma| {
        let law = CorotatedLinearElasticity { split_stress_on_failure: true, cfl_coeff: 0.9, lambda: 0.0, mu };
        let limits = MaximumStressFailure::new(principal, shear).unwrap();
        law.stress_and_verdict(&limits, &Particle::stretched(sigma)).map(|told| told.failed)
    };
    assert_eq!(failed(5.0, 9.0, 1.25, [2.0, 1.0, 1.0]), Ok(false));
    assert_eq!(failed(5.0, 2.0, 8.0 / 3.0, [1.5, 1.0, 0.25]), Ok(true));
}

#[test]
fn p12_drucker_prager_at_rest_is_stored() {
    let mut particle = Particle::REST;
    let outcome = DruckerPragerPlasticity::new(1e5, 0.3).unwrap().update_particle(&mut particle);
    assert_eq!(outcome, Ok(Outcome::Stored(0.0)));
}

/// Section 7's example as a sheet: Snow with its defaults and one particle at rest.
fn example() -> Vec<u8> {
    let mut sheet = vec![0];
    sheet.extend([0.025f64, 0.0045, 10.0].iter().flat_map(|x| x.to_le_bytes()));
    sheet.push(1);
    sheet.extend(Particle::REST.floats()[..Particle::BARE].iter().flat_map(|x| x.to_le_bytes()));
    sheet
}

#[test]
fn section_7_example() {
    let ran = run_sheet(&example()).unwrap();
    let Ok(Outcome::Stored(amount)) = ran.passed.outcomes[0] else { panic!("{:?}", ran.passed) };
    assert_eq!(amount.to_bits(), 0x3ff0_0000_0000_0000);
    assert_eq!((ran.passed.untouched, ran.passed.stored, ran.passed.refused), (0, 1, 0));
    assert_eq!(ran.model, Model::Snow(SnowPlasticity::new()));
    assert_eq!(ran.particles, [Particle::REST]);
    assert_eq!(read_sheet(&example()).unwrap().particles, [Particle::REST]);
    let sample = concat!(env!("CARGO_MANIFEST_DIR"), "/../../samples/snow.sheet");
    assert_eq!(std::fs::read(sample).unwrap(), example());
}

/// Each sheet that the gate runs gets the answers that the proved program printed.
#[test]
fn the_program_s_sheets() {
    let cases = concat!(env!("CARGO_MANIFEST_DIR"), "/../../crates/slope_cases");
    let mut files: Vec<_> = std::fs::read_dir(format!("{cases}/data")).unwrap().map(|f| f.unwrap().path()).collect();
    files.sort();
    let mut lines = Vec::new();
    for file in files {
        lines.push(format!("-- {}", file.file_name().unwrap().to_str().unwrap()));
        let passed = match run_sheet(&std::fs::read(file).unwrap()) {
            Ok(ran) => ran.passed,
            Err(refusal) => {
                lines.push(format!("sheet refused {}", refusal.number));
                continue;
            }
        };
        lines.push(format!("particles {}", passed.outcomes.len()));
        for (k, outcome) in passed.outcomes.iter().enumerate() {
            lines.push(match outcome {
                Ok(Outcome::Untouched) => format!("{k} untouched"),
                Ok(Outcome::Stored(amount)) => format!("{k} stored {:016x}", amount.to_bits()),
                Err(refusal) => format!("{k} refused {}", refusal.number),
            });
        }
        lines.push("end".to_string());
    }
    let printed = std::fs::read_to_string(format!("{cases}/stdout")).unwrap();
    // Under each heading that ends with `why` stand reasons.
    let mut reasons = false;
    let answers = printed.lines().filter(|line| {
        if line.starts_with("-- ") {
            reasons = line.ends_with(" why");
        }
        !reasons
    });
    assert!(lines.iter().map(String::as_str).eq(answers));
}

#[test]
fn section_5_snow() {
    // The plastic determinant is multiplied by old product over new product, and the hardening follows.
    let mut particles = [Particle::stretched([0.9, 1.0, 2.0])];
    let passed = pass(SnowPlasticity::new(), &mut particles);
    let p = &particles[0];
    assert_eq!(p.singular_values, [0.975, 1.0, 1.0045]);
    assert_eq!(p.deformation_gradient, [[0.975, 0.0, 0.0], [0.0, 1.0, 0.0], [0.0, 0.0, 1.0045]]);
    let determinant = (0.9 * 1.0 * 2.0) / (0.975 * 1.0 * 1.0045);
    assert_eq!(p.plastic_deformation_gradient_det, determinant);
    assert_eq!(elementary::exp(10.0 * (1.0 - determinant)), Ok(p.elastic_hardening));
    assert_eq!(passed.outcomes, [Ok(Outcome::Stored(p.elastic_hardening))]);
}

#[test]
fn section_3_exact_values() {
    assert_eq!(elementary::exp(0.0), Ok(1.0));
    assert_eq!(elementary::ln(1.0), Ok(0.0));
    assert_eq!(elementary::sinh(0.0), Ok(0.0));
    assert_eq!(elementary::sqrt(2.0), Ok(2f64.sqrt()));
    for third in [elementary::cbrt, elementary::inv_cbrt, elementary::cbrt_squared, elementary::inv_cbrt_squared] {
        assert_eq!(third(1.0), Ok(1.0));
    }
}

#[test]
fn section_3_distances() {
    let near = |ours: f64, exact: f64, size: f64| (ours - exact).abs() <= 2f64.powi(-44) * size;
    for k in -700..=700 {
        let x = k as f64 * 0.99;
        assert!(near(elementary::exp(x).unwrap(), x.exp(), x.exp()), "exp {x}");
        assert!(near(elementary::sinh(x).unwrap(), x.sinh(), 1.0 + x.sinh().abs()), "sinh {x}");
        assert!(near(elementary::sin(x / 100.0).unwrap(), (x / 100.0).sin(), 1.0), "sin {x}");
        let y = (x / 20.0).exp();
        assert!(near(elementary::ln(y).unwrap(), y.ln(), 1.0), "ln {y}");
        let (a, b) = (y.cbrt(), y.cbrt() * y.cbrt());
        assert!(near(elementary::cbrt(y).unwrap(), a, a), "cbrt {y}");
        assert!(near(elementary::inv_cbrt(y).unwrap(), 1.0 / a, 1.0 / a), "inv_cbrt {y}");
        assert!(near(elementary::cbrt_squared(y).unwrap(), b, b), "cbrt_squared {y}");
        assert!(near(elementary::inv_cbrt_squared(y).unwrap(), 1.0 / b, 1.0 / b), "inv_cbrt_squared {y}");
    }
}
