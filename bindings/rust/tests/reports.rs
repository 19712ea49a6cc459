//! Reports: values at the ends, lists cut anywhere, and what is refused.
use pasoletu::{report, Column, Particle, Refusal, Report, REPORT_MOST};

fn particle(x: f64) -> Particle {
    Particle { plastic_hardening: x, ..Particle::REST }
}

fn column(values: &[f64]) -> Column {
    let particles: Vec<_> = values.iter().copied().map(particle).collect();
    report(&particles).unwrap().plastic_hardening
}

fn counted(k: i64) -> Column {
    Column { count: 1, least: k, greatest: k, total: k, ..Column::default() }
}

#[test]
fn values_at_the_ends() {
    let ends = 1048576.0_f64;
    let next = f64::from_bits(ends.to_bits() + 1);
    for (x, k) in [
        (ends, 1 << 50),
        (-ends, -(1 << 50)),
        (0.0, 0),
        (-0.0, 0),
        (f64::from_bits(1), 0),
        (f64::from_bits(1 | 1 << 63), -1),
        (1.0, 1 << 30),
        (-1.0, -(1 << 30)),
        (0.1, 107374182),
        (-0.1, -107374183),
    ] {
        assert_eq!(column(&[x]), counted(k), "{x:e}");
    }
    for x in [next, -next, f64::MAX, f64::MIN] {
        assert_eq!(column(&[x]), Column { outside: 1, ..Column::default() }, "{x:e}");
    }
    for x in [f64::NAN, -f64::NAN, f64::INFINITY, f64::NEG_INFINITY, f64::from_bits(0x7ff0_0000_0000_0001)] {
        assert_eq!(column(&[x]), Column { not_finite: 1, ..Column::default() }, "{x:e}");
    }
}

#[test]
fn a_list_cut_anywhere() {
    let values = [3.5, -0.1, 2e6, f64::NAN, -1048576.0, -0.0, 1e-300, -1e-300];
    let particles: Vec<_> = values.iter().copied().map(particle).collect();
    let whole = report(&particles).unwrap();
    assert_eq!(
        whole.plastic_hardening,
        Column {
            count: 6,
            least: -(1 << 50),
            greatest: 7 << 29,
            total: (7 << 29) - 107374184 - (1 << 50),
            outside: 1,
            not_finite: 1
        }
    );
    for k in 0..=particles.len() {
        let (a, b) = particles.split_at(k);
        assert_eq!(report(a).unwrap().joined(&report(b).unwrap()), Ok(whole));
    }
    assert_eq!(whole.joined(&Report::default()), Ok(whole));
}

#[test]
fn the_columns_are_their_own() {
    let mut particle = Particle::REST;
    (particle.plastic_hardening, particle.elastic_hardening, particle.plastic_deformation_gradient_det) = (1.0, 2.0, 3.0);
    let told = report(&[particle]).unwrap();
    assert_eq!(told.plastic_hardening, counted(1 << 30));
    assert_eq!(told.elastic_hardening, counted(2 << 30));
    assert_eq!(told.plastic_determinant, counted(3 << 30));
}

#[test]
fn over_4096_particles_are_refused() {
    let many = vec![particle(-1048576.0); REPORT_MOST + 1];
    let most = report(&many[1..]).unwrap();
    assert_eq!(most.plastic_hardening.total, -(1 << 62));
    assert_eq!(report(&many).unwrap_err().number, Refusal::TOO_LONG);
    let refusal = most.joined(&report(&many[..1]).unwrap()).unwrap_err();
    assert_eq!(
        refusal.to_string(),
        "Report::joined refused by 16: a report has over 4096 particles; report them in lists of at most 4096"
    );
}
