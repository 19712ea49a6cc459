//! Tallies by zone: each call beside a count of its own, what is refused and by which number, and that a refused call changes nothing.
use pasoletu::{
    Answer, CorotatedLinearElasticity, MaximumStressFailure, Outcome, Particle, RankinePlasticity, Refusal, SnowPlasticity,
    Tally, Zones,
};

const LAST: u64 = u32::MAX as u64;

fn number<T: std::fmt::Debug>(r: Result<T, Refusal>) -> u8 {
    r.unwrap_err().number
}

fn tally(particles: u64, untouched: u64, stored: u64, refused: u64, failed: u64) -> Tally {
    Tally { particles, untouched, stored, refused, failed }
}

fn bits(particles: &[Particle]) -> Vec<u64> {
    particles.iter().flat_map(|p| p.floats().iter().map(|x| x.to_bits())).collect()
}

fn limits() -> (MaximumStressFailure, CorotatedLinearElasticity) {
    let limits = MaximumStressFailure { max_principal_stress: 10.0, max_shear_stress: 1.0e9 };
    (limits, CorotatedLinearElasticity::new(1000.0, 0.25).unwrap())
}

/// At rest, stretched, and with a NaN.
fn three() -> [Particle; 3] {
    let mut particles = [Particle::REST, Particle::stretched([1.3, 1.0, 1.0]), Particle::REST];
    particles[2].floats_mut()[18] = f64::NAN;
    particles
}

#[test]
fn clearing_counts_the_particles_now() {
    let (mut of_each, mut tallies) = ([2, 0, 2, 2], [tally(9, 8, 7, 6, 5); 3]);
    let zones = Zones::new(&mut of_each, &mut tallies).unwrap();
    assert_eq!(zones.tallies(), [tally(1, 0, 0, 0, 0), Tally::default(), tally(3, 0, 0, 0, 0)]);
}

#[test]
fn a_pass_counts_each_outcome_where_its_particle_is() {
    let (mut of_each, mut tallies) = ([1, 1, 0], [Tally::default(); 2]);
    let mut zones = Zones::new(&mut of_each, &mut tallies).unwrap();
    let (mut particles, mut alone, mut answers) = (three(), three(), [Answer::default(); 3]);
    zones.pass_into(SnowPlasticity::new(), &mut particles, &mut answers).unwrap();
    let passed = pasoletu::pass(SnowPlasticity::new(), &mut alone);
    assert_eq!(bits(&particles), bits(&alone));
    assert_eq!((passed.stored, passed.refused), (2, 1));
    assert_eq!(zones.tallies(), [tally(1, 0, 0, 1, 0), tally(2, 0, 2, 0, 0)]);
    zones.pass_into(SnowPlasticity::new(), &mut particles, &mut answers).unwrap();
    assert_eq!(zones.tallies(), [tally(1, 0, 0, 2, 0), tally(2, 0, 4, 0, 0)]);
}

#[test]
fn an_untouched_particle_is_counted_as_such() {
    let (mut of_each, mut tallies) = ([0], [Tally::default(); 1]);
    let mut zones = Zones::new(&mut of_each, &mut tallies).unwrap();
    let law = RankinePlasticity::new(1000.0, 0.25, 1.0e9, 1.0).unwrap();
    let mut particles = [Particle::REST];
    let outcome = pasoletu::pass(law, &mut particles.clone()).outcomes[0];
    zones.pass_into(law, &mut particles, &mut [Answer::default()]).unwrap();
    assert_eq!(outcome, Ok(Outcome::Untouched));
    assert_eq!(zones.tallies(), [tally(1, 1, 0, 0, 0)]);
}

#[test]
fn a_pass_with_failure_counts_who_let_go_and_no_refused_record() {
    let (limits, elasticity) = limits();
    let (mut of_each, mut tallies) = ([1, 1, 1], [Tally::default(); 2]);
    let mut zones = Zones::new(&mut of_each, &mut tallies).unwrap();
    let mut particles = three();
    let mut alone = particles;
    let law = RankinePlasticity::new(1000.0, 0.25, 1.0e9, 1.0).unwrap();
    zones.pass_with_failure_into(law, &limits, &elasticity, &mut particles, &mut [Answer::default(); 3]).unwrap();
    let passed = pasoletu::pass_with_failure(law, &limits, &elasticity, &mut alone);
    assert_eq!(bits(&particles), bits(&alone));
    let [_, told] = zones.tallies() else { panic!("two zones") };
    assert_eq!((told.untouched, told.stored), (passed.untouched as u64, passed.stored as u64));
    assert_eq!((told.particles, told.refused, told.failed), (3, 1, 1));
}

#[test]
fn a_moved_particle_leaves_its_past() {
    let (mut of_each, mut tallies) = ([1, 1], [Tally::default(); 2]);
    let mut zones = Zones::new(&mut of_each, &mut tallies).unwrap();
    let mut particles = [Particle::REST; 2];
    let mut answers = [Answer::default(); 2];
    zones.pass_into(SnowPlasticity::new(), &mut particles, &mut answers).unwrap();
    zones.move_particle(1, 0).unwrap();
    assert_eq!(zones.zones(), [1, 0]);
    assert_eq!(zones.tallies(), [tally(1, 0, 0, 0, 0), tally(1, 0, 2, 0, 0)]);
    zones.pass_into(SnowPlasticity::new(), &mut particles, &mut answers).unwrap();
    assert_eq!(zones.tallies(), [tally(1, 0, 1, 0, 0), tally(1, 0, 3, 0, 0)]);
    zones.clear().unwrap();
    assert_eq!(zones.tallies(), [tally(1, 0, 0, 0, 0); 2]);
}

#[test]
fn out_of_range_is_refused_by_12_and_changes_nothing() {
    let mut many = vec![tally(1, 2, 3, 4, 5); 257];
    assert_eq!(number(Zones::new(&mut [0], &mut many)), 12);
    assert_eq!(many, [tally(1, 2, 3, 4, 5); 257]);
    let mut two = [tally(1, 2, 3, 4, 5); 2];
    assert_eq!(number(Zones::new(&mut [0, 2], &mut two)), 12);
    assert_eq!(two, [tally(1, 2, 3, 4, 5); 2]);
    let mut of_each = [0, 1];
    let mut zones = Zones::new(&mut of_each, &mut two).unwrap();
    for (particle, zone) in [(2, 0), (0, 2), (u64::MAX, 0), (0, u64::MAX)] {
        assert_eq!(number(zones.move_particle(particle, zone)), 12);
    }
    let mut particles = [Particle::stretched([1.3, 1.0, 1.0]); 3];
    assert_eq!(number(zones.pass_into(SnowPlasticity::new(), &mut particles, &mut [Answer::default(); 3])), 12);
    assert_eq!(bits(&particles), bits(&[Particle::stretched([1.3, 1.0, 1.0]); 3]));
    assert_eq!((zones.zones(), zones.tallies()), (&[0, 1][..], &[tally(1, 0, 0, 0, 0); 2][..]));
}

#[test]
fn answers_of_another_length_are_refused_by_8() {
    let (mut of_each, mut tallies) = ([0, 0], [Tally::default(); 1]);
    let mut zones = Zones::new(&mut of_each, &mut tallies).unwrap();
    let mut particles = [Particle::stretched([1.3, 1.0, 1.0]); 2];
    let was = bits(&particles);
    assert_eq!(number(zones.pass_into(SnowPlasticity::new(), &mut particles, &mut [Answer::default(); 3])), 8);
    let (limits, elasticity) = limits();
    let mut answers = [Answer::default(); 1];
    assert_eq!(
        number(zones.pass_with_failure_into(SnowPlasticity::new(), &limits, &elasticity, &mut particles, &mut answers)),
        8
    );
    assert_eq!(bits(&particles), was);
    assert_eq!(zones.tallies(), [tally(2, 0, 0, 0, 0)]);
}

/// Each of the four numbers stops a pass one short of its end, of either kind, and not at it.
#[test]
fn a_full_tally_is_refused_by_13_before_any_particle() {
    let (limits, elasticity) = limits();
    for field in 0..4 {
        let full = |n| match field {
            0 => tally(7, n, 0, 0, 0),
            1 => tally(7, 0, n, 0, 0),
            2 => tally(7, 0, 0, n, 0),
            _ => tally(7, 0, 0, 0, n),
        };
        for (n, refused) in [(LAST - 1, true), (LAST - 2, false), (u64::MAX, true)] {
            let before = [Tally::default(), full(n)];
            for judged in [false, true] {
                let (mut of_each, mut tallies) = ([1, 1], before);
                let mut particles = [Particle::stretched([1.3, 1.0, 1.0]); 2];
                let was = bits(&particles);
                let mut zones = Zones::resumed(&mut of_each, &mut tallies);
                let mut answers = [Answer::default(); 2];
                let law = SnowPlasticity::new();
                let done = match judged {
                    false => zones.pass_into(law, &mut particles, &mut answers),
                    true => zones.pass_with_failure_into(law, &limits, &elasticity, &mut particles, &mut answers),
                };
                assert_eq!(done.is_err(), refused);
                if refused {
                    assert_eq!((number(done), bits(&particles), zones.tallies()), (13, was, &before[..]));
                }
            }
        }
    }
}
