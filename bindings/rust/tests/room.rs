//! The passes and the reading of a sheet in the caller's room.
use pasoletu::{
    pass, pass_into, pass_with_failure, pass_with_failure_into, read_sheet, read_sheet_into, Answer, CorotatedLinearElasticity,
    Header, MaximumStressFailure, Particle, Refusal, SnowPlasticity, VERSION,
};

fn particles() -> [Particle; 3] {
    [Particle::REST, Particle::stretched([0.9, 1.0, 1.0]), Particle::stretched([f64::NAN, 1.0, 1.0])]
}

fn bits(particles: &[Particle]) -> Vec<u64> {
    particles.iter().flat_map(|p| p.floats().map(f64::to_bits)).collect()
}

#[test]
fn a_pass_does_what_the_one_in_a_vec_does() {
    let (mut ours, mut theirs, mut answers) = (particles(), particles(), [Answer::default(); 3]);
    let counts = pass_into(SnowPlasticity::new(), &mut ours, &mut answers).unwrap();
    let passed = pass(SnowPlasticity::new(), &mut theirs);
    assert_eq!(bits(&ours), bits(&theirs));
    assert_eq!((counts.untouched, counts.stored, counts.refused, counts.failed), (0, 2, 1, 0));
    for (answer, outcome) in answers.iter().zip(passed.outcomes) {
        assert_eq!(answer.outcome(), outcome.map_err(|r| r.number));
    }
}

#[test]
fn so_does_one_with_failure() {
    let limits = MaximumStressFailure::new(1.0, 1.0).unwrap();
    let law = CorotatedLinearElasticity::new(1e5, 0.3).unwrap();
    let (mut ours, mut theirs, mut answers) = (particles(), particles(), [Answer::default(); 3]);
    let counts = pass_with_failure_into(SnowPlasticity::new(), &limits, &law, &mut ours, &mut answers).unwrap();
    let passed = pass_with_failure(SnowPlasticity::new(), &limits, &law, &mut theirs);
    assert_eq!(bits(&ours), bits(&theirs));
    assert_eq!((counts.stored, counts.refused, counts.failed), (passed.stored, passed.refused, 1));
    assert_eq!(passed.failed, 1);
}

#[test]
fn too_few_answers_are_refused_with_nothing_written() {
    let (mut ours, mut answers) = (particles(), [Answer::default(); 2]);
    let refusal = pass_into(SnowPlasticity::new(), &mut ours, &mut answers).unwrap_err();
    assert_eq!(refusal.number, Refusal::LENGTH);
    assert_eq!(
        refusal.to_string(),
        "pass_into refused by 8: a list has the wrong length; give 37 floats (the determinant last) and 2 answers a particle, 9 floats a matrix, 3 a vector"
    );
    assert_eq!(bits(&ours), bits(&particles()));
    assert_eq!(answers, [Answer::default(); 2]);
}

#[test]
fn no_particles_are_a_pass_of_none() {
    let counts = pass_into(SnowPlasticity::new(), &mut [], &mut []).unwrap();
    assert_eq!(counts, Default::default());
}

#[test]
fn a_sheet_is_read_into_the_first_particles() {
    let floats = SnowPlasticity::new();
    let mut bytes = vec![0u8];
    bytes.extend([floats.min_epsilon, floats.max_epsilon, floats.hardening_coeff].iter().flat_map(|x| x.to_le_bytes()));
    bytes.push(2);
    let sheet = &particles()[1..];
    bytes.extend(sheet.iter().flat_map(|p| p.floats().map(f64::to_le_bytes)[..Particle::BARE].concat()));
    let mut room = [Particle { phase: 0.25, ..Particle::REST }; 3];
    let header = read_sheet_into(&bytes, &mut room).unwrap();
    assert_eq!(header, Header { model: floats.into(), determinants: false, count: 2 });
    assert_eq!(bits(&room[..2]), bits(sheet));
    assert_eq!(room[2].phase, 0.25);
    assert_eq!(bits(&read_sheet(&bytes).unwrap().particles), bits(sheet));
    assert_eq!(read_sheet_into(&bytes, &mut room[..1]).unwrap_err().number, Refusal::LENGTH);
}

#[test]
fn the_version_is_the_repositorys() {
    let file = concat!(env!("CARGO_MANIFEST_DIR"), "/../../VERSION");
    assert_eq!(VERSION, std::fs::read_to_string(file).unwrap().trim());
}
