//! Sheets that are written: read back, the same bytes, and what is refused.
use pasoletu::{
    fill_determinants, read_sheet, run_sheet, write_sheet, write_sheet_into, write_sheet_with_determinants,
    write_sheet_with_determinants_into, DruckerPragerPlasticity, Model, NaccPlasticity, Particle, RankinePlasticity, Refusal,
    SnowPlasticity, SHEET_BYTES, SHEET_MOST,
};

fn bits(particles: &[Particle]) -> Vec<u64> {
    particles.iter().flat_map(|p| p.floats().map(f64::to_bits)).collect()
}

fn laws() -> [Model; 4] {
    let cone = DruckerPragerPlasticity { only_active_when_failed: true, ..DruckerPragerPlasticity::new(1e5, 0.3).unwrap() };
    [
        SnowPlasticity { min_epsilon: f64::from_bits(0x7ff0_0000_00c0_ffee), ..SnowPlasticity::new() }.into(),
        RankinePlasticity::new(1e5, 0.3, 500.0, 2.0).unwrap().into(),
        cone.into(),
        NaccPlasticity::with_m(1e4, 0.3, 0.05, true, 3.0, 2.36).unwrap().into(),
    ]
}

/// Every float of every particle has other bits: NaNs with payloads, infinities and -0.0 are among them.
fn particles(n: usize) -> Vec<Particle> {
    let mut all = vec![Particle::REST; n];
    for (k, particle) in all.iter_mut().enumerate() {
        for (j, x) in particle.floats_mut().iter_mut().enumerate() {
            let seed = (k * 37 + j) as u64;
            *x = f64::from_bits(match seed % 5 {
                0 => 0x7ff0_0000_0000_0001 + seed,
                1 => 0xfff0_0000_0000_0000,
                2 => 1 << 63,
                _ => seed.wrapping_mul(0x9e37_79b9_7f4a_7c15),
            });
        }
    }
    all
}

#[test]
fn what_was_written_is_read_back() {
    for law in laws() {
        for n in [0, 1, 2, 127, 128, 199, 200] {
            let given = particles(n);
            let mut filled = given.clone();
            fill_determinants(&mut filled);
            let both = [(write_sheet(law, &given), filled), (write_sheet_with_determinants(law, &given), given)];
            for (determinants, (bytes, wanted)) in both.into_iter().enumerate() {
                let bytes = bytes.unwrap();
                let read = read_sheet(&bytes).unwrap();
                assert_eq!(read.determinants, determinants == 1);
                assert_eq!(bits(&read.particles), bits(&wanted));
                assert_eq!(read.bytes().unwrap(), bytes);
                let mut sent = Vec::new();
                read.write(&mut sent).unwrap();
                assert_eq!(sent, bytes);
            }
        }
    }
}

#[test]
fn the_bytes_are_section_7s() {
    let bytes = write_sheet(SnowPlasticity::new(), &[Particle::REST; 130]).unwrap();
    assert_eq!(bytes[0], 0);
    assert_eq!(bytes[1..25], [0.025, 0.0045, 10.0].map(f64::to_le_bytes).concat());
    assert_eq!(bytes[25..27], [0x82, 1]);
    let rest = Particle::REST.floats().map(f64::to_le_bytes);
    assert_eq!(bytes[27..], rest[..Particle::BARE].concat().repeat(130));
    let whole = write_sheet_with_determinants(SnowPlasticity::new(), &[Particle::REST; 130]).unwrap();
    assert_eq!((whole[0], &whole[1..27], &whole[27..]), (4, &bytes[1..27], &*rest.concat().repeat(130)));
}

#[test]
fn the_longest_sheet_fills_the_room() {
    let cone = laws()[2];
    let mut room = vec![0x55; SHEET_BYTES];
    assert_eq!(write_sheet_with_determinants_into(cone, &particles(SHEET_MOST), &mut room).unwrap(), SHEET_BYTES);
    assert_eq!(write_sheet_into(cone, &particles(SHEET_MOST), &mut room).unwrap(), SHEET_BYTES - 8 * SHEET_MOST);
}

#[test]
fn a_room_one_byte_short_is_refused_and_kept() {
    for law in laws() {
        let given = particles(3);
        let length = write_sheet(law, &given).unwrap().len();
        let mut room = vec![0x55; length + 7];
        let refusal = write_sheet_into(law, &given, &mut room[..length - 1]).unwrap_err();
        assert_eq!(refusal.number, Refusal::NO_ROOM);
        assert_eq!(
            refusal.to_string(),
            "write_sheet_into refused by 9: the lent room is shorter than the sheet; lend 59267 bytes, which hold every sheet"
        );
        assert!(room.iter().all(|b| *b == 0x55));
        assert_eq!(write_sheet_into(law, &given, &mut room).unwrap(), length);
        assert!(room[length..].iter().all(|b| *b == 0x55));
        let refusal = write_sheet_with_determinants_into(law, &given, &mut room).unwrap_err();
        assert_eq!((refusal.number, refusal.call), (Refusal::NO_ROOM, "write_sheet_with_determinants_into"));
    }
}

#[test]
fn over_200_particles_are_refused() {
    let refusal = write_sheet(SnowPlasticity::new(), &[Particle::REST; SHEET_MOST + 1]).unwrap_err();
    assert_eq!((refusal.number, refusal.call), (Refusal::TOO_MANY, "write_sheet"));
    // 7 comes before 9.
    let refusal = write_sheet_into(SnowPlasticity::new(), &[Particle::REST; SHEET_MOST + 1], &mut []).unwrap_err();
    assert_eq!(refusal.number, Refusal::TOO_MANY);
    let sheet = pasoletu::Sheet { model: laws()[0], determinants: true, particles: vec![Particle::REST; SHEET_MOST + 1] };
    assert!(sheet.write(&mut Vec::new()).unwrap_err().to_string().starts_with("Sheet::write refused by 7"));
}

#[test]
fn a_run_s_updated_records_are_a_sheet() {
    let mut given = vec![Particle::stretched([0.9, 1.0, 1.0]); 3];
    given[1].phase = f64::NAN;
    let ran = run_sheet(&write_sheet(SnowPlasticity::new(), &given).unwrap()).unwrap();
    let updated = read_sheet(&ran.sheet().bytes().unwrap()).unwrap();
    assert_eq!(bits(&updated.particles), bits(&ran.particles));
    assert_eq!(bits(&updated.particles[1..2]), bits(&given[1..2]));
    assert_eq!(updated.particles[0].singular_values, [0.975, 1.0, 1.0]);
}
